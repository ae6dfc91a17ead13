//! Links the archive, and says which calls it exports: those of hosts/calls.txt.
//! UPPINALO_ARCHIVE names another folder than target/staticlib to find libuppinalo.a in.

use std::path::Path;
use std::{env, fs};

/// `listing` is the program target/bin/listing.
const CALLS: [&str; 20] = [
    "read_units",
    "start_units",
    "add_units",
    "end_units",
    "read_iso",
    "write_iso",
    "fields_of",
    "date_of_day",
    "day_of_date",
    "read_whole",
    "read_double",
    "write_instant",
    "write_fields",
    "read_wholes",
    "read_doubles",
    "read_datetime64",
    "write_datetime64",
    "read_tt2000",
    "write_tt2000",
    "listing",
];

fn listed() -> Vec<String> {
    println!("cargo:rerun-if-changed=../calls.txt");
    let text = fs::read_to_string("../calls.txt").expect("hosts/calls.txt");
    let lines = text.lines().map(str::trim).filter(|line| !line.is_empty() && !line.starts_with('#'));
    lines.map(String::from).collect()
}

fn link(root: &Path) {
    let folder = env::var("UPPINALO_ARCHIVE").map_or_else(|_| root.join("target/staticlib"), |folder| folder.into());
    println!("cargo:rerun-if-env-changed=UPPINALO_ARCHIVE");
    println!("cargo:rerun-if-changed={}", folder.join("libuppinalo.a").display());
    println!("cargo:rustc-link-search=native={}", folder.display());
    println!("cargo:rustc-link-lib=static=uppinalo");
}

fn main() {
    let is_stub = env::var_os("CARGO_FEATURE_STUB").is_some();
    let calls = if is_stub { CALLS.map(String::from).to_vec() } else { listed() };
    println!("cargo:rustc-check-cfg=cfg(exported, values({}))", CALLS.map(|call| format!("{call:?}")).join(", "));
    for call in &calls {
        assert!(CALLS.contains(&call.as_str()), "hosts/calls.txt: no such call: {call}");
        println!("cargo:rustc-cfg=exported={call:?}");
    }
    println!("cargo:rustc-env=UPPINALO_CALLS={}", calls.join(" "));
    if !is_stub && calls.iter().any(|call| call != "listing") {
        let here = env::var("CARGO_MANIFEST_DIR").unwrap();
        link(&Path::new(&here).join("../..").canonicalize().unwrap());
    }
}
