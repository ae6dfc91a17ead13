//! The proved library's speed beside plain Rust's, in one run. `plain` is the Rust that an able engineer would write.

pub mod measure;
pub mod plain;
pub mod timing;
