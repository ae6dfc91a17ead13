//! The grammars of the units text and of the identifier give each text one meaning or none: whatever way a reader takes, it reads the
//! same.

use samples::{Random, identifiers, texts};
use second::datetime64_type;
use second::units_text::meanings;

#[test]
fn units() {
    let mut random = Random::seeded(1582);
    for _ in 0..50_000 {
        let (kind, text) = texts::units(&mut random);
        let count = meanings(&text).len();
        assert!(count <= 1, "{}", text.escape_ascii());
        assert!(count == 1 || kind != "derived from the grammar", "{}", text.escape_ascii());
    }
}

#[test]
fn identifiers_of_types() {
    for (identifier, named) in identifiers::types() {
        assert_eq!(datetime64_type::meanings(&identifier), [named]);
        for (_, text) in identifiers::near(&identifier) {
            let found = datetime64_type::meanings(&text);
            let is_identifier = identifiers::types().iter().any(|(identifier, _)| *identifier == text);
            assert_eq!(found.len(), is_identifier as usize, "{}", text.escape_ascii());
        }
    }
}
