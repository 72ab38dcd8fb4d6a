//! The stored scenarios, and draws.

use floor::compare::compare;
use floor::draw;
use std::fs;

#[test]
fn stored_scenarios() {
    let crates = concat!(env!("CARGO_MANIFEST_DIR"), "/../../crates/floor/");
    // (pictures as SVG are none of its business)
    let before = |name: &str| {
        let text = fs::read_to_string(format!("{crates}{name}")).unwrap();
        let end = text.find("scenario pictures\n").unwrap_or(text.len());
        text[..end].as_bytes().to_vec()
    };
    let (input, printed) = (before("stdin"), before("stdout"));
    let found = compare(&input, &printed);
    assert_eq!(found.difference, None);
    assert_eq!(found.sums.scenarios, 8);
}

/// A draw gives the same file each time, and no two give the same.
#[test]
fn draws() {
    let one = draw::file(1);
    assert_eq!(one, draw::file(1));
    assert_ne!(one, draw::file(2));
    let scenarios = one.windows(10).filter(|text| text == b"\nscenario ");
    assert!(scenarios.count() >= 3);
}
