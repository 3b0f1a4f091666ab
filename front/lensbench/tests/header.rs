//! The crate against include/lensbench.h: its numbers, and VERSION.
#![allow(clippy::unwrap_used)]
mod common;
use common::top;
use lensbench::{limits, Refusal};
use std::collections::BTreeMap;

fn header() -> String {
    std::fs::read_to_string(top().join("include/lensbench.h")).unwrap()
}

/// `NAME = number` of the header's enums, shifts worked out.
fn numbers() -> BTreeMap<String, u64> {
    let text = header();
    let mut found = BTreeMap::new();
    for (at, _) in text.match_indices(" = ") {
        let name = text[..at].rsplit(|c: char| !c.is_ascii_alphanumeric() && c != '_').next().unwrap();
        let value: String = text[at + 3..].chars().take_while(|c| c.is_ascii_digit() || " <(".contains(*c)).collect();
        let parts: Vec<u64> = value.split("<<").filter_map(|part| part.trim_matches(|c: char| !c.is_ascii_digit()).parse().ok()).collect();
        match parts[..] {
            [number] => found.insert(name.to_string(), number),
            [number, shift] => found.insert(name.to_string(), number << shift),
            _ => None,
        };
    }
    found
}

#[test]
fn limits_and_numbers() {
    let found = numbers();
    let limit = |name: &str| found[name] as usize;
    assert_eq!(limit("LENS_PLACES"), limits::PLACES);
    assert_eq!(limit("LENS_SURFACES"), limits::SURFACES);
    assert_eq!(limit("LENS_SLOTS"), limits::SLOTS);
    assert_eq!(limit("LENS_VARIABLES"), limits::VARIABLES);
    assert_eq!(limit("LENS_OPERANDS"), limits::OPERANDS);
    assert_eq!(limit("LENS_SCRATCH"), limits::SCRATCH);
    let by_name = [
        ("LENS_BAD_COUNT", Refusal::Counts),
        ("LENS_NO_SUCH_PLACE", Refusal::NoSuchPlace),
        ("LENS_BAD_LENS", Refusal::Lens),
        ("LENS_BAD_VARIABLE", Refusal::Variable),
        ("LENS_BAD_OPERAND", Refusal::Operand),
        ("LENS_BAD_SETTING", Refusal::Setting),
        ("LENS_NO_VARIABLE", Refusal::NoVariable),
        ("LENS_NO_OPERAND", Refusal::NoOperand),
        ("LENS_SHORT_SCRATCH", Refusal::ShortScratch),
        ("LENS_TAKEN", Refusal::Taken),
        ("LENS_EMPTY", Refusal::Empty),
        ("LENS_DAMAGED", Refusal::Damaged),
        ("LENS_FINISHED", Refusal::Finished),
        ("LENS_UNFINISHED", Refusal::Unfinished),
        ("LENS_BAD_FOLLOWER", Refusal::Follower),
        ("LENS_BAD_LIMITS", Refusal::ThicknessLimits),
    ];
    for (name, refusal) in by_name {
        assert_eq!(found[name] as u32, refusal.number(), "{name}");
    }
    assert_eq!(by_name.len(), Refusal::listed().len());
}

/// Sizes are asserted in src/ffi.rs; the header must still say the same ones.
#[test]
fn sizes() {
    let text = header();
    for (name, size) in [("Surface", 32), ("Variable", 64), ("Operand", 40), ("Settings", 88), ("Job", 2144), ("Request", 2160), ("Result", 736)] {
        assert!(text.contains(&format!("sizeof(Lens{name}) == {size}")), "{name}");
    }
    for (name, size) in [("Evaluation", 200), ("Ray", 16), ("Finished", 40), ("Dealt", 8), ("Bench", 18824)] {
        assert!(text.contains(&format!("sizeof(Lens{name}) == {size}")), "{name}");
    }
}

/// The first number of VERSION is the layout of the records, and the crate has that version.
#[test]
fn version() {
    let version = std::fs::read_to_string(top().join("VERSION")).unwrap();
    assert_eq!(version.trim_end(), env!("CARGO_PKG_VERSION"));
    assert_eq!(version.split('.').next().unwrap(), lensbench::ABI.to_string());
    assert_eq!(lensbench::linked_abi(), lensbench::ABI);
    assert!(header().contains(&format!("#define LENS_ABI {}\n", lensbench::ABI)));
}
