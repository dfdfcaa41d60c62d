//! What stands in `include/sheet.h` too is the same there. (Layouts are asserted in both.)
use sheet::{Cause, State, LARGEST_BYTES, MOST_BINS, MOST_OPTIONS, MOST_VALUES, PAIR_ROWS, ROWS, TEXT_BYTES};

const HEADER: &str = include_str!("../../../include/sheet.h");

#[test]
fn causes_have_the_same_texts() {
    let texts = HEADER.split("return \"").skip(1).map(|rest| rest.split('"').next().unwrap());
    let ours: Vec<String> = Cause::ALL.iter().map(Cause::to_string).collect();
    assert_eq!(texts.skip(1).take(ours.len()).collect::<Vec<_>>(), ours);
}

#[test]
fn causes_have_the_same_numbers() {
    for cause in Cause::ALL {
        let name: String = format!("{cause:?}")
            .chars()
            .map(|c| {
                if c.is_uppercase() {
                    format!("_{c}")
                } else {
                    c.to_uppercase().to_string()
                }
            })
            .collect();
        let line = format!("SHEET_CAUSE{name} = {}", cause.number());
        assert!(HEADER.contains(&line), "no {line}");
        assert_eq!(Cause::of(cause.number()), Some(cause));
    }
    assert_eq!((Cause::of(0), Cause::of(Cause::GREATEST + 1)), (None, None));
}

#[test]
fn constants_are_the_same() {
    for (name, value) in [
        ("VERSION_MAJOR", env!("CARGO_PKG_VERSION_MAJOR").parse().unwrap()),
        ("VERSION_MINOR", env!("CARGO_PKG_VERSION_MINOR").parse().unwrap()),
        ("LARGEST_BYTES", LARGEST_BYTES),
        ("MOST_OPTIONS", MOST_OPTIONS),
        ("MOST_VALUES", MOST_VALUES),
        ("PAIR_ROWS", PAIR_ROWS),
        ("ROWS", ROWS),
        ("MOST_BINS", MOST_BINS),
        ("TEXT_BYTES", TEXT_BYTES),
    ] {
        let words = ["#define".to_string(), format!("SHEET_{name}"), value.to_string()];
        let found = HEADER.lines().any(|line| line.split_whitespace().take(3).eq(&words));
        assert!(found, "no {}", words.join(" "));
    }
}

#[test]
fn the_library_is_of_this_version() {
    let [major, minor] =
        [env!("CARGO_PKG_VERSION_MAJOR"), env!("CARGO_PKG_VERSION_MINOR")].map(|word| word.parse::<u32>().unwrap());
    assert_eq!(sheet::version(), 65536 * major + minor);
}

#[test]
fn a_pair_that_is_not_stated_allows_nothing() {
    let mut state = State::ZERO;
    state.rows[0] = 1;
    assert!(!state.allows(0, 0, 1, 0) && !state.allows(1, 0, 0, 0));
    state.stated[0] = 2;
    assert!(!state.allows(0, 0, 1, 0) && !state.allows(1, 0, 0, 0));
    state.stated[1] = 1;
    assert!(state.allows(0, 0, 1, 0) && state.allows(1, 0, 0, 0) && !state.allows(0, 1, 1, 0));
    assert!(!state.allows(0, 0, 0, 0) && !state.allows(16, 0, 0, 0) && !state.allows(0, 32, 1, 0));
}
