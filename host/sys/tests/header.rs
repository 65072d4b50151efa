//! The declarations here and in `lateenbael.h` are the same: functions, constants, and the structs' sizes.
use lateenbael_sys as sys;
use std::collections::BTreeSet;
use std::mem::size_of;

const HEADER: &str = include_str!("../../lateenbael.h");
const DECLARATIONS: &str = include_str!("../src/lib.rs");

/// The functions that a text declares: names with a parenthesis right behind, outside of comments. What the header itself defines
/// (`static inline`) is no function of the archive.
fn functions(text: &str) -> BTreeSet<&str> {
    let lines = text
        .lines()
        .filter(|line| !line.trim_start().starts_with(['*', '/']) && !line.starts_with("static inline"));
    let words = lines.flat_map(|line| line.split([' ', '*']));
    words
        .filter_map(|word| word.split_once('(').map(|(name, _)| name))
        .filter(|name| name.starts_with("lateenbael_"))
        .collect()
}

#[test]
fn the_functions_are_the_same() {
    assert_eq!(functions(HEADER), functions(DECLARATIONS));
    assert_eq!(functions(HEADER).len(), 53);
}

#[test]
fn the_constants_are_the_same() {
    let table = [
        ("PAGE_SIZE", sys::PAGE_SIZE),
        ("FRAME_SIZE", sys::FRAME_SIZE),
        ("LOG_AREA", sys::LOG_AREA),
        ("MAIN_AREA", sys::MAIN_AREA),
        ("PAGES", sys::PAGES),
        ("STAGED_PAGES", sys::STAGED_PAGES),
        ("CHECKPOINT_FRAMES", sys::CHECKPOINT_FRAMES),
        ("LISTING_SIZE", sys::LISTING_SIZE),
        ("MVCC_FRAME_MARKER", sys::MVCC_FRAME_MARKER as usize),
        ("MOST_ITEMS", sys::MOST_ITEMS),
    ];
    for (name, value) in table {
        let line = format!("#define LATEENBAEL_{name} {value}");
        assert!(
            HEADER.lines().any(|l| l
                .strip_prefix(&line)
                .is_some_and(|rest| !rest.starts_with(|c: char| c.is_ascii_digit()))),
            "{line}"
        );
    }
    assert!(HEADER.contains("\n#define LATEENBAEL_STAGING_AREA (LATEENBAEL_PAGE_SIZE * LATEENBAEL_STAGED_PAGES)\n"));
    assert_eq!(sys::STAGING_AREA, sys::PAGE_SIZE * sys::STAGED_PAGES);
}

/// The number that a `#define` of the header gives.
fn defined(name: &str) -> u32 {
    let prefix = format!("#define LATEENBAEL_{name} ");
    let mut found = HEADER.lines().filter_map(|line| line.strip_prefix(&prefix));
    found.next().unwrap().parse().unwrap()
}

#[test]
fn header_archive_and_crate_have_one_version() {
    let parts = ["VERSION_MAJOR", "VERSION_MINOR", "VERSION_PATCH"].map(defined);
    assert_eq!(parts.map(|part| part.to_string()).join("."), env!("CARGO_PKG_VERSION"));
    assert_eq!(parts[0] * 1_000_000 + parts[1] * 1_000 + parts[2], sys::VERSION);
    assert_eq!(sys::lateenbael_version(), sys::VERSION);
}

/// The names in the header's table, in order.
fn refusal_names() -> Vec<&'static str> {
    let table = HEADER.split_once("names[] = {").unwrap().1.split_once('}').unwrap().0;
    table.split(',').map(|name| name.trim().trim_matches('"')).collect()
}

#[test]
fn refusals_have_the_names_that_the_crate_gives_them() {
    let crate_names = include_str!("../../lateenbael/src/refusal.rs");
    let names = refusal_names();
    assert_eq!((names.len(), names[0]), (22, "OK"));
    for (number, name) in names.iter().enumerate().skip(1) {
        assert!(crate_names.contains(&format!("    {name} = {number},\n")), "{name} = {number}");
    }
}

/// The sizes that the C test checks of the same structs.
#[test]
fn the_structs_have_the_sizes_that_c_checks() {
    let table = [
        ("db_header", size_of::<sys::DbHeader>()),
        ("wal_header", size_of::<sys::WalHeader>()),
        ("wal", size_of::<sys::Wal>()),
        ("file_storage", size_of::<sys::FileStorage>()),
        ("staged", size_of::<sys::Staged>()),
        ("job", size_of::<sys::Job>()),
        ("store", size_of::<sys::Store>()),
        ("answered", size_of::<sys::Answered>()),
        ("preview_answered", size_of::<sys::PreviewAnswered>()),
        ("header_answer", size_of::<sys::HeaderAnswer>()),
        ("number_answer", size_of::<sys::NumberAnswer>()),
        ("page_answer", size_of::<sys::PageAnswer>()),
        ("batch_place", size_of::<sys::BatchPlace>()),
        ("step_answered", size_of::<sys::StepAnswered>()),
        ("wal_answer", size_of::<sys::WalAnswer>()),
        ("wal_header_answer", size_of::<sys::WalHeaderAnswer>()),
        ("frame_header", size_of::<sys::FrameHeader>()),
        ("frame_answer", size_of::<sys::FrameAnswer>()),
        ("list_answer", size_of::<sys::ListAnswer>()),
        ("text_place", size_of::<sys::TextPlace>()),
        ("text_answer", size_of::<sys::TextAnswer>()),
        ("batch", size_of::<sys::Batch>()),
        ("record", size_of::<sys::Record>()),
        ("value", size_of::<sys::Value>()),
        ("value_answer", size_of::<sys::ValueAnswer>()),
        ("column", size_of::<sys::Column>()),
        ("element", size_of::<sys::Element>()),
        ("building", size_of::<sys::Building>()),
    ];
    let checked = include_str!("../../c_test/layout.c");
    let staged = size_of::<sys::Staged>();
    for (name, size) in table {
        // As a number, or with the staged pages in it.
        let told = match size.checked_sub(staged) {
            Some(0) => "STAGED".to_string(),
            Some(rest) => format!("{rest} + STAGED"),
            None => size.to_string(),
        };
        let told = [told, size.to_string()].map(|size| checked.contains(&format!("\nSIZE({name}, {size});\n")));
        assert!(told.contains(&true), "{name} has {size} bytes");
    }
    assert_eq!(checked.matches("\nSIZE(").count(), table.len());
}
