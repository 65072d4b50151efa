//! What `--json` prints: one strict JSON object on one line.
mod common;

use common::WorkDir;
use std::fs;

/// Passes over a JSON value: what stands behind it, or none if it isn't one.
fn value(text: &str) -> Option<&str> {
    match text.chars().next()? {
        '{' => members(&text[1..], '}', |text| value(string(text)?.strip_prefix(':')?)),
        '[' => members(&text[1..], ']', value),
        '"' => string(text),
        't' => text.strip_prefix("true"),
        'f' => text.strip_prefix("false"),
        'n' => text.strip_prefix("null"),
        _ => number(text),
    }
}

fn members(text: &str, end: char, member: impl Fn(&str) -> Option<&str>) -> Option<&str> {
    if let Some(behind) = text.strip_prefix(end) {
        return Some(behind);
    }
    let mut text = member(text)?;
    while let Some(behind) = text.strip_prefix(',') {
        text = member(behind)?;
    }
    text.strip_prefix(end)
}

fn string(text: &str) -> Option<&str> {
    let mut chars = text.strip_prefix('"')?.chars();
    loop {
        match chars.next()? {
            '"' => return Some(chars.as_str()),
            '\\' => match chars.next()? {
                'u' => {
                    let hex = chars.by_ref().take(4).filter(char::is_ascii_hexdigit);
                    (hex.count() == 4).then_some(())?;
                }
                c => "\"\\/bfnrt".contains(c).then_some(())?,
            },
            c if u32::from(c) < 0x20 => return None,
            _ => {}
        }
    }
}

fn number(text: &str) -> Option<&str> {
    let text = text.strip_prefix('-').unwrap_or(text);
    let mut text = match text.strip_prefix('0') {
        Some(behind) => behind,
        None => digits(text)?,
    };
    if let Some(behind) = text.strip_prefix('.') {
        text = digits(behind)?;
    }
    match text.strip_prefix(['e', 'E']) {
        Some(behind) => digits(behind.strip_prefix(['+', '-']).unwrap_or(behind)),
        None => Some(text),
    }
}

fn digits(text: &str) -> Option<&str> {
    let behind = text.trim_start_matches(|c: char| c.is_ascii_digit());
    (behind.len() < text.len()).then_some(behind)
}

/// A line that must be one JSON object.
fn object(printed: String) -> String {
    let line = printed.strip_suffix('\n').expect("a line's end");
    assert!(line.starts_with('{') && value(line) == Some(""), "no JSON: {line}");
    line.to_string()
}

#[test]
fn the_checker_tells_json_from_others() {
    for good in ["{}", "[1,-0.5e+3,\"\\u00ff\"]", "{\"a\":null,\"b\":[true,false]}", "0", "1e300"] {
        assert_eq!(value(good), Some(""), "{good}");
    }
    for bad in [
        "{a:1}",
        "[1,]",
        "01",
        "1.",
        "NaN",
        "-inf",
        "\"\\x\"",
        "\"\n\"",
        "{\"a\":1,}",
        "[1 2]",
    ] {
        assert_ne!(value(bad), Some(""), "{bad}");
    }
}

#[test]
fn stores_are_told() {
    let dir = WorkDir::with_store();
    dir.done("commit grips 1=p1 --root 3");
    dir.done("checkpoint grips --clock 18446744073709551615");
    dir.done("commit grips 1=p2");
    let info = object(dir.shows("info grips --json"));
    let salt = u32::from_le_bytes(fs::read(dir.path("grips-wal")).unwrap()[16..20].try_into().unwrap());
    assert_eq!(
        info,
        format!(
            "{{\"page_count\":7,\"schema_root_page\":3,\"format_version\":4,\"freelist_head\":0,\
             \"clock_high_water\":18446744073709551615,\"main_len\":28672,\"log_len\":8256,\"log_version\":3,\
             \"salt\":{salt},\"checkpoint_seq\":1,\"frame_count\":2,\"commit_point\":8256,\"frames_before_checkpoint\":97}}"
        )
    );
    let log = object(dir.shows("log grips --json"));
    assert_eq!(
        log,
        format!(
            "{{\"log_len\":8256,\"log_version\":3,\"salt\":{salt},\"checkpoint_seq\":1,\
             \"clock_high_water\":18446744073709551615,\"frames\":[\
             {{\"index\":0,\"offset\":32,\"page_num\":1,\"record_count\":null,\"commit_page_count\":0}},\
             {{\"index\":1,\"offset\":4144,\"page_num\":0,\"record_count\":null,\"commit_page_count\":7}}],\
             \"frame_count\":2,\"commit_point\":8256,\"last_commit_page_count\":7}}"
        )
    );
    fs::remove_file(dir.path("grips-wal")).unwrap();
    let info = object(dir.shows("info grips --json"));
    assert!(info.ends_with(
        "\"log_len\":null,\"log_version\":null,\"salt\":null,\"checkpoint_seq\":null,\"frame_count\":null,\"commit_point\":null,\"frames_before_checkpoint\":null}"
    ));
    let check = object(dir.shows("check grips --json"));
    assert!(check.contains("\"uncommitted_frames\":null"), "{check}");
}

#[test]
fn uncommitted_frames_are_told() {
    let dir = WorkDir::with_store();
    assert_eq!(dir.call("commit grips 5=p9 --cut-after-bytes 5000").status, 1);
    assert_eq!(
        object(dir.shows("check grips --json")),
        "{\"page_count\":7,\"batches_recovered\":0,\"missing_pages\":[],\"commit_point\":24704,\"uncommitted_len\":5000,\
         \"uncommitted_frames\":[{\"index\":6,\"offset\":24704,\"page_num\":5,\"record_count\":null,\"commit_page_count\":0}],\
         \"torn_len\":888}"
    );
}

#[test]
fn batches_are_told_with_their_bits() {
    let dir = WorkDir::with_store();
    dir.text(
        "text",
        "batch 18446744073709551615\ntombstone \"a\\\"\\\\\\n\\u{1}\\u{7f}ü\" -9223372036854775808\npresent \"t\" 1\n\
         column \"n\" null\ncolumn \"i\" integer 9223372036854775807\ncolumn \"r\" real 0.1\ncolumn \"z\" real -0.0\n\
         column \"h\" real 1e300\ncolumn \"x\" real 0x7ff8000000000001\ncolumn \"f\" real -inf\ncolumn \"t\" text \"\\t\"\n\
         column \"b\" bool true\ncolumn \"v\" vector 1.5 inf 3.4028235e38\ncolumn \"e\" vector\n",
    );
    dir.done("append grips text");
    assert_eq!(
        object(dir.shows("batches grips --json")),
        concat!(
            r#"{"batches":[{"commit_ts":18446744073709551615,"records":["#,
            "{\"op\":\"tombstone\",\"table\":\"a\\\"\\\\\\u000a\\u0001\\u007fü\",\"rowid\":-9223372036854775808,\"columns\":null},",
            r#"{"op":"present","table":"t","rowid":1,"columns":[{"name":"n","kind":"null","value":null},"#,
            r#"{"name":"i","kind":"integer","value":9223372036854775807},"#,
            r#"{"name":"r","kind":"real","value":0.1,"bits":"3fb999999999999a"},"#,
            r#"{"name":"z","kind":"real","value":-0.0,"bits":"8000000000000000"},"#,
            r#"{"name":"h","kind":"real","value":1e300,"bits":"7e37e43c8800759c"},"#,
            r#"{"name":"x","kind":"real","value":null,"bits":"7ff8000000000001"},"#,
            r#"{"name":"f","kind":"real","value":null,"bits":"fff0000000000000"},"#,
            r#"{"name":"t","kind":"text","value":"\u0009"},"#,
            r#"{"name":"b","kind":"bool","value":true},"#,
            r#"{"name":"v","kind":"vector","value":[1.5,null,3.4028235e38],"bits":["3fc00000","7f800000","7f7fffff"]},"#,
            r#"{"name":"e","kind":"vector","value":[],"bits":[]}]}]}]}"#
        )
    );
}

#[test]
fn reports_are_told() {
    let dir = WorkDir::with_store();
    dir.text("batch", "batch 1\n");
    let table = [
        ("create other --json", r#"{"command":"create","page_count":2}"#),
        (
            "commit grips 1=p1 2=p2 --batch batch --preview --json",
            r#"{"command":"commit","pages_that_differed":1,"batches_committed":1,"checkpointed":false,"batches_dropped":0,"preview":true,"frame_count":9,"log_len":37040,"main_len":8192}"#,
        ),
        (
            "commit grips 1=p1 2=p2 --batch batch --json",
            r#"{"command":"commit","pages_that_differed":1,"batches_committed":1,"checkpointed":false,"batches_dropped":0}"#,
        ),
        (
            "append --json grips batch",
            r#"{"command":"append","pages_that_differed":0,"batches_committed":1,"checkpointed":false,"batches_dropped":0}"#,
        ),
        ("dump grips dumped", ""),
        (
            "checkpoint grips --json",
            r#"{"command":"checkpoint","pages_written":6,"batches_dropped":2}"#,
        ),
        ("copy grips copied --json", r#"{"command":"copy","main_len":28672,"log_len":32}"#),
        (
            "restore --json dumped restored",
            r#"{"command":"restore","page_count":7,"batches_committed":2}"#,
        ),
        (
            "fold grips --json",
            r#"{"command":"checkpoint","pages_written":0,"batches_dropped":0}"#,
        ),
    ];
    for (line, expected) in table {
        let printed = dir.done(line);
        let printed = if printed.is_empty() { printed } else { object(printed) };
        assert_eq!(printed, expected, "{line}");
    }
    dir.fails("info none --json", 1, "none: ");
}
