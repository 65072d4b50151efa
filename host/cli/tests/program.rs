//! The program as it is called: what it prints, its exit status, and which files it leaves alone.
mod common;

use common::{WorkDir, damage, forge_log};
use lateenbael::sys::STAGED_PAGES;
use std::fs;
use std::process::Command;

#[test]
fn fold_is_another_name_of_checkpoint() {
    let dir = WorkDir::with_store();
    assert_eq!(dir.done("help fold"), dir.done("help checkpoint"));
    assert_eq!(dir.done("fold grips"), "folded; pages written: 5; batches gone with it: 0\n");
    assert_eq!(dir.done("checkpoint grips"), "folded; pages written: 0; batches gone with it: 0\n");
}

#[test]
fn refusals_are_status_1_by_number_and_name() {
    let dir = WorkDir::with_store();
    dir.text("short", "not a page");
    fs::write(dir.path("long"), [0; 4097]).unwrap();
    let table = [
        ("create grips", "grips is there already"),
        ("commit grips 2=short", "short: 10 bytes, and a page has 4096"),
        ("commit grips 2=long", "long: 4097 bytes or more, and a page has 4096"),
        ("commit grips 2=/dev/zero", "/dev/zero: 4097 bytes or more"),
        ("commit none 2=long", "long: 4097 bytes or more"),
        ("commit grips 0=p6", "page 0 is the header's"),
        ("commit grips 6=p6 --count 2", "page 6: --count 2 would leave it out"),
        ("commit none 2=none --count 2", "page 2: --count 2 would leave it out"),
        ("commit grips 1024=p1", "page 1024: refused 11 Page: "),
        ("commit grips --count 0", "--count 0: refused 13 NewHeader: "),
        ("commit grips --count 1025", "--count 1025: refused 13 NewHeader: "),
        ("commit grips --version 7", "--version 7: refused 13 NewHeader: "),
        (
            "commit grips 9=p9",
            "refused 14 Joining: a page that the new count brings in isn't staged: page 7",
        ),
        ("commit grips 1=none", "lateenbael: none: there is no such file\n"),
        ("read grips 7 out", "grips: page 7 is nowhere"),
        ("page grips 7", "grips: page 7 is nowhere"),
        ("read grips 1 p1", "lateenbael: p1 is there already\n"),
        ("read none 1 out", "lateenbael: none: there is no such file\n"),
        ("log none", "none-wal: "),
        ("checkpoint none", "lateenbael: none: there is no such file\n"),
        ("create none/none", "lateenbael: none: there is no such file\n"),
    ];
    for (line, message) in table {
        dir.fails(line, 1, message);
    }
}

#[test]
fn a_damaged_store_is_refused_by_every_command() {
    let dir = WorkDir::with_store();
    let main = dir.path("grips");
    damage(&main, 16, 9);
    let commands = [
        "info grips",
        "check grips",
        "batches grips",
        "read grips 1 out",
        "commit grips 1=p1",
        "page grips 1",
        "append grips batch",
        "copy grips other",
        "dump grips",
        "checkpoint grips",
    ];
    dir.text("batch", "batch 1\n");
    for line in commands {
        dir.fails(line, 1, "lateenbael: grips: refused 4 Version: ");
    }
    damage(&main, 16, 4);
    dir.shows("check grips");
    damage(&dir.path("grips-wal"), 0, 0);
    for line in commands.iter().chain(&["log grips"]) {
        dir.fails(line, 1, "grips-wal: refused 3 Magic: ");
    }
}

#[test]
fn a_refused_commit_leaves_even_uncommitted_frames() {
    let dir = WorkDir::with_store();
    assert_eq!(dir.call("commit grips 5=p9 --cut-after-bytes 5000").status, 1);
    dir.fails("commit grips 1=p2 --count 0", 1, "refused 13");
    assert!(dir.shows("check grips").contains("tail: 5000 bytes"));
    fs::remove_file(dir.path("grips-wal")).unwrap();
    dir.fails("commit grips 1=p2 --count 0", 1, "refused 13");
    assert!(dir.shows("info grips").contains("there is no log"));
}

#[test]
fn more_pages_than_can_be_staged_are_refused() {
    let dir = WorkDir::with_store();
    let call = |most: usize| (1..=most).fold("commit grips".to_string(), |call, n| format!("{call} {n}=p{}", 1 + n % 9));
    let files = || ["grips", "grips-wal"].map(|name| fs::read(dir.path(name)).unwrap());
    let before = files();
    dir.fails(
        &call(STAGED_PAGES + 1),
        1,
        &format!("refused 12 Staging: {STAGED_PAGES} other pages are staged"),
    );
    assert!(files() == before);
    assert_eq!(
        dir.done(&call(STAGED_PAGES)),
        format!("committed; pages that differed: {STAGED_PAGES}\n")
    );
    assert_eq!(dir.page(STAGED_PAGES as u32), [1 + (STAGED_PAGES % 9) as u8; 4096]);
}

#[test]
fn commits_and_checkpoints_are_read_back() {
    let dir = WorkDir::with_store();
    assert_eq!(
        dir.done("commit grips 1=p1 2=p2 3=p9 --root 3 --version 5 --freelist 4"),
        "committed; pages that differed: 2\n"
    );
    for (n, byte) in [(1, 1), (2, 2), (3, 9), (6, 6)] {
        assert_eq!(dir.page(n), [byte; 4096]);
    }
    dir.done("checkpoint grips --clock 77");
    assert_eq!(dir.page(3), [9; 4096]);
    assert_eq!(dir.done("commit grips --count 4"), "committed; pages that differed: 0\n");
    dir.fails("read grips 5 out2", 1, "page 5 is nowhere");
    let info = dir.shows("info grips");
    for line in [
        "page count     4",
        "schema root    3",
        "version        5",
        "freelist head  4",
        "clock          77",
        "main length    28672",
    ] {
        assert!(info.contains(&format!("{line}\n")), "{line}: {info}");
    }
    for line in [
        "log length     4144",
        "log version    3",
        "log sequence   1",
        "frames         1",
        "commit point   4144",
        "until a fold   98",
    ] {
        assert!(info.contains(&format!("{line}\n")), "{line}: {info}");
    }
}

#[test]
fn the_log_is_listed_whatever_its_length() {
    let dir = WorkDir::with_store();
    for n in 0..10 {
        dir.done(&format!("commit grips 1=p{}", 1 + n % 2));
    }
    let listing = dir.shows("log grips");
    let lines: Vec<&str> = listing.lines().collect();
    assert_eq!(lines.len(), 28);
    assert!(lines[0].starts_with("log 3 ") && lines[0].ends_with(" 0 0"));
    assert_eq!(lines[1..3], ["0 page 2 0", "1 page 3 0"]);
    assert_eq!(lines[6], "5 page 0 7");
    assert_eq!(lines[27], format!("end 26 {} 7", 32 + 26 * 4112));
}

#[test]
fn a_cut_commit_leaves_no_trace() {
    for (plain, byte) in [("", 5), ("--plain", 9)] {
        let dir = WorkDir::with_store();
        let printed = dir.call("commit grips 5=p9 --cut-after-bytes 4112");
        assert_eq!(
            (printed.status, printed.err.as_str()),
            (1, "lateenbael: grips-wal: the disk failed: the power was cut\n")
        );
        let found = dir.shows("check grips");
        assert!(found.contains("tail: frame 6 is good and unsealed: page 5\n"), "{found}");
        assert_eq!(dir.page(5), [5; 4096]);
        dir.done(&format!("commit grips 3=p1 {plain}"));
        assert_eq!(dir.page(5), [byte; 4096]);
        assert!(dir.shows("check grips").contains("tail: none\n"));
    }
}

#[test]
fn creation_can_write_over() {
    let dir = WorkDir::with_store();
    dir.fails("create grips", 1, "is there already");
    assert_eq!(dir.done("create grips --over"), "created; pages: 2\n");
    assert_eq!(dir.shows("check grips"), "opens; pages: 2; batches recovered: 0\ntail: none\n");
}

#[test]
fn a_full_disk_stops_a_commit_and_loses_nothing() {
    let dir = WorkDir::with_store();
    // Files may have 28 KiB: the log, of 24,704 bytes, has no room for another frame.
    let printed = dir.shell("trap '' XFSZ; ulimit -f 28; exec $P commit grips 5=p9 3=p9");
    assert!(
        printed.status == 1 && printed.err.starts_with("lateenbael: grips-wal: File too large"),
        "{}",
        printed.err
    );
    assert!(dir.shows("check grips").contains("tail: 3968 bytes are no good frame\n"));
    assert_eq!(dir.page(5), [5; 4096]);
    dir.done("commit grips 3=p9");
    assert_eq!((dir.page(3), dir.page(5)), (vec![9; 4096], vec![5; 4096]));
}

#[test]
fn a_page_goes_to_standard_output() {
    let dir = WorkDir::with_store();
    assert_eq!(dir.shows("read grips 5 -").as_bytes(), [5; 4096]);
}

#[test]
fn a_foreign_store_may_lack_pages() {
    let dir = WorkDir::with_store();
    dir.done("checkpoint grips");
    let main = dir.path("grips");
    fs::write(&main, &fs::read(&main).unwrap()[..8192]).unwrap();
    damage(&main, 20, 2);
    forge_log(&dir.path("grips-wal"), &[(6, 7, &[6; 4096])]);
    let printed = dir.call("check grips");
    assert_eq!(
        (printed.status, printed.err.as_str()),
        (1, "lateenbael: grips: pages below the page count that are nowhere: 4\n")
    );
    let nowhere = printed.out.lines().filter(|line| line.ends_with("is nowhere"));
    assert_eq!(nowhere.count(), 4, "{}", printed.out);
    let as_json = dir.call("check grips --json");
    assert!(
        as_json.status == 1 && as_json.out.contains("\"missing_pages\":[2,3,4,5]"),
        "{}",
        as_json.out
    );
}

#[test]
fn a_page_is_shown_as_hexdump_shows_it() {
    let dir = WorkDir::with_store();
    let mut page = [0; 4096];
    page[100..110].copy_from_slice(b"Kabine 7\x7f\xff");
    page[4095] = b'~';
    fs::write(dir.path("odd"), page).unwrap();
    dir.done("commit grips 3=odd");
    let shown = dir.shows("page grips 3");
    let expected = "\
00000000  00 00 00 00 00 00 00 00  00 00 00 00 00 00 00 00  |................|
*
00000060  00 00 00 00 4b 61 62 69  6e 65 20 37 7f ff 00 00  |....Kabine 7....|
00000070  00 00 00 00 00 00 00 00  00 00 00 00 00 00 00 00  |................|
*
00000ff0  00 00 00 00 00 00 00 00  00 00 00 00 00 00 00 7e  |...............~|
00001000
";
    assert_eq!(shown, expected);
    if let Ok(output) = Command::new("hexdump").arg("-C").arg(dir.path("odd")).output() {
        assert_eq!(shown.as_bytes(), output.stdout);
    }
}

#[test]
fn the_greatest_page_number_is_refused_as_others_are() {
    let dir = WorkDir::with_store();
    for page in [1024, u32::MAX - 1, u32::MAX] {
        dir.fails(&format!("commit grips {page}=p1"), 1, &format!("page {page}: refused 11 Page: "));
    }
    let beyond = "commit grips 4294967295=p1 --count 4294967295";
    dir.fails(beyond, 1, "page 4294967295: --count 4294967295 would leave it out");
}

#[test]
fn page_0_reads_only_from_the_log() {
    let dir = WorkDir::with_store();
    assert_eq!(dir.page(0)[..16], *b"SQLRiteFormat\0\0\0");
    dir.done("fold grips");
    for line in ["read grips 0 out2", "read grips 0 -", "page grips 0"] {
        dir.fails(line, 1, "grips: page 0 is the header's, and reads only while the log has it");
    }
}
