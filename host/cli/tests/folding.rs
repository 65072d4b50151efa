//! Batches end with a fold, and a commit may bring one on: never by surprise.
mod common;

use common::WorkDir;
use std::fs;

/// A store whose log has that many frames and one batch among them, sealed.
fn with_frames(frames: usize) -> WorkDir {
    let dir = WorkDir::with_store();
    dir.text("batch", "batch 1\n");
    dir.done("append grips batch");
    for n in 0..(frames - 8) / 2 {
        dir.done(&format!("commit grips 1=p{}", 1 + n % 2));
    }
    if frames % 2 == 1 {
        dir.done("commit grips");
    }
    assert!(dir.shows("info grips").contains(&format!("\nframes         {frames}\n")));
    dir
}

fn left(dir: &WorkDir) -> String {
    let info = dir.shows("info grips");
    info.lines().last().unwrap().replace("until a fold", "").trim().to_string()
}

#[test]
fn a_commit_that_would_fold_batches_away_is_refused() {
    let dir = with_frames(97);
    assert_eq!(left(&dir), "2");
    dir.done("commit grips 1=p7");
    assert_eq!(left(&dir), "0");
    let message = "grips: this commit brings the log to 100 frames, so a fold follows, and batches end with a fold: 1 would be gone.";
    for line in [
        "commit grips",
        "commit grips 1=p8",
        "commit grips --clock 9",
        "commit grips 1=p8 --plain",
    ] {
        dir.fails(line, 1, message);
    }
    for line in ["append grips batch", "append grips batch --plain", "commit grips --batch batch"] {
        dir.fails(line, 1, "batches end with a fold: 2 would be gone.");
    }
    assert_eq!(dir.shows("batches grips"), "batch 1\n");
    assert_eq!(
        dir.done("commit grips 1=p8 --fold"),
        "committed; pages that differed: 1; the log was folded; batches gone with it: 1\n"
    );
    assert_eq!((dir.shows("batches grips"), left(&dir)), (String::new(), "99".to_string()));
    assert_eq!(dir.page(1), [8; 4096]);
}

#[test]
fn a_call_that_folds_its_own_batches_away_is_refused() {
    let dir = WorkDir::with_store();
    dir.done("fold grips");
    dir.text("99", &"batch 1\n".repeat(99));
    dir.text("98", &"batch 1\n".repeat(98));
    dir.fails("append grips 99", 1, "99 would be gone");
    assert_eq!(
        dir.done("append grips 98"),
        "committed; pages that differed: 0; batches sealed: 98\n"
    );
    assert_eq!(dir.shows("batches grips").lines().count(), 98);
    dir.done("fold grips");
    assert_eq!(
        dir.done("append grips 99 --fold"),
        "committed; pages that differed: 0; batches sealed: 99; the log was folded; batches gone with it: 99\n"
    );
    assert_eq!(
        dir.done("append grips 99 --fold --json"),
        "{\"command\":\"append\",\"pages_that_differed\":0,\"batches_committed\":99,\"checkpointed\":true,\"batches_dropped\":99}\n"
    );
}

#[test]
fn a_waiting_batch_counts_where_it_stays() {
    let dir = WorkDir::with_store();
    dir.text("batch", "batch 1\n");
    for n in 0..46 {
        dir.done(&format!("commit grips 1=p{}", 1 + n % 2));
    }
    // The batch's frame is whole, and no seal follows.
    assert_eq!(dir.call("append grips batch --fold --cut-after-bytes 4112").status, 1);
    assert!(dir.shows("check grips").contains("is good and unsealed: a batch of 0 records"));
    dir.fails("commit grips --plain", 1, "1 would be gone");
    // A clean opening drops it, so that no fold has anything to take.
    assert_eq!(dir.done("commit grips"), "committed; pages that differed: 0\n");
    assert_eq!(dir.shows("batches grips"), "");
}

#[test]
fn a_fold_that_takes_no_batch_needs_no_leave() {
    let dir = WorkDir::with_store();
    for n in 0..46 {
        let page = 1 + n % 2;
        assert_eq!(dir.done(&format!("commit grips 1=p{page}")), "committed; pages that differed: 1\n");
    }
    assert_eq!(
        dir.done("commit grips 1=p1"),
        "committed; pages that differed: 1; the log was folded; batches gone with it: 0\n"
    );
    assert_eq!(fs::metadata(dir.path("grips-wal")).unwrap().len(), 32);
}

#[test]
fn a_checkpoint_tells_how_many_batches_went() {
    let dir = WorkDir::with_store();
    dir.text("two", "batch 1\nbatch 2\n");
    dir.done("append grips two");
    assert_eq!(dir.done("fold grips"), "folded; pages written: 5; batches gone with it: 2\n");
    assert_eq!(
        dir.done("checkpoint grips --json"),
        "{\"command\":\"checkpoint\",\"pages_written\":0,\"batches_dropped\":0}\n"
    );
    // Where the unsealed tail stays, its batch goes too; a clean opening has dropped it before.
    for (plain, gone) in [(" --plain", 3), ("", 2)] {
        dir.done("append grips two");
        assert_eq!(dir.call("append grips two --cut-after-bytes 4112").status, 1);
        let folded = dir.done(&format!("checkpoint grips{plain}"));
        assert!(folded.ends_with(&format!("; batches gone with it: {gone}\n")), "{folded}");
    }
}
