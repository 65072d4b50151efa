//! Small commits whose previews are told by hand.

use super::{Before, Preview};

/// A store as creation leaves it: two pages, no frame.
const CREATED: Before = Before {
    frames: 0,
    log: 32,
    main: 8_192,
    differing: 0,
    page_count: 2,
};

fn kept(answer: u64, frames: u64, log: u64, main: u64) -> Preview {
    Preview {
        answer,
        frames,
        log,
        main,
        folds: false,
    }
}

fn folded(answer: u64, main: u64) -> Preview {
    Preview {
        answer,
        frames: 0,
        log: 32,
        main,
        folds: true,
    }
}

/// So many frames in a row behind the header.
fn of_frames(frames: u64) -> Before {
    Before {
        frames,
        log: 32 + 4_112 * frames,
        ..CREATED
    }
}

#[test]
fn a_commit_of_nothing_is_its_seal() {
    assert_eq!(CREATED.preview(), kept(0, 1, 4_144, 8_192));
}

#[test]
fn a_frame_for_each_differing_page() {
    let two = Before {
        differing: 2,
        page_count: 4,
        ..CREATED
    };
    assert_eq!(two.preview(), kept(2, 3, 12_368, 8_192));
    let most = Before {
        differing: 24,
        page_count: 26,
        ..CREATED
    };
    assert_eq!(most.preview(), kept(24, 25, 102_832, 8_192));
}

/// "A commit bringing frames to 99 doesn't fold; to 100 does."
#[test]
fn a_hundred_frames() {
    assert_eq!(of_frames(98).preview(), kept(0, 99, 407_120, 8_192));
    assert_eq!(of_frames(99).preview(), folded(0, 8_192));
    assert_eq!(of_frames(100).preview(), folded(0, 8_192));
    for (frames, differing, folds) in [
        (74, 24, false),
        (75, 24, true),
        (97, 1, false),
        (97, 2, true),
    ] {
        let preview = Before {
            differing,
            ..of_frames(frames)
        }
        .preview();
        assert_eq!(preview.folds, folds, "{frames} {differing}");
        assert_eq!(preview.answer, differing);
    }
}

/// Without a fold the main file keeps its length, whatever the count.
#[test]
fn the_main_length_is_the_new_counts_with_a_fold_only() {
    for (page_count, main) in [(1, 4_096), (2, 8_192), (5, 20_480), (1_024, 4_194_304)] {
        let before = |frames| Before {
            page_count,
            main: 12_288,
            ..of_frames(frames)
        };
        assert_eq!(before(99).preview(), folded(0, main));
        assert_eq!(before(7).preview(), kept(0, 8, 32_928, 12_288));
    }
}

/// A torn tail is part of the log's length and no frame.
#[test]
fn behind_a_torn_tail() {
    let torn = Before { log: 36, ..CREATED };
    assert_eq!(torn.preview(), kept(0, 1, 4_148, 8_192));
    let torn = Before {
        log: 32 + 4_112 + 100,
        differing: 1,
        ..of_frames(1)
    };
    assert_eq!(torn.preview(), kept(1, 3, 12_468, 8_192));
}

/// The log's last frames.
#[test]
fn a_full_log() {
    let full = Before {
        frames: 5,
        log: 4_206_608,
        ..CREATED
    };
    assert_eq!(full.preview(), kept(0, 6, 4_210_720, 8_192));
    assert_eq!(of_frames(1_023).preview(), folded(0, 8_192));
}

/// In a made-up store: 2^64 - 1 frames and one more are none.
#[test]
fn the_frame_count_wraps() {
    let made_up = |frames, differing| Before {
        frames,
        differing,
        ..CREATED
    };
    assert_eq!(made_up(u64::MAX, 0).preview(), kept(0, 0, 4_144, 8_192));
    assert_eq!(made_up(u64::MAX, 2).preview(), kept(2, 2, 12_368, 8_192));
    assert_eq!(made_up(u64::MAX - 1, 0).preview(), folded(0, 8_192));
    assert_eq!(
        made_up(u64::MAX - 24, 24).preview(),
        kept(24, 0, 102_832, 8_192)
    );
    assert_eq!(made_up(u64::MAX - 25, 24).preview(), folded(24, 8_192));
}
