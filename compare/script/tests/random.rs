//! A short run of random lists, and that it reaches what it is to reach.

use script::random;

const REACHED: [&str; 69] = [
    "call: batch, refused 15",
    "call: batch, refused 17",
    "call: batch, refused 18",
    "call: batch, refused 19",
    "call: batch-raw, refused 1",
    "call: batch-raw, refused 2",
    "call: commit, folded",
    "call: commit, refused 10",
    "call: commit, refused 13",
    "call: commit, refused 14",
    "call: commit, refused 15",
    "call: open rw, refused 1",
    "call: open clean, refused 2",
    "call: open rw, refused 6",
    "call: open rw, refused 7",
    "call: open rw, refused 8",
    "call: preview, closed",
    "call: preview, folded",
    "call: preview, kept",
    "call: preview, refused 10",
    "call: preview, refused 13",
    "call: preview, refused 14",
    "call: preview, refused 15",
    "call: stage, refused 11",
    "call: stage, refused 12",
    "case: as many pages staged as can be",
    "case: batch of as many items as can be",
    "case: batch refused, as many items read before as can be",
    "case: batch refused, items read before",
    "case: busy store asked",
    "case: commit as its preview showed",
    "case: commit behind a torn or bad tail",
    "case: commit or fold in one call, too",
    "case: commit seals an old tail",
    "case: commit to 1,024 pages",
    "case: commit to 100 frames, folded",
    "case: commit to 99 frames, kept",
    "case: commit, pages at or above the count in the log",
    "case: commit of as many differing pages as can be",
    "case: commit, growing",
    "case: commit, growing by as many pages as can be",
    "case: commit, growing from no page",
    "case: commit, shrinking",
    "case: commit, the log's area full",
    "case: cut in commit, frame, part",
    "case: cut in fold, log length, whole",
    "case: fold of no page, main length 0",
    "case: fold stores a raised clock",
    "case: open clean, a time above the clock cut off",
    "case: open clean, clock above every time",
    "case: open clean, clock as the greatest time",
    "case: open clean, clock raised",
    "case: open clean, clock raised from above 0",
    "case: open clean, clock raised to 2^63 or more",
    "case: open clean, clock raised to 2^64 - 1",
    "case: open clean, clock raised, not by the last batch",
    "case: open clean, tail cut off",
    "case: open ro, a time above the clock",
    "case: open rw, a time above the clock",
    "case: open, after a commit sealed an old tail",
    "case: preview behind a torn tail, off the frames",
    "case: preview counts a batch that doesn't decode",
    "case: preview to 100 frames, folded",
    "case: preview to 99 frames, kept",
    "case: preview, a staged page not differing",
    "case: preview, areas compared whole",
    "case: preview, folded, growing",
    "case: preview, folded, shrinking",
    "case: preview, kept, main length unlike the count",
];

#[test]
fn no_difference() {
    match random::run(22, 30_000) {
        Ok(tally) => {
            assert_eq!(tally.calls, 30_000);
            for name in REACHED {
                assert!(tally.of(name) > 0, "not reached: {name}\n{tally}");
            }
        }
        Err(difference) => panic!("{}", difference.report()),
    }
}
