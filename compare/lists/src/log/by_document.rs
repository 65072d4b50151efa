//! Document 01's text about the log, reckoned without the Rust's help.

use crate::{batch, checksum};

/// The lines that `loglist` prints for a log.
pub fn listed(log: &[u8]) -> String {
    let number = |at: usize, width: usize| {
        let bytes = log[at..at + width].iter().rev();
        bytes.fold(0, |number, byte| number * 256 + u64::from(*byte))
    };
    let refused = if log.len() < 32 {
        2
    } else if &log[..8] != b"SQLRWAL\0" {
        3
    } else if !(1..=3).contains(&number(8, 4)) {
        4
    } else if number(12, 4) != 4_096 {
        5
    } else {
        0
    };
    if refused > 0 {
        return format!("refused {refused}");
    }

    let [version, salt, sequence] = [8, 16, 20].map(|at| number(at, 4));
    let clock = number(24, 8);
    let mut lines = vec![format!("log {version} {salt:08x} {sequence} {clock}")];
    let mut frames = 0;
    let mut commit_point = 32;
    let mut last = "-".to_string();
    while log.len() >= 32 + 4_112 * (frames + 1) {
        let at = 32 + 4_112 * frames;
        let body = &log[at + 16..at + 4_112];
        let sum = checksum::by_document(&log[at..at + 12], body);
        if number(at + 8, 4) != salt || number(at + 12, 4) != sum {
            break;
        }
        frames += 1;
        let page = number(at, 4);
        let commit_count = number(at + 4, 4);
        let frame = if page != 4_294_967_295 {
            format!("page {page}")
        } else if let Some(records) = batch::by_document::records(body) {
            format!("batch {records}")
        } else {
            break;
        };
        lines.push(format!("{} {frame} {commit_count}", frames - 1));
        if commit_count != 0 {
            commit_point = at + 4_112;
            last = commit_count.to_string();
        }
    }
    lines.push(format!("end {frames} {commit_point} {last}"));
    lines.join("\n")
}
