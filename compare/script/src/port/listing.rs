//! A log listed by the port. A log that its own listing takes is listed by
//! that; a longer one frame by frame.

use lateenbael::sys;

use super::batch;

/// The longest log that `list_log` takes.
const LONGEST_LOG: usize = 61_712;

pub fn listed(log: &[u8]) -> String {
    if log.len() <= LONGEST_LOG {
        whole(log)
    } else {
        by_frames(log)
    }
}

fn whole(log: &[u8]) -> String {
    let mut out = [0; sys::LISTING_SIZE];
    // Safety: the log is lent whole and only read, the buffer is written.
    let answer =
        unsafe { sys::lateenbael_list_log(log.as_ptr(), log.len(), out.as_mut_ptr(), out.len()) };
    assert_eq!(
        answer.refusal, 0,
        "log and buffer have lengths that it takes"
    );
    String::from_utf8_lossy(&out[..answer.len]).into_owned()
}

fn by_frames(log: &[u8]) -> String {
    // Safety: the log is lent whole, and only read.
    let answer = unsafe { sys::lateenbael_wal_open(log.as_ptr(), log.len()) };
    if answer.refusal != 0 {
        return format!("refused {}\n", answer.refusal);
    }
    let wal = answer.wal;
    let header = wal.header;
    let mut lines = format!(
        "log {} {:08x} {} {}\n",
        header.version, header.salt, header.checkpoint_seq, header.clock_high_water
    );
    for index in 0..wal.frame_count {
        if let Some(frame) = frame(log, index) {
            lines += &format!("{index} {frame}\n");
        }
    }
    let last = match wal.committed {
        0 => "-".to_string(),
        _ => wal.last_commit_page_count.to_string(),
    };
    let (frames, point) = (wal.frame_count, wal.last_commit_offset);
    lines + &format!("end {frames} {point} {last}\n")
}

/// A counted frame, but none if it is a batch that doesn't decode.
fn frame(log: &[u8], index: usize) -> Option<String> {
    // Safety: the log is lent whole, and only read.
    let frame = unsafe { sys::lateenbael_wal_frame_at(log.as_ptr(), log.len(), index) };
    assert_ne!(frame.found, 0, "a counted frame stands in the log");
    let (page, commit) = (frame.header.page_num, frame.header.commit_page_count);
    if page != sys::MVCC_FRAME_MARKER {
        return Some(format!("page {page} {commit}"));
    }
    let body = &log[frame.offset + 16..][..sys::PAGE_SIZE];
    let records = batch::records(body).ok()?;
    Some(format!("batch {records} {commit}"))
}

#[cfg(test)]
mod tests {
    use super::*;
    use crate::call::Edit;
    use crate::spec::Spec;

    #[test]
    fn both_ways_list_alike() {
        let empty = b"MVCC0001".to_vec();
        let mut log = Some([&b"SQLRWAL\0\x03\0\0\0\0\x10\0\0"[..], &[7; 16]].concat());
        for (page, commit, body) in [
            (1, 0, Spec::Seed(1)),
            (u32::MAX, 3, Spec::Inline(empty)),
            (2, 0, Spec::Seed(0)),
            (u32::MAX, 1, Spec::Seed(0)),
        ] {
            Edit::Frame(page, commit, body).apply(&mut log);
        }
        let log = log.unwrap();
        assert_eq!(whole(&log), by_frames(&log));
        assert!(whole(&log).ends_with("end 4 8256 3\n"), "{}", whole(&log));
        for length in [0, 31, 32, 40, 4_144, 9_000] {
            assert_eq!(whole(&log[..length]), by_frames(&log[..length]));
        }
    }
}
