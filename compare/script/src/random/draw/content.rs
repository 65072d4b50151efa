//! Page numbers, page contents, headers and batch bodies.

use engine::sql::pager::header::DbHeader;
use lists::batch::at_random;
use lists::batch::body::{Body, Value};
use lists::items::at_random::heavy;

use super::Draw;
use crate::call::Call;
use crate::spec::Spec;

/// Characters of one to four bytes.
const NAMES: [&str; 10] = [
    "Gondel 7 – Süd",
    "Télécabine",
    "Łomnica",
    "кабина",
    "缆车",
    "🚡",
    "e\u{301}",
    "\0",
    "plain letters",
    "\u{feff}",
];

impl Draw {
    /// A page to stage or read, mostly below the count.
    pub(super) fn page(&mut self, count: u32) -> u32 {
        let below = self.random.below(count.max(2) as usize) as u32;
        let behind = count.saturating_add(self.random.below(4) as u32);
        match self.random.below(120) {
            0..70 => below.max(1),
            70..90 => behind,
            90..96 => 0,
            96..102 => 1_023 - self.random.below(3) as u32,
            102..117 => self.random.below(1_024) as u32,
            _ => self.random.pick(&[1_024, 1_025, 65_536, u32::MAX]),
        }
    }

    /// Few contents, so that pages are often staged with the bytes they have.
    pub(super) fn content(&mut self) -> Spec {
        match self.random.below(40) {
            0..20 => Spec::Seed(1 + self.random.below(4) as u64),
            20..26 => Spec::Seed(0),
            26..30 => Spec::Seed(self.random.u64()),
            30..34 => Spec::Fill(self.random.u8()),
            34..37 => Spec::Header(self.header(2)),
            _ => {
                let length = self.random.pick(&[0, 1, 31, 500, 4_096, 4_097]);
                Spec::Inline(self.random.bytes(length))
            }
        }
    }

    /// A header that can be committed.
    pub(super) fn header(&mut self, page_count: u32) -> DbHeader {
        let any = self.random.u32();
        DbHeader {
            page_count,
            schema_root_page: self.random.pick(&[0, 1, 1, 1, 2, any]),
            format_version: self.random.pick(&[4, 4, 4, 5, 6]),
            freelist_head: self.random.pick(&[0, 0, 0, 3, any]),
        }
    }

    /// A header that can't.
    pub(super) fn bad_header(&mut self, page_count: u32) -> DbHeader {
        let mut header = self.header(page_count);
        let kind = self.random.below(3);
        if kind != 1 {
            header.page_count = self.random.pick(&[0, 0, 1_025, 1_026, u32::MAX]);
        }
        if kind != 0 {
            header.format_version = self.random.pick(&[0, 3, 7, 8, 260, u16::MAX]);
        }
        header
    }

    /// A batch's bytes, good in half of the cases.
    pub(super) fn body(&mut self) -> Vec<u8> {
        match self.random.below(24) {
            0 => self.random.bytes(17),
            1 => b"MVCC0001\0\0\0\0\0\0\0\0\0\0".to_vec(),
            2 => b"MVCC0002\0\0\0\0\0\0\0\0\0\0".to_vec(),
            3 => vec![0; self.random.pick(&[0, 18, 4_096])],
            4 => self.random.bytes(4_097),
            5 => tombstones(self.random.pick(&[369, 370, 371])),
            6 | 7 => self.named_row(),
            8 | 9 => heavy(&mut self.random),
            way => at_random::bytes(&mut self.random, way % 6),
        }
    }

    /// A row whose names and text have characters of every length.
    fn named_row(&mut self) -> Vec<u8> {
        let [table, column, text] = [(); 3].map(|()| self.name());
        let row = Body::new(self.random.u64(), 1).present(table, 7, 1);
        let row = row.column(column, Value::Text(text.as_bytes()));
        row.as_ref().to_vec()
    }

    /// Names in a row, some for a long text; three of these fit a body.
    fn name(&mut self) -> String {
        let count = self.random.pick(&[0, 1, 1, 2, 5, 60]);
        (0..count).map(|_| self.random.pick(&NAMES)).collect()
    }

    /// A commit time: near the clock, small, of any size, or at a border.
    pub(super) fn time(&mut self, clock: u64) -> u64 {
        let near = clock.wrapping_add(self.random.below(3) as u64);
        let near = near.wrapping_sub(1);
        let any = self.random.u64() >> self.random.below(64);
        match self.random.below(12) {
            0..6 => near,
            6..8 => self.random.below(12) as u64,
            8..11 => any,
            _ => self
                .random
                .pick(&[0, (1 << 63) - 1, 1 << 63, u64::MAX - 1, u64::MAX]),
        }
    }

    /// A good batch whose time is drawn by the clock.
    pub(super) fn timed_batch(&mut self, clock: u64) -> Call {
        let mut body = at_random::bytes(&mut self.random, 3);
        let time = self.time(clock);
        body[8..16].copy_from_slice(&time.to_le_bytes());
        Call::Batch(Spec::Inline(body))
    }

    pub(super) fn batch(&mut self) -> Call {
        let body = Spec::Inline(self.body());
        match self.random.below(3) {
            0 => Call::BatchRaw(body),
            1 if self.random.one_in(8) => Call::Batch(self.content()),
            _ => Call::Batch(body),
        }
    }
}

/// So many tombstones with empty table names, as far as they fit.
fn tombstones(count: u16) -> Vec<u8> {
    let heading = [&b"MVCC0001\x09\0\0\0\0\0\0\0"[..], &count.to_le_bytes()];
    let mut body = heading.concat();
    body.resize(18 + 11 * usize::from(count), 0);
    body.truncate(4_096);
    body
}

#[cfg(test)]
mod tests {
    use super::*;
    use std::collections::BTreeSet;

    use engine::mvcc::{MvccCommitBatch, VersionPayload};
    use engine::sql::db::table;

    /// Where a batch has a text with characters of so many bytes.
    fn widths(batch: &MvccCommitBatch) -> BTreeSet<(&'static str, usize)> {
        let mut texts = Vec::new();
        for record in &batch.records {
            texts.push(("table", &record.row.table));
            let VersionPayload::Present(columns) = &record.payload else {
                continue;
            };
            for (name, value) in columns {
                texts.push(("column", name));
                if let table::Value::Text(text) = value {
                    texts.push(("text", text));
                }
            }
        }
        let width = |(place, text): (_, &String)| {
            let widths: Vec<_> = text.chars().map(|c| (place, c.len_utf8())).collect();
            widths
        };
        texts.into_iter().flat_map(width).collect()
    }

    /// Refused by each of the numbers that come behind a heading, with items
    /// read before.
    #[test]
    fn bodies_are_refused_behind_items() {
        let mut draw = Draw::new(1);
        let mut found = BTreeSet::new();
        for _ in 0..500 {
            let reading = items::read(&draw.body());
            if reading.items > 0 {
                found.extend(reading.outcome.err());
            }
        }
        assert_eq!(found, BTreeSet::from([17, 18, 19]));
    }

    /// Each length of a character in each place that a text has.
    #[test]
    fn texts_have_characters_of_every_length() {
        let mut draw = Draw::new(1);
        let mut found = BTreeSet::new();
        for _ in 0..500 {
            if let Ok(batch) = MvccCommitBatch::decode(&draw.body()) {
                found.extend(widths(&batch));
            }
        }
        assert_eq!(found.len(), 3 * 4, "{found:?}");
    }
}
