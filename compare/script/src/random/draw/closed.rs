//! Calls while no store is open: openings, and edits of the files.

use super::{Draw, Theme, edits};
use crate::call::{Call, Edit, Opening};
use crate::random::view::View;
use crate::side::Area;
use crate::spec::Spec;

const FRAME: usize = 4_112;
const MARKER: u32 = u32::MAX;

impl Draw {
    pub(super) fn on_no_store(&mut self, view: &View) -> Vec<Call> {
        if self.openings > 2 && self.random.one_in(2) {
            self.openings = 0;
            return vec![Call::Create];
        }
        let roll = self.random.below(100);
        match roll {
            0..69 => {
                self.openings += 1;
                vec![Call::Open(self.opening())]
            }
            69..86 => {
                let most = if self.theme == Theme::Damage { 3 } else { 1 };
                let some = self.random.between(1, most);
                let drawn: Vec<_> = (0..some).map(|_| self.edit(view)).collect();
                edits(drawn).collect()
            }
            86..89 => vec![Call::Edit(Edit::RemoveLog)],
            89 => vec![Call::Edit(Edit::Remove)],
            90 | 91 => vec![Call::Create],
            // The store is closed, for its preview too.
            92 | 93 => vec![self.commit_to(2)],
            94 => vec![Call::Loglist],
            95 => vec![self.salt()],
            _ => {
                let opening = self.random.pick(&[Opening::ReadWrite, Opening::Clean]);
                vec![self.cut(view), Call::Open(opening)]
            }
        }
    }

    pub(super) fn edit(&mut self, view: &View) -> Edit {
        match self.random.below(20) {
            0..4 => self.log_length(view),
            4..8 => self.log_byte(view),
            8 => self.log_field(),
            9 => {
                let length = self.random.between(1, 40);
                Edit::AppendLog(Spec::Inline(self.random.bytes(length)))
            }
            10 => Edit::AppendLog(self.content()),
            11..16 => self.frame(),
            16 => self.main_length(view),
            17 => self.main_field(),
            _ => self.main_byte(view),
        }
    }

    /// Cut anywhere or at a frame's border, or lengthened with zeros.
    fn log_length(&mut self, view: &View) -> Edit {
        let log = view.log.unwrap_or(0);
        let near = 31 + self.random.below(3);
        let border = near + FRAME * self.random.below(log / FRAME + 1);
        let longer = log
            + self
                .random
                .pick(&[1, FRAME - 1, FRAME, 2 * FRAME, 3 * FRAME + 5]);
        let any = self.random.below(log + 1);
        let length = self.random.pick(&[any, border, border, longer]);
        Edit::Truncate(Area::Log, length)
    }

    /// One byte, mostly of a frame's heading.
    fn log_byte(&mut self, view: &View) -> Edit {
        let log = view.log.unwrap_or(0);
        let heading = 32 + FRAME * self.random.below(log / FRAME + 1) + self.random.below(16);
        let any = self.random.below(log + 1);
        let at = self.random.pick(&[heading, heading, any, any % 32]);
        let bit = 1 << self.random.below(8);
        let xor = self.random.u8();
        Edit::Flip(Area::Log, at, self.random.pick(&[bit, bit, xor]))
    }

    /// A field of the log's header.
    fn log_field(&mut self) -> Edit {
        let any = self.random.u32();
        let no_version = self.random.pick(&[0, 4, 256, u32::MAX]);
        let (at, value) = self.random.pick(&[
            (8, 1),
            (8, 2),
            (8, 3),
            (8, no_version),
            (12, 4_096),
            (12, any),
            (16, 0),
            (16, any),
            (20, u32::MAX),
            (24, any),
            (28, 1),
            (0, any),
        ]);
        Edit::Put(Area::Log, at, value.to_le_bytes().to_vec())
    }

    /// A good frame: a page, page 0, a batch; a commit frame or not.
    pub(super) fn frame(&mut self) -> Edit {
        let count = self.random.pick(&[1, 2, 3, 5, 9, 1_024, 1_025]);
        let commit_count = self.random.pick(&[0, 0, 0, count]);
        match self.random.below(16) {
            0..7 => Edit::Frame(
                self.random.between(1, 12) as u32,
                commit_count,
                self.content(),
            ),
            7 => Edit::Frame(
                self.random.pick(&[1_023, 1_024, 70_000]),
                commit_count,
                self.content(),
            ),
            8..11 => {
                let header = self.header(count);
                Edit::Frame(0, commit_count, Spec::Header(header))
            }
            11 => {
                let header = self.bad_header(count);
                Edit::Frame(0, commit_count, Spec::Header(header))
            }
            12 => Edit::Frame(0, commit_count, self.content()),
            _ => Edit::Frame(MARKER, commit_count, Spec::Inline(self.body())),
        }
    }

    fn main_length(&mut self, view: &View) -> Edit {
        let main = view.main.unwrap_or(0);
        let any = self.random.below(main + 1);
        let length = self.random.pick(&[
            0,
            4_095,
            4_096,
            main.saturating_sub(1),
            main.saturating_sub(4_096),
            main + 1,
            main + 3 * 4_096,
            4_194_304,
            4_194_305,
            any,
        ]);
        Edit::Truncate(Area::Main, length)
    }

    /// Page count, root or freelist, and now and then what a header must be.
    fn main_field(&mut self) -> Edit {
        let any = self.random.u32();
        let count = self
            .random
            .pick(&[0, 0, 1, 2, 3, 7, 1_024, 1_025, 70_000, u32::MAX, any]);
        let (at, value) = self
            .random
            .pick(&[(20, count), (20, count), (24, any), (28, any)]);
        if self.random.one_in(4) {
            let (at, value) = self
                .random
                .pick(&[(16, 5u16), (16, 6), (16, 7), (16, 3), (18, 512)]);
            return Edit::Put(Area::Main, at, value.to_le_bytes().to_vec());
        }
        Edit::Put(Area::Main, at, value.to_le_bytes().to_vec())
    }

    fn main_byte(&mut self, view: &View) -> Edit {
        let any = self.random.below(view.main.unwrap_or(0) + 1);
        let at = self.random.pick(&[any, any, any, any % 4_096, any % 32]);
        Edit::Flip(Area::Main, at, 1 << self.random.below(8))
    }
}
