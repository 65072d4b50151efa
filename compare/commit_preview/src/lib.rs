//! What a commit would answer and leave, from what is known before it, by the
//! sentences of documents 01 and 02 alone: what the port's preview is compared
//! with. It judges nothing: the commit is one that isn't refused.

const LOG_HEADER: u64 = 32;
const FRAME: u64 = 4_112;
const PAGE: u64 = 4_096;

/// What is known before the commit.
#[derive(Clone, Copy, Debug, PartialEq, Eq)]
pub struct Before {
    /// "The frame count includes an unsealed good frame and a final undecodable
    /// batch frame."
    pub frames: u64,
    /// The files' lengths.
    pub log: u64,
    pub main: u64,
    /// "staged pages whose bytes differ from the log's, else the main file's
    /// (where page 0 never is), even at or above the page count, or that are in
    /// neither": how many.
    pub differing: u64,
    /// The page count of the header that is given.
    pub page_count: u32,
}

/// Document 02, P5: "the answer the call would give, the frame count, the log
/// and main lengths afterwards and whether it would fold".
#[derive(Clone, Copy, Debug, PartialEq, Eq)]
pub struct Preview {
    pub answer: u64,
    pub frames: u64,
    pub log: u64,
    pub main: u64,
    pub folds: bool,
}

impl Before {
    /// "The preview must equal committing on a copy of all areas": it is of the
    /// store after the whole call, the fold included.
    pub fn preview(&self) -> Preview {
        match self.folds() {
            true => self.folded(),
            false => self.kept(),
        }
    }

    /// "Commit: [the differing pages], ascending, then page 0 as seal"
    fn added(&self) -> u64 {
        self.differing + 1
    }

    /// A made-up store may count up to 2^64 - 1 frames; no number is above.
    fn frames_added(&self) -> u64 {
        self.frames.wrapping_add(self.added())
    }

    /// "At 100 frames or more it then folds."
    fn folds(&self) -> bool {
        self.frames_added() >= 100
    }

    /// "An added frame lands at the log's length, even where a torn tail leaves
    /// that off the frame places." The main file isn't written.
    fn kept(&self) -> Preview {
        Preview {
            answer: self.answer(),
            frames: self.frames_added(),
            log: self.log + FRAME * self.added(),
            main: self.main,
            folds: false,
        }
    }

    /// "Fold: .. main length; flush; log length 32; log header": no frame is
    /// left then, and the main file has the pages below the new count.
    fn folded(&self) -> Preview {
        Preview {
            answer: self.answer(),
            frames: 0,
            log: LOG_HEADER,
            main: PAGE * u64::from(self.page_count),
            folds: true,
        }
    }

    /// "answer: number of differing pages"
    fn answer(&self) -> u64 {
        self.differing
    }
}

#[cfg(test)]
mod tests;
