//! A copy of the open store, on which a commit is made for its preview. The
//! published pager can't be copied: so what was done since the store was
//! opened or created is kept, and done again in a world of the copy's own, on
//! the files as they lay before.

use engine::sql::pager::header::DbHeader;
use stand_in::world::{self, World};

use super::model::Page;
use super::{PagerCounts, Rust, length_of};
use crate::run::PAGES;
use crate::side::{Act, Answer, Area, Preview, Side};

/// What changes an open store, or the salts that it draws.
#[derive(PartialEq, Eq)]
pub enum Deed {
    Salt(u32),
    /// No creation and no opening.
    Act(Act),
    Stage(u32, Page),
    Clear,
    Clock(u64),
}

/// What was done to the open store.
pub struct Past {
    /// The world before it was opened or created.
    world: World,
    opening: Act,
    deeds: Vec<Deed>,
    /// To be gone on with, if it is one of the store still.
    copy: Option<Copy>,
}

impl Past {
    pub fn new(world: World, opening: Act) -> Self {
        Self {
            world,
            opening,
            deeds: Vec::new(),
            copy: None,
        }
    }

    /// A copy that has made a commit stays one if the store makes it next.
    pub fn add(&mut self, deed: Deed) {
        if let Some(copy) = &mut self.copy
            && let Some(header) = copy.committed.take()
        {
            match deed == Deed::Act(Act::Commit(header)) {
                true => copy.done += 1,
                false => self.copy = None,
            }
        }
        self.deeds.push(deed);
    }

    /// Makes the commit on a copy of the store, whose past this is.
    pub fn preview(&mut self, store: &Rust, header: DbHeader) -> Answer<Preview> {
        let kept = self.copy.take().filter(|copy| copy.committed.is_none());
        let mut copy = kept.unwrap_or_else(|| Copy::new(self.world.clone(), &self.opening));
        copy.follow(&self.deeds);
        copy.assert_like(store);
        let preview = copy.commit(header);
        self.copy = Some(copy);
        preview
    }
}

struct Copy {
    world: World,
    store: Rust,
    /// How many deeds it has done.
    done: usize,
    /// The commit that it has made beyond.
    committed: Option<DbHeader>,
}

impl Copy {
    fn new(mut world: World, opening: &Act) -> Self {
        let mut store = Rust::new();
        let opened = world::within(&mut world, || store.act(opening, None));
        assert!(opened.answer.is_ok(), "it has been opened before");
        Self {
            world,
            store,
            done: 0,
            committed: None,
        }
    }

    fn follow(&mut self, deeds: &[Deed]) {
        let store = &mut self.store;
        world::within(&mut self.world, || {
            for deed in &deeds[self.done..] {
                redo(store, deed).expect("it was not refused before");
            }
        });
        self.done = deeds.len();
    }

    /// Both files byte for byte, the salts to come, and what the store tells.
    fn assert_like(&self, store: &Rust) {
        assert!(world::is_like(&self.world), "the copy has other files");
        let copy = &self.store;
        assert_eq!(copy.header(), store.header(), "the copy's header");
        assert_eq!(copy.state(), store.state(), "the copy's state");
        for page in 0..PAGES {
            let same = copy.read(page) == store.read(page);
            assert!(same, "page {page} of the copy");
        }
    }

    /// Makes the commit, judged as the store's are, and looks at what it has
    /// left.
    fn commit(&mut self, header: DbHeader) -> Answer<Preview> {
        let store = &mut self.store;
        let preview = world::within(&mut self.world, || {
            let performed = store.act(&Act::Commit(header), None);
            Ok(Preview {
                answer: performed.answer?,
                frames: PagerCounts::of(store.open_pager()).frames,
                log: length_of(Area::Log),
                main: length_of(Area::Main),
                checkpointed: performed.has_checkpointed(),
            })
        });
        self.committed = preview.is_ok().then_some(header);
        preview
    }
}

fn redo(store: &mut Rust, deed: &Deed) -> Answer<()> {
    match deed {
        Deed::Salt(salt) => store.queue_salt(*salt),
        Deed::Act(act) => return store.act(act, None).answer.map(|_| ()),
        Deed::Stage(page, bytes) => return store.stage(*page, &bytes[..]),
        Deed::Clear => store.clear(),
        Deed::Clock(value) => {
            store.observe_clock(*value);
        }
    }
    Ok(())
}
