//! The caller's side: the files, the salts, the list of stores, the cuts.

use std::cell::RefCell;
use std::mem;

use crate::disk::Disk;
use crate::path::Path;

pub use crate::salts::Salts;
pub use crate::stores::{Cut, CutStore, Store};
pub use splitmix::mix;

/// A thread's files and salts, or a copy of them.
#[derive(Default)]
pub struct World {
    disk: Disk,
    salts: Salts,
}

/// Files and salts as they are now. In the copy no file is open.
impl Clone for World {
    fn clone(&self) -> Self {
        Self {
            disk: self.disk.copy(),
            salts: self.salts.clone(),
        }
    }
}

thread_local! {
    static WORLD: RefCell<World> = RefCell::default();
}

/// Starts anew: no file, no salt queued, none drawn. Files still open are
/// dead.
pub fn reset() {
    WORLD.with_borrow_mut(|world| {
        world.disk.reset();
        world.salts = Salts::default();
    });
}

/// A copy of the thread's world.
pub fn copy() -> World {
    WORLD.with_borrow(World::clone)
}

/// Whether another world has the same files and salts as the thread's.
pub fn is_like(other: &World) -> bool {
    WORLD.with_borrow(|world| world.disk.is_like(&other.disk) && world.salts == other.salts)
}

/// Runs a call in another world, which stands in the place of the thread's
/// meanwhile. What the call opens is of that world.
pub fn within<T>(other: &mut World, call: impl FnOnce() -> T) -> T {
    let _exchanged = Exchanged::new(other);
    call()
}

/// The thread's world is back in its place in the end, also after a panic.
struct Exchanged<'a>(&'a mut World);

impl<'a> Exchanged<'a> {
    fn new(other: &'a mut World) -> Self {
        WORLD.with_borrow_mut(|world| mem::swap(world, other));
        Self(other)
    }
}

impl Drop for Exchanged<'_> {
    fn drop(&mut self) {
        WORLD.with_borrow_mut(|world| mem::swap(world, self.0));
    }
}

/// A file's bytes, if it is there.
pub fn read_file(path: &Path) -> Option<Vec<u8>> {
    with_disk(|disk| disk.read_file(path).cloned())
}

/// Looks at a file's bytes where they are. Nothing else may be asked of the
/// world meanwhile.
pub fn look_at<T>(path: &Path, look: impl FnOnce(Option<&[u8]>) -> T) -> T {
    with_disk(|disk| look(disk.read_file(path).map(Vec::as_slice)))
}

/// Makes or replaces a file, beside the engine: no store is listed.
pub fn write_file(path: &Path, bytes: &[u8]) {
    with_disk(|disk| disk.write_file(path, bytes));
}

/// Removes a file, beside the engine.
pub fn remove_file(path: &Path) {
    with_disk(|disk| disk.remove_file(path));
}

/// Gives a salt. Salts are drawn in the order given; with none left, the
/// n-th draw of all (n from 1) is the low half of `mix(n)`.
pub fn queue_salt(salt: u32) {
    WORLD.with_borrow_mut(|world| world.salts.queue(salt));
}

/// A call's answer and its stores.
#[derive(Debug)]
pub struct Listed<T> {
    pub answer: T,
    /// The stores in order; of a call that was cut, the whole ones before
    /// the one that the cut fell on.
    pub stores: Vec<Store>,
    /// The store that a cut fell on.
    pub cut: Option<CutStore>,
}

/// Runs a call and lists its stores.
pub fn list<T>(call: impl FnOnce() -> T) -> Listed<T> {
    record(None, call)
}

/// Runs a call with a cut: at its place or, if the call ends before, right
/// behind it. Every file opened so far is dead then: all that is tried with
/// it fails and stores nothing. Files opened later are alive.
pub fn list_cut<T>(cut: Cut, call: impl FnOnce() -> T) -> Listed<T> {
    let listed = record(Some(cut), call);
    if listed.cut.is_none() {
        with_disk(Disk::cut_power);
    }
    listed
}

fn record<T>(cut: Option<Cut>, call: impl FnOnce() -> T) -> Listed<T> {
    with_disk(|disk| disk.start_recording(cut));
    let answer = call();
    let (stores, cut) = with_disk(Disk::stop_recording);
    Listed {
        answer,
        stores,
        cut,
    }
}

pub(crate) fn draw_salt() -> u32 {
    WORLD.with_borrow_mut(|world| world.salts.draw())
}

pub(crate) fn with_disk<T>(act: impl FnOnce(&mut Disk) -> T) -> T {
    WORLD.with_borrow_mut(|world| act(&mut world.disk))
}
