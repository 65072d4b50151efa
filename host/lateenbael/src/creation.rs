//! A disk's new files.
use crate::disk::{failed, sync};
use crate::{Area, Disk, Error};

/// Makes both files of a store and lets them appear, the log first: a main file is a store, and has its log.
pub fn make_files<D: Disk>(disk: &mut D, main: &[u8], log: &[u8]) -> Result<(), Error> {
    make_file(disk, Area::Main, main)?;
    make_file(disk, Area::Log, log)?;
    publish(disk, Area::Log)?;
    publish(disk, Area::Main)
}

/// Makes a file that has still to be published.
pub fn make_file<D: Disk>(disk: &mut D, area: Area, bytes: &[u8]) -> Result<(), Error> {
    let made = disk.create(area).and_then(|()| disk.write_at(area, 0, bytes));
    made.map_err(|source| failed(disk, area, source))?;
    sync(disk, area)
}

pub fn publish<D: Disk>(disk: &mut D, area: Area) -> Result<(), Error> {
    disk.publish(area).map_err(|source| failed(disk, area, source))
}
