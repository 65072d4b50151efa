//! A medium that fails for a moment, or whose power is cut: whatever the program acknowledges is there after a remount.
//!
//! The medium is a loop device with ext4 whose image lies on a tmpfs. Blocks that were never used are holes of the image; while the tmpfs
//! is full, a write to them fails, and so does the flush that follows. After such a flush the page cache holds bytes that the medium has
//! not, as clean ones: later flushes do not write them, and a remount forgets them. A power cut is the image as it is at a moment, mounted
//! anew. All of this takes root; elsewhere the tests are skipped.
mod support;

use std::fs::{self, File, OpenOptions};
use std::io::Write;
use std::os::unix::fs::FileExt;
use std::path::{Path, PathBuf};
use std::process::Command;
use support::tracer::{Ending, killed_at, killed_where};
use support::{WorkDir, fresh_folder, skipped};

/// Runs a command of the system's: what it printed, or what it said when it failed.
fn system(line: &str) -> Result<String, String> {
    let words: Vec<&str> = line.split(' ').collect();
    let paths = std::env::var("PATH").unwrap_or_default() + ":/usr/sbin:/sbin";
    let ran = Command::new(words[0]).args(&words[1..]).env("PATH", paths).output();
    let output = ran.map_err(|error| format!("{}: {error}", words[0]))?;
    match output.status.success() {
        true => Ok(String::from_utf8_lossy(&output.stdout).trim().to_string()),
        false => Err(format!("{line}: {}", String::from_utf8_lossy(&output.stderr).trim())),
    }
}

/// What has to be undone, the last first.
struct Undo(Vec<String>);

impl Drop for Undo {
    fn drop(&mut self) {
        for line in self.0.iter().rev() {
            if let Err(error) = with_patience(line) {
                eprintln!("{error}");
            }
        }
    }
}

/// Runs a command again while it fails, for a while: the system lets go of a device only when nobody looks at it any more.
fn with_patience(line: &str) -> Result<String, String> {
    let mut result = system(line);
    for _ in 0..60 {
        if result.is_ok() {
            break;
        }
        std::thread::sleep(std::time::Duration::from_millis(50));
        result = system(line);
    }
    result
}

/// The medium, and the folder on it that the program is called in. The fields are dropped in their order: what stands on others first.
struct Medium {
    dir: WorkDir,
    device: String,
    image: PathBuf,
    filler: PathBuf,
    _one_block: OneBlock,
    _undo: Undo,
}

const MIB: usize = 1 << 20;

impl Medium {
    /// A file system with room, or why there can't be one here.
    fn new() -> Result<Medium, String> {
        if system("id -u")? != "0" {
            return Err("only root mounts a file system".to_string());
        }
        let root = fresh_folder();
        let mut undo = Undo(vec![format!("rm -r --one-file-system {}", root.display())]);
        let [holder, mounted] = ["holder", "mounted"].map(|name| root.join(name));
        for folder in [&holder, &mounted] {
            fs::create_dir(folder).map_err(|e| e.to_string())?;
        }
        system(&format!("mount -t tmpfs -o size=24m tmpfs {}", holder.display()))?;
        undo.0.push(format!("umount {}", holder.display()));
        let image = make_image(&holder)?;
        let device = system(&format!("losetup --find --show {}", image.display()))?;
        undo.0.push(format!("losetup --detach {device}"));
        let one_block = OneBlock::of(&device)?;
        system(&format!("mount -t ext4 {device} {}", mounted.display()))?;
        undo.0.push(format!("umount {}", mounted.display()));
        system(&format!("fstrim {}", mounted.display()))?;
        let dir = WorkDir { path: mounted };
        dir.put_pages();
        system(&format!("sync -f {}", dir.path.display()))?;
        Ok(Medium {
            dir,
            device,
            image,
            filler: holder.join("filler"),
            _one_block: one_block,
            _undo: undo,
        })
    }

    /// Fills the tmpfs, so that no block which the image lacks can be written.
    fn starve(&self) {
        let mut filler = File::create(&self.filler).unwrap();
        let mut filled = 0;
        while filled < 64 * MIB && filler.write_all(&[1; 4096]).is_ok() {
            filled += 4096;
        }
        assert!(filled < 64 * MIB, "the tmpfs has no end");
    }

    /// Gives the room back. A program that another test has begun holds every file of this process until its exec, the filler too, and a
    /// file that is removed keeps its blocks as long as anybody holds it: so it is emptied first.
    fn relieve(&self) {
        let filler = OpenOptions::new().write(true).open(&self.filler).unwrap();
        filler.set_len(0).unwrap();
        fs::remove_file(&self.filler).unwrap();
    }

    /// Forgets the cache: only what the medium has is left.
    fn remount(&self) {
        let mounted = self.dir.path.display();
        with_patience(&format!("umount {mounted}")).unwrap();
        system(&format!("mount -t ext4 {} {mounted}", self.device)).unwrap();
    }

    /// What the medium has at this moment: what a power cut would leave.
    fn bytes(&self) -> Vec<u8> {
        fs::read(&self.image).unwrap()
    }

    /// The same once everything is on it.
    fn flushed(&self) -> Vec<u8> {
        system(&format!("sync -f {}", self.dir.path.display())).unwrap();
        self.bytes()
    }

    /// Makes the medium what it was, by the blocks that are others now, and mounts it anew.
    fn return_to(&self, bytes: &[u8]) {
        let mounted = self.dir.path.display();
        with_patience(&format!("umount {mounted}")).unwrap();
        let device = OpenOptions::new().write(true).open(&self.device).unwrap();
        let now = self.bytes();
        for at in (0..bytes.len())
            .step_by(4096)
            .filter(|at| bytes[*at..][..4096] != now[*at..][..4096])
        {
            device.write_all_at(&bytes[at..][..4096], at as u64).unwrap();
        }
        device.sync_all().unwrap();
        system(&format!("mount -t ext4 {} {mounted}", self.device)).unwrap();
    }

    /// The power is cut now.
    fn cut(&self) {
        self.return_to(&self.bytes());
    }

    /// A call that must fail because the medium does, and afterwards the medium works again.
    fn fails_for_a_moment(&self, line: &str) {
        self.starve();
        let printed = self.dir.fails(line);
        self.relieve();
        assert!(
            printed.contains("No space left") || printed.contains("Input/output error"),
            "{printed}"
        );
    }
}

/// An image with a file system, every block of which is written: mkfs leaves holes where there are zeros, and the file system's own
/// blocks are not to fail.
fn make_image(folder: &Path) -> Result<PathBuf, String> {
    let image = folder.join("image");
    fs::write(&image, vec![0; 16 * MIB]).map_err(|e| e.to_string())?;
    let options = "-q -F -b 4096 -E nodiscard,lazy_itable_init=0,lazy_journal_init=0";
    system(&format!("mkfs.ext4 {options} {}", image.display()))?;
    let bytes = fs::read(&image).map_err(|e| e.to_string())?;
    fs::write(&image, bytes).map_err(|e| e.to_string())?;
    Ok(image)
}

/// One block a request: of a longer one that begins in a block which is there, the loop device reports the part as the whole. The system
/// keeps this for the device's next user, so it is put back.
struct OneBlock {
    setting: String,
    before: String,
}

impl OneBlock {
    fn of(device: &str) -> Result<OneBlock, String> {
        let setting = format!("/sys/block/{}/queue/max_sectors_kb", device.trim_start_matches("/dev/"));
        let wrong = |error| format!("{setting}: {error}");
        let before = fs::read_to_string(&setting).map_err(wrong)?;
        fs::write(&setting, "4").map_err(wrong)?;
        Ok(OneBlock { setting, before })
    }
}

impl Drop for OneBlock {
    fn drop(&mut self) {
        if let Err(error) = fs::write(&self.setting, self.before.trim()) {
            eprintln!("{}: {error}", self.setting);
        }
    }
}

/// Runs a test on a medium, where there can be one.
fn on_a_medium(test: &str, run: impl Fn(&Medium, &WorkDir)) {
    match Medium::new() {
        Ok(medium) => run(&medium, &medium.dir),
        Err(why) => skipped(test, &why),
    }
}

/// That the store is the same after a remount as it is now: the pages found.
fn outlasts_a_remount(medium: &Medium, dir: &WorkDir) -> Vec<Option<u8>> {
    dir.is_whole(7);
    let (pages, batches) = (dir.pages(1..7), dir.done("batches grips"));
    medium.remount();
    dir.is_whole(7);
    assert_eq!(dir.pages(1..7), pages);
    assert_eq!(dir.done("batches grips"), batches);
    pages
}

/// That the store is whole, and pages 4 to 6 are all as they were made or all as a commit has them that fills them with 1.
fn is_old_or_new(dir: &WorkDir) {
    dir.is_whole(7);
    let pages = dir.pages(1..7);
    let old = [1, 2, 3, 8, 5, 6].map(Some);
    let new = [1, 2, 3, 1, 1, 1].map(Some);
    assert!(pages == old || pages == new, "{pages:?}");
}

#[test]
fn a_commit_after_a_failed_flush_is_kept() {
    on_a_medium("a commit after a failed flush", |medium, dir| {
        dir.make_store();
        medium.fails_for_a_moment("commit grips 4=p1 5=p1 6=p1");
        dir.done("commit grips 4=p2");
        let pages = outlasts_a_remount(medium, dir);
        assert_eq!(pages[3], Some(2));
        assert_eq!(pages[4] == Some(1), pages[5] == Some(1), "{pages:?}");
    });
}

#[test]
fn the_same_commit_tried_again_is_kept() {
    on_a_medium("the same commit tried again", |medium, dir| {
        dir.make_store();
        medium.fails_for_a_moment("commit grips 4=p1 5=p1 6=p1");
        dir.done("commit grips 4=p1 5=p1 6=p1");
        assert_eq!(outlasts_a_remount(medium, dir), [1, 2, 3, 1, 1, 1].map(Some));
    });
}

#[test]
fn batches_appended_again_after_a_failed_flush_are_kept() {
    on_a_medium("batches appended again", |medium, dir| {
        dir.make_store();
        fs::write(dir.file("rows"), "batch 1\nbatch 2\n").unwrap();
        medium.fails_for_a_moment("append grips rows");
        dir.done("append grips rows");
        outlasts_a_remount(medium, dir);
        assert!(dir.done("batches grips").ends_with("batch 1\nbatch 2\n"));
    });
}

#[test]
fn a_checkpoint_after_a_failed_flush_is_kept() {
    on_a_medium("a checkpoint after a failed flush", |medium, dir| {
        dir.make_store();
        medium.fails_for_a_moment("commit grips 4=p1 5=p1 6=p1");
        dir.done("checkpoint grips");
        outlasts_a_remount(medium, dir);
        is_old_or_new(dir);
    });
}

/// A checkpoint whose main file grows, by blocks that can't be written; then calls that must work.
fn a_failed_checkpoint(medium: &Medium, dir: &WorkDir, lines: &[&str]) {
    dir.done("create grips");
    dir.done("commit grips 1=p1 2=p2 3=p3 4=p4 5=p5 6=p6");
    medium.fails_for_a_moment("checkpoint grips");
    for line in lines {
        dir.done(line);
    }
    let pages = outlasts_a_remount(medium, dir);
    let last = if lines.contains(&"commit grips 6=p9") { 9 } else { 6 };
    assert_eq!(pages, [1, 2, 3, 4, 5, last].map(Some));
    dir.done("checkpoint grips");
    assert_eq!(outlasts_a_remount(medium, dir), pages);
}

#[test]
fn a_failed_checkpoint_loses_nothing() {
    let later: [&[&str]; 4] = [
        &[],
        &["checkpoint grips"],
        &["commit grips 6=p9"],
        &["checkpoint grips", "commit grips 6=p9"],
    ];
    for lines in later {
        on_a_medium("a failed checkpoint", |medium, dir| a_failed_checkpoint(medium, dir, lines));
    }
}

/// A commit fails to be flushed, a plain opening finds it in the cache, and its checkpoint is cut: pages of a commit that the log on the
/// medium has not must not be in the main file alone.
#[test]
fn a_plain_checkpoint_writes_no_page_of_an_unflushed_log() {
    for bytes in [4096, 8192, 12288, 16384, 16385] {
        on_a_medium("a plain checkpoint", |medium, dir| {
            dir.make_store();
            medium.fails_for_a_moment("commit grips 4=p1 5=p1 6=p1");
            dir.call(&format!("checkpoint grips --plain --cut-after-bytes {bytes}"));
            medium.remount();
            is_old_or_new(dir);
        });
    }
}

/// Kills the line at its first system call that finds the files changed by an earlier one: at which call that was. None where a process
/// can't be traced.
fn first_change(dir: &WorkDir, line: &str) -> Option<usize> {
    let before = dir.snapshot();
    let mut call = 0;
    let changed = |number| {
        call = number;
        dir.snapshot() != before
    };
    let ending = killed_where(dir.command(line), changed).ok()?;
    assert_eq!(ending, Ending::Killed, "{line} changes no file");
    Some(call)
}

/// A commit is written and not flushed, and a plain opening's checkpoint is cut: the log has to be on the medium first.
#[test]
fn a_plain_checkpoint_flushes_the_log_first() {
    on_a_medium("a plain checkpoint of an unflushed log", |medium, dir| {
        dir.make_store();
        let start = medium.flushed();
        for bytes in [4096, 12288, 12289, 16384] {
            medium.return_to(&start);
            if first_change(dir, "commit grips 4=p1 5=p1 6=p1").is_none() {
                return skipped("a plain checkpoint of an unflushed log", "a process can't be traced here");
            }
            dir.call(&format!("checkpoint grips --plain --cut-after-bytes {bytes}"));
            medium.cut();
            is_old_or_new(dir);
        }
    });
}

/// Kills the line at every system call from the first one that changes a file on, with a power cut at the same moment, and judges what
/// the medium has, and whether that may still be the old.
fn cut_at_every_call(medium: &Medium, line: &str, judge: impl Fn(&WorkDir, bool)) {
    let dir = &medium.dir;
    let start = medium.flushed();
    let Some(first) = first_change(dir, line) else {
        return skipped(line, "a process can't be traced here");
    };
    for call in first.saturating_sub(1).. {
        medium.return_to(&start);
        let ending = killed_at(dir.command(line), call).unwrap();
        medium.cut();
        judge(dir, ending == Ending::Killed);
        if let Ending::Exited(status) = ending {
            assert_eq!(status, 0, "{line}");
            return;
        }
    }
}

#[test]
fn a_creation_cut_at_every_call_blocks_nothing() {
    on_a_medium("a creation cut at every call", |medium, _| {
        cut_at_every_call(medium, "create grips", |dir, may_be_old| {
            let again = dir.call("create grips");
            assert!(again.status == 0 && may_be_old || again.err.contains("already"), "{}", again.err);
            dir.done("commit grips 1=p1 2=p2 3=p3 4=p8 5=p5 6=p6");
            is_old_or_new(dir);
        });
    });
}

#[test]
fn a_writing_call_cut_at_every_call_is_whole_or_nothing() {
    for (line, tail) in [
        ("commit grips 4=p1 5=p1 6=p1", false),
        ("commit grips 4=p1 5=p1 6=p1", true),
        ("checkpoint grips", false),
    ] {
        on_a_medium("a writing call cut at every call", |medium, dir| {
            dir.make_store();
            if tail {
                dir.fails("commit grips 3=p9 --cut-after-bytes 4112");
            }
            cut_at_every_call(medium, line, |dir, may_be_old| {
                is_old_or_new(dir);
                assert!(may_be_old || line == "checkpoint grips" || dir.pages([6]) == [Some(1)]);
            });
        });
    }
}

#[test]
fn a_missing_log_made_and_cut_at_every_call_blocks_nothing() {
    on_a_medium("a missing log made and cut", |medium, dir| {
        dir.make_store();
        dir.done("checkpoint grips");
        fs::remove_file(dir.file("grips-wal")).unwrap();
        cut_at_every_call(medium, "commit grips 4=p1 5=p1 6=p1", |dir, may_be_old| {
            is_old_or_new(dir);
            assert!(may_be_old || dir.pages([6]) == [Some(1)]);
            dir.done("commit grips 4=p1 5=p1 6=p1");
        });
    });
}

/// The names of what lies on the medium beside the pages.
fn names(dir: &WorkDir) -> Vec<String> {
    let entries = fs::read_dir(&dir.path).unwrap();
    let names = entries.map(|entry| entry.unwrap().file_name().to_string_lossy().into_owned());
    names.filter(|name| name != "lost+found" && !name.starts_with('p')).collect()
}

#[test]
fn a_creation_that_fails_leaves_no_file() {
    on_a_medium("a creation that fails", |medium, dir| {
        medium.fails_for_a_moment("create grips");
        assert!(names(dir).is_empty(), "{:?}", names(dir));
        dir.done("create grips");
        dir.done("commit grips 1=p1 2=p2 3=p3 4=p4 5=p5 6=p6");
        outlasts_a_remount(medium, dir);
    });
}

#[test]
fn a_log_that_fails_to_be_made_blocks_nothing() {
    on_a_medium("a log that fails to be made", |medium, dir| {
        dir.make_store();
        dir.done("checkpoint grips");
        fs::remove_file(dir.file("grips-wal")).unwrap();
        medium.fails_for_a_moment("commit grips 1=p9");
        medium.remount();
        dir.is_whole(7);
        assert_eq!(dir.pages(1..7), [1, 2, 3, 8, 5, 6].map(Some));
        dir.done("commit grips 1=p7");
        assert_eq!(outlasts_a_remount(medium, dir), [7, 2, 3, 8, 5, 6].map(Some));
    });
}
