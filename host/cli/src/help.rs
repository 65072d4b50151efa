//! What `--help` prints.

pub const HELP: &str = "\
lateenbael looks after a store of pages of 4,096 bytes on two files, STORE and STORE-wal.

  lateenbael create STORE [--over]           a new store of 2 pages; --over writes over what is there
  lateenbael info STORE                      header, lengths, clock and frames
  lateenbael check STORE                     whether it opens, and what lies behind the commit point
  lateenbael log STORE                       lists the log, frame by frame
  lateenbael batches STORE                   the recovered batches with their rows, as text
  lateenbael read STORE PAGE OUTFILE         writes a page to a new file, or to standard output (-)
  lateenbael page STORE PAGE                 shows a page: offset, 16 bytes, ASCII
  lateenbael commit STORE [PAGE=FILE]...     stages pages from files and commits them
  lateenbael append STORE FILE...            appends batches from text, and seals them by a commit
  lateenbael checkpoint STORE                writes the log's pages to the main file and empties it; also called fold
  lateenbael copy STORE NEW                  copies both files to a new store, while no one writes
  lateenbael dump STORE [OUTFILE]            the whole store as text, to a new file or to standard output (-)
  lateenbael restore FILE NEW                makes a new store of such a text
  lateenbael help [COMMAND]                  this, or more about a command; so does -h or --help before or behind a command
  lateenbael --version                       the program's version

create, commit, append and checkpoint write to STORE; the others open it read-only and alter nothing in it.
Before anything is written, the calls are tried out in memory: a refused one alters no file. commit and append with --preview end
there, and show what would be done.
Batches end with a fold, and a commit that brings the log to 100 frames brings one on.

  --wait SECONDS
                 how long another program's lock of the store is waited for: 1 if it is not given, 0 not at all. Not for log and restore
  --json         for all but read, page and dump: one JSON object on one line, in place of the text; messages stay as they are
  --             ends the options: what follows is none, also where it begins with a dash. - alone stays standard input or output

Exit status: 0 done; 1 refused, with the refusal's number and name, or the disk failed; 2 not understood. It tells what happened to
the store: a command that has altered it ends with 0 even where its report can't be printed, and one that shows something ends
with 1 where that can't be written. Nobody reading any more (a broken pipe) is no failure. A closed standard output is as /dev/null.
";

pub const CREATE: &str = "\
lateenbael create STORE [--over] [--wait SECONDS] [--json]

Makes STORE, of 2 pages, and STORE-wal, a log without frames. Files that are there already are left alone and the call fails,
unless --over is given: then the store in them is lost. The files are made as STORE-creating and STORE-wal-creating and renamed when
they are whole, so these names are not for other files.
";

pub const INFO: &str = "\
lateenbael info STORE [--wait SECONDS] [--json]

Opens the store read-only and shows the header that counts, both files' lengths, the log header's clock, and the log's header, frames
and commit point; also how many frames can be added until a commit brings on a fold. As JSON, what is told of the log, this number too,
is null where there is none. A sealed batch's time may be above that clock: commit, append and checkpoint then go by the time, unless
--plain is given.
";

pub const CHECK: &str = "\
lateenbael check STORE [--wait SECONDS] [--json]

Opens the store read-only and says whether it opens, which pages below the page count are nowhere, and what lies in the log behind
the commit point: good frames that no seal closes, and other bytes. A clean opening drops all of that. Nothing is altered.
The status is 1 where the store does not open, and where a page below the page count is nowhere.
";

pub const LOG: &str = "\
lateenbael log STORE [--json]

Takes no lock and waits for none: while another program writes, the list may end in a commit that is part done. Lists STORE-wal, of any
length that a store reads:

  log VERSION SALT SEQUENCE CLOCK
  INDEX page NUMBER COMMITCOUNT          a good frame; a commit count above 0 seals
  INDEX batch RECORDS COMMITCOUNT
  end FRAMES COMMITPOINT LASTCOMMITCOUNT
";

pub const READ: &str = "\
lateenbael read STORE PAGE OUTFILE [--wait SECONDS]

Opens the store read-only and writes the page's 4,096 bytes to OUTFILE, which must not be there yet, or to standard output if it
is - . A writing that fails leaves no OUTFILE. Page 0 is the header's, and reads only while the log has it.
";

pub const PAGE: &str = "\
lateenbael page STORE PAGE [--wait SECONDS]

Opens the store read-only and shows the page as hexdump -C does: offset, 16 bytes, ASCII. Lines equal to the one before are one
line * .
";

/// The text form of batches, which `batches` prints and `append` reads.
pub const BATCHES: &str = "\
lateenbael batches STORE [--wait SECONDS] [--json]

Opens the store read-only and prints the batches that the opening recovered, in the form that append reads:

  batch TIME                             begins a batch
  tombstone TABLE ROWID                  a row that is gone
  present TABLE ROWID                    a row that is there; its columns follow
    column NAME null
    column NAME integer NUMBER
    column NAME real NUMBER              or 0x and the 16 hexadecimal digits of its bits; so is a NaN written
    column NAME text TEXT
    column NAME bool true                or false
    column NAME vector NUMBER ...        or 0x and the 8 hexadecimal digits of an element's bits

A NUMBER of a real or a vector may be inf or -inf; one that is too large for its bits is refused, as an integer is.
TABLE, NAME and TEXT stand in double quotes, with \\\" \\\\ \\n \\r \\t and \\u{HEX} inside. Empty lines are passed over, and so is
what follows a # outside of quotes.

As JSON, integers stand whole, also those beyond 2^53. A real has a value, null if it is infinite or a NaN, and beside it bits, the
16 hexadecimal digits of its 64 bits; a vector has the same in two lists, with 8 digits each.
";

pub const COMMIT: &str = "\
lateenbael commit STORE [OPTION]... [PAGE=FILE]...

Stages each FILE, of 4,096 bytes, as that page and commits them: at most 24 pages at once, and each once. FILE - is standard input, once.
Page 0 is the header's and is refused.

  --count N      the new page count; without it the present one, or as many as the pages given need. A page given at or above it
                 is refused, for it would read as nothing
  --root N       the new schema root page; --version N the new format version; --freelist N the new freelist head
  --clock N      raises the clock; a lower one is ignored. A clock is stored with a fold alone: where it would rise and no fold with
                 something to write follows, the call is refused, for the clock would be lost. The clock before is the larger of the
                 log header's and the greatest time among the sealed batches, with --plain the log header's
  --batch FILE   appends a file's batches before the commit, which seals them
  --plain        opens as the Rust does: an unsealed tail of the log stays, and this commit takes it in. Behind a tail that ends in
                 bytes that are no frame a commit is refused, for no later opening would find it
  --fold         commits also where a fold would follow and take batches with it
  --preview      shows what this very call would do without it, and alters nothing: how many pages differ, whether the log would be
                 folded and how many batches would go, the frames and both files' lengths afterwards. What would be refused is, with
                 the same message and status. Not with --cut-after-bytes
  --wait SECONDS how long a lock is waited for; --json reports in JSON
  --cut-after-bytes N
                 for trying out: stops the disk after N bytes of the commit and exits as if the power had gone (a new length counts
                 as 1 byte, and a file's first 32 bytes are stored together or not at all)

Batches end with a fold, and a commit that brings the log to 100 frames brings one on. Where batches would go that way, sealed ones or
the commit's own, it is refused unless --fold is given.
";

pub const APPEND: &str = "\
lateenbael append STORE FILE... [--fold] [--preview] [--plain] [--clock N] [--wait SECONDS] [--json] [--cut-after-bytes N]

Appends the batches of text files, in the form that lateenbael help batches tells, and seals them by a commit without pages.
FILE - is standard input, once. The options are those of commit; --clock N too is refused where the clock would rise and no fold follows.

Batches end with a fold, and a commit that brings the log to 100 frames brings one on. Where batches would go that way, sealed ones or
those being appended, the call is refused unless --fold is given: read out the sealed ones, fold, and append at most 98 at once.

A file has at most 32 MiB: a log has 1,024 frames, and a batch's text is at most 7 times as long as its frame's 4,096 bytes.
";

pub const CHECKPOINT: &str = "\
lateenbael checkpoint STORE [--plain] [--clock N] [--wait SECONDS] [--json] [--cut-after-bytes N]

Writes the log's pages to the main file and empties the log; its batches go with it, and the report tells how many. The options are
those of commit. The clock is stored with the fold: the log header's, --clock N or, without --plain, the greatest time among the sealed
batches, whichever is larger. A log without frames is not folded: nothing is written, and --clock N is refused where the clock would rise.

A page that check tells as nowhere is in the main file after a fold, as zeros or older bytes, and the next opening reads it so: look first.
";

pub const COPY: &str = "\
lateenbael copy STORE NEW [--wait SECONDS] [--json]

Copies both files as they lie, an unsealed tail of the log too, to a new store. STORE is open read-only meanwhile, so that no program
alters it. NEW and NEW-wal must not be there yet. They are made as NEW-creating and NEW-wal-creating and renamed when they are whole, so
these names are not for other files.
";

pub const DUMP: &str = "\
lateenbael dump STORE [OUTFILE] [--wait SECONDS]

Opens the store read-only and prints it as text that restore reads, or writes that to OUTFILE, which must not be there yet:

  lateenbael-dump 1
  header PAGECOUNT ROOT VERSION FREELIST
  clock N                                the log header's, 0 without a log; batches may have greater times
  page N                                 its 4,096 bytes follow, 32 on a line as 64 hexadecimal digits
  zeros LINES                            so many lines of zeros
  page N nowhere                         a page below the page count that is nowhere: restore refuses it
  batch TIME ...                         a batch, in the form that lateenbael help batches tells
  body                                   a batch as its 4,096 bytes, where its rows would not give them back
  end

Pages stand in order. Page 0 is the header's, and is there only if the log has it. Empty lines are passed over, and so are those that
begin with #. What no seal closes is not in it.
";

pub const RESTORE: &str = "\
lateenbael restore FILE NEW [--json]

Makes the new store NEW of a text that dump has printed; FILE - is standard input. Header, the log header's clock, every page and every
batch are then the same, byte for byte. NEW and NEW-wal must not be there yet. They are made as NEW-creating and NEW-wal-creating and
renamed when they are whole, so these names are not for other files. A text that is cut off is refused; it has at most 64 MiB.
";
