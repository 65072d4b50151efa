/* Lateenbael: a store of 4,096-byte pages on two files, a main file and a write-ahead log, whose every function is proved.
 * This is what a host links: libcapi.a, for C or C++ on x86-64. It asks nothing of the host but memcpy and memset.
 *
 * The library opens no file and keeps nothing between calls. An open store is a struct of numbers, lateenbael_store, that every
 * call takes by value and gives back changed; the host keeps it and lends four areas, always the same ones:
 *
 *     table    LATEENBAEL_PAGES numbers        where each page stands; part of the store
 *     log      LATEENBAEL_LOG_AREA bytes       the first store.wal.len bytes are the log file's
 *     main     LATEENBAEL_MAIN_AREA bytes      the first store.storage.len bytes are the main file's
 *     staging  LATEENBAEL_STAGING_AREA bytes   pages staged for the next commit
 *
 * An area goes over as its address and its length (of the table: how many numbers). No address is null, also where the length is 0,
 * and areas that are lent to one call do not overlap. Calls on different stores may run at the same time.
 *
 * Every call is total: any bytes, lengths and numbers, a made-up store too, give the result or one refusal. A refusal changes no
 * area. Beside it stands the store that was given, for creation and openings one that writes nothing. (Of a made-up store a kind of job
 * or opening that there is not comes back as what it was taken for: none, and one that writes nothing.) A place that a call tells has
 * its whole page inside the area, whatever the table holds.
 *
 * A commit adds frames to the log, one for each staged page that differs and a last one, the commit frame (document 01's seal): what no
 * commit frame follows does not count. A checkpoint (document 01's fold) writes the log's pages to the main file and empties the log. A
 * batch is a list of changed rows that goes into the log beside the pages and is committed with them; an opening gives the committed ones
 * back.
 *
 * What the host writes to its files:
 *
 *     creation          the main file's first 8,192 bytes and a flush, then the log's first 32 bytes and a flush
 *     an opening        if there was no log and it isn't read-only: the log's first 32 bytes and a flush;
 *                       a clean one: the log file's length becomes store.wal.len, and a flush
 *     a batch append    LATEENBAEL_FRAME_SIZE bytes of the log, from what store.wal.len was before; no flush
 *     a commit and      the writes (document 01's stores) that lateenbael_next_step names, one by one and in that order:
 *     a checkpoint
 *
 *         lateenbael_answered a = lateenbael_begin_commit(store, .., new_header, salt);
 *         if (a.refusal != LATEENBAEL_OK) return a.refusal;
 *         store = a.store;
 *         do {
 *             step = lateenbael_next_step(store, ..);
 *             store = step.store;
 *             ... do the write that the step names ...
 *         } while (step.kind == LATEENBAEL_STEP_WRITE);
 *
 * If the disk fails on the way, the host stops using the store, and opens the files anew.
 *
 * What a host on files owes, which the crate and the program lateenbael do too; host/examples/c does all of it:
 *
 *     names     STORE is the main file's path with symbolic links followed (realpath), STORE-wal is the log. A main file with more than
 *               one hard link has two names and thus two logs: refuse it, and a log with more than one.
 *     lock      flock on the main file for as long as the store is open: LOCK_EX to write, LOCK_SH to read only. When it is had, see
 *               whether STORE is still that file (device and inode of fstat and stat); if not, open again.
 *     creation  Each file is made under another name, STORE-creating or STORE-wal-creating, and gets its own when it is on the medium.
 *               First see whether STORE-wal is there and STORE-creating is not, then whether STORE is there, in this order: a STORE is left
 *               as it is, and so is a STORE-wal with neither of the two, for a main file was lost. Then open STORE-creating with O_CREAT
 *               and O_EXCL, and without them if that says EEXIST: a STORE-creating that was there tells of a creation that was cut. Lock
 *               it; if the name is not that file any more, begin anew with all of this forgotten. Look for STORE again. If a creation was
 *               cut, remove what it left, STORE-wal and STORE-wal-creating, before anything is made; else look for STORE-wal again. Write
 *               and fsync both files, rename the log, then the main file, and fsync the folder. A creation that fails removes what it made,
 *               STORE-creating last; a main file that has its own name by then is first renamed back.
 *               STORE-creating must be a regular file with one hard link; a STORE-wal-creating is removed, and made with O_EXCL. A missing
 *               log is made in this way too. A new log gets its main file's group, mode and owner, as far as that is allowed. An opening
 *               to write that was not refused removes a STORE-creating and a STORE-wal-creating beside the store: were the main file lost
 *               later, they would tell of a cut creation. Make no store under a name that ends in -wal or -creating.
 *     flush     fsync of every file with writes since its last one, the log first; not only of the step's own file.
 *     opening   To write, go by what is on the medium: fsync both files and the folder, let the cache go of both files
 *               (posix_fadvise, POSIX_FADV_DONTNEED), and compare what is then read with what is read past the cache (O_DIRECT, into
 *               an aligned buffer); where they differ, fail. For after an fsync that failed, in an earlier process too, the cache may
 *               hold bytes that the medium has not; the next fsync succeeds without storing them, and so may one behind a write to the
 *               same page. Where the file system has no O_DIRECT, write again all that was read, and fsync.
 *     failure   After a write or fsync that failed: stop using the store, open anew. The same where the log has no name or another
 *               length before a batch or a commit is written (fstat): it was removed or cut, and what is written would be lost.
 *     batches   A checkpoint ends them, and a commit that brings the log to LATEENBAEL_CHECKPOINT_FRAMES frames brings one on: read
 *               committed batches before. store.wal.frame_count tells how many frames the log has, and lateenbael_preview_commit
 *               beforehand whether a checkpoint follows.
 *     count     A page staged at or above the new page count is committed and then reads as nothing: refuse it before the commit.
 */
#ifndef LATEENBAEL_H
#define LATEENBAEL_H

#include <stddef.h>
#include <stdint.h>

#ifdef __cplusplus
extern "C" {
#endif

/* The version of this header; lateenbael_version() is the archive's. */
#define LATEENBAEL_VERSION_MAJOR 0
#define LATEENBAEL_VERSION_MINOR 4
#define LATEENBAEL_VERSION_PATCH 0
#define LATEENBAEL_VERSION (LATEENBAEL_VERSION_MAJOR * 1000000 + LATEENBAEL_VERSION_MINOR * 1000 + LATEENBAEL_VERSION_PATCH)

/* The archive's version: where it is not LATEENBAEL_VERSION, header and archive do not belong together. */
uint32_t lateenbael_version(void);

#define LATEENBAEL_PAGE_SIZE 4096
#define LATEENBAEL_FRAME_SIZE 4112 /* a page's frame in the log: 16 bytes of heading, and the page */
#define LATEENBAEL_LOG_AREA 4210720
#define LATEENBAEL_MAIN_AREA 4194304
#define LATEENBAEL_PAGES 1024
#define LATEENBAEL_STAGED_PAGES 24 /* so many can be staged at a time */
#define LATEENBAEL_STAGING_AREA (LATEENBAEL_PAGE_SIZE * LATEENBAEL_STAGED_PAGES)
#define LATEENBAEL_CHECKPOINT_FRAMES 100 /* a commit that brings the log to so many frames is followed by a checkpoint */
#define LATEENBAEL_LISTING_SIZE 2048
#define LATEENBAEL_MVCC_FRAME_MARKER 4294967295u /* the page number of a frame that holds a batch */
#define LATEENBAEL_MOST_ITEMS 1356 /* records and columns together that are read in a body of up to 4,096 bytes, refused or not */

/* Why a call was refused. Of several reasons the lowest number is told, except that openings judge the main file (2 to 5, 7), the
 * log (2 to 5), then 8, 6 and 10, and that batches are decoded byte by byte. */
enum lateenbael_refusal {
    LATEENBAEL_OK = 0,                  /* not refused */
    LATEENBAEL_REFUSED_AREA = 1,        /* a wrong area length, or a file length above its area */
    LATEENBAEL_REFUSED_SHORT = 2,       /* main under 4,096 bytes, log under 32, batch body under 18, a header buffer not 4,096 */
    LATEENBAEL_REFUSED_MAGIC = 3,       /* wrong leading bytes */
    LATEENBAEL_REFUSED_VERSION = 4,     /* not 4 to 6 (main) or 1 to 3 (log) */
    LATEENBAEL_REFUSED_PAGE_SIZE = 5,   /* not 4,096 */
    LATEENBAEL_REFUSED_LIMIT = 6,       /* opening: a page count above 1,024 */
    LATEENBAEL_REFUSED_MAIN_SHORT = 7,  /* main shorter than its page count says */
    LATEENBAEL_REFUSED_PAGE_ZERO = 8,   /* the log's page 0 is no header: it has refusal 3, 4 or 5 */
    LATEENBAEL_REFUSED_BUSY = 9,        /* a commit or checkpoint is part done: only its next step, or an opening, may come */
    LATEENBAEL_REFUSED_READ_ONLY = 10,  /* commit, checkpoint, batch append or clean opening, read-only */
    LATEENBAEL_REFUSED_PAGE = 11,       /* staging a page above 1,023 */
    LATEENBAEL_REFUSED_STAGING = 12,    /* LATEENBAEL_STAGED_PAGES other pages are staged */
    LATEENBAEL_REFUSED_NEW_HEADER = 13, /* commit with page count 0 or above 1,024, or a version that isn't 4 to 6 */
    LATEENBAEL_REFUSED_JOINING = 14,    /* a page, 1 or higher, from the old count to below the new one isn't staged */
    LATEENBAEL_REFUSED_LOG_FULL = 15,   /* no room in the log for the frames to add */
    LATEENBAEL_REFUSED_CLOCK = 16,      /* set below the present clock */
    LATEENBAEL_REFUSED_TRUNCATED = 17,  /* a batch field runs past the body */
    LATEENBAEL_REFUSED_TAG = 18,        /* unknown op or value tag */
    LATEENBAEL_REFUSED_TEXT = 19,       /* not UTF-8 */
    LATEENBAEL_REFUSED_FIT = 20,        /* a batch being built would pass 4,096 bytes */
    LATEENBAEL_REFUSED_NO_RECORD = 21   /* a column with no present record last */
};

/* A refusal's name, as the program lateenbael prints it; "OK" for 0, "unknown" for a number that none has. */
static inline const char *lateenbael_refusal_name(uint32_t refusal) {
    static const char *const names[] = {"OK",       "Area",      "Short",    "Magic", "Version", "PageSize",  "Limit",   "MainShort",
                                        "PageZero", "Busy",      "ReadOnly", "Page",  "Staging", "NewHeader", "Joining", "LogFull",
                                        "Clock",    "Truncated", "Tag",      "Text",  "Fit",     "NoRecord"};
    return refusal < sizeof names / sizeof *names ? names[refusal] : "unknown";
}

/* ---- the store */

/* A main header. */
typedef struct {
    uint32_t page_count; /* page 0, which is the header's, included */
    uint32_t schema_root_page;
    uint16_t format_version; /* 4, 5 or 6 */
    uint32_t freelist_head;
} lateenbael_db_header;

/* A log's header. */
typedef struct {
    uint32_t version; /* 1, 2 or 3 */
    uint32_t salt;    /* tells the log's frames from those that lay there before */
    uint32_t checkpoint_seq;
    uint64_t clock_high_water; /* in an open store it may be above the file's, until a checkpoint stores it */
} lateenbael_wal_header;

/* An open log. */
typedef struct {
    lateenbael_wal_header header;
    size_t len;                /* the file's length */
    size_t good_end;           /* where the good frames end */
    size_t last_commit_offset; /* the commit point: the end of the last commit frame, else 32 */
    size_t frame_count;
    uint32_t committed; /* 0: there is no commit frame */
    uint32_t last_commit_page_count;
} lateenbael_wal;

/* The main file. */
typedef struct {
    size_t len;
    lateenbael_db_header header; /* its own, which the log's may replace */
} lateenbael_file_storage;

/* The numbers of the staged pages; the bytes of the first stand in the staging area at 0, of the next at 4,096, .. */
typedef struct {
    size_t count;
    uint16_t pages[LATEENBAEL_STAGED_PAGES];
} lateenbael_staged;

/* What is part done, of which the next step is: 0 nothing, 1 a commit's frame, 2 a checkpoint's page or main header, 3 the main length,
 * 4 the log length, 5 the log header. */
typedef struct {
    uint32_t kind;
    uint32_t salt;
    size_t page;
    size_t answer;
    lateenbael_db_header header;
} lateenbael_job;

enum lateenbael_opening {
    LATEENBAEL_OPENED_CLEAN = 0, /* created, or opened cleanly */
    LATEENBAEL_OPENED_PLAIN = 1,
    LATEENBAEL_OPENED_READ_ONLY = 2,
    LATEENBAEL_OPENED_NO_LOG = 3 /* read-only, and no log was there */
};

/* An open store. */
typedef struct {
    lateenbael_db_header current_header; /* the header that counts */
    lateenbael_wal wal;
    size_t recovered; /* where the recovered batches end */
    lateenbael_file_storage storage;
    lateenbael_staged staged;
    lateenbael_job job;
    uint32_t opening; /* enum lateenbael_opening */
} lateenbael_store;

/* What a call answers that may change the store. */
typedef struct {
    uint32_t refusal;
    uint32_t begun; /* 1: a commit or checkpoint has begun; lateenbael_next_step does its writes */
    size_t answer;  /* pages that a commit or checkpoint wrote; beside refusal 14 the lowest page that is missing */
    lateenbael_store store;
} lateenbael_answered;

/* What a commit would come to. Beside a refusal the other numbers are 0, but for the page beside 14. */
typedef struct {
    uint32_t refusal;      /* the commit's */
    uint32_t checkpointed; /* 1: a checkpoint would follow */
    size_t answer;         /* the commit's: pages that differ; beside refusal 14 the lowest page that is missing */
    size_t frame_count;    /* the log's frames afterwards: with the checkpoint 0 */
    size_t log_len;        /* the log file's length afterwards: with the checkpoint 32 */
    size_t main_len;       /* the main file's length afterwards, which only a checkpoint changes */
} lateenbael_preview_answered;

typedef struct {
    uint32_t refusal;
    lateenbael_db_header header;
} lateenbael_header_answer;

typedef struct {
    uint32_t refusal;
    uint64_t number;
} lateenbael_number_answer;

enum lateenbael_area {
    LATEENBAEL_AREA_NONE = 0, /* the page is nowhere */
    LATEENBAEL_AREA_LOG = 1,
    LATEENBAEL_AREA_MAIN = 2,
    LATEENBAEL_AREA_STAGING = 3
};

/* A page's 4,096 bytes stand in that area from `at` on. */
typedef struct {
    uint32_t refusal;
    uint32_t area; /* enum lateenbael_area */
    size_t at;
} lateenbael_page_answer;

/* A batch in the log. */
typedef struct {
    uint32_t refusal;
    uint32_t found; /* 0: there is none, and index and offset are 0 */
    size_t index;   /* among the log's frames */
    size_t offset;  /* its frame's first byte; the body's 4,096 bytes begin 16 bytes behind */
} lateenbael_batch_place;

enum lateenbael_step_kind {
    LATEENBAEL_STEP_IDLE = 0,  /* nothing was part done, and nothing was done */
    LATEENBAEL_STEP_WRITE = 1, /* a write, and more are to come */
    LATEENBAEL_STEP_LAST = 2   /* the last write; `answer` is the commit's or checkpoint's */
};

/* A next step names the one write that it did in its area, for the host to do on the file: `len` bytes from `at` on, or, with
 * len 0, the file's new length `at`; then, if `flush` is 1, everything written so far goes to the disk (fsync). */
typedef struct {
    uint32_t refusal;
    uint32_t kind; /* enum lateenbael_step_kind */
    uint32_t area; /* LATEENBAEL_AREA_LOG or LATEENBAEL_AREA_MAIN */
    uint32_t flush;
    size_t at;
    size_t len;
    size_t answer;
    lateenbael_store store;
} lateenbael_step_answered;

/* A new store: a main file of 2 pages, and a log of its header alone. Refusal 1. */
lateenbael_answered lateenbael_create(uint32_t *table, size_t table_entries, uint8_t *log, size_t log_size, uint8_t *main, size_t main_size,
                                      const uint8_t *staging, size_t staging_size, uint32_t salt);

/* Plain opening of the files in the first main_len and log_len bytes of their areas. access_mode 0 is read-write, any other
 * read-only. log_exists 0: there is no log file; read-write makes one, with the salt. Frames behind the commit point stay, and a
 * later commit takes them in. But behind a tail that ends in bytes that are no good frame (store.wal.good_end < store.wal.len) a commit
 * is written where no later opening finds it: open cleanly. The clock is the log header's, and 0 without a log. Refusals 1 to 8. */
lateenbael_answered lateenbael_open_with_mode(uint32_t *table, size_t table_entries, uint8_t *log, size_t log_size, const uint8_t *main,
                                              size_t main_size, const uint8_t *staging, size_t staging_size, size_t main_len,
                                              size_t log_len, uint32_t access_mode, uint32_t log_exists, uint32_t salt);

/* Clean opening, read-write only: the log is cut at the commit point, which becomes store.wal.len, so that nothing that no
 * commit frame follows is ever taken in. The clock is the larger of the log header's and the greatest commit_ts among the recovered
 * batches, so that no time among them is issued again; it is in the store alone, until a checkpoint. Refusals 1 to 8 and 10. */
lateenbael_answered lateenbael_open_clean(uint32_t *table, size_t table_entries, uint8_t *log, size_t log_size, const uint8_t *main,
                                          size_t main_size, const uint8_t *staging, size_t staging_size, size_t main_len, size_t log_len,
                                          uint32_t access_mode, uint32_t log_exists, uint32_t salt);

/* The header that counts; whether the store is read-write (0) or read-only (1); its clock. Refusal 9. */
lateenbael_header_answer lateenbael_header(lateenbael_store store);
lateenbael_number_answer lateenbael_access_mode(lateenbael_store store);
lateenbael_number_answer lateenbael_clock_high_water(lateenbael_store store);

/* Raises the clock; a lower value is ignored. It reaches the log's header with the next checkpoint. A batch's time does not raise it:
 * observe every time that is issued, for a checkpoint drops the batches and stores the clock as the store has it. Refusal 9. */
lateenbael_answered lateenbael_observe_clock_high_water(lateenbael_store store, uint64_t value);

/* Where a page stands: staged, in the log, in the main file, or nowhere. Refusals 1 and 9. */
lateenbael_page_answer lateenbael_find_page(lateenbael_store store, const uint32_t *table, size_t table_entries, const uint8_t *log,
                                            size_t log_size, const uint8_t *main, size_t main_size, const uint8_t *staging,
                                            size_t staging_size, uint32_t page_num);

/* The same in parts, for hosts that read often: a whole store is some 200 bytes to hand over, and its refusals stay what they are until the
 * next call that gives a store back. may_read answers the refusal that find_page would, or 0: page_count is current_header.page_count, job
 * is job.kind (any but 0 is refused with 9), log_len is wal.len, main_len is storage.len. */
uint32_t lateenbael_may_read(uint32_t page_count, uint32_t job, size_t log_len, size_t main_len, const uint32_t *table,
                             size_t table_entries, const uint8_t *log, size_t log_size, const uint8_t *main, size_t main_size,
                             const uint8_t *staging, size_t staging_size);

/* No page is found from that number on, so that a host need not look: with nothing staged the page count, else 2^32. */
size_t lateenbael_read_end(uint32_t page_count, size_t staged_count);

/* Where a page stands, of a store that may_read answers 0 for: staged_count is staged.count, and `staged` is staged.pages, with all its
 * numbers. Refusal 1 where a made-up table names a place with no whole page behind it. */
lateenbael_page_answer lateenbael_place_page(uint32_t page_count, uint32_t page_num, size_t staged_count,
                                             const uint16_t staged[LATEENBAEL_STAGED_PAGES], const uint32_t *table, size_t table_entries);

/* The batches that the opening found committed, until a checkpoint drops them: the first whose frame has that index or a higher one. Ask
 * for index 0, then for the index answered plus 1. Refusals 1 and 9. */
lateenbael_batch_place lateenbael_recovered_mvcc_commits(lateenbael_store store, const uint8_t *log, size_t log_size, size_t index);

/* Stages a page of 4,096 bytes for the next commit. Refusals 1, 9, 11, 12. */
lateenbael_answered lateenbael_stage_page(lateenbael_store store, uint8_t *staging, size_t staging_size, uint32_t page_num,
                                          const uint8_t *bytes, size_t bytes_len);

/* What staging in place gives: a refusal or 0, and how many pages are staged. */
typedef struct {
    uint32_t refusal;
    size_t count;
} lateenbael_staged_count;

/* The same for hosts that stage often, with only what staging takes of a store: job is job.kind (any but 0 is refused with 9),
 * staged_count is staged.count, and `staged` is staged.pages, where the page's number is stored. The count given is the store's next
 * staged.count; nothing else of the store is another. Refusals 1, 9, 11, 12. */
lateenbael_staged_count lateenbael_stage_in(uint32_t job, uint32_t page_num, size_t staged_count, uint16_t staged[LATEENBAEL_STAGED_PAGES],
                                            uint8_t *staging, size_t staging_size, const uint8_t *bytes, size_t bytes_len);

/* Drops what is staged. Refusal 9. */
lateenbael_answered lateenbael_clear_staged(lateenbael_store store);

/* Appends a batch to the log, as a frame that stands at the old store.wal.len; it counts once a commit follows it.
 * Refusals 1, 2, 3, 9, 10, 15, 17 to 19. */
lateenbael_answered lateenbael_append_mvcc_batch(lateenbael_store store, uint8_t *log, size_t log_size, const uint8_t *body,
                                                 size_t body_len);

/* What lateenbael_commit would answer and leave now, with the same arguments and any salt, or be refused with: as if it were done on a copy
 * of all areas. Nothing is altered, and what is staged stays staged. Refusals as of lateenbael_begin_commit. */
lateenbael_preview_answered lateenbael_preview_commit(lateenbael_store store, const uint32_t *table, size_t table_entries,
                                                      const uint8_t *log, size_t log_size, const uint8_t *main, size_t main_size,
                                                      const uint8_t *staging, size_t staging_size, lateenbael_db_header new_header);

/* Begins a commit of what is staged; nothing is stored yet. A commit that brings the log to 100 frames is followed by a checkpoint, and
 * then the salt is the new log's. Refusals 1 (also where a made-up table says that a staged page's frame ends behind the log's length), 9,
 * 10, 13, 14, 15. */
lateenbael_answered lateenbael_begin_commit(lateenbael_store store, const uint32_t *table, size_t table_entries, const uint8_t *log,
                                            size_t log_size, const uint8_t *main, size_t main_size, const uint8_t *staging,
                                            size_t staging_size, lateenbael_db_header new_header, uint32_t salt);

/* Begins a checkpoint, the log's pages to the main file; nothing is written yet, and begun is 0 if nothing is to be. The salt is the new
 * log's. Refusals 1, 9, 10. */
lateenbael_answered lateenbael_begin_checkpoint(lateenbael_store store, const uint32_t *table, size_t table_entries, const uint8_t *log,
                                                size_t log_size, const uint8_t *main, size_t main_size, const uint8_t *staging,
                                                size_t staging_size, uint32_t salt);

/* Does the next write of what is part done in its area, and names it. Refusal 1. */
lateenbael_step_answered lateenbael_next_step(lateenbael_store store, uint32_t *table, size_t table_entries, uint8_t *log, size_t log_size,
                                              uint8_t *main, size_t main_size, const uint8_t *staging, size_t staging_size);

/* A commit or checkpoint in one call: begun, and its steps run to the end, for a host that stores both areas whole. */
lateenbael_answered lateenbael_commit(lateenbael_store store, uint32_t *table, size_t table_entries, uint8_t *log, size_t log_size,
                                      uint8_t *main, size_t main_size, const uint8_t *staging, size_t staging_size,
                                      lateenbael_db_header new_header, uint32_t salt);
lateenbael_answered lateenbael_checkpoint(lateenbael_store store, uint32_t *table, size_t table_entries, uint8_t *log, size_t log_size,
                                          uint8_t *main, size_t main_size, const uint8_t *staging, size_t staging_size, uint32_t salt);

/* ---- the log alone
 *
 * A log is read in any bytes up to LATEENBAEL_LOG_AREA, as many as the file has, and written in an area of just that length.
 * Behind each call stand its refusals. */

/* What gives an open log; beside a refusal its numbers are 0. */
typedef struct {
    uint32_t refusal;
    lateenbael_wal wal;
} lateenbael_wal_answer;

typedef struct {
    uint32_t refusal;
    lateenbael_wal_header header;
} lateenbael_wal_header_answer;

typedef struct {
    uint32_t page_num;
    uint32_t commit_page_count; /* above 0: a commit frame, and the new page count */
    uint32_t salt;
    uint32_t checksum;
} lateenbael_frame_header;

typedef struct {
    uint32_t found; /* 0: none stands wholly inside the log there */
    size_t offset;  /* the frame's first byte; the page's begin 16 bytes behind */
    lateenbael_frame_header header;
} lateenbael_frame_answer;

typedef struct {
    uint32_t refusal;
    size_t len; /* how many bytes the listing has */
} lateenbael_list_answer;

lateenbael_wal_answer lateenbael_wal_create(uint8_t *log, size_t log_size, uint32_t salt); /* 1 */
lateenbael_wal_answer lateenbael_wal_open(const uint8_t *file, size_t file_len);           /* 1 to 5 */

/* Adds a page's frame at the log's length; with a commit_page_count above 0 it is a commit frame. 1, 15 */
lateenbael_wal_answer lateenbael_wal_append_frame(uint8_t *log, size_t log_size, lateenbael_wal wal, uint32_t page_num,
                                                  const uint8_t *content, size_t content_len, uint32_t commit_page_count);

/* Adds a batch's frame at the log's length. 1, 2, 3, 15, 17 to 19 */
lateenbael_wal_answer lateenbael_wal_append_mvcc_batch(uint8_t *log, size_t log_size, lateenbael_wal wal, const uint8_t *body,
                                                       size_t body_len);

/* Empties the log: a new header with the next sequence. 1 */
lateenbael_wal_answer lateenbael_wal_truncate(uint8_t *log, size_t log_size, lateenbael_wal wal, uint32_t salt);

/* Sets the clock. 16 */
lateenbael_wal_answer lateenbael_wal_set_clock_high_water(lateenbael_wal wal, uint64_t value);

/* The frame at an index, good or not. */
lateenbael_frame_answer lateenbael_wal_frame_at(const uint8_t *file, size_t file_len, size_t index);

/* Where a page's last committed frame has its 4,096 bytes: LATEENBAEL_AREA_LOG, or LATEENBAEL_AREA_NONE. */
lateenbael_page_answer lateenbael_wal_find_page(const uint8_t *file, size_t file_len, lateenbael_wal wal, uint32_t page_num);

/* The first committed batch whose frame has that index or a higher one. */
lateenbael_batch_place lateenbael_wal_next_batch(const uint8_t *file, size_t file_len, lateenbael_wal wal, size_t index);

/* Lists a log of at most 15 frames, one line a frame, into LATEENBAEL_LISTING_SIZE bytes or more; a log that is longer or does not
 * open is listed as the word refused and its refusal. Refused itself (1) if the buffer is shorter. */
lateenbael_list_answer lateenbael_list_log(const uint8_t *file, size_t file_len, uint8_t *out, size_t out_size);

/* Both headers to their bytes and back: a log's 32 bytes, always as version 3, and a main header's page of 4,096. */
uint32_t lateenbael_encode_wal_header(lateenbael_wal_header header, uint8_t *log, size_t log_size); /* 1 */
lateenbael_wal_header_answer lateenbael_decode_wal_header(const uint8_t *log, size_t log_size);     /* 2 to 5 */
uint32_t lateenbael_encode_header(lateenbael_db_header header, uint8_t *buf, size_t buf_len);       /* 2 */
lateenbael_header_answer lateenbael_decode_header(const uint8_t *buf, size_t buf_len);              /* 2 to 5 */

/* ---- batches
 *
 * A batch is a commit time and records: rows that are there, with their columns, and rows that are gone. It lies in a body, which is
 * decoded where it lies: texts and vectors are told by their places in it. Behind each call stand its refusals. */

/* Bytes of the body; of a text also how many characters, Unicode scalar values, they are. */
typedef struct {
    size_t start;
    size_t len;   /* of a vector the number of elements */
    size_t chars; /* of a vector, and where there is no place, 0 */
} lateenbael_text_place;

/* A text by itself. */
typedef struct {
    uint32_t refusal;
    size_t chars; /* beside a refusal 0 */
} lateenbael_text_answer;

/* A whole batch; the first record stands at LATEENBAEL_FIRST_RECORD. Beside a refusal the other numbers are 0, except the items.
 * A record is an item, and so is each of its columns: a row that is gone counts when its row id is read, one that is there when its column
 * count is, a column when its value is. In a body of up to 4,096 bytes there are at most LATEENBAEL_MOST_ITEMS. */
typedef struct {
    uint32_t refusal;
    uint64_t commit_ts;
    size_t records; /* how many */
    size_t end;     /* behind the last one */
    size_t items;   /* how many items were read, of a refused body those before the refusal */
} lateenbael_batch;

#define LATEENBAEL_FIRST_RECORD 18

/* A record. */
typedef struct {
    uint32_t refusal;
    uint32_t op; /* 0: the row is gone (tombstone), 1: it is there (present) */
    size_t next; /* where the next record stands */
    lateenbael_text_place table;
    int64_t rowid;
    size_t count; /* how many columns */
    size_t first; /* where the first column stands */
} lateenbael_record;

enum lateenbael_value_tag {
    LATEENBAEL_VALUE_NULL = 0,
    LATEENBAEL_VALUE_INTEGER = 1,
    LATEENBAEL_VALUE_REAL = 2,
    LATEENBAEL_VALUE_TEXT = 3,
    LATEENBAEL_VALUE_BOOL = 4,
    LATEENBAEL_VALUE_VECTOR = 5
};

/* A value: its tag says which of the others it has; those that it has not are 0. */
typedef struct {
    uint32_t tag;                /* enum lateenbael_value_tag */
    uint32_t flag;               /* a bool's 0 or 1 */
    int64_t integer;             /* an integer */
    uint64_t bits;               /* a real's 64 bits */
    lateenbael_text_place place; /* a text; a vector's first byte and its number of elements */
} lateenbael_value;

/* A value by itself. */
typedef struct {
    uint32_t refusal;
    size_t next; /* where the next field stands */
    lateenbael_value value;
} lateenbael_value_answer;

/* A column. */
typedef struct {
    uint32_t refusal;
    size_t next; /* where the next column stands */
    lateenbael_text_place name;
    lateenbael_value value;
} lateenbael_column;

/* A vector's element. */
typedef struct {
    uint32_t found; /* 0: there is none with that number */
    uint32_t bits;  /* a float's 32 bits */
} lateenbael_element;

lateenbael_batch lateenbael_mvcc_decode(const uint8_t *body, size_t body_len); /* 2, 3, 17 to 19 */

/* What stands at a place of the body. 17 to 19 */
lateenbael_record lateenbael_mvcc_decode_record(const uint8_t *body, size_t body_len, size_t at);
lateenbael_column lateenbael_mvcc_decode_column(const uint8_t *body, size_t body_len, size_t at);
lateenbael_value_answer lateenbael_mvcc_decode_value(const uint8_t *body, size_t body_len, size_t at);

/* Whether bytes are UTF-8, and how many characters they are. 19 */
lateenbael_text_answer lateenbael_from_utf8(const uint8_t *text, size_t text_len);

/* Element i of the vector whose place is start and count. */
lateenbael_element lateenbael_mvcc_vector_bits(const uint8_t *body, size_t body_len, size_t start, size_t count, size_t i);

/* Writes the body that encoding the batch gives, of 4,096 bytes. 1, 2, 3, 17 to 19 */
uint32_t lateenbael_mvcc_canonicalize(const uint8_t *body, size_t body_len, uint8_t *out, size_t out_len);

/* A batch being built in a body of 4,096 bytes, which is a whole batch after every call. Beside a refusal the other numbers are 0,
 * the body is as it was, and the host goes on with the numbers that it had. */
typedef struct {
    uint32_t refusal;
    uint32_t at;      /* where its bytes end */
    uint32_t counted; /* where the last record's column count stands; 0 if it has none */
    uint16_t records;
    uint16_t columns; /* of the last record */
} lateenbael_building;

/* Starting: 1. Adding a record: 1, 19, 20. Adding a column to the last record: 1, 19, 20, 21, and a vector 17. */
lateenbael_building lateenbael_mvcc_start(uint8_t *body, size_t body_len, uint64_t commit_ts);
lateenbael_building lateenbael_mvcc_add_tombstone(uint8_t *body, size_t body_len, lateenbael_building b, const uint8_t *table,
                                                  size_t table_len, int64_t rowid);
lateenbael_building lateenbael_mvcc_begin_present(uint8_t *body, size_t body_len, lateenbael_building b, const uint8_t *table,
                                                  size_t table_len, int64_t rowid);
lateenbael_building lateenbael_mvcc_add_null(uint8_t *body, size_t body_len, lateenbael_building b, const uint8_t *name, size_t name_len);
lateenbael_building lateenbael_mvcc_add_integer(uint8_t *body, size_t body_len, lateenbael_building b, const uint8_t *name, size_t name_len,
                                                int64_t value);
lateenbael_building lateenbael_mvcc_add_real_bits(uint8_t *body, size_t body_len, lateenbael_building b, const uint8_t *name,
                                                  size_t name_len, uint64_t bits);
lateenbael_building lateenbael_mvcc_add_text(uint8_t *body, size_t body_len, lateenbael_building b, const uint8_t *name, size_t name_len,
                                             const uint8_t *value, size_t value_len);
lateenbael_building lateenbael_mvcc_add_bool(uint8_t *body, size_t body_len, lateenbael_building b, const uint8_t *name, size_t name_len,
                                             uint32_t value);
/* A vector is given by its elements' little-endian bytes, 4 each. */
lateenbael_building lateenbael_mvcc_add_vector(uint8_t *body, size_t body_len, lateenbael_building b, const uint8_t *name, size_t name_len,
                                               const uint8_t *bytes, size_t bytes_len);

#ifdef __cplusplus
}
#endif

#endif
