/* The store: created, written by steps, cut, reopened, with checkpoints; batches in it; every refusal of its calls. */
#include "test.h"

/* A new store of 2 pages, and its files. */
static host created(disk *d) {
    host h = new_store();
    memcpy(d->main, h.main, h.store.storage.len);
    memcpy(d->log, h.log, h.store.wal.len);
    d->main_len = h.store.storage.len;
    d->log_len = h.store.wal.len;
    return h;
}

/* Does what is part done, on the files too; the answer. `writes` counts the steps. */
static size_t run_steps(host *h, disk *d, unsigned *writes) {
    for (*writes = 1;; ++*writes) {
        lateenbael_step_answered step = lateenbael_next_step(h->store, AREAS(h));
        CHECK(step.refusal == LATEENBAEL_OK && step.kind != LATEENBAEL_STEP_IDLE);
        h->store = step.store;
        write_step(d, h, &step, SIZE_MAX);
        if (step.kind != LATEENBAEL_STEP_WRITE) {
            return step.answer;
        }
    }
}

static bool files_match(const host *h, const disk *d) {
    return d->main_len == h->store.storage.len && d->log_len == h->store.wal.len && memcmp(d->main, h->main, d->main_len) == 0 &&
           memcmp(d->log, h->log, d->log_len) == 0;
}

/* Every commit is shown before, and comes to that. */
static size_t commit_by_steps(host *h, disk *d, lateenbael_db_header header, unsigned *writes) {
    lateenbael_preview_answered shown = previewed(h, &h->store, header);
    lateenbael_answered begun = lateenbael_begin_commit(h->store, AREAS(h), header, 0xcd);
    CHECK(begun.begun == 1 && keep_store(h, begun) == LATEENBAEL_OK);
    size_t answer = run_steps(h, d, writes);
    CHECK(shown.answer == answer && shown.frame_count == h->store.wal.frame_count);
    CHECK(shown.log_len == d->log_len && shown.main_len == d->main_len);
    return answer;
}

/* A store of 7 pages whose bytes are their numbers, behind a checkpoint, and its files. */
static host seven_pages(disk *d) {
    host h = created(d);
    unsigned writes;
    for (uint32_t page = 2; page < 7; page++) {
        CHECK(stage(&h, page, (uint8_t)page) == LATEENBAEL_OK);
    }
    CHECK(commit_by_steps(&h, d, with_count(&h, 7), &writes) == 5 && writes == 6);
    CHECK(d->flushes == 1 && files_match(&h, d));
    lateenbael_answered begun = lateenbael_begin_checkpoint(h.store, AREAS(&h), 0xef);
    CHECK(begun.begun == 1 && keep_store(&h, begun) == LATEENBAEL_OK);
    CHECK(run_steps(&h, d, &writes) == 5 && writes == 5 + 4);
    CHECK(d->flushes == 4 && files_match(&h, d) && d->log_len == 32 && d->main_len == 7 * PAGE);
    return h;
}

static void creating(void) {
    disk d = new_disk();
    host h = created(&d);
    CHECK(d.main_len == 2 * PAGE && d.log_len == 32);
    CHECK(memcmp(d.main, "SQLRiteFormat\0\0", 16) == 0 && memcmp(d.log, "SQLRWAL", 8) == 0 && d.log[16] == 0xab);
    CHECK(header_of(&h).page_count == 2 && header_of(&h).schema_root_page == 1);
    CHECK(h.store.opening == LATEENBAEL_OPENED_CLEAN);
    CHECK(lateenbael_access_mode(h.store).number == 0);
    lateenbael_page_answer one = found_in(&h, &h.store, 1);
    CHECK(one.refusal == LATEENBAEL_OK && one.area == LATEENBAEL_AREA_MAIN && one.at == PAGE);
    CHECK(found_in(&h, &h.store, 2).area == LATEENBAEL_AREA_NONE);
    uint8_t first = h.main[0];
    lateenbael_answered refused = lateenbael_create(h.table, LATEENBAEL_PAGES, h.log, LATEENBAEL_LOG_AREA - 1, h.main, LATEENBAEL_MAIN_AREA,
                                                    h.staging, LATEENBAEL_STAGING_AREA, 1);
    CHECK(refused.refusal == LATEENBAEL_REFUSED_AREA && refused.store.opening == LATEENBAEL_OPENED_NO_LOG && h.main[0] == first);
    free_host(&h);
    free_disk(&d);
}

/* Between the steps every call but the next step and an opening is refused. */
static void busy(void) {
    disk d = new_disk();
    host h = seven_pages(&d);
    CHECK(stage(&h, 1, 11) == LATEENBAEL_OK);
    CHECK(keep_store(&h, lateenbael_begin_commit(h.store, AREAS(&h), header_of(&h), 1)) == LATEENBAEL_OK);
    CHECK(lateenbael_header(h.store).refusal == LATEENBAEL_REFUSED_BUSY);
    CHECK(lateenbael_access_mode(h.store).refusal == LATEENBAEL_REFUSED_BUSY);
    CHECK(lateenbael_clock_high_water(h.store).refusal == LATEENBAEL_REFUSED_BUSY);
    CHECK(lateenbael_observe_clock_high_water(h.store, 1).refusal == LATEENBAEL_REFUSED_BUSY);
    CHECK(found_in(&h, &h.store, 1).refusal == LATEENBAEL_REFUSED_BUSY);
    CHECK(lateenbael_recovered_mvcc_commits(h.store, h.log, LATEENBAEL_LOG_AREA, 0).refusal == LATEENBAEL_REFUSED_BUSY);
    CHECK(stage(&h, 1, 12) == LATEENBAEL_REFUSED_BUSY);
    CHECK(lateenbael_clear_staged(h.store).refusal == LATEENBAEL_REFUSED_BUSY);
    CHECK(lateenbael_checkpoint(h.store, AREAS(&h), 1).refusal == LATEENBAEL_REFUSED_BUSY);
    CHECK(previewed(&h, &h.store, h.store.current_header).refusal == LATEENBAEL_REFUSED_BUSY);
    CHECK(h.store.job.kind == 1);
    unsigned writes;
    CHECK(run_steps(&h, &d, &writes) == 1 && writes == 2);
    lateenbael_step_answered idle = lateenbael_next_step(h.store, AREAS(&h));
    CHECK(idle.refusal == LATEENBAEL_OK && idle.kind == LATEENBAEL_STEP_IDLE);
    CHECK(reads_as(&h, 1, 11) && files_match(&h, &d));
    free_host(&h);
    free_disk(&d);
}

/* The first steps of a commit of page 5 reach the files, and of the next one some bytes. */
static void power_cut_commit(host *h, disk *d, unsigned whole, size_t bytes) {
    CHECK(stage(h, 5, 55) == LATEENBAEL_OK);
    CHECK(keep_store(h, lateenbael_begin_commit(h->store, AREAS(h), header_of(h), 1)) == LATEENBAEL_OK);
    for (unsigned i = 0; i <= whole; i++) {
        lateenbael_step_answered step = lateenbael_next_step(h->store, AREAS(h));
        h->store = step.store;
        write_step(d, h, &step, i < whole ? SIZE_MAX : bytes);
    }
}

/* A commit that a power cut ends counts only with its commit frame whole. */
static void power_cuts(void) {
    const struct {
        unsigned whole;
        size_t bytes;
        uint8_t page_5;
    } cuts[] = {{0, 0, 5}, {0, 1, 5}, {0, FRAME, 5}, {1, 0, 5}, {1, 16, 5}, {1, FRAME - 1, 5}, {1, FRAME, 55}};
    for (size_t i = 0; i < sizeof cuts / sizeof *cuts; i++) {
        disk d = new_disk();
        host before = seven_pages(&d), after = new_host();
        power_cut_commit(&before, &d, cuts[i].whole, cuts[i].bytes);
        CHECK(open_files(&after, &d, CLEAN) == LATEENBAEL_OK);
        CHECK(reads_as(&after, 5, cuts[i].page_5) && header_of(&after).page_count == 7);
        CHECK(after.store.wal.len == (cuts[i].page_5 == 5 ? 32 : 32 + 2 * FRAME));
        free_host(&before);
        free_host(&after);
        free_disk(&d);
    }
}

/* Page 5 uncommitted, cut, reopened, page 3 committed, reopened: what page 5 is then. */
static uint8_t page_5_after(enum open_mode mode) {
    disk d = new_disk();
    host h = seven_pages(&d), again = new_host();
    unsigned writes;
    power_cut_commit(&h, &d, 1, 0);
    CHECK(open_files(&again, &d, mode) == LATEENBAEL_OK);
    d.log_len = again.store.wal.len;
    CHECK(stage(&again, 3, 33) == LATEENBAEL_OK);
    CHECK(commit_by_steps(&again, &d, header_of(&again), &writes) == 1);
    CHECK(open_files(&h, &d, mode) == LATEENBAEL_OK && reads_as(&h, 3, 33));
    uint8_t page_5 = reads_as(&h, 5, 5) ? 5 : reads_as(&h, 5, 55) ? 55 : 0;
    free_host(&h);
    free_host(&again);
    free_disk(&d);
    return page_5;
}

static void uncommitted_frames(void) {
    CHECK(page_5_after(PLAIN) == 55);
    CHECK(page_5_after(CLEAN) == 5);
}

/* A batch of one row. */
static void small_batch(uint8_t *body, uint64_t time) {
    lateenbael_building b = lateenbael_mvcc_start(body, PAGE, time);
    b = lateenbael_mvcc_add_tombstone(body, PAGE, b, (const uint8_t *)"grips", 5, 7);
    CHECK(b.refusal == LATEENBAEL_OK && b.records == 1);
}

/* Appends a batch of one row, on the files too. */
static void append_batch(host *h, disk *d, uint64_t time) {
    uint8_t body[PAGE];
    size_t at = h->store.wal.len;
    small_batch(body, time);
    CHECK(keep_store(h, lateenbael_append_mvcc_batch(h->store, h->log, LATEENBAEL_LOG_AREA, body, PAGE)) == LATEENBAEL_OK);
    memcpy(d->log + at, h->log + at, FRAME);
    d->log_len = h->store.wal.len;
}

static void batches(void) {
    disk d = new_disk();
    host h = seven_pages(&d), again = new_host();
    unsigned writes;
    for (uint64_t time = 1; time <= 3; time++) {
        append_batch(&h, &d, time);
        if (time == 2) {
            CHECK(commit_by_steps(&h, &d, header_of(&h), &writes) == 0 && writes == 1);
        }
    }
    CHECK(lateenbael_recovered_mvcc_commits(h.store, h.log, LATEENBAEL_LOG_AREA, 0).found == 0);
    CHECK(open_files(&again, &d, CLEAN) == LATEENBAEL_OK);
    size_t index = 0;
    for (uint64_t time = 1; time <= 2; time++) {
        lateenbael_batch_place place = lateenbael_recovered_mvcc_commits(again.store, again.log, LATEENBAEL_LOG_AREA, index);
        CHECK(place.refusal == LATEENBAEL_OK && place.found == 1 && place.index == time - 1 && place.offset == 32 + (time - 1) * FRAME);
        CHECK(lateenbael_mvcc_decode(again.log + place.offset + 16, PAGE).commit_ts == time);
        index = place.index + 1;
    }
    CHECK(lateenbael_recovered_mvcc_commits(again.store, again.log, LATEENBAEL_LOG_AREA, index).found == 0);
    CHECK(keep_store(&again, lateenbael_checkpoint(again.store, AREAS(&again), 1)) == LATEENBAEL_OK);
    CHECK(lateenbael_recovered_mvcc_commits(again.store, again.log, LATEENBAEL_LOG_AREA, 0).found == 0);
    CHECK(lateenbael_recovered_mvcc_commits(again.store, again.log, 0, 0).refusal == LATEENBAEL_REFUSED_AREA);
    free_host(&h);
    free_host(&again);
    free_disk(&d);
}

/* The clock that an opening of the files leaves. */
static uint64_t clock_after(const disk *d, enum open_mode mode) {
    host h = new_host();
    CHECK(open_files(&h, d, mode) == LATEENBAEL_OK);
    lateenbael_number_answer clock = lateenbael_clock_high_water(h.store);
    CHECK(clock.refusal == LATEENBAEL_OK && clock.number == h.store.wal.header.clock_high_water);
    free_host(&h);
    return clock.number;
}

static bool clocks_are(const disk *d, uint64_t clean, uint64_t header) {
    return clock_after(d, CLEAN) == clean && clock_after(d, PLAIN) == header && clock_after(d, READ_ONLY) == header;
}

/* A clean opening takes the greatest time among the committed batches, where the log header's clock is lower; the others keep that clock.
 * The opening stores the log's length alone, and a checkpoint behind it the clock. */
static void clocks_of_openings(void) {
    disk d = new_disk();
    host h = seven_pages(&d);
    unsigned writes;
    append_batch(&h, &d, 9);
    append_batch(&h, &d, 4);
    CHECK(clocks_are(&d, 0, 0));
    CHECK(commit_by_steps(&h, &d, header_of(&h), &writes) == 0);
    append_batch(&h, &d, 12);
    CHECK(lateenbael_clock_high_water(h.store).number == 0 && clocks_are(&d, 9, 0));
    CHECK(open_files(&h, &d, CLEAN) == LATEENBAEL_OK);
    d.log_len = h.store.wal.len;
    CHECK(files_match(&h, &d) && clocks_are(&d, 9, 0));
    CHECK(keep_store(&h, lateenbael_begin_checkpoint(h.store, AREAS(&h), 0xef)) == LATEENBAEL_OK);
    CHECK(run_steps(&h, &d, &writes) == 0 && clocks_are(&d, 9, 9));
    append_batch(&h, &d, 8);
    CHECK(commit_by_steps(&h, &d, header_of(&h), &writes) == 0 && clocks_are(&d, 9, 9));
    append_batch(&h, &d, UINT64_MAX);
    CHECK(commit_by_steps(&h, &d, header_of(&h), &writes) == 0 && clocks_are(&d, UINT64_MAX, 9));
    /* Without a log it is 0. */
    CHECK(keep_store(&h, lateenbael_open_clean(AREAS(&h), d.main_len, 0, 0, 0, 1)) == LATEENBAEL_OK);
    CHECK(lateenbael_clock_high_water(h.store).number == 0);
    free_host(&h);
    free_disk(&d);
}

/* One call writes what the steps store. */
static void in_one_call(void) {
    disk d = new_disk();
    host by_steps = seven_pages(&d), at_once = new_host();
    unsigned writes;
    CHECK(open_files(&at_once, &d, CLEAN) == LATEENBAEL_OK);
    for (uint8_t n = 0; n < 50; n++) {
        lateenbael_db_header header = with_count(&by_steps, 7);
        CHECK(stage(&by_steps, 4, 100 + n) == LATEENBAEL_OK && stage(&at_once, 4, 100 + n) == LATEENBAEL_OK);
        lateenbael_answered answer = lateenbael_commit(at_once.store, AREAS(&at_once), header, 0xcd);
        CHECK(keep_store(&at_once, answer) == LATEENBAEL_OK);
        CHECK(answer.answer == commit_by_steps(&by_steps, &d, header, &writes));
        CHECK(writes == (n < 49 ? 2 : 2 + 5) && files_match(&at_once, &d));
    }
    CHECK(at_once.store.wal.frame_count == 0 && at_once.store.wal.header.salt == 0xcd && at_once.store.wal.header.checkpoint_seq == 2);
    free_host(&by_steps);
    free_host(&at_once);
    free_disk(&d);
}

static void clocks_and_staging(void) {
    disk d = new_disk();
    host h = seven_pages(&d);
    CHECK(keep_store(&h, lateenbael_observe_clock_high_water(h.store, 40)) == LATEENBAEL_OK);
    CHECK(keep_store(&h, lateenbael_observe_clock_high_water(h.store, 30)) == LATEENBAEL_OK);
    CHECK(lateenbael_clock_high_water(h.store).number == 40);
    CHECK(stage(&h, 5, 1) == LATEENBAEL_OK);
    CHECK(lateenbael_stage_page(h.store, h.staging, LATEENBAEL_STAGING_AREA, 1, h.main, 1).refusal == LATEENBAEL_REFUSED_AREA);
    CHECK(found_in(&h, &h.store, 5).area == LATEENBAEL_AREA_STAGING);
    CHECK(keep_store(&h, lateenbael_clear_staged(h.store)) == LATEENBAEL_OK && reads_as(&h, 5, 5));
    free_host(&h);
    free_disk(&d);
}

static uint32_t refused_commit(const host *h, uint32_t count, uint16_t version) {
    lateenbael_db_header header = with_count(h, count);
    header.format_version = version;
    uint32_t refusal = lateenbael_begin_commit(h->store, AREAS(h), header, 1).refusal;
    CHECK(previewed(h, &h->store, header).refusal == refusal);
    return refusal;
}

static void refusals(void) {
    disk d = new_disk();
    host h = seven_pages(&d);
    uint8_t body[PAGE] = {0};
    CHECK(refused_commit(&h, 0, 4) == LATEENBAEL_REFUSED_NEW_HEADER);
    CHECK(refused_commit(&h, 1025, 4) == LATEENBAEL_REFUSED_NEW_HEADER);
    CHECK(refused_commit(&h, 7, 3) == LATEENBAEL_REFUSED_NEW_HEADER);
    lateenbael_answered joining = lateenbael_commit(h.store, AREAS(&h), with_count(&h, 9), 1);
    CHECK(joining.refusal == LATEENBAEL_REFUSED_JOINING && joining.answer == 7);
    CHECK(lateenbael_append_mvcc_batch(h.store, h.log, LATEENBAEL_LOG_AREA, body, 17).refusal == LATEENBAEL_REFUSED_SHORT);
    CHECK(lateenbael_append_mvcc_batch(h.store, h.log, LATEENBAEL_LOG_AREA, body, 18).refusal == LATEENBAEL_REFUSED_MAGIC);
    CHECK(files_match(&h, &d));
    small_batch(body, 1);
    for (unsigned i = 0; i < 1024; i++) {
        CHECK(keep_store(&h, lateenbael_append_mvcc_batch(h.store, h.log, LATEENBAEL_LOG_AREA, body, PAGE)) == LATEENBAEL_OK);
    }
    CHECK(h.store.wal.len == LATEENBAEL_LOG_AREA);
    CHECK(lateenbael_append_mvcc_batch(h.store, h.log, LATEENBAEL_LOG_AREA, body, PAGE).refusal == LATEENBAEL_REFUSED_LOG_FULL);
    CHECK(refused_commit(&h, 7, 4) == LATEENBAEL_REFUSED_LOG_FULL);
    CHECK(open_files(&h, &d, READ_ONLY) == LATEENBAEL_OK && lateenbael_access_mode(h.store).number == 1);
    CHECK(refused_commit(&h, 7, 4) == LATEENBAEL_REFUSED_READ_ONLY);
    CHECK(lateenbael_begin_checkpoint(h.store, AREAS(&h), 1).refusal == LATEENBAEL_REFUSED_READ_ONLY);
    CHECK(lateenbael_append_mvcc_batch(h.store, h.log, LATEENBAEL_LOG_AREA, body, PAGE).refusal == LATEENBAEL_REFUSED_READ_ONLY);
    free_host(&h);
    free_disk(&d);
}

/* An opening of files with one byte changed or another length. */
static uint32_t opened_with(const disk *good, size_t main_len, size_t log_len, uint8_t *(*byte)(disk *), uint8_t value) {
    disk d = copy_of(good);
    host h = new_host();
    if (byte != NULL) {
        *byte(&d) = value;
    }
    d.main_len = main_len;
    d.log_len = log_len;
    uint32_t refusal = open_files(&h, &d, CLEAN);
    CHECK(refusal == LATEENBAEL_OK || h.store.opening == LATEENBAEL_OPENED_NO_LOG);
    CHECK(open_files(&h, &d, PLAIN) == refusal);
    free_host(&h);
    free_disk(&d);
    return refusal;
}

static uint8_t *main_magic(disk *d) {
    return d->main;
}
static uint8_t *main_version(disk *d) {
    return d->main + 16;
}
static uint8_t *main_page_size(disk *d) {
    return d->main + 18;
}
static uint8_t *main_count(disk *d) {
    return d->main + 20;
}
static uint8_t *log_magic(disk *d) {
    return d->log;
}
static uint8_t *log_version(disk *d) {
    return d->log + 8;
}
static uint8_t *log_page_size(disk *d) {
    return d->log + 12;
}

/* Refusals 6 and 8 want a committed frame: page 0 without a header, and a count of 1,025 on page 1. */
static uint32_t opened_over(const disk *good, uint32_t page, uint32_t count) {
    disk d = copy_of(good);
    host h = new_host();
    uint8_t zeros[PAGE] = {0};
    memcpy(h.log, d.log, d.log_len);
    lateenbael_wal_answer wal = lateenbael_wal_open(h.log, 32);
    wal = lateenbael_wal_append_frame(h.log, LATEENBAEL_LOG_AREA, wal.wal, page, zeros, PAGE, count);
    CHECK(wal.refusal == LATEENBAEL_OK);
    memcpy(d.log, h.log, wal.wal.len);
    d.log_len = wal.wal.len;
    uint32_t refusal = open_files(&h, &d, CLEAN);
    free_host(&h);
    free_disk(&d);
    return refusal;
}

void test_opening(void) {
    disk d = new_disk();
    host h = seven_pages(&d);
    size_t main_len = d.main_len;
    CHECK(opened_with(&d, main_len, 32, NULL, 0) == LATEENBAEL_OK);
    CHECK(opened_with(&d, main_len - 1, 32, NULL, 0) == LATEENBAEL_REFUSED_MAIN_SHORT);
    CHECK(opened_with(&d, PAGE - 1, 32, NULL, 0) == LATEENBAEL_REFUSED_SHORT);
    CHECK(opened_with(&d, main_len, 31, NULL, 0) == LATEENBAEL_REFUSED_SHORT);
    CHECK(opened_with(&d, main_len, 32, main_magic, 0) == LATEENBAEL_REFUSED_MAGIC);
    CHECK(opened_with(&d, main_len, 32, main_version, 3) == LATEENBAEL_REFUSED_VERSION);
    CHECK(opened_with(&d, main_len, 32, main_page_size, 1) == LATEENBAEL_REFUSED_PAGE_SIZE);
    CHECK(opened_with(&d, main_len, 32, main_count, 8) == LATEENBAEL_REFUSED_MAIN_SHORT);
    CHECK(opened_with(&d, main_len, 32, log_magic, 0) == LATEENBAEL_REFUSED_MAGIC);
    CHECK(opened_with(&d, main_len, 32, log_version, 4) == LATEENBAEL_REFUSED_VERSION);
    CHECK(opened_with(&d, main_len, 32, log_page_size, 1) == LATEENBAEL_REFUSED_PAGE_SIZE);
    CHECK(opened_over(&d, 0, 7) == LATEENBAEL_REFUSED_PAGE_ZERO);
    CHECK(opened_over(&d, 1, 1025) == LATEENBAEL_REFUSED_LIMIT);
    CHECK(opened_over(&d, 1, 1024) == LATEENBAEL_OK);
    CHECK(lateenbael_open_clean(AREAS(&h), LATEENBAEL_MAIN_AREA + 1, 32, 0, 1, 1).refusal == LATEENBAEL_REFUSED_AREA);
    CHECK(lateenbael_open_clean(AREAS(&h), main_len, 32, 1, 1, 1).refusal == LATEENBAEL_REFUSED_READ_ONLY);
    CHECK(keep_store(&h, lateenbael_open_with_mode(AREAS(&h), main_len, 0, 1, 0, 1)) == LATEENBAEL_OK);
    CHECK(h.store.opening == LATEENBAEL_OPENED_NO_LOG && reads_as(&h, 6, 6));
    CHECK(keep_store(&h, lateenbael_open_clean(AREAS(&h), main_len, 0, 0, 0, 0x77)) == LATEENBAEL_OK);
    CHECK(h.store.opening == LATEENBAEL_OPENED_CLEAN && h.log[16] == 0x77 && h.store.wal.len == 32);
    free_host(&h);
    free_disk(&d);
}

void test_store(void) {
    creating();
    busy();
    power_cuts();
    uncommitted_frames();
    batches();
    clocks_of_openings();
    in_one_call();
    clocks_and_staging();
    refusals();
}
