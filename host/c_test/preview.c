/* A commit shown before it is made: what it would answer and leave, with a checkpoint and without, and every refusal in its order. Each
 * preview is held to a commit on a copy of all areas (previewed, test.c), and nothing is altered by it. */
#include "test.h"

/* The log's length with so many frames. */
#define LOG_OF(frames) (32 + FRAME * (size_t)(frames))

/* Whether a commit with this page count would come to that. */
static bool shows(const host *h, uint32_t count, size_t answer, size_t frames, size_t log_len, size_t main_len, uint32_t checkpointed) {
    lateenbael_preview_answered shown = previewed(h, &h->store, with_count(h, count));
    return shown.refusal == LATEENBAEL_OK && shown.answer == answer && shown.frame_count == frames && shown.log_len == log_len &&
           shown.main_len == main_len && shown.checkpointed == checkpointed;
}

/* The commit in earnest: whether it comes to what was shown. */
static bool commits_as_shown(host *h, uint32_t count) {
    lateenbael_db_header header = with_count(h, count);
    lateenbael_store before = h->store;
    lateenbael_preview_answered shown = previewed(h, &before, header);
    lateenbael_answered a = lateenbael_commit(before, AREAS(h), header, 0xef);
    return keep_store(h, a) == LATEENBAEL_OK && came_to(a, &before, shown);
}

static void append_batches(host *h, unsigned batches) {
    uint8_t body[PAGE];
    CHECK(lateenbael_mvcc_start(body, PAGE, 1).refusal == LATEENBAEL_OK);
    while (batches-- > 0) {
        CHECK(keep_store(h, lateenbael_append_mvcc_batch(h->store, h->log, LATEENBAEL_LOG_AREA, body, PAGE)) == LATEENBAEL_OK);
    }
}

/* Without a checkpoint the log grows by a frame for each page that differs and one more, and the main file stays. */
static void without_a_checkpoint(void) {
    host h = new_store();
    CHECK(shows(&h, 2, 0, 1, LOG_OF(1), 2 * PAGE, 0));
    CHECK(stage(&h, 1, 11) == LATEENBAEL_OK && stage(&h, 2, 22) == LATEENBAEL_OK);
    CHECK(shows(&h, 3, 2, 3, LOG_OF(3), 2 * PAGE, 0));
    /* The library takes a page that the count leaves out, and then reads it as nothing. */
    CHECK(shows(&h, 2, 2, 3, LOG_OF(3), 2 * PAGE, 0));
    CHECK(h.store.staged.count == 2 && reads_as(&h, 2, 22));
    CHECK(commits_as_shown(&h, 3) && h.store.wal.len == LOG_OF(3));
    /* A page with the same bytes does not differ, and a batch that waits is a frame already. */
    CHECK(stage(&h, 1, 11) == LATEENBAEL_OK && stage(&h, 2, 33) == LATEENBAEL_OK);
    CHECK(shows(&h, 3, 1, 5, LOG_OF(5), 2 * PAGE, 0));
    append_batches(&h, 2);
    CHECK(shows(&h, 3, 1, 7, LOG_OF(7), 2 * PAGE, 0) && shows(&h, 1, 1, 7, LOG_OF(7), 2 * PAGE, 0));
    CHECK(commits_as_shown(&h, 3));
    /* A main file that has more pages than the count keeps them. */
    CHECK(keep_store(&h, lateenbael_checkpoint(h.store, AREAS(&h), 1)) == LATEENBAEL_OK);
    CHECK(shows(&h, 1, 0, 1, LOG_OF(1), 3 * PAGE, 0));
    free_host(&h);
}

/* 99 frames bring no checkpoint, 100 do: then the log is its header, and the main file as long as its count says. */
static void with_a_checkpoint(void) {
    host h = new_store();
    CHECK(stage(&h, 1, 11) == LATEENBAEL_OK && commits_as_shown(&h, 2));
    append_batches(&h, 96);
    CHECK(h.store.wal.frame_count == 98);
    CHECK(shows(&h, 2, 0, 99, LOG_OF(99), 2 * PAGE, 0) && shows(&h, 1, 0, 99, LOG_OF(99), 2 * PAGE, 0));
    CHECK(stage(&h, 1, 11) == LATEENBAEL_OK && shows(&h, 2, 0, 99, LOG_OF(99), 2 * PAGE, 0));
    CHECK(stage(&h, 1, 12) == LATEENBAEL_OK && shows(&h, 2, 1, 0, 32, 2 * PAGE, 1) && shows(&h, 1, 1, 0, 32, PAGE, 1));
    CHECK(stage(&h, 2, 22) == LATEENBAEL_OK && stage(&h, 3, 33) == LATEENBAEL_OK && shows(&h, 4, 3, 0, 32, 4 * PAGE, 1));
    CHECK(keep_store(&h, lateenbael_clear_staged(h.store)) == LATEENBAEL_OK);
    append_batches(&h, 1);
    CHECK(h.store.wal.frame_count == 99 && shows(&h, 2, 0, 0, 32, 2 * PAGE, 1) && shows(&h, 1, 0, 0, 32, PAGE, 1));
    CHECK(commits_as_shown(&h, 2) && h.store.wal.frame_count == 0 && h.store.wal.header.salt == 0xef);
    CHECK(shows(&h, 2, 0, 1, LOG_OF(1), 2 * PAGE, 0));
    free_host(&h);
}

/* Frames that no commit frame follows count. Behind bytes that are no frame what is added stands at the log's length, off the frames'
 * places. */
static void behind_a_tail(void) {
    host h = new_store();
    append_batches(&h, 300);
    CHECK(shows(&h, 2, 0, 0, 32, 2 * PAGE, 1) && shows(&h, 1, 0, 0, 32, PAGE, 1));
    const size_t torn[] = {1, 15, FRAME - 1, FRAME, FRAME + 1000};
    for (size_t i = 0; i < sizeof torn / sizeof *torn; i++) {
        memset(h.log + LOG_OF(3), 0x77, torn[i]);
        CHECK(keep_store(&h, lateenbael_open_with_mode(AREAS(&h), 2 * PAGE, LOG_OF(3) + torn[i], 0, 1, 1)) == LATEENBAEL_OK);
        CHECK(h.store.wal.frame_count == 3 && stage(&h, 1, 11) == LATEENBAEL_OK);
        CHECK(shows(&h, 2, 1, 5, LOG_OF(5) + torn[i], 2 * PAGE, 0));
        append_batches(&h, 95);
        CHECK(shows(&h, 2, 1, 0, 32, 2 * PAGE, 1));
    }
    /* A clean opening cuts all of that. */
    CHECK(keep_store(&h, lateenbael_open_clean(AREAS(&h), 2 * PAGE, LOG_OF(3), 0, 1, 1)) == LATEENBAEL_OK);
    CHECK(shows(&h, 2, 0, 1, LOG_OF(1), 2 * PAGE, 0));
    free_host(&h);
}

/* What is shown of a store and a header that have every fault from that refusal on. Page 2 is staged, page 3 is not. */
static lateenbael_preview_answered with_faults(const host *h, uint32_t first) {
    lateenbael_store store = h->store;
    lateenbael_db_header header = with_count(h, 5);
    store.wal.len = LATEENBAEL_LOG_AREA;
    if (first > LATEENBAEL_REFUSED_JOINING) {
        header.page_count = 3;
    }
    if (first <= LATEENBAEL_REFUSED_NEW_HEADER) {
        header.format_version = 3;
    }
    if (first <= LATEENBAEL_REFUSED_READ_ONLY) {
        store.opening = LATEENBAEL_OPENED_READ_ONLY;
    }
    if (first <= LATEENBAEL_REFUSED_BUSY) {
        store.job.kind = 1;
    }
    if (first <= LATEENBAEL_REFUSED_AREA) {
        store.storage.len = LATEENBAEL_MAIN_AREA + 1;
    }
    return previewed(h, &store, header);
}

static void refusals_in_their_order(void) {
    const uint32_t order[] = {LATEENBAEL_REFUSED_AREA,       LATEENBAEL_REFUSED_BUSY,    LATEENBAEL_REFUSED_READ_ONLY,
                              LATEENBAEL_REFUSED_NEW_HEADER, LATEENBAEL_REFUSED_JOINING, LATEENBAEL_REFUSED_LOG_FULL};
    host h = new_store();
    CHECK(stage(&h, 2, 22) == LATEENBAEL_OK);
    for (size_t i = 0; i < sizeof order / sizeof *order; i++) {
        lateenbael_preview_answered shown = with_faults(&h, order[i]);
        CHECK(shown.refusal == order[i] && shown.answer == (order[i] == LATEENBAEL_REFUSED_JOINING ? 3 : 0));
        CHECK(shown.checkpointed == 0 && shown.frame_count == 0 && shown.log_len == 0 && shown.main_len == 0);
    }
    CHECK(h.store.staged.count == 1 && shows(&h, 3, 1, 2, LOG_OF(2), 2 * PAGE, 0));
    free_host(&h);
}

static uint32_t refused_with(const host *h, uint32_t count, uint16_t version) {
    lateenbael_db_header header = with_count(h, count);
    header.format_version = version;
    return previewed(h, &h->store, header).refusal;
}

/* Each of them alone, on a store as calls leave it. */
static void refusals_alone(void) {
    host h = new_store();
    CHECK(refused_with(&h, 0, 4) == LATEENBAEL_REFUSED_NEW_HEADER && refused_with(&h, 1025, 4) == LATEENBAEL_REFUSED_NEW_HEADER);
    CHECK(refused_with(&h, 2, 3) == LATEENBAEL_REFUSED_NEW_HEADER && refused_with(&h, 2, 7) == LATEENBAEL_REFUSED_NEW_HEADER);
    CHECK(refused_with(&h, 2, 4) == LATEENBAEL_OK && refused_with(&h, 2, 6) == LATEENBAEL_OK);
    CHECK(previewed(&h, &h.store, with_count(&h, 1024)).answer == 2);
    CHECK(stage(&h, 2, 22) == LATEENBAEL_OK && previewed(&h, &h.store, with_count(&h, 1024)).answer == 3);
    /* Room for one frame, where the page's and the commit frame are two. */
    append_batches(&h, 1023);
    CHECK(refused_with(&h, 3, 4) == LATEENBAEL_REFUSED_LOG_FULL);
    CHECK(keep_store(&h, lateenbael_clear_staged(h.store)) == LATEENBAEL_OK && shows(&h, 2, 0, 0, 32, 2 * PAGE, 1));
    append_batches(&h, 1);
    CHECK(refused_with(&h, 2, 4) == LATEENBAEL_REFUSED_LOG_FULL);
    CHECK(keep_store(&h, lateenbael_open_with_mode(AREAS(&h), 2 * PAGE, 32, 1, 1, 1)) == LATEENBAEL_OK);
    CHECK(refused_with(&h, 2, 4) == LATEENBAEL_REFUSED_READ_ONLY && refused_with(&h, 0, 9) == LATEENBAEL_REFUSED_READ_ONLY);
    CHECK(keep_store(&h, lateenbael_open_with_mode(AREAS(&h), 2 * PAGE, 0, 1, 0, 1)) == LATEENBAEL_OK);
    CHECK(refused_with(&h, 2, 4) == LATEENBAEL_REFUSED_READ_ONLY);
    free_host(&h);
}

/* Every other length of an area is refused with 1, before all else, and by the commit too. */
static void other_lengths(void) {
    host h = new_store(), before = same_host(&h);
    const size_t right[] = {LATEENBAEL_PAGES, LATEENBAEL_LOG_AREA, LATEENBAEL_MAIN_AREA, LATEENBAEL_STAGING_AREA};
    lateenbael_db_header none = {0, 0, 0, 0};
    for (size_t area = 0; area < 4; area++) {
        const size_t wrong[] = {0, 1, right[area] / 2, right[area] - 1, right[area] + 1, right[area] * 2, SIZE_MAX};
        for (size_t i = 0; i < sizeof wrong / sizeof *wrong; i++) {
            size_t n[] = {right[0], right[1], right[2], right[3]};
            n[area] = wrong[i];
            lateenbael_preview_answered shown =
                lateenbael_preview_commit(h.store, h.table, n[0], h.log, n[1], h.main, n[2], h.staging, n[3], none);
            lateenbael_answered a = lateenbael_commit(h.store, h.table, n[0], h.log, n[1], h.main, n[2], h.staging, n[3], none, 1);
            CHECK(shown.refusal == LATEENBAEL_REFUSED_AREA && came_to(a, &h.store, shown));
        }
    }
    CHECK(same_areas(&h, &before));
    free_host(&h);
    free_host(&before);
}

void test_preview(void) {
    without_a_checkpoint();
    with_a_checkpoint();
    behind_a_tail();
    refusals_in_their_order();
    refusals_alone();
    other_lengths();
}
