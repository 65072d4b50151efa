/* Made-up stores: every call on one is refused or harmless, and writes no byte outside of the areas. */
#include "test.h"

static uint64_t state = 1;

static uint32_t random_number(void) {
    state = state * 6364136223846793005u + 1442695040888963407u;
    return (uint32_t)(state >> 33);
}

/* Numbers that a store might be made up of: small ones, ones near the limits, and any. */
static uint64_t some_number(void) {
    static const uint64_t often[] = {0,       1,       2,    31,   32,   4112,  4144,       4206608,
                                     4210720, 4210721, 1023, 1024, 1025, 65535, UINT32_MAX, UINT64_MAX};
    uint32_t n = random_number();
    if (n % 4 != 0) {
        return often[n / 4 % (sizeof often / sizeof *often)];
    }
    return (uint64_t)n << (random_number() % 33);
}

/* A good store with some of its numbers overwritten. */
static lateenbael_store forged(lateenbael_store store) {
    uint8_t *bytes = (uint8_t *)&store;
    for (unsigned left = 1 + random_number() % 12; left > 0; left--) {
        uint64_t number = some_number();
        size_t size = (size_t)2 << random_number() % 3;
        memcpy(bytes + random_number() % (sizeof store / size) * size, &number, size);
    }
    return store;
}

/* Over a table that is made up too: a commit is shown, and comes to that. */
static void shown_and_done(host *h, const lateenbael_store *store) {
    lateenbael_db_header header = {1 + random_number() % 4, 1, 4, 0};
    h->table[random_number() % 4] = (uint32_t)some_number();
    lateenbael_preview_answered shown = lateenbael_preview_commit(*store, AREAS(h), header);
    CHECK(came_to(lateenbael_commit(*store, AREAS(h), header, 1), store, shown));
}

/* Every call that takes a store. */
static void call_all(host *h, lateenbael_store store, const uint8_t *body) {
    lateenbael_db_header header = {2, 1, 4, 0};
    uint32_t page = (uint32_t)some_number();
    lateenbael_page_answer found = lateenbael_find_page(store, AREAS(h), page);
    const size_t sizes[] = {0, LATEENBAEL_LOG_AREA, LATEENBAEL_MAIN_AREA, LATEENBAEL_STAGING_AREA};
    CHECK(found.area <= LATEENBAEL_AREA_STAGING && (found.area == LATEENBAEL_AREA_NONE || found.at + PAGE <= sizes[found.area]));
    uint32_t refusal = lateenbael_may_read(READING(&store), AREAS(h));
    CHECK(refusal == LATEENBAEL_OK || refusal == LATEENBAEL_REFUSED_AREA || refusal == LATEENBAEL_REFUSED_BUSY);
    found =
        lateenbael_place_page(store.current_header.page_count, page, store.staged.count, store.staged.pages, h->table, LATEENBAEL_PAGES);
    CHECK(found.area <= LATEENBAEL_AREA_STAGING && (found.area == LATEENBAEL_AREA_NONE || found.at + PAGE <= sizes[found.area]));
    lateenbael_batch_place place = lateenbael_recovered_mvcc_commits(store, h->log, LATEENBAEL_LOG_AREA, (size_t)some_number());
    CHECK(place.found == 0 || place.offset + FRAME <= LATEENBAEL_LOG_AREA);
    lateenbael_header(store);
    lateenbael_access_mode(store);
    lateenbael_clock_high_water(store);
    lateenbael_observe_clock_high_water(store, some_number());
    lateenbael_clear_staged(store);
    lateenbael_stage_page(store, h->staging, LATEENBAEL_STAGING_AREA, (uint32_t)some_number(), body, PAGE);
    uint16_t staged[LATEENBAEL_STAGED_PAGES];
    memcpy(staged, store.staged.pages, sizeof staged);
    lateenbael_stage_in(store.job.kind, (uint32_t)some_number(), store.staged.count, staged, h->staging, LATEENBAEL_STAGING_AREA, body,
                        PAGE);
    lateenbael_append_mvcc_batch(store, h->log, LATEENBAEL_LOG_AREA, body, PAGE);
    lateenbael_begin_commit(store, AREAS(h), header, 1);
    lateenbael_begin_checkpoint(store, AREAS(h), 1);
    lateenbael_step_answered step = lateenbael_next_step(store, AREAS(h));
    size_t size = step.area == LATEENBAEL_AREA_LOG ? LATEENBAEL_LOG_AREA : LATEENBAEL_MAIN_AREA;
    CHECK(step.kind == LATEENBAEL_STEP_IDLE || (step.at <= size && step.len <= size - step.at));
    shown_and_done(h, &store);
    lateenbael_checkpoint(store, AREAS(h), 1);
}

/* A store with wrong lengths of areas beside it is refused by every call that looks at them. */
static void wrong_lengths(host *h) {
    lateenbael_db_header header = {2, 1, 4, 0};
    CHECK(lateenbael_find_page(h->store, h->table, 1023, h->log, LATEENBAEL_LOG_AREA, h->main, LATEENBAEL_MAIN_AREA, h->staging,
                               LATEENBAEL_STAGING_AREA, 1)
              .refusal == LATEENBAEL_REFUSED_AREA);
    CHECK(lateenbael_may_read(READING(&h->store), h->table, LATEENBAEL_PAGES, h->log, LATEENBAEL_LOG_AREA, h->main, LATEENBAEL_MAIN_AREA,
                              h->staging, 0) == LATEENBAEL_REFUSED_AREA);
    /* A count above the slots that there are. */
    CHECK(lateenbael_place_page(2, 1, SIZE_MAX, h->store.staged.pages, h->table, LATEENBAEL_PAGES).area == LATEENBAEL_AREA_MAIN);
    CHECK(lateenbael_commit(h->store, h->table, LATEENBAEL_PAGES, h->log, 32, h->main, LATEENBAEL_MAIN_AREA, h->staging,
                            LATEENBAEL_STAGING_AREA, header, 1)
              .refusal == LATEENBAEL_REFUSED_AREA);
    CHECK(lateenbael_next_step(h->store, h->table, LATEENBAEL_PAGES, h->log, LATEENBAEL_LOG_AREA, h->main, 0, h->staging,
                               LATEENBAEL_STAGING_AREA)
              .refusal == LATEENBAEL_REFUSED_AREA);
    CHECK(lateenbael_checkpoint(h->store, h->table, LATEENBAEL_PAGES, h->log, LATEENBAEL_LOG_AREA, h->main, LATEENBAEL_MAIN_AREA,
                                h->staging, 1, 1)
              .refusal == LATEENBAEL_REFUSED_AREA);
}

/* Room for the frames of two pages and no commit frame, and a table that says that one of the pages stands right at the log's length, where
 * its bytes lie already: the other page's frame would overwrite what it is compared with. */
static void table_past_the_log(host *h) {
    lateenbael_db_header header = {3, 1, 4, 0};
    size_t len = LATEENBAEL_LOG_AREA - 2 * FRAME;
    CHECK(stage(h, 1, 0x11) == LATEENBAEL_OK && stage(h, 2, 0x22) == LATEENBAEL_OK);
    lateenbael_store store = h->store;
    store.wal.len = len;
    memset(h->log + len + 16, 0x22, PAGE);
    h->table[2] = (uint32_t)(2 * len);
    CHECK(previewed(h, &store, header).refusal == LATEENBAEL_REFUSED_AREA);
    lateenbael_answered a = lateenbael_commit(store, AREAS(h), header, 1);
    CHECK(a.refusal == LATEENBAEL_REFUSED_AREA && a.store.job.kind == 0 && a.store.wal.len == len && a.store.staged.count == 2);
    CHECK(h->log[len] == 0 && h->log[len + 16] == 0x22 && h->table[2] == 2 * len);
    CHECK(lateenbael_begin_commit(store, AREAS(h), header, 1).refusal == LATEENBAEL_REFUSED_AREA);
    store.job.kind = 5;
    CHECK(lateenbael_begin_commit(store, AREAS(h), header, 1).refusal == LATEENBAEL_REFUSED_BUSY);
    CHECK(previewed(h, &store, header).refusal == LATEENBAEL_REFUSED_BUSY);
    store.job.kind = 0;
    /* One byte past the length is too much, one that ends right there is not; nor does a page matter that is not staged. */
    store.wal.len = len - FRAME;
    h->table[2] = (uint32_t)(2 * (len - 2 * FRAME + 1));
    CHECK(lateenbael_begin_commit(store, AREAS(h), header, 1).refusal == LATEENBAEL_REFUSED_AREA);
    CHECK(previewed(h, &store, header).refusal == LATEENBAEL_REFUSED_AREA);
    h->table[2] = (uint32_t)(2 * (len - 2 * FRAME));
    h->table[3] = UINT32_MAX;
    CHECK(previewed(h, &store, header).answer == 2);
    a = lateenbael_commit(store, AREAS(h), header, 1);
    CHECK(a.refusal == LATEENBAEL_OK && a.answer == 2 && a.store.job.kind == 0 && a.store.staged.count == 0);
    CHECK(a.store.wal.len == LATEENBAEL_LOG_AREA);
    h->table[2] = h->table[3] = 0;
    CHECK(keep_store(h, lateenbael_clear_staged(h->store)) == LATEENBAEL_OK);
}

/* A made-up number of frames counts on and wraps, as it does in a commit: only what it then is decides on a checkpoint. */
static void frames_that_wrap(host *h) {
    const struct {
        size_t frames, afterwards;
        uint32_t checkpointed;
    } table[] = {{97, 99, 0}, {98, 0, 1}, {UINT32_MAX, 0, 1}, {SIZE_MAX - 2, 0, 1}, {SIZE_MAX - 1, 0, 0}, {SIZE_MAX, 1, 0}};
    CHECK(stage(h, 1, 0x11) == LATEENBAEL_OK);
    for (size_t i = 0; i < sizeof table / sizeof *table; i++) {
        lateenbael_store store = h->store;
        store.wal.frame_count = table[i].frames;
        lateenbael_preview_answered shown = previewed(h, &store, header_of(h));
        CHECK(shown.refusal == LATEENBAEL_OK && shown.answer == 1);
        CHECK(shown.frame_count == table[i].afterwards && shown.checkpointed == table[i].checkpointed);
        CHECK(shown.log_len == (table[i].checkpointed ? 32 : 32 + 2 * FRAME) && shown.main_len == 2 * PAGE);
    }
    CHECK(keep_store(h, lateenbael_clear_staged(h->store)) == LATEENBAEL_OK);
}

void test_forged(void) {
    host h = new_store();
    uint8_t body[PAGE];
    wrong_lengths(&h);
    frames_that_wrap(&h);
    table_past_the_log(&h);
    CHECK(lateenbael_mvcc_start(body, PAGE, 1).refusal == LATEENBAEL_OK);
    for (unsigned n = 0; n < 3000; n++) {
        call_all(&h, forged(h.store), body);
    }
    lateenbael_store ones;
    memset(&ones, 0xff, sizeof ones);
    lateenbael_db_header header = {2, 1, 4, 0};
    CHECK(lateenbael_begin_commit(ones, AREAS(&h), header, 1).refusal == LATEENBAEL_REFUSED_AREA);
    CHECK(previewed(&h, &ones, header).refusal == LATEENBAEL_REFUSED_AREA);
    CHECK(lateenbael_next_step(ones, AREAS(&h)).kind == LATEENBAEL_STEP_IDLE);
    free_host(&h);
}
