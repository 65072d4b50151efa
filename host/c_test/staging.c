/* How many pages are staged at a time, how a commit grows by them, and that no other area serves: the former one has refusal 1. */
#include "test.h"

#define MOST LATEENBAEL_STAGED_PAGES
#define FORMER_AREA 262144

/* So many pages from `first` on. */
static void stage_from(host *h, uint32_t first, uint32_t pages) {
    for (uint32_t page = first; page < first + pages; page++) {
        CHECK(stage(h, page, (uint8_t)page) == LATEENBAEL_OK);
    }
}

static void limit(void) {
    host h = new_store();
    stage_from(&h, 0, MOST);
    CHECK(h.store.staged.count == MOST && stage(&h, MOST, 1) == LATEENBAEL_REFUSED_STAGING);
    /* One of them anew, page 0 too; the others stay. A page that no store has is refused before. */
    CHECK(stage(&h, MOST - 1, 99) == LATEENBAEL_OK && reads_as(&h, MOST - 1, 99) && reads_as(&h, MOST - 2, MOST - 2));
    CHECK(stage(&h, 0, 98) == LATEENBAEL_OK && h.store.staged.count == MOST);
    CHECK(stage(&h, 1024, 1) == LATEENBAEL_REFUSED_PAGE && stage(&h, 1023, 1) == LATEENBAEL_REFUSED_STAGING);
    CHECK(keep_store(&h, lateenbael_clear_staged(h.store)) == LATEENBAEL_OK && stage(&h, 1023, 1) == LATEENBAEL_OK);
    free_host(&h);
}

static lateenbael_answered commit_to(host *h, uint32_t count) {
    lateenbael_db_header header = with_count(h, count);
    lateenbael_preview_answered shown = previewed(h, &h->store, header);
    lateenbael_answered a = lateenbael_commit(h->store, AREAS(h), header, 0xcd);
    CHECK(came_to(a, &h->store, shown));
    return a;
}

/* A new store has 2 pages: by so many as can be staged it grows at once, by one more it can't. */
static void growing(void) {
    host h = new_store();
    stage_from(&h, 2, MOST);
    CHECK(stage(&h, 2 + MOST, 1) == LATEENBAEL_REFUSED_STAGING);
    lateenbael_answered refused = commit_to(&h, 2 + MOST + 1);
    CHECK(refused.refusal == LATEENBAEL_REFUSED_JOINING && refused.answer == 2 + MOST && refused.store.staged.count == MOST);
    lateenbael_answered grown = commit_to(&h, 2 + MOST);
    CHECK(keep_store(&h, grown) == LATEENBAEL_OK && grown.answer == MOST && h.store.wal.frame_count == MOST + 1);
    CHECK(h.store.staged.count == 0 && reads_as(&h, 2, 2) && reads_as(&h, 1 + MOST, 1 + MOST));
    CHECK(found_in(&h, &h.store, 2 + MOST).area == LATEENBAEL_AREA_NONE);
    CHECK(commit_to(&h, 2 + MOST + 1).answer == 2 + MOST);
    free_host(&h);
}

static const uint8_t zeros[FORMER_AREA];

#define WITH(h, staging, size) (h)->table, LATEENBAEL_PAGES, (h)->log, LATEENBAEL_LOG_AREA, (h)->main, LATEENBAEL_MAIN_AREA, staging, size

/* Every call that is lent the staging area is refused with 1 where it has so many bytes, and changes none. */
static void area_of(host *h, uint8_t *staging, size_t size) {
    lateenbael_store s = h->store;
    size_t main_len = s.storage.len, log_len = s.wal.len;
    uint16_t numbers[MOST] = {0};
    uint8_t bytes[PAGE] = {0xff};
    CHECK(lateenbael_create(WITH(h, staging, size), 1).refusal == LATEENBAEL_REFUSED_AREA);
    CHECK(lateenbael_open_clean(WITH(h, staging, size), main_len, log_len, 0, 1, 1).refusal == LATEENBAEL_REFUSED_AREA);
    CHECK(lateenbael_open_with_mode(WITH(h, staging, size), main_len, log_len, 0, 1, 1).refusal == LATEENBAEL_REFUSED_AREA);
    CHECK(lateenbael_find_page(s, WITH(h, staging, size), 1).refusal == LATEENBAEL_REFUSED_AREA);
    CHECK(lateenbael_may_read(READING(&s), WITH(h, staging, size)) == LATEENBAEL_REFUSED_AREA);
    CHECK(lateenbael_stage_page(s, staging, size, 1, bytes, PAGE).refusal == LATEENBAEL_REFUSED_AREA);
    CHECK(lateenbael_stage_in(0, 1, 0, numbers, staging, size, bytes, PAGE).refusal == LATEENBAEL_REFUSED_AREA && numbers[0] == 0);
    CHECK(lateenbael_preview_commit(s, WITH(h, staging, size), s.current_header).refusal == LATEENBAEL_REFUSED_AREA);
    CHECK(lateenbael_begin_commit(s, WITH(h, staging, size), s.current_header, 1).refusal == LATEENBAEL_REFUSED_AREA);
    CHECK(lateenbael_commit(s, WITH(h, staging, size), s.current_header, 1).refusal == LATEENBAEL_REFUSED_AREA);
    CHECK(lateenbael_begin_checkpoint(s, WITH(h, staging, size), 1).refusal == LATEENBAEL_REFUSED_AREA);
    CHECK(lateenbael_checkpoint(s, WITH(h, staging, size), 1).refusal == LATEENBAEL_REFUSED_AREA);
    CHECK(lateenbael_next_step(s, WITH(h, staging, size)).refusal == LATEENBAEL_REFUSED_AREA);
    CHECK(memcmp(staging, zeros, FORMER_AREA) == 0);
}

static void other_areas(void) {
    const size_t sizes[] = {0,
                            PAGE,
                            LATEENBAEL_STAGING_AREA - PAGE,
                            LATEENBAEL_STAGING_AREA - 1,
                            LATEENBAEL_STAGING_AREA + 1,
                            LATEENBAEL_STAGING_AREA + PAGE,
                            FORMER_AREA};
    host h = new_store();
    uint8_t *staging = calloc(1, FORMER_AREA);
    stage_from(&h, 1, 1);
    CHECK(keep_store(&h, commit_to(&h, 2)) == LATEENBAEL_OK && stage(&h, 1, 3) == LATEENBAEL_OK);
    host before = same_host(&h);
    for (size_t i = 0; i < sizeof sizes / sizeof *sizes; i++) {
        area_of(&h, staging, sizes[i]);
    }
    CHECK(same_areas(&h, &before) && reads_as(&h, 1, 3));
    free(staging);
    free_host(&h);
    free_host(&before);
}

void test_staging(void) {
    CHECK(LATEENBAEL_STAGING_AREA == 98304);
    limit();
    growing();
    other_areas();
}
