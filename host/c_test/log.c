/* The log alone: written, opened, listed and read. */
#include "test.h"

static uint8_t log_area[LATEENBAEL_LOG_AREA];
static uint8_t before[LATEENBAEL_LOG_AREA];
static uint8_t page[PAGE];

static lateenbael_wal appended(lateenbael_wal wal, uint32_t page_num, uint32_t count) {
    lateenbael_wal_answer a = lateenbael_wal_append_frame(log_area, sizeof log_area, wal, page_num, page, PAGE, count);
    CHECK(a.refusal == LATEENBAEL_OK && a.wal.len == wal.len + FRAME);
    return a.wal;
}

/* Document 01's sample: salt 0, page 1 with zero bytes, then the same as a commit frame with count 2. */
static void sample(void) {
    const char *lines = "log 3 00000000 0 0\n0 page 1 0\n1 page 1 2\nend 2 8256 2\n";
    uint8_t out[LATEENBAEL_LISTING_SIZE] = {0};
    lateenbael_wal wal = lateenbael_wal_create(log_area, sizeof log_area, 0).wal;
    wal = appended(appended(wal, 1, 0), 1, 2);
    CHECK(wal.len == 8256 && wal.last_commit_offset == 8256 && wal.frame_count == 2 && wal.committed == 1);
    lateenbael_list_answer listed = lateenbael_list_log(log_area, wal.len, out, sizeof out);
    CHECK(listed.refusal == LATEENBAEL_OK && listed.len == strlen(lines) && memcmp(out, lines, listed.len) == 0);
    CHECK(lateenbael_list_log(log_area, wal.len, out, sizeof out - 1).refusal == LATEENBAEL_REFUSED_AREA);
    CHECK(lateenbael_wal_frame_at(log_area, wal.len, 0).header.checksum == 2048);
    lateenbael_frame_answer second = lateenbael_wal_frame_at(log_area, wal.len, 1);
    CHECK(second.found == 1 && second.offset == 4144 && second.header.checksum == 2304);
    CHECK(second.header.page_num == 1 && second.header.commit_page_count == 2 && second.header.salt == 0);
    CHECK(lateenbael_wal_frame_at(log_area, wal.len, 2).found == 0);
    CHECK(lateenbael_wal_frame_at(log_area, 8255, 1).found == 0);
}

/* Whether wal_find_page finds a page at a place, or nowhere (0). */
static bool found_at(lateenbael_wal wal, uint32_t page_num, size_t at) {
    lateenbael_page_answer found = lateenbael_wal_find_page(log_area, wal.len, wal, page_num);
    uint32_t area = at == 0 ? LATEENBAEL_AREA_NONE : LATEENBAEL_AREA_LOG;
    return found.refusal == LATEENBAEL_OK && found.area == area && found.at == at;
}

static void pages_and_batches(void) {
    uint8_t body[PAGE];
    CHECK(lateenbael_mvcc_start(body, PAGE, 9).refusal == LATEENBAEL_OK);
    lateenbael_wal wal = lateenbael_wal_create(log_area, sizeof log_area, 0xab).wal;
    memset(page, 4, PAGE);
    wal = appended(wal, 4, 0);
    lateenbael_wal_answer batch = lateenbael_wal_append_mvcc_batch(log_area, sizeof log_area, wal, body, PAGE);
    CHECK(batch.refusal == LATEENBAEL_OK);
    CHECK(lateenbael_wal_next_batch(log_area, batch.wal.len, batch.wal, 0).found == 0);
    CHECK(found_at(batch.wal, 4, 0));
    wal = appended(appended(batch.wal, 4, 5), 6, 0);
    /* The batch that this session committed is found at once, and is no page. */
    CHECK(lateenbael_wal_next_batch(log_area, wal.len, wal, 0).offset == 32 + FRAME && found_at(wal, LATEENBAEL_MVCC_FRAME_MARKER, 0));
    lateenbael_wal_answer opened = lateenbael_wal_open(log_area, wal.len);
    CHECK(opened.refusal == LATEENBAEL_OK && opened.wal.len == wal.len && opened.wal.frame_count == 4 && wal.frame_count == 4);
    CHECK(opened.wal.good_end == 32 + 4 * FRAME && wal.good_end == opened.wal.good_end);
    CHECK(opened.wal.last_commit_offset == 32 + 3 * FRAME && wal.last_commit_offset == opened.wal.last_commit_offset);
    CHECK(opened.wal.last_commit_page_count == 5 && opened.wal.header.salt == 0xab);
    lateenbael_batch_place place = lateenbael_wal_next_batch(log_area, wal.len, opened.wal, 0);
    CHECK(place.refusal == LATEENBAEL_OK && place.found == 1 && place.index == 1 && place.offset == 32 + FRAME);
    CHECK(lateenbael_wal_next_batch(log_area, wal.len, opened.wal, 2).found == 0);
    CHECK(found_at(opened.wal, 4, 32 + 2 * FRAME + 16));
    CHECK(found_at(opened.wal, 6, 0) && found_at(opened.wal, LATEENBAEL_MVCC_FRAME_MARKER, 0));
    log_area[32 + 2 * FRAME + 100] ^= 1;
    CHECK(lateenbael_wal_open(log_area, wal.len).wal.last_commit_offset == 32);
}

static void clocks_and_emptying(void) {
    lateenbael_wal wal = lateenbael_wal_create(log_area, sizeof log_area, 1).wal;
    lateenbael_wal_answer set = lateenbael_wal_set_clock_high_water(appended(wal, 1, 2), 77);
    CHECK(set.refusal == LATEENBAEL_OK && set.wal.header.clock_high_water == 77);
    CHECK(lateenbael_wal_set_clock_high_water(set.wal, 76).refusal == LATEENBAEL_REFUSED_CLOCK);
    lateenbael_wal_answer empty = lateenbael_wal_truncate(log_area, sizeof log_area, set.wal, 2);
    CHECK(empty.refusal == LATEENBAEL_OK && empty.wal.len == 32 && empty.wal.frame_count == 0);
    lateenbael_wal_header_answer header = lateenbael_decode_wal_header(log_area, 32);
    CHECK(header.refusal == LATEENBAEL_OK && header.header.version == 3 && header.header.salt == 2);
    CHECK(header.header.checkpoint_seq == 1 && header.header.clock_high_water == 77);
    header.header.salt = 0x01020304;
    CHECK(lateenbael_encode_wal_header(header.header, log_area, 32) == LATEENBAEL_OK && log_area[16] == 4 && log_area[19] == 1);
    CHECK(lateenbael_encode_wal_header(header.header, log_area, 31) == LATEENBAEL_REFUSED_AREA);
}

static void refusals(void) {
    lateenbael_wal wal = lateenbael_wal_create(log_area, sizeof log_area, 1).wal;
    CHECK(lateenbael_wal_create(log_area, sizeof log_area - 1, 1).refusal == LATEENBAEL_REFUSED_AREA);
    CHECK(lateenbael_wal_truncate(log_area, 0, wal, 1).refusal == LATEENBAEL_REFUSED_AREA);
    CHECK(lateenbael_wal_append_frame(log_area, sizeof log_area, wal, 1, page, PAGE - 1, 0).refusal == LATEENBAEL_REFUSED_AREA);
    CHECK(lateenbael_wal_append_mvcc_batch(log_area, sizeof log_area, wal, page, 17).refusal == LATEENBAEL_REFUSED_SHORT);
    CHECK(lateenbael_wal_append_mvcc_batch(log_area, sizeof log_area, wal, page, PAGE).refusal == LATEENBAEL_REFUSED_MAGIC);
    wal.len = LATEENBAEL_LOG_AREA - FRAME + 1;
    CHECK(lateenbael_wal_append_frame(log_area, sizeof log_area, wal, 1, page, PAGE, 0).refusal == LATEENBAEL_REFUSED_LOG_FULL);
    /* A made-up log that is longer than its area. */
    wal.len = LATEENBAEL_LOG_AREA + 1;
    memcpy(before, log_area, sizeof before);
    CHECK(lateenbael_wal_append_frame(log_area, sizeof log_area, wal, 1, page, PAGE, 0).refusal == LATEENBAEL_REFUSED_AREA);
    CHECK(lateenbael_wal_truncate(log_area, sizeof log_area, wal, 2).refusal == LATEENBAEL_REFUSED_AREA);
    CHECK(memcmp(before, log_area, sizeof before) == 0);
    wal.len = LATEENBAEL_LOG_AREA;
    CHECK(lateenbael_wal_truncate(log_area, sizeof log_area, wal, 2).refusal == LATEENBAEL_OK);
    CHECK(lateenbael_wal_open(log_area, 31).refusal == LATEENBAEL_REFUSED_SHORT);
    log_area[12] = 1;
    CHECK(lateenbael_wal_open(log_area, 32).refusal == LATEENBAEL_REFUSED_PAGE_SIZE);
    log_area[8] = 0;
    CHECK(lateenbael_wal_open(log_area, 32).refusal == LATEENBAEL_REFUSED_VERSION);
    log_area[0] = 0;
    CHECK(lateenbael_wal_open(log_area, 32).refusal == LATEENBAEL_REFUSED_MAGIC);
    CHECK(lateenbael_decode_wal_header(log_area, 32).refusal == LATEENBAEL_REFUSED_MAGIC);
}

void test_log(void) {
    sample();
    pages_and_batches();
    clocks_and_emptying();
    refusals();
}
