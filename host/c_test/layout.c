/* The structs have the sizes and places that the proved exports have. */
#include "test.h"

#define SIZE(type, size) _Static_assert(sizeof(lateenbael_##type) == (size), "size of " #type)
#define PLACE(type, field, at) _Static_assert(offsetof(lateenbael_##type, field) == (at), "place of " #type "." #field)

_Static_assert(sizeof(size_t) == 8, "64 bits");

SIZE(db_header, 16);
PLACE(db_header, schema_root_page, 4);
PLACE(db_header, format_version, 8);
PLACE(db_header, freelist_head, 12);

SIZE(wal_header, 24);
PLACE(wal_header, salt, 4);
PLACE(wal_header, checkpoint_seq, 8);
PLACE(wal_header, clock_high_water, 16);

SIZE(wal, 64);
PLACE(wal, len, 24);
PLACE(wal, good_end, 32);
PLACE(wal, last_commit_offset, 40);
PLACE(wal, frame_count, 48);
PLACE(wal, committed, 56);
PLACE(wal, last_commit_page_count, 60);

SIZE(file_storage, 24);
PLACE(file_storage, header, 8);

/* A count, and the numbers. */
#define STAGED (8 + 2 * LATEENBAEL_STAGED_PAGES)

SIZE(staged, STAGED);
PLACE(staged, pages, 8);

SIZE(job, 40);
PLACE(job, salt, 4);
PLACE(job, page, 8);
PLACE(job, answer, 16);
PLACE(job, header, 24);

SIZE(store, 160 + STAGED);
PLACE(store, wal, 16);
PLACE(store, recovered, 80);
PLACE(store, storage, 88);
PLACE(store, staged, 112);
PLACE(store, job, 112 + STAGED);
PLACE(store, opening, 152 + STAGED);

SIZE(answered, 176 + STAGED);
PLACE(answered, begun, 4);
PLACE(answered, answer, 8);
PLACE(answered, store, 16);

SIZE(preview_answered, 40);
PLACE(preview_answered, checkpointed, 4);
PLACE(preview_answered, answer, 8);
PLACE(preview_answered, frame_count, 16);
PLACE(preview_answered, log_len, 24);
PLACE(preview_answered, main_len, 32);

SIZE(header_answer, 20);
PLACE(header_answer, header, 4);

SIZE(number_answer, 16);
PLACE(number_answer, number, 8);

SIZE(page_answer, 16);
PLACE(page_answer, area, 4);
PLACE(page_answer, at, 8);

SIZE(batch_place, 24);
PLACE(batch_place, found, 4);
PLACE(batch_place, index, 8);
PLACE(batch_place, offset, 16);

SIZE(step_answered, 200 + STAGED);
PLACE(step_answered, kind, 4);
PLACE(step_answered, area, 8);
PLACE(step_answered, flush, 12);
PLACE(step_answered, at, 16);
PLACE(step_answered, len, 24);
PLACE(step_answered, answer, 32);
PLACE(step_answered, store, 40);

SIZE(wal_answer, 72);
PLACE(wal_answer, wal, 8);

SIZE(wal_header_answer, 32);
PLACE(wal_header_answer, header, 8);

SIZE(frame_header, 16);
PLACE(frame_header, commit_page_count, 4);
PLACE(frame_header, salt, 8);
PLACE(frame_header, checksum, 12);

SIZE(frame_answer, 32);
PLACE(frame_answer, offset, 8);
PLACE(frame_answer, header, 16);

SIZE(list_answer, 16);
PLACE(list_answer, len, 8);

SIZE(text_place, 24);
PLACE(text_place, len, 8);
PLACE(text_place, chars, 16);

SIZE(text_answer, 16);
PLACE(text_answer, chars, 8);

SIZE(batch, 40);
PLACE(batch, commit_ts, 8);
PLACE(batch, records, 16);
PLACE(batch, end, 24);
PLACE(batch, items, 32);

SIZE(record, 64);
PLACE(record, op, 4);
PLACE(record, next, 8);
PLACE(record, table, 16);
PLACE(record, rowid, 40);
PLACE(record, count, 48);
PLACE(record, first, 56);

SIZE(value, 48);
PLACE(value, flag, 4);
PLACE(value, integer, 8);
PLACE(value, bits, 16);
PLACE(value, place, 24);

SIZE(value_answer, 64);
PLACE(value_answer, next, 8);
PLACE(value_answer, value, 16);

SIZE(column, 88);
PLACE(column, next, 8);
PLACE(column, name, 16);
PLACE(column, value, 40);

SIZE(element, 8);
PLACE(element, bits, 4);

SIZE(building, 16);
PLACE(building, at, 4);
PLACE(building, counted, 8);
PLACE(building, records, 12);
PLACE(building, columns, 14);

_Static_assert(LATEENBAEL_VERSION == 4000, "0.4.0 as one number");

/* Header and archive belong together, and every refusal has its name. */
static void names(void) {
    static const char *const expected[] = {"OK",       "Area",      "Short",    "Magic", "Version", "PageSize",  "Limit",   "MainShort",
                                           "PageZero", "Busy",      "ReadOnly", "Page",  "Staging", "NewHeader", "Joining", "LogFull",
                                           "Clock",    "Truncated", "Tag",      "Text",  "Fit",     "NoRecord",  "unknown"};
    CHECK(lateenbael_version() == LATEENBAEL_VERSION);
    for (uint32_t i = 0; i < sizeof expected / sizeof *expected; i++) {
        CHECK(strcmp(lateenbael_refusal_name(i), expected[i]) == 0);
    }
    CHECK(strcmp(lateenbael_refusal_name(LATEENBAEL_REFUSED_JOINING), "Joining") == 0);
    CHECK(strcmp(lateenbael_refusal_name(UINT32_MAX), "unknown") == 0);
}

/* The compiler has checked all of that; here, that a call fills the very fields that are named. */
void test_layout(void) {
    names();
    uint8_t buffer[PAGE];
    lateenbael_db_header header = {0x01020304, 0x05060708, 6, 0x0b0c0d0e};
    CHECK(lateenbael_encode_header(header, buffer, PAGE) == LATEENBAEL_OK);
    CHECK(memcmp(buffer + 16, "\x06\x00\x00\x10\x04\x03\x02\x01\x08\x07\x06\x05\x0e\x0d\x0c\x0b", 16) == 0);
    lateenbael_header_answer back = lateenbael_decode_header(buffer, PAGE);
    CHECK(back.refusal == LATEENBAEL_OK && back.header.page_count == header.page_count);
    CHECK(back.header.schema_root_page == header.schema_root_page && back.header.format_version == 6);
    CHECK(back.header.freelist_head == header.freelist_head);
    CHECK(lateenbael_encode_header(header, buffer, PAGE - 1) == LATEENBAEL_REFUSED_SHORT);
    buffer[18] = 1;
    CHECK(lateenbael_decode_header(buffer, PAGE).refusal == LATEENBAEL_REFUSED_PAGE_SIZE);
    buffer[16] = 7;
    CHECK(lateenbael_decode_header(buffer, PAGE).refusal == LATEENBAEL_REFUSED_VERSION);
    buffer[0] = 0;
    CHECK(lateenbael_decode_header(buffer, PAGE).refusal == LATEENBAEL_REFUSED_MAGIC);
    CHECK(lateenbael_decode_header(buffer, 0).refusal == LATEENBAEL_REFUSED_SHORT);
}
