/* Batches: built, walked, written as encoding writes them, refused, and their items counted. */
#include "test.h"

static uint8_t body[PAGE];

static const uint8_t *text(const char *s) {
    return (const uint8_t *)s;
}

static bool is_text(lateenbael_text_place place, const char *s, size_t chars) {
    return place.len == strlen(s) && place.chars == chars && memcmp(body + place.start, s, place.len) == 0;
}

/* Keeps what a call gives if it wasn't refused. */
static uint32_t keep_batch(lateenbael_building *b, lateenbael_building next) {
    if (next.refusal == LATEENBAEL_OK) {
        *b = next;
    }
    return next.refusal;
}

/* A row that is gone and one with a column of every kind. */
static void build(void) {
    static const uint8_t elements[] = {0, 0, 0xc0, 0x3f, 0, 0, 0, 0x80};
    static const uint8_t long_text[PAGE];
    lateenbael_building b = lateenbael_mvcc_start(body, PAGE, 0x0102030405060708);
    CHECK(b.refusal == LATEENBAEL_OK && b.at == LATEENBAEL_FIRST_RECORD && b.records == 0);
    CHECK(keep_batch(&b, lateenbael_mvcc_add_null(body, PAGE, b, text("early"), 5)) == LATEENBAEL_REFUSED_NO_RECORD);
    CHECK(keep_batch(&b, lateenbael_mvcc_add_tombstone(body, PAGE, b, text("cabins"), 6, -3)) == LATEENBAEL_OK);
    CHECK(keep_batch(&b, lateenbael_mvcc_begin_present(body, PAGE, b, text("grips"), 5, 7)) == LATEENBAEL_OK);
    CHECK(keep_batch(&b, lateenbael_mvcc_add_null(body, PAGE, b, text("a"), 1)) == LATEENBAEL_OK);
    CHECK(keep_batch(&b, lateenbael_mvcc_add_integer(body, PAGE, b, text("b"), 1, -5)) == LATEENBAEL_OK);
    CHECK(keep_batch(&b, lateenbael_mvcc_add_real_bits(body, PAGE, b, text("c"), 1, 0x7ff8000000000001)) == LATEENBAEL_OK);
    CHECK(keep_batch(&b, lateenbael_mvcc_add_text(body, PAGE, b, text("d"), 1, text("gr\xc3\xbcn"), 5)) == LATEENBAEL_OK);
    CHECK(keep_batch(&b, lateenbael_mvcc_add_bool(body, PAGE, b, text("e"), 1, 2)) == LATEENBAEL_OK);
    CHECK(keep_batch(&b, lateenbael_mvcc_add_vector(body, PAGE, b, text("f"), 1, elements, 8)) == LATEENBAEL_OK);
    CHECK(b.records == 2 && b.columns == 6);
    CHECK(keep_batch(&b, lateenbael_mvcc_add_vector(body, PAGE, b, text("g"), 1, elements, 7)) == LATEENBAEL_REFUSED_TRUNCATED);
    CHECK(keep_batch(&b, lateenbael_mvcc_add_text(body, PAGE, b, text("g"), 1, text("\xc0\x80"), 2)) == LATEENBAEL_REFUSED_TEXT);
    CHECK(keep_batch(&b, lateenbael_mvcc_add_text(body, PAGE, b, text("g"), 1, long_text, PAGE)) == LATEENBAEL_REFUSED_FIT);
    CHECK(keep_batch(&b, lateenbael_mvcc_add_bool(body, PAGE - 1, b, text("g"), 1, 1)) == LATEENBAEL_REFUSED_AREA);
}

static void walk(void) {
    lateenbael_batch batch = lateenbael_mvcc_decode(body, PAGE);
    CHECK(batch.refusal == LATEENBAEL_OK && batch.commit_ts == 0x0102030405060708 && batch.records == 2);
    lateenbael_record gone = lateenbael_mvcc_decode_record(body, PAGE, LATEENBAEL_FIRST_RECORD);
    CHECK(gone.refusal == LATEENBAEL_OK && gone.op == 0 && gone.rowid == -3 && is_text(gone.table, "cabins", 6));
    lateenbael_record there = lateenbael_mvcc_decode_record(body, PAGE, gone.next);
    CHECK(there.refusal == LATEENBAEL_OK && there.op == 1 && there.rowid == 7 && there.count == 6 && is_text(there.table, "grips", 5));
    CHECK(there.next == batch.end);
    lateenbael_value values[6];
    size_t at = there.first;
    for (uint32_t i = 0; i < 6; i++) {
        const char name[] = {(char)('a' + i), 0};
        lateenbael_column column = lateenbael_mvcc_decode_column(body, PAGE, at);
        lateenbael_value_answer alone = lateenbael_mvcc_decode_value(body, PAGE, column.name.start + column.name.len);
        CHECK(column.refusal == LATEENBAEL_OK && column.value.tag == i && is_text(column.name, name, 1));
        CHECK(alone.next == column.next && memcmp(&alone.value, &column.value, sizeof column.value) == 0);
        CHECK(is_no_place(column.value.place) == (i != LATEENBAEL_VALUE_TEXT && i != LATEENBAEL_VALUE_VECTOR));
        values[i] = column.value;
        at = column.next;
    }
    CHECK(at == there.next && values[LATEENBAEL_VALUE_INTEGER].integer == -5);
    CHECK(values[LATEENBAEL_VALUE_REAL].bits == 0x7ff8000000000001 && values[LATEENBAEL_VALUE_BOOL].flag == 1);
    CHECK(is_text(values[LATEENBAEL_VALUE_TEXT].place, "gr\xc3\xbcn", 4));
    lateenbael_text_place vector = values[LATEENBAEL_VALUE_VECTOR].place;
    CHECK(vector.len == 2 && vector.chars == 0);
    CHECK(lateenbael_mvcc_vector_bits(body, PAGE, vector.start, vector.len, 0).bits == 0x3fc00000);
    CHECK(lateenbael_mvcc_vector_bits(body, PAGE, vector.start, vector.len, 1).bits == 0x80000000);
    CHECK(lateenbael_mvcc_vector_bits(body, PAGE, vector.start, vector.len, 2).found == 0);
}

/* Encoding writes bools as 0 or 1 and zeros behind the last record. */
static void canonical(void) {
    uint8_t other[PAGE], out[PAGE + 1];
    lateenbael_batch batch = lateenbael_mvcc_decode(body, PAGE);
    memcpy(other, body, PAGE);
    other[PAGE - 1] = 1;
    for (size_t i = 0; i + 4 < batch.end; i++) {
        if (memcmp(other + i, "e\4\1", 3) == 0) {
            other[i + 2] = 2;
        }
    }
    CHECK(memcmp(other, body, PAGE - 1) != 0);
    CHECK(lateenbael_mvcc_canonicalize(other, PAGE, out, PAGE) == LATEENBAEL_OK && memcmp(out, body, PAGE) == 0);
    CHECK(lateenbael_mvcc_canonicalize(other, PAGE, out, PAGE + 1) == LATEENBAEL_REFUSED_AREA);
    CHECK(lateenbael_mvcc_canonicalize(other, 17, out, PAGE) == LATEENBAEL_REFUSED_SHORT);
}

/* Whether a body is refused so, after so many items. */
static bool is_refused(lateenbael_batch b, uint32_t refusal, size_t items) {
    return b.refusal == refusal && b.items == items && b.commit_ts == 0 && b.records == 0 && b.end == 0;
}

/* The body with one byte changed. */
static lateenbael_batch decoded_with(size_t at, uint8_t byte) {
    uint8_t damaged[PAGE];
    memcpy(damaged, body, PAGE);
    damaged[at] = byte;
    return lateenbael_mvcc_decode(damaged, PAGE);
}

/* The body with a count of 65,535 at a place. */
static lateenbael_batch decoded_with_most(size_t at) {
    uint8_t claimed[PAGE];
    memcpy(claimed, body, PAGE);
    claimed[at] = claimed[at + 1] = 0xff;
    return lateenbael_mvcc_decode(claimed, PAGE);
}

static void refusals(void) {
    CHECK(is_refused(lateenbael_mvcc_decode(body, 17), LATEENBAEL_REFUSED_SHORT, 0));
    CHECK(is_refused(decoded_with(0, 'm'), LATEENBAEL_REFUSED_MAGIC, 0));
    CHECK(is_refused(lateenbael_mvcc_decode(body, 60), LATEENBAEL_REFUSED_TRUNCATED, 3));
    CHECK(is_refused(decoded_with(LATEENBAEL_FIRST_RECORD, 2), LATEENBAEL_REFUSED_TAG, 0));
    CHECK(is_refused(decoded_with(LATEENBAEL_FIRST_RECORD + 3, 0xff), LATEENBAEL_REFUSED_TEXT, 0));
    CHECK(lateenbael_mvcc_decode_record(body, PAGE, SIZE_MAX).refusal == LATEENBAEL_REFUSED_TRUNCATED);
    CHECK(lateenbael_mvcc_decode_column(body, PAGE, PAGE).refusal == LATEENBAEL_REFUSED_TRUNCATED);
    CHECK(lateenbael_mvcc_decode_value(body, PAGE, PAGE).refusal == LATEENBAEL_REFUSED_TRUNCATED);
    CHECK(lateenbael_mvcc_start(body, PAGE + 1, 1).refusal == LATEENBAEL_REFUSED_AREA);
}

/* Where each of the eight items is read to its end: the row that is gone, the one that is there (its column count), and its columns. */
static void item_ends(size_t ends[8]) {
    lateenbael_record gone = lateenbael_mvcc_decode_record(body, PAGE, LATEENBAEL_FIRST_RECORD);
    lateenbael_record there = lateenbael_mvcc_decode_record(body, PAGE, gone.next);
    ends[0] = gone.next;
    ends[1] = there.first;
    for (size_t i = 2; i < 8; i++) {
        ends[i] = lateenbael_mvcc_decode_column(body, PAGE, ends[i - 1]).next;
    }
}

/* Every cut has the items that end in it. */
static void items_of_cuts(void) {
    size_t ends[8];
    item_ends(ends);
    lateenbael_batch whole = lateenbael_mvcc_decode(body, PAGE);
    CHECK(whole.refusal == LATEENBAEL_OK && whole.items == 8 && whole.end == ends[7]);
    for (size_t len = 0, items = 0; len < whole.end; len++) {
        items += len == ends[items];
        uint32_t refusal = len < LATEENBAEL_FIRST_RECORD ? LATEENBAEL_REFUSED_SHORT : LATEENBAEL_REFUSED_TRUNCATED;
        CHECK(is_refused(lateenbael_mvcc_decode(body, len), refusal, items));
    }
    lateenbael_batch cut = lateenbael_mvcc_decode(body, whole.end);
    CHECK(cut.refusal == LATEENBAEL_OK && cut.items == 8 && cut.end == whole.end);
}

/* What is damaged does not count, nor what stands behind it. Behind the batch are zeros: rows that are gone, or null columns. */
static void items_of_damaged(void) {
    size_t ends[8];
    item_ends(ends);
    CHECK(is_refused(decoded_with(ends[0], 2), LATEENBAEL_REFUSED_TAG, 1));
    CHECK(is_refused(decoded_with(ends[0] + 3, 0xff), LATEENBAEL_REFUSED_TEXT, 1));
    for (size_t i = 1; i < 7; i++) {
        /* a column: the name's length (2 bytes), its one letter, the value's tag */
        CHECK(is_refused(decoded_with(ends[i] + 1, 0xff), LATEENBAEL_REFUSED_TRUNCATED, i + 1));
        CHECK(is_refused(decoded_with(ends[i] + 2, 0xff), LATEENBAEL_REFUSED_TEXT, i + 1));
        CHECK(is_refused(decoded_with(ends[i] + 3, 6), LATEENBAEL_REFUSED_TAG, i + 1));
    }
    /* the last byte of the one text: the columns have their tags' order */
    size_t item = 2 + LATEENBAEL_VALUE_TEXT;
    CHECK(is_refused(decoded_with(ends[item] - 1, 0xff), LATEENBAEL_REFUSED_TEXT, item));
    CHECK(is_refused(decoded_with_most(LATEENBAEL_FIRST_RECORD - 2), LATEENBAEL_REFUSED_TRUNCATED, 8 + (PAGE - ends[7]) / 11));
    CHECK(is_refused(decoded_with_most(ends[1] - 2), LATEENBAEL_REFUSED_TRUNCATED, 8 + (PAGE - ends[7]) / 3));
}

/* Document 01: 1,355 null columns with empty names fill a body. It has the most items that there can be, also where it claims more. */
static void most_items(void) {
    lateenbael_building b = lateenbael_mvcc_start(body, PAGE, 1);
    CHECK(keep_batch(&b, lateenbael_mvcc_begin_present(body, PAGE, b, text(""), 0, 1)) == LATEENBAEL_OK);
    for (size_t i = 0; i < LATEENBAEL_MOST_ITEMS - 1; i++) {
        CHECK(keep_batch(&b, lateenbael_mvcc_add_null(body, PAGE, b, text(""), 0)) == LATEENBAEL_OK);
    }
    CHECK(keep_batch(&b, lateenbael_mvcc_add_null(body, PAGE, b, text(""), 0)) == LATEENBAEL_REFUSED_FIT);
    lateenbael_batch batch = lateenbael_mvcc_decode(body, PAGE);
    CHECK(batch.refusal == LATEENBAEL_OK && batch.records == 1 && batch.end == PAGE && batch.items == LATEENBAEL_MOST_ITEMS);
    CHECK(is_refused(lateenbael_mvcc_decode(body, PAGE - 1), LATEENBAEL_REFUSED_TRUNCATED, LATEENBAEL_MOST_ITEMS - 1));
    CHECK(is_refused(decoded_with_most(LATEENBAEL_FIRST_RECORD - 2), LATEENBAEL_REFUSED_TRUNCATED, LATEENBAEL_MOST_ITEMS));
    CHECK(is_refused(decoded_with_most(b.counted), LATEENBAEL_REFUSED_TRUNCATED, LATEENBAEL_MOST_ITEMS));
    /* A longer body can have more: a null column takes three bytes. */
    uint8_t longer[PAGE + 3] = {0};
    memcpy(longer, body, PAGE);
    longer[b.counted]++;
    CHECK(is_refused(lateenbael_mvcc_decode(longer, PAGE + 2), LATEENBAEL_REFUSED_TRUNCATED, LATEENBAEL_MOST_ITEMS));
    CHECK(lateenbael_mvcc_decode(longer, PAGE + 3).items == LATEENBAEL_MOST_ITEMS + 1);
}

/* Document 01: 370 tombstones with empty table names fit, 371 don't. */
static void fullest(void) {
    lateenbael_building b = lateenbael_mvcc_start(body, PAGE, 1);
    for (int64_t row = 0; row < 370; row++) {
        CHECK(keep_batch(&b, lateenbael_mvcc_add_tombstone(body, PAGE, b, text(""), 0, row)) == LATEENBAEL_OK);
    }
    CHECK(keep_batch(&b, lateenbael_mvcc_add_tombstone(body, PAGE, b, text(""), 0, 370)) == LATEENBAEL_REFUSED_FIT);
    lateenbael_batch batch = lateenbael_mvcc_decode(body, PAGE);
    CHECK(batch.refusal == LATEENBAEL_OK && batch.records == 370 && batch.items == 370);
    CHECK(is_refused(decoded_with_most(LATEENBAEL_FIRST_RECORD - 2), LATEENBAEL_REFUSED_TRUNCATED, 370));
}

void test_batch(void) {
    build();
    walk();
    canonical();
    refusals();
    items_of_cuts();
    items_of_damaged();
    most_items();
    fullest();
}
