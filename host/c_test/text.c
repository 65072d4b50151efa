/* Texts: whether bytes are UTF-8 and how many characters they are, by themselves and as a batch's names and texts. */
#include "test.h"

typedef struct {
    const char *bytes;
    size_t len, chars;
} sample;

/* With the length: a NUL is a character too. */
#define TEXT(s) s, sizeof(s) - 1

static const sample good[] = {
    {TEXT(""), 0},
    {TEXT("\0"), 1},
    {TEXT("a"), 1},
    {TEXT("\x7f"), 1},
    {TEXT("\xc2\x80"), 1}, /* the first and last of 2 bytes, U+0080 and U+07FF */
    {TEXT("\xdf\xbf"), 1},
    {TEXT("\xe0\xa0\x80"), 1}, /* of 3 bytes, U+0800 and U+FFFF, which is a noncharacter */
    {TEXT("\xef\xbf\xbf"), 1},
    {TEXT("\xed\x9f\xbf"), 1}, /* beside the surrogates, U+D7FF and U+E000 */
    {TEXT("\xee\x80\x80"), 1},
    {TEXT("\xef\xbb\xbf"), 1},     /* a byte order mark */
    {TEXT("\xf0\x90\x80\x80"), 1}, /* of 4 bytes, U+10000 and U+10FFFF */
    {TEXT("\xf4\x8f\xbf\xbf"), 1},
    {TEXT("e\xcc\x81"), 2}, /* a letter and a combining mark: one sign on the panel, two characters */
    {TEXT("Gr\xc3\xbcn \xe2\x82\xac\xf0\x9f\x9a\xa0"), 7},
    {TEXT("\xef\xbb\xbf"
          "a\0\xc3\xbc"
          "e\xcc\x81\xef\xbf\xbf"),
     7},
};

static const sample bad[] = {
    {TEXT("\xc3"), 0}, /* cut off */
    {TEXT("\xe2\x82"), 0},
    {TEXT("\xf0\x9f\x9a"), 0},
    {TEXT("\xc0\x80"), 0}, /* longer than it needs to be */
    {TEXT("\xe0\x9f\xbf"), 0},
    {TEXT("\xf0\x8f\xbf\xbf"), 0},
    {TEXT("\xed\xa0\x80"), 0},     /* a surrogate */
    {TEXT("\xf4\x90\x80\x80"), 0}, /* above U+10FFFF */
    {TEXT("\x80"), 0},
    {TEXT("Gr\xc3\xbcn\xff"), 0}, /* what was good before it is not told */
};

#define COUNT(samples) (sizeof(samples) / sizeof *(samples))

static const uint8_t *bytes_of(const sample *s) {
    return (const uint8_t *)s->bytes;
}

static void alone(void) {
    for (size_t i = 0; i < COUNT(good); i++) {
        lateenbael_text_answer a = lateenbael_from_utf8(bytes_of(&good[i]), good[i].len);
        CHECK(a.refusal == LATEENBAEL_OK && a.chars == good[i].chars);
    }
    for (size_t i = 0; i < COUNT(bad); i++) {
        lateenbael_text_answer a = lateenbael_from_utf8(bytes_of(&bad[i]), bad[i].len);
        CHECK(a.refusal == LATEENBAEL_REFUSED_TEXT && a.chars == 0);
    }
}

/* ---- a long text: characters of 1 to 4 bytes in turn, as many bytes as a batch has behind its head */

#define LONG_BYTES 4078
#define LONG_CHARS 1632

static void fill_long(uint8_t text[LONG_BYTES]) {
    static const char mixed[] = "a\xc3\xbc\xe2\x82\xac\xf0\x9f\x9a\xa0", last[] = "a\xc3\xbc\xe2\x82\xac\xc3\xbc";
    for (size_t i = 0; i < LONG_BYTES; i++) {
        text[i] = (uint8_t)(i < LONG_BYTES - 8 ? mixed[i % 10] : last[i % 10]);
    }
}

static bool follows(uint8_t byte) {
    return (byte & 0xc0) == 0x80;
}

/* All of it, and each beginning: one that cuts a character is refused. */
static void long_text(void) {
    uint8_t text[LONG_BYTES];
    size_t chars = 0, wrong = 0;
    fill_long(text);
    lateenbael_text_answer whole = lateenbael_from_utf8(text, LONG_BYTES);
    CHECK(whole.refusal == LATEENBAEL_OK && whole.chars == LONG_CHARS);
    for (size_t len = 0; len < LONG_BYTES; len++) {
        lateenbael_text_answer a = lateenbael_from_utf8(text, len);
        bool cut = follows(text[len]);
        uint32_t refusal = cut ? LATEENBAEL_REFUSED_TEXT : LATEENBAEL_OK;
        wrong += a.refusal != refusal || a.chars != (cut ? 0 : chars);
        chars += !cut;
    }
    CHECK(chars == LONG_CHARS && wrong == 0);
    text[LONG_BYTES - 1] = 0xff;
    whole = lateenbael_from_utf8(text, LONG_BYTES);
    CHECK(whole.refusal == LATEENBAEL_REFUSED_TEXT && whole.chars == 0);
}

/* ---- in a batch */

static uint8_t body[PAGE];

/* A row that is gone and one that is there, with the same table's name, column's name and text, and a vector. */
static void build(const sample *s) {
    static const uint8_t elements[] = {'g', 'r', 'i', 'p'};
    const uint8_t *text = bytes_of(s);
    lateenbael_building b = lateenbael_mvcc_start(body, PAGE, 6);
    b = lateenbael_mvcc_add_tombstone(body, PAGE, b, text, s->len, -3);
    b = lateenbael_mvcc_begin_present(body, PAGE, b, text, s->len, 7);
    b = lateenbael_mvcc_add_text(body, PAGE, b, text, s->len, text, s->len);
    b = lateenbael_mvcc_add_vector(body, PAGE, b, text, s->len, elements, sizeof elements);
    CHECK(b.refusal == LATEENBAEL_OK && b.records == 2 && b.columns == 2);
}

static bool is_text(const uint8_t *in, lateenbael_text_place place, const sample *s) {
    return place.len == s->len && place.chars == s->chars && memcmp(in + place.start, s->bytes, s->len) == 0;
}

static void walk(const uint8_t *in, const sample *s) {
    lateenbael_record gone = lateenbael_mvcc_decode_record(in, PAGE, LATEENBAEL_FIRST_RECORD);
    lateenbael_record there = lateenbael_mvcc_decode_record(in, PAGE, gone.next);
    lateenbael_column text = lateenbael_mvcc_decode_column(in, PAGE, there.first);
    lateenbael_value_answer value = lateenbael_mvcc_decode_value(in, PAGE, text.name.start + text.name.len);
    lateenbael_column vector = lateenbael_mvcc_decode_column(in, PAGE, text.next);
    CHECK(lateenbael_mvcc_decode(in, PAGE).records == 2 && there.next == vector.next);
    CHECK(is_text(in, gone.table, s) && is_text(in, there.table, s));
    CHECK(is_text(in, text.name, s) && is_text(in, vector.name, s));
    CHECK(text.value.tag == LATEENBAEL_VALUE_TEXT && is_text(in, text.value.place, s) && is_text(in, value.value.place, s));
    CHECK(vector.value.tag == LATEENBAEL_VALUE_VECTOR && vector.value.place.len == 1 && vector.value.place.chars == 0);
}

static void in_batches(void) {
    uint8_t out[PAGE];
    for (size_t i = 0; i < COUNT(good); i++) {
        build(&good[i]);
        walk(body, &good[i]);
        body[PAGE - 1] = 1;
        CHECK(lateenbael_mvcc_canonicalize(body, PAGE, out, PAGE) == LATEENBAEL_OK && out[PAGE - 1] == 0);
        walk(out, &good[i]);
    }
}

/* The longest text that a column has room for: a row takes 13 bytes, a text column 7. */
static void longest(void) {
    uint8_t text[LONG_BYTES];
    fill_long(text);
    lateenbael_building b = lateenbael_mvcc_start(body, PAGE, 6);
    b = lateenbael_mvcc_begin_present(body, PAGE, b, text, 0, 7);
    CHECK(lateenbael_mvcc_add_text(body, PAGE, b, text, 0, text + 10, LONG_BYTES - 10).refusal == LATEENBAEL_REFUSED_FIT);
    CHECK(lateenbael_mvcc_add_text(body, PAGE, b, text, 0, text + 20, LONG_BYTES - 20).refusal == LATEENBAEL_OK);
    lateenbael_record record = lateenbael_mvcc_decode_record(body, PAGE, LATEENBAEL_FIRST_RECORD);
    lateenbael_text_place place = lateenbael_mvcc_decode_column(body, PAGE, record.first).value.place;
    CHECK(place.start + place.len == PAGE && place.len == LONG_BYTES - 20 && place.chars == LONG_CHARS - 8);
}

/* A body whose byte at a place is none that a text has. */
static const uint8_t *damaged_at(size_t at) {
    static uint8_t damaged[PAGE];
    memcpy(damaged, body, PAGE);
    damaged[at] = 0xff;
    return damaged;
}

/* Beside a refusal there is no place, also of a name that was good. */
static void beside_refusals(void) {
    const sample grips = {TEXT("grips"), 5};
    build(&grips);
    lateenbael_record gone = lateenbael_mvcc_decode_record(body, PAGE, LATEENBAEL_FIRST_RECORD);
    lateenbael_record there = lateenbael_mvcc_decode_record(body, PAGE, gone.next);
    lateenbael_column text = lateenbael_mvcc_decode_column(body, PAGE, there.first);
    size_t value_at = text.name.start + text.name.len;
    lateenbael_record record = lateenbael_mvcc_decode_record(damaged_at(gone.table.start + 4), PAGE, LATEENBAEL_FIRST_RECORD);
    CHECK(record.refusal == LATEENBAEL_REFUSED_TEXT && is_no_place(record.table));
    lateenbael_column named = lateenbael_mvcc_decode_column(damaged_at(text.name.start + 4), PAGE, there.first);
    CHECK(named.refusal == LATEENBAEL_REFUSED_TEXT && is_no_place(named.name) && is_no_place(named.value.place));
    lateenbael_column column = lateenbael_mvcc_decode_column(damaged_at(text.value.place.start + 4), PAGE, there.first);
    CHECK(column.refusal == LATEENBAEL_REFUSED_TEXT && is_no_place(column.name) && is_no_place(column.value.place));
    lateenbael_value_answer value = lateenbael_mvcc_decode_value(damaged_at(text.value.place.start + 4), PAGE, value_at);
    CHECK(value.refusal == LATEENBAEL_REFUSED_TEXT && is_no_place(value.value.place));
    lateenbael_column cut = lateenbael_mvcc_decode_column(body, text.next - 1, there.first);
    CHECK(cut.refusal == LATEENBAEL_REFUSED_TRUNCATED && is_no_place(cut.name) && is_no_place(cut.value.place));
}

void test_text(void) {
    alone();
    long_text();
    in_batches();
    longest();
    beside_refusals();
}
