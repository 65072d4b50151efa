/* How much stack the calls take that read a log, with what is handed over and back. Each is run on a stack that was painted before: what is
 * no longer paint was used. A log is to be read with no page-sized array of its own (document 02, P3), and a commit shown without a copy of
 * what it would write (P5): every figure must be below a page's size. Prints them, and ends nonzero where one is too high or where a
 * page-sized array would not be seen. */
#define _POSIX_C_SOURCE 200809L
#include "../../lateenbael.h"
#include <pthread.h>
#include <stdalign.h>
#include <stdbool.h>
#include <stdio.h>
#include <stdlib.h>
#include <string.h>

#define PAGE LATEENBAEL_PAGE_SIZE
#define PAINT 0xC5
#define STACK (1 << 18)

static alignas(PAGE) uint8_t stack[STACK];
static uint32_t table[LATEENBAEL_PAGES];
static uint8_t log_area[LATEENBAEL_LOG_AREA], main_area[LATEENBAEL_MAIN_AREA], staging[LATEENBAEL_STAGING_AREA];
#define AREAS table, LATEENBAEL_PAGES, log_area, LATEENBAEL_LOG_AREA, main_area, LATEENBAEL_MAIN_AREA, staging, LATEENBAEL_STAGING_AREA

/* The store that is open, and what the last call gave: kept here, so that no job has it on its stack. */
static lateenbael_answered given;

static void expect(bool holds, const char *what) {
    if (!holds) {
        printf("stack: failed: %s\n", what);
        exit(1);
    }
}

static void keep_store(lateenbael_answered a) {
    expect(a.refusal == LATEENBAEL_OK, "a call was refused");
    given = a;
}

/* ---- the store whose log is read: 12 frames, of three commits with a batch each */

/* Mixed bytes: no copy of them looks like paint. */
static void fill(uint8_t *page, uint32_t seed) {
    for (size_t i = 0; i < PAGE; i++) {
        seed = seed * 1664525 + 1013904223;
        page[i] = (uint8_t)(seed >> 24);
    }
}

static void stage(uint32_t page) {
    static uint8_t bytes[PAGE];
    fill(bytes, page + 1 + (uint32_t)given.store.wal.len);
    keep_store(lateenbael_stage_page(given.store, staging, sizeof staging, page, bytes, PAGE));
}

/* A row that is gone, and one with a column of every kind. */
static void append_batch(void) {
    static const char name[] = "Gondelbahn-Gr\xc3\xbcn \xe2\x82\xac \xf0\x9f\x9a\xa0, Kabine";
    static const uint8_t elements[32];
    static uint8_t body[PAGE];
    const uint8_t *text = (const uint8_t *)name;
    size_t len = strlen(name);
    lateenbael_building b = lateenbael_mvcc_start(body, PAGE, 9);
    b = lateenbael_mvcc_add_tombstone(body, PAGE, b, text, len, -3);
    b = lateenbael_mvcc_begin_present(body, PAGE, b, text, len, 7);
    b = lateenbael_mvcc_add_null(body, PAGE, b, text, len);
    b = lateenbael_mvcc_add_integer(body, PAGE, b, text, len, -5);
    b = lateenbael_mvcc_add_real_bits(body, PAGE, b, text, len, 0x7ff8000000000001);
    b = lateenbael_mvcc_add_text(body, PAGE, b, text, len, text, len);
    b = lateenbael_mvcc_add_bool(body, PAGE, b, text, len, 1);
    b = lateenbael_mvcc_add_vector(body, PAGE, b, text, len, elements, sizeof elements);
    expect(b.refusal == LATEENBAEL_OK && b.records == 2 && b.columns == 6, "the batch is not built");
    keep_store(lateenbael_append_mvcc_batch(given.store, log_area, sizeof log_area, body, PAGE));
}

/* Page 3 as the log has it, and page 2 with other bytes. */
static void stage_two(void) {
    lateenbael_page_answer three = lateenbael_find_page(given.store, AREAS, 3);
    expect(three.area == LATEENBAEL_AREA_LOG, "page 3 is not in the log");
    stage(2);
    keep_store(lateenbael_stage_page(given.store, staging, sizeof staging, 3, log_area + three.at, PAGE));
}

static void make_store(void) {
    keep_store(lateenbael_create(AREAS, 0xab));
    for (uint32_t count = 4; count <= 8; count += 2) {
        lateenbael_db_header header = given.store.current_header;
        header.page_count = count;
        append_batch();
        stage(count - 2);
        stage(count - 1);
        keep_store(lateenbael_commit(given.store, AREAS, header, 7));
    }
    expect(given.store.wal.frame_count == 12, "the log has not 12 frames");
}

/* ---- what is measured */

static void open_plainly(void) {
    keep_store(lateenbael_open_with_mode(AREAS, given.store.storage.len, given.store.wal.len, 0, 1, 7));
}

static void open_read_only(void) {
    keep_store(lateenbael_open_with_mode(AREAS, given.store.storage.len, given.store.wal.len, 1, 1, 7));
}

static void open_cleanly(void) {
    keep_store(lateenbael_open_clean(AREAS, given.store.storage.len, given.store.wal.len, 0, 1, 7));
}

static void open_log(void) {
    static lateenbael_wal_answer opened;
    opened = lateenbael_wal_open(log_area, given.store.wal.len);
    expect(opened.refusal == LATEENBAEL_OK && opened.wal.frame_count == 12, "the log does not open to 12 frames");
}

static void list_log(void) {
    static uint8_t out[LATEENBAEL_LISTING_SIZE];
    lateenbael_list_answer listed = lateenbael_list_log(log_area, given.store.wal.len, out, sizeof out);
    expect(listed.refusal == LATEENBAEL_OK && listed.len > 0 && memcmp(out, "log 3 ", 6) == 0, "the log is not listed");
}

/* How many columns and elements stand in a record. */
static size_t walk_columns(const uint8_t *body, lateenbael_record record) {
    size_t seen = 0, at = record.first;
    for (size_t i = 0; i < record.count; i++) {
        lateenbael_column column = lateenbael_mvcc_decode_column(body, PAGE, at);
        lateenbael_text_place place = column.value.place;
        expect(lateenbael_mvcc_decode_value(body, PAGE, column.name.start + column.name.len).next == column.next, "a value ends elsewhere");
        if (column.value.tag == LATEENBAEL_VALUE_VECTOR) {
            seen += lateenbael_mvcc_vector_bits(body, PAGE, place.start, place.len, 0).found;
        }
        at = column.next;
        seen++;
    }
    return seen;
}

/* All batches, as the store gives them, with every record, column and value. */
static void walk_batches(void) {
    size_t batches = 0, seen = 0;
    for (size_t index = 0;;) {
        lateenbael_batch_place place = lateenbael_recovered_mvcc_commits(given.store, log_area, sizeof log_area, index);
        if (!place.found) {
            break;
        }
        expect(batches < 3, "there are more batches than three");
        const uint8_t *body = log_area + place.offset + 16;
        lateenbael_batch batch = lateenbael_mvcc_decode(body, PAGE);
        for (size_t i = 0, at = LATEENBAEL_FIRST_RECORD; i < batch.records; i++) {
            lateenbael_record record = lateenbael_mvcc_decode_record(body, PAGE, at);
            seen += 1 + walk_columns(body, record);
            at = record.next;
        }
        batches++;
        index = place.index + 1;
    }
    expect(batches == 3 && seen == 3 * (2 + 6 + 1), "the batches are not all walked");
}

/* A commit shown: two staged pages are compared with the log's. */
static void preview(void) {
    static lateenbael_preview_answered shown;
    shown = lateenbael_preview_commit(given.store, AREAS, given.store.current_header);
    expect(shown.refusal == LATEENBAEL_OK && shown.answer == 1 && shown.frame_count == 14, "the commit is not shown");
}

/* The control: the log opened while a page-sized array lies on the stack. */
static void open_beside_a_page(void) {
    volatile uint8_t page[PAGE];
    for (size_t i = 0; i < PAGE; i++) {
        page[i] = log_area[i];
    }
    open_log();
    expect(page[0] == log_area[0], "the page has changed");
}

/* ---- the painted stack */

static void (*running)(void);
static size_t used;

/* From here down to the lowest byte that isn't paint. */
static void *run_job(void *nothing) {
    volatile uint8_t here = 0;
    size_t clean = 0;
    running();
    while (clean < STACK && stack[clean] == PAINT) {
        clean++;
    }
    used = (size_t)((uintptr_t)&here - (uintptr_t)&stack[clean]);
    return nothing;
}

static size_t stack_of(void (*job)(void)) {
    pthread_attr_t attributes;
    pthread_t thread;
    running = job;
    expect(pthread_attr_init(&attributes) == 0 && pthread_attr_setstack(&attributes, stack, STACK) == 0, "the stack is not taken");
    /* Twice: what the system binds at the first call is no part of it. The stack is lent again only when its thread is gone. */
    for (int i = 0; i < 2; i++) {
        memset(stack, PAINT, STACK);
        expect(pthread_create(&thread, &attributes, run_job, NULL) == 0 && pthread_join(thread, NULL) == 0, "the thread does not run");
    }
    expect(pthread_attr_destroy(&attributes) == 0, "the stack is not given back");
    return used;
}

static void measure(const char *name, void (*job)(void)) {
    size_t bytes = stack_of(job);
    printf("stack: %s: %zu bytes\n", name, bytes);
    expect(bytes < PAGE, "that is a page or more");
}

int main(void) {
    make_store();
    measure("plain opening", open_plainly);
    measure("read-only opening", open_read_only);
    measure("clean opening", open_cleanly);
    measure("opening of the log alone", open_log);
    measure("listing of the log", list_log);
    measure("walk over the batches", walk_batches);
    stage_two();
    measure("preview of a commit", preview);
    expect(stack_of(open_beside_a_page) >= PAGE, "a page on the stack is not seen");
    return 0;
}
