/* What the parts of the C test share: checks, the four areas between guard bytes, and two files in memory. */
#ifndef TEST_H
#define TEST_H

#include "../lateenbael.h"
#include <stdbool.h>
#include <stdio.h>
#include <stdlib.h>
#include <string.h>

#define PAGE LATEENBAEL_PAGE_SIZE
#define FRAME LATEENBAEL_FRAME_SIZE

/* Counts a check, and says where one fails. */
#define CHECK(what) check(what, #what, __FILE__, __LINE__)
void check(bool holds, const char *what, const char *file, int line);
/* How many have failed. */
unsigned failed_checks(void);

/* The areas, each with GUARD bytes before and behind it, and the open store. */
#define GUARD 64
typedef struct {
    uint32_t *table;
    uint8_t *log, *main, *staging;
    lateenbael_store store;
} host;

host new_host(void);
/* One with a new store of 2 pages. */
host new_store(void);
/* One with the same store and the same bytes in every area. */
host same_host(const host *h);
bool same_areas(const host *h, const host *other);
void free_host(host *h);
/* Whether no byte outside of the areas was written. */
bool guards_intact(const host *h);

/* The areas as calls take them. */
#define AREAS(h)                                                                                                                           \
    (h)->table, LATEENBAEL_PAGES, (h)->log, LATEENBAEL_LOG_AREA, (h)->main, LATEENBAEL_MAIN_AREA, (h)->staging, LATEENBAEL_STAGING_AREA

/* What a reading takes of a store, as lateenbael_may_read takes it. */
#define READING(s) (s)->current_header.page_count, (s)->job.kind, (s)->wal.len, (s)->storage.len

/* Two files. */
typedef struct {
    uint8_t *main, *log;
    size_t main_len, log_len;
    unsigned flushes;
} disk;

disk new_disk(void);
void free_disk(disk *d);
disk copy_of(const disk *d);

/* Does a step's write on the files; only its first bytes, as many as `most`. */
void write_step(disk *d, const host *h, const lateenbael_step_answered *step, size_t most);
/* Reads the files into the areas and opens them. */
enum open_mode { PLAIN, CLEAN, READ_ONLY };
uint32_t open_files(host *h, const disk *d, enum open_mode mode);
/* Where a page stands, by the whole store and by what a reading takes of it, which must agree. */
lateenbael_page_answer found_in(const host *h, const lateenbael_store *store, uint32_t page);
/* Whether a page reads as 4,096 equal bytes. */
bool reads_as(const host *h, uint32_t page, uint8_t byte);

/* Whether there is no place: not even a number of characters. */
bool is_no_place(lateenbael_text_place place);

/* Keeps the store that a call gives back; answers the refusal. */
uint32_t keep_store(host *h, lateenbael_answered a);
uint32_t stage(host *h, uint32_t page, uint8_t byte);
lateenbael_db_header header_of(const host *h);
lateenbael_db_header with_count(const host *h, uint32_t count);

/* Whether a commit of that store came to what was shown. */
bool came_to(lateenbael_answered a, const lateenbael_store *store, lateenbael_preview_answered shown);
/* What a commit would come to. It must be what a commit on a copy of all areas comes to, and no area may be altered. */
lateenbael_preview_answered previewed(const host *h, const lateenbael_store *store, lateenbael_db_header header);

void test_layout(void);
void test_store(void);
void test_staging(void);
void test_preview(void);
void test_opening(void);
void test_forged(void);
void test_files(void);
void test_log(void);
void test_batch(void);
void test_text(void);

#endif
