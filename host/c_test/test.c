/* The C test over lateenbael.h: calls every function of the static library. Prints a line a part, ends nonzero where a check failed. */
#include "test.h"

static unsigned checks, failures;

void check(bool holds, const char *what, const char *file, int line) {
    checks++;
    if (!holds) {
        failures++;
        printf("%s:%d: failed: %s\n", file, line, what);
    }
}

unsigned failed_checks(void) {
    return failures;
}

static const uint8_t guard_byte = 0xA5;

/* An area of zeros between guards. */
static void *new_area(size_t size) {
    uint8_t *bytes = malloc(size + 2 * GUARD);
    if (bytes == NULL) {
        puts("no memory");
        exit(1);
    }
    memset(bytes, guard_byte, size + 2 * GUARD);
    memset(bytes + GUARD, 0, size);
    return bytes + GUARD;
}

static void free_area(void *area) {
    free((uint8_t *)area - GUARD);
}

static bool guarded(const void *area, size_t size) {
    const uint8_t *bytes = area;
    for (size_t i = 1; i <= GUARD; i++) {
        if (bytes[-(ptrdiff_t)i] != guard_byte || bytes[size + i - 1] != guard_byte) {
            return false;
        }
    }
    return true;
}

host new_host(void) {
    host h = {
        .table = new_area(LATEENBAEL_PAGES * sizeof(uint32_t)),
        .log = new_area(LATEENBAEL_LOG_AREA),
        .main = new_area(LATEENBAEL_MAIN_AREA),
        .staging = new_area(LATEENBAEL_STAGING_AREA),
    };
    return h;
}

host new_store(void) {
    host h = new_host();
    CHECK(keep_store(&h, lateenbael_create(AREAS(&h), 0xab)) == LATEENBAEL_OK);
    return h;
}

host same_host(const host *h) {
    host same = new_host();
    memcpy(same.table, h->table, LATEENBAEL_PAGES * sizeof *h->table);
    memcpy(same.log, h->log, LATEENBAEL_LOG_AREA);
    memcpy(same.main, h->main, LATEENBAEL_MAIN_AREA);
    memcpy(same.staging, h->staging, LATEENBAEL_STAGING_AREA);
    same.store = h->store;
    return same;
}

bool same_areas(const host *h, const host *other) {
    return memcmp(h->table, other->table, LATEENBAEL_PAGES * sizeof *h->table) == 0 &&
           memcmp(h->log, other->log, LATEENBAEL_LOG_AREA) == 0 && memcmp(h->main, other->main, LATEENBAEL_MAIN_AREA) == 0 &&
           memcmp(h->staging, other->staging, LATEENBAEL_STAGING_AREA) == 0;
}

void free_host(host *h) {
    CHECK(guards_intact(h));
    free_area(h->table);
    free_area(h->log);
    free_area(h->main);
    free_area(h->staging);
}

bool guards_intact(const host *h) {
    return guarded(h->table, LATEENBAEL_PAGES * sizeof(uint32_t)) && guarded(h->log, LATEENBAEL_LOG_AREA) &&
           guarded(h->main, LATEENBAEL_MAIN_AREA) && guarded(h->staging, LATEENBAEL_STAGING_AREA);
}

disk new_disk(void) {
    return (disk){.main = new_area(LATEENBAEL_MAIN_AREA), .log = new_area(LATEENBAEL_LOG_AREA)};
}

void free_disk(disk *d) {
    free_area(d->main);
    free_area(d->log);
}

disk copy_of(const disk *d) {
    disk copy = new_disk();
    memcpy(copy.main, d->main, d->main_len);
    memcpy(copy.log, d->log, d->log_len);
    copy.main_len = d->main_len;
    copy.log_len = d->log_len;
    return copy;
}

static void set_len(uint8_t *file, size_t *len, size_t to) {
    if (to > *len) {
        memset(file + *len, 0, to - *len);
    }
    *len = to;
}

void write_step(disk *d, const host *h, const lateenbael_step_answered *step, size_t most) {
    bool in_log = step->area == LATEENBAEL_AREA_LOG;
    uint8_t *file = in_log ? d->log : d->main;
    size_t *file_len = in_log ? &d->log_len : &d->main_len;
    if (step->len == 0) {
        set_len(file, file_len, step->at);
    } else {
        size_t len = step->len < most ? step->len : most;
        if (step->at + len > *file_len) {
            set_len(file, file_len, step->at + len);
        }
        memcpy(file + step->at, (in_log ? h->log : h->main) + step->at, len);
    }
    d->flushes += step->flush;
}

uint32_t keep_store(host *h, lateenbael_answered a) {
    h->store = a.store;
    return a.refusal;
}

uint32_t open_files(host *h, const disk *d, enum open_mode mode) {
    memcpy(h->main, d->main, d->main_len);
    memcpy(h->log, d->log, d->log_len);
    if (mode == CLEAN) {
        return keep_store(h, lateenbael_open_clean(AREAS(h), d->main_len, d->log_len, 0, 1, 7));
    }
    return keep_store(h, lateenbael_open_with_mode(AREAS(h), d->main_len, d->log_len, mode == READ_ONLY, 1, 7));
}

static bool all_are(const uint8_t *bytes, uint8_t byte) {
    for (size_t i = 0; i < PAGE; i++) {
        if (bytes[i] != byte) {
            return false;
        }
    }
    return true;
}

lateenbael_page_answer found_in(const host *h, const lateenbael_store *store, uint32_t page) {
    lateenbael_page_answer found = lateenbael_find_page(*store, AREAS(h), page);
    lateenbael_page_answer placed = {lateenbael_may_read(READING(store), AREAS(h)), 0, 0};
    if (placed.refusal == LATEENBAEL_OK) {
        placed = lateenbael_place_page(store->current_header.page_count, page, store->staged.count, store->staged.pages, h->table,
                                       LATEENBAEL_PAGES);
    }
    CHECK(found.refusal == placed.refusal && found.area == placed.area && found.at == placed.at);
    size_t end = lateenbael_read_end(store->current_header.page_count, store->staged.count);
    CHECK(page < end || found.area == LATEENBAEL_AREA_NONE);
    return found;
}

bool reads_as(const host *h, uint32_t page, uint8_t byte) {
    const uint8_t *areas[] = {NULL, h->log, h->main, h->staging};
    lateenbael_page_answer found = found_in(h, &h->store, page);
    return found.refusal == LATEENBAEL_OK && found.area != LATEENBAEL_AREA_NONE && all_are(areas[found.area] + found.at, byte);
}

bool is_no_place(lateenbael_text_place place) {
    return place.start == 0 && place.len == 0 && place.chars == 0;
}

uint32_t stage(host *h, uint32_t page, uint8_t byte) {
    uint8_t bytes[PAGE];
    memset(bytes, byte, PAGE);
    /* In place, in a copy of the staging area: the same refusal, numbers and bytes. */
    lateenbael_staged staged = h->store.staged;
    uint8_t *area = malloc(LATEENBAEL_STAGING_AREA);
    memcpy(area, h->staging, LATEENBAEL_STAGING_AREA);
    lateenbael_staged_count done =
        lateenbael_stage_in(h->store.job.kind, page, staged.count, staged.pages, area, LATEENBAEL_STAGING_AREA, bytes, PAGE);
    staged.count = done.count;
    lateenbael_answered whole = lateenbael_stage_page(h->store, h->staging, LATEENBAEL_STAGING_AREA, page, bytes, PAGE);
    CHECK(done.refusal == whole.refusal && memcmp(&staged, &whole.store.staged, sizeof staged) == 0);
    CHECK(memcmp(area, h->staging, LATEENBAEL_STAGING_AREA) == 0);
    free(area);
    return keep_store(h, whole);
}

lateenbael_db_header header_of(const host *h) {
    lateenbael_header_answer a = lateenbael_header(h->store);
    CHECK(a.refusal == LATEENBAEL_OK);
    return a.header;
}

lateenbael_db_header with_count(const host *h, uint32_t count) {
    lateenbael_db_header header = header_of(h);
    header.page_count = count;
    return header;
}

bool came_to(lateenbael_answered a, const lateenbael_store *store, lateenbael_preview_answered shown) {
    if (a.refusal != shown.refusal || a.answer != shown.answer) {
        return false;
    }
    if (a.refusal != LATEENBAEL_OK) {
        return shown.checkpointed == 0 && shown.frame_count == 0 && shown.log_len == 0 && shown.main_len == 0;
    }
    /* A checkpoint, and nothing else, gives the log another sequence. */
    bool checkpointed = a.store.wal.header.checkpoint_seq != store->wal.header.checkpoint_seq;
    return shown.checkpointed == checkpointed && shown.frame_count == a.store.wal.frame_count && shown.log_len == a.store.wal.len &&
           shown.main_len == a.store.storage.len;
}

lateenbael_preview_answered previewed(const host *h, const lateenbael_store *store, lateenbael_db_header header) {
    host copy = same_host(h);
    lateenbael_preview_answered shown = lateenbael_preview_commit(*store, AREAS(h), header);
    CHECK(same_areas(h, &copy) && guards_intact(h));
    CHECK(came_to(lateenbael_commit(*store, AREAS(&copy), header, 0xcd), store, shown));
    free_host(&copy);
    return shown;
}

/* Runs a part and says how many checks it made. */
static void run(const char *name, void (*part)(void)) {
    unsigned checks_before = checks, failures_before = failures;
    part();
    printf("%s: %u checks, %u failed\n", name, checks - checks_before, failures - failures_before);
}

int main(void) {
    run("layout", test_layout);
    run("store", test_store);
    run("staging", test_staging);
    run("preview", test_preview);
    run("opening", test_opening);
    run("forged", test_forged);
    run("files", test_files);
    run("log", test_log);
    run("batch", test_batch);
    run("text", test_text);
    printf("C test: %u checks, %u failed\n", checks, failures);
    return failures != 0;
}
