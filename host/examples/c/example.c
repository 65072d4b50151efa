/* Commits a page and a batch to the store that the command line names, and shows what is there and what is refused.
 *
 *     example STORE
 */
#include "store_file.h"
#include <errno.h>
#include <stdio.h>
#include <stdlib.h>
#include <string.h>

#define TEXT_PAGE 2       /* pages 0 and 1 are the header's and the schema's */
#define FRAMES_OF_A_RUN 3 /* the batch's, the page's, and the commit frame */

static const uint8_t *bytes_of(const char *text) {
    return (const uint8_t *)text;
}

/* Says why a call failed, and gives false. */
static bool says(const store_error *error) {
    fprintf(stderr, "example: %s\n", error->text);
    return false;
}

/* How many batches the log has; the last one's time goes into *last. */
static size_t count_batches(const store_file *s, uint64_t *last) {
    size_t frame = 0, count = 0;
    for (const uint8_t *body = store_file_batch(s, &frame); body != NULL; body = store_file_batch(s, &frame)) {
        *last = lateenbael_mvcc_decode(body, LATEENBAEL_PAGE_SIZE).commit_ts;
        count++;
    }
    return count;
}

/* A batch of one row, grips 7, with a text and a number. The first refusal stays: a later call on a refused one is not made. */
static bool build_batch(uint8_t body[LATEENBAEL_PAGE_SIZE], uint64_t time, int64_t wear) {
    lateenbael_building b = lateenbael_mvcc_start(body, LATEENBAEL_PAGE_SIZE, time);
    if (b.refusal == LATEENBAEL_OK) {
        b = lateenbael_mvcc_begin_present(body, LATEENBAEL_PAGE_SIZE, b, bytes_of("grips"), 5, 7);
    }
    if (b.refusal == LATEENBAEL_OK) {
        b = lateenbael_mvcc_add_text(body, LATEENBAEL_PAGE_SIZE, b, bytes_of("state"), 5, bytes_of("closed"), 6);
    }
    if (b.refusal == LATEENBAEL_OK) {
        b = lateenbael_mvcc_add_integer(body, LATEENBAEL_PAGE_SIZE, b, bytes_of("wear"), 4, wear);
    }
    return b.refusal == LATEENBAEL_OK;
}

/* Batches end with a checkpoint, and a commit may bring one on: who needs them reads them before. */
static bool make_room(store_file *s, store_error *error) {
    uint64_t last = 0;
    if (store_file_frames(s) + FRAMES_OF_A_RUN < LATEENBAEL_CHECKPOINT_FRAMES) {
        return true;
    }
    printf("checkpoint: it ends %zu batches, which this program has read\n", count_batches(s, &last));
    return store_file_checkpoint(s, error) || says(error);
}

/* Commits a page and a batch that tell how many batches were there before. */
static bool commit_run(store_file *s, uint64_t run, store_error *error) {
    uint8_t page[LATEENBAEL_PAGE_SIZE] = {0}, body[LATEENBAEL_PAGE_SIZE];
    lateenbael_db_header header = store_file_header(s);
    if (header.page_count <= TEXT_PAGE) {
        header.page_count = TEXT_PAGE + 1;
    }
    snprintf((char *)page, sizeof page, "written in run %llu", (unsigned long long)run);
    if (!build_batch(body, run, (int64_t)run * 10)) {
        return false;
    }
    if (!store_file_stage(s, TEXT_PAGE, page, error) || !store_file_append(s, body, error) || !store_file_commit(s, header, error)) {
        return says(error);
    }
    const uint8_t *back = store_file_page(s, TEXT_PAGE);
    if (back == NULL || memcmp(back, page, sizeof page) != 0) {
        return false;
    }
    printf("committed: page %d reads \"%s\", the log has %zu frames\n", TEXT_PAGE, (const char *)back, store_file_frames(s));
    return true;
}

/* What a host hears that asks for what can't be; the store stays as it is. */
static void show_refusals(store_file *s, const char *path) {
    static const uint8_t page[LATEENBAEL_PAGE_SIZE];
    store_error error;
    lateenbael_db_header header = store_file_header(s);
    if (!store_file_stage(s, LATEENBAEL_PAGES, page, &error)) {
        printf("staging page %d: %s\n", LATEENBAEL_PAGES, lateenbael_refusal_name(error.refusal));
    }
    header.page_count += 2;
    if (!store_file_commit(s, header, &error)) {
        printf("two pages more, and none staged: %s\n", lateenbael_refusal_name(error.refusal));
    }
    header.page_count -= 2;
    if (store_file_stage(s, header.page_count, page, &error) && !store_file_commit(s, header, &error)) {
        printf("a page above the count: %s\n", strerror(error.code));
    }
    store_file_clear_staged(s);
    store_file *second = store_file_open(path, STORE_READ_ONLY, &error);
    if (second != NULL) {
        store_file_close(second);
    } else {
        printf("opened a second time: %s\n", error.code == EWOULDBLOCK ? "locked" : error.text);
    }
}

int main(int argc, char **argv) {
    if (argc != 2) {
        fputs("usage: example STORE\n", stderr);
        return 2;
    }
    store_error error;
    store_file *s = store_file_open_or_create(argv[1], &error);
    if (s == NULL) {
        says(&error);
        return 1;
    }
    uint64_t last = 0;
    size_t batches = count_batches(s, &last);
    printf("opened: %u pages, %zu batches\n", (unsigned)store_file_header(s).page_count, batches);
    bool done = make_room(s, &error) && commit_run(s, last + 1, &error);
    if (done) {
        show_refusals(s, argv[1]);
    }
    store_file_close(s);
    return done && fflush(stdout) == 0 ? EXIT_SUCCESS : EXIT_FAILURE;
}
