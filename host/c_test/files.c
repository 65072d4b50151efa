/* The store on two real files, as a C host keeps it: each write that a step names by pwrite or ftruncate, and where a flush follows fsync
 * of every file that was written since its last one. A process that commits is killed after any of its writes, and the files are opened
 * again. What else a host on files owes (names, lock, creation, the medium behind the cache) is in ../examples/c. */
#define _POSIX_C_SOURCE 200809L
#include "test.h"
#include <fcntl.h>
#include <signal.h>
#include <sys/wait.h>
#include <unistd.h>

typedef struct {
    int fd;
    bool unflushed; /* written since its last fsync */
    unsigned syncs; /* how many there were */
} one_file;

typedef struct {
    one_file main, log;
} files;

static files open_both(const char *folder) {
    char main_path[300], log_path[300];
    snprintf(main_path, sizeof main_path, "%s/grips", folder);
    snprintf(log_path, sizeof log_path, "%s/grips-wal", folder);
    files f = {.main.fd = open(main_path, O_RDWR | O_CREAT, 0600), .log.fd = open(log_path, O_RDWR | O_CREAT, 0600)};
    CHECK(f.main.fd >= 0 && f.log.fd >= 0);
    return f;
}

static void close_both(const files *f) {
    close(f->main.fd);
    close(f->log.fd);
}

static void remove_both(const char *folder) {
    char path[300];
    snprintf(path, sizeof path, "%s/grips", folder);
    CHECK(unlink(path) == 0);
    snprintf(path, sizeof path, "%s/grips-wal", folder);
    CHECK(unlink(path) == 0 && rmdir(folder) == 0);
}

static bool written(one_file *f, const uint8_t *area, size_t at, size_t len) {
    f->unflushed = true;
    return pwrite(f->fd, area + at, len, (off_t)at) == (ssize_t)len;
}

static bool length_set(one_file *f, size_t len) {
    f->unflushed = true;
    return ftruncate(f->fd, (off_t)len) == 0;
}

static bool synced(one_file *f) {
    f->syncs++;
    f->unflushed = false;
    return fsync(f->fd) == 0;
}

/* Whether all that was written so far is on the disk, the log first. */
static bool flushed(files *f) {
    return (!f->log.unflushed || synced(&f->log)) && (!f->main.unflushed || synced(&f->main));
}

/* Whether a step's write reached its file, and the disk if a flush follows. */
static bool done_on_files(files *f, const host *h, const lateenbael_step_answered *step) {
    bool in_log = step->area == LATEENBAEL_AREA_LOG;
    one_file *file = in_log ? &f->log : &f->main;
    const uint8_t *area = in_log ? h->log : h->main;
    bool stored = step->len == 0 ? length_set(file, step->at) : written(file, area, step->at, step->len);
    return stored && (step->flush == 0 || flushed(f));
}

static void create_on(files *f) {
    host h = new_host();
    CHECK(keep_store(&h, lateenbael_create(AREAS(&h), 0xab)) == LATEENBAEL_OK);
    CHECK(written(&f->main, h.main, 0, 2 * PAGE) && flushed(f));
    CHECK(written(&f->log, h.log, 0, 32) && flushed(f));
    free_host(&h);
}

/* A clean opening of the files: reads both, and cuts the log. */
static host open_clean(files *f) {
    host h = new_host();
    ssize_t main_len = pread(f->main.fd, h.main, LATEENBAEL_MAIN_AREA, 0);
    ssize_t log_len = pread(f->log.fd, h.log, LATEENBAEL_LOG_AREA, 0);
    CHECK(main_len >= 0 && log_len >= 0);
    CHECK(keep_store(&h, lateenbael_open_clean(AREAS(&h), (size_t)main_len, (size_t)log_len, 0, 1, 7)) == LATEENBAEL_OK);
    CHECK(length_set(&f->log, h.store.wal.len) && flushed(f));
    return h;
}

/* Commits two pages of equal bytes with a checkpoint behind; the process is killed after so many writes. Returns if there are fewer. */
static void write_until_killed(files *f, uint8_t byte, unsigned writes) {
    host h = open_clean(f);
    lateenbael_db_header header = {3, 1, 4, 0};
    CHECK(stage(&h, 1, byte) == LATEENBAEL_OK && stage(&h, 2, byte) == LATEENBAEL_OK);
    lateenbael_answered begun = lateenbael_begin_commit(h.store, AREAS(&h), header, 1);
    for (int checkpoint = 0; checkpoint < 2; checkpoint++) {
        CHECK(begun.begun == 1 && keep_store(&h, begun) == LATEENBAEL_OK);
        lateenbael_step_answered step;
        do {
            if (writes-- == 0) {
                kill(getpid(), SIGKILL);
            }
            step = lateenbael_next_step(h.store, AREAS(&h));
            h.store = step.store;
            CHECK(done_on_files(f, &h, &step));
        } while (step.kind == LATEENBAEL_STEP_WRITE);
        begun = lateenbael_begin_checkpoint(h.store, AREAS(&h), 2);
    }
    free_host(&h);
}

/* Whether the writer was killed before its last store. */
static bool killed(files *f, uint8_t byte, unsigned writes) {
    fflush(stdout);
    pid_t writer = fork();
    CHECK(writer >= 0);
    if (writer == 0) {
        write_until_killed(f, byte, writes);
        fflush(stdout);
        _exit(failed_checks() != 0);
    }
    int status = 0;
    CHECK(waitpid(writer, &status, 0) == writer);
    CHECK(WIFSIGNALED(status) || WEXITSTATUS(status) == 0);
    return WIFSIGNALED(status);
}

/* The kills between a commit's and a checkpoint's writes. */
static void kills(files *f) {
    write_until_killed(f, 1, 100);
    /* The commit has 3 writes, the commit frame last; the checkpoint 2 pages, main header, main length, log length, log header. */
    for (unsigned writes = 0; writes <= 9; writes++) {
        uint8_t old = (uint8_t)(1 + writes), byte = (uint8_t)(2 + writes);
        CHECK(killed(f, byte, writes) == (writes < 9));
        host h = open_clean(f);
        uint8_t seen = writes < 3 ? old : byte;
        CHECK(reads_as(&h, 1, seen) && reads_as(&h, 2, seen));
        free_host(&h);
        write_until_killed(f, byte, 100);
        CHECK(lseek(f->main.fd, 0, SEEK_END) == 3 * PAGE && lseek(f->log.fd, 0, SEEK_END) == 32);
    }
}

/* Does the steps of what has begun up to its first flush, and answers the area of the step that asked for it. */
static uint32_t run_to_flush(files *f, host *h) {
    lateenbael_step_answered step;
    do {
        step = lateenbael_next_step(h->store, AREAS(h));
        h->store = step.store;
        CHECK(done_on_files(f, h, &step));
    } while (step.flush == 0 && step.kind == LATEENBAEL_STEP_WRITE);
    return step.area;
}

/* A batch is appended without a flush; the next flush takes its file along, although the step that asks for it is the main file's. */
static void joint_flush(files *f) {
    uint8_t body[PAGE];
    host h = open_clean(f);
    lateenbael_db_header header = {3, 1, 4, 0};
    CHECK(lateenbael_mvcc_start(body, PAGE, 1).refusal == LATEENBAEL_OK && stage(&h, 2, 0x77) == LATEENBAEL_OK);
    CHECK(keep_store(&h, lateenbael_begin_commit(h.store, AREAS(&h), header, 1)) == LATEENBAEL_OK);
    CHECK(run_to_flush(f, &h) == LATEENBAEL_AREA_LOG && h.store.job.kind == 0);
    size_t at = h.store.wal.len;
    CHECK(keep_store(&h, lateenbael_append_mvcc_batch(h.store, h.log, LATEENBAEL_LOG_AREA, body, PAGE)) == LATEENBAEL_OK);
    CHECK(written(&f->log, h.log, at, FRAME) && f->log.unflushed);
    unsigned main_syncs = f->main.syncs, log_syncs = f->log.syncs;
    CHECK(keep_store(&h, lateenbael_begin_checkpoint(h.store, AREAS(&h), 2)) == LATEENBAEL_OK);
    CHECK(run_to_flush(f, &h) == LATEENBAEL_AREA_MAIN);
    CHECK(f->main.syncs == main_syncs + 1 && f->log.syncs == log_syncs + 1);
    free_host(&h);
}

void test_files(void) {
    char folder[] = "files-XXXXXX";
    CHECK(mkdtemp(folder) != NULL);
    files f = open_both(folder);
    create_on(&f);
    kills(&f);
    joint_flush(&f);
    close_both(&f);
    remove_both(folder);
}
