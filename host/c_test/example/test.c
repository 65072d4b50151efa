/* The C example on real files: kills and failures at every system call, a cache that forgets, and what is refused. It makes its files in
 * the folder that it is run in. */
#define _GNU_SOURCE
#include "../../examples/c/store_file.h"
#include "calls.h"
#include <dirent.h>
#include <errno.h>
#include <fcntl.h>
#include <signal.h>
#include <stdio.h>
#include <stdlib.h>
#include <string.h>
#include <sys/file.h>
#include <sys/mman.h>
#include <sys/stat.h>
#include <sys/time.h>
#include <sys/wait.h>
#include <time.h>
#include <unistd.h>

#define PAGE LATEENBAEL_PAGE_SIZE
#define CHECK(what) check(what, #what, __LINE__)

static unsigned checks, failures;
static store_error error;

static bool check(bool holds, const char *what, int line) {
    checks++;
    if (!holds) {
        failures++;
        printf("test.c:%d: failed: %s (%s)\n", line, what, error.text);
    }
    return holds;
}

/* ---- small parts */

/* How many files the folder has; with `remove` it has none any more. */
static unsigned files_here(bool remove) {
    unsigned count = 0;
    DIR *folder = opendir(".");
    for (struct dirent *entry = readdir(folder); entry != NULL; entry = readdir(folder)) {
        if (entry->d_name[0] != '.') {
            count++;
            if (remove) {
                unlink(entry->d_name);
            }
        }
    }
    closedir(folder);
    return count;
}

static bool is_there(const char *path) {
    struct stat status;
    return lstat(path, &status) == 0;
}

static off_t length_of(const char *path) {
    struct stat status;
    return lstat(path, &status) == 0 ? status.st_size : -1;
}

static void make_file(const char *path, off_t len) {
    int fd = open(path, O_RDWR | O_CREAT, 0600);
    CHECK(fd >= 0 && ftruncate(fd, len) == 0);
    close(fd);
}

/* The bytes of a file, and how many: up to that room. */
static size_t bytes_in(const char *path, uint8_t *bytes, size_t room) {
    int fd = open(path, O_RDONLY);
    ssize_t n = read(fd, bytes, room);
    close(fd);
    return n < 0 ? 0 : (size_t)n;
}

/* A page is told by its first byte; all others are the same. */
static bool commit_page(store_file *s, uint32_t page, uint8_t byte) {
    uint8_t bytes[PAGE];
    lateenbael_db_header header = store_file_header(s);
    header.page_count = 3;
    memset(bytes, byte, PAGE);
    return store_file_stage(s, page, bytes, &error) && store_file_commit(s, header, &error);
}

static bool append_batch(store_file *s, uint64_t time) {
    uint8_t body[PAGE];
    return lateenbael_mvcc_start(body, PAGE, time).refusal == LATEENBAEL_OK && store_file_append(s, body, &error);
}

static int byte_of(const store_file *s, uint32_t page) {
    const uint8_t *bytes = store_file_page(s, page);
    return bytes != NULL && memcmp(bytes, bytes + 1, PAGE - 1) == 0 ? bytes[0] : -1;
}

static size_t batches_of(const store_file *s) {
    size_t frame = 0, count = 0;
    while (store_file_batch(s, &frame) != NULL) {
        count++;
    }
    return count;
}

/* A store whose page 2 is that byte. */
static void make_store(const char *path, uint8_t byte) {
    store_file *s = store_file_create(path, &error);
    if (CHECK(s != NULL)) {
        CHECK(commit_page(s, 2, byte));
        store_file_close(s);
    }
}

/* Whether a creation or an opening was refused with that code, and named that file. */
static bool refused(store_file *s, int code, const char *name) {
    store_file_close(s);
    return s == NULL && error.code == code && strstr(error.text, name) != NULL;
}

/* What page 2 of a store is. */
static int seen_in(const char *path, enum store_mode mode) {
    store_file *s = store_file_open(path, mode, &error);
    int byte = s == NULL ? -1 : byte_of(s, 2);
    store_file_close(s);
    return byte;
}

/* ---- kills: a child process does the work up to one of its system calls */

/* What the child has been told is committed. */
static volatile int *acknowledged;

static bool killed_at(unsigned call, void (*work)(void)) {
    fflush(stdout);
    pid_t child = fork();
    if (child == 0) {
        failures = 0;
        kill_at(call);
        work();
        _exit(failures != 0);
    }
    int status = 0;
    CHECK(child > 0 && waitpid(child, &status, 0) == child);
    CHECK(WIFSIGNALED(status) ? WTERMSIG(status) == SIGKILL : WEXITSTATUS(status) == 0);
    return WIFSIGNALED(status) && WTERMSIG(status) == SIGKILL;
}

static void create(void) {
    store_file *s = store_file_create("grips", &error);
    CHECK(s != NULL);
    store_file_close(s);
}

/* Wherever a creation is cut, there is a whole store or none, and it can be created. */
static void cut_creations(void) {
    for (unsigned call = 1; killed_at(call, create); call++) {
        CHECK(!is_there("grips") || (length_of("grips") == 2 * PAGE && length_of("grips-wal") == 32));
        store_file *s = store_file_open_or_create("grips", &error);
        if (CHECK(s != NULL)) {
            CHECK(commit_page(s, 2, 1) && byte_of(s, 2) == 1);
            store_file_close(s);
        }
        CHECK(files_here(true) == 2);
    }
    CHECK(files_here(true) == 2);
}

static unsigned failing_call;

static void create_and_fail(void) {
    fail_at(failing_call, ENOSPC);
    store_file_close(store_file_create("grips", &error));
}

/* Wherever a creation that fails is cut while it removes what it made, there is a whole store or none, and it can be created. */
static void cut_failures(void) {
    bool came = true;
    for (failing_call = 1; came; failing_call++) {
        create_and_fail();
        came = has_failed();
        fail_at(0, 0);
        CHECK(files_here(true) == (came ? 0 : 2));
        for (unsigned call = 1; came && killed_at(call, create_and_fail); call++) {
            CHECK(!is_there("grips") || (length_of("grips") == 2 * PAGE && length_of("grips-wal") == 32));
            store_file *s = store_file_open_or_create("grips", &error);
            CHECK(s != NULL);
            store_file_close(s);
            CHECK(files_here(true) == 2);
        }
        CHECK(files_here(true) == 0);
    }
    CHECK(failing_call > 12);
}

static void create_at_log(void) {
    CHECK(refused(store_file_create("grips", &error), EEXIST, "grips-wal "));
    CHECK(refused(store_file_open_or_create("grips", &error), EEXIST, "grips-wal "));
}

/* A log whose main file was lost stays as it is, with frames or without, wherever a creation is cut that finds it. */
static void lone_log(void) {
    static uint8_t before[16 * PAGE], after[sizeof before];
    for (int frames = 0; frames < 2; frames++) {
        if (frames == 0) {
            create();
        } else {
            make_store("grips", 1);
        }
        CHECK(unlink("grips") == 0);
        size_t len = bytes_in("grips-wal", before, sizeof before);
        CHECK((len > 32) == (frames == 1) && len < sizeof before);
        bool killed = true;
        for (unsigned call = 1; killed; call++) {
            killed = killed_at(call, create_at_log);
            create_at_log();
            CHECK(bytes_in("grips-wal", after, sizeof after) == len && memcmp(before, after, len) == 0);
        }
        CHECK(files_here(true) == 1);
    }
}

/* Pages and batches are committed, with a checkpoint between and a missing log at the end. */
static void write_all_kinds(void) {
    store_file *s = store_file_open("grips", STORE_READ_WRITE, &error);
    CHECK(s != NULL && append_batch(s, 2) && commit_page(s, 2, 2));
    *acknowledged = 2;
    CHECK(store_file_checkpoint(s, &error) && append_batch(s, 3) && commit_page(s, 2, 3));
    *acknowledged = 3;
    CHECK(store_file_checkpoint(s, &error));
    store_file_close(s);
    unlink("grips-wal");
    s = store_file_open("grips", STORE_READ_WRITE, &error);
    CHECK(s != NULL && commit_page(s, 2, 4));
    *acknowledged = 4;
    store_file_close(s);
}

/* Wherever a writer is cut, what it acknowledged is there, and else at most the commit that was under way, with its batch. */
static void cut_writers(void) {
    bool killed = true;
    for (unsigned call = 1; killed; call++) {
        make_store("grips", 1);
        *acknowledged = 1;
        killed = killed_at(call, write_all_kinds);
        store_file *s = store_file_open("grips", STORE_READ_WRITE, &error);
        if (CHECK(s != NULL)) {
            int byte = byte_of(s, 2);
            CHECK(byte == *acknowledged || (killed && byte == *acknowledged + 1));
            CHECK(batches_of(s) <= 1 && (byte != 1 || batches_of(s) == 0));
            CHECK(commit_page(s, 2, 9) && byte_of(s, 2) == 9);
            store_file_close(s);
        }
        CHECK(files_here(true) <= 3 && (killed || *acknowledged == 4));
    }
}

/* ---- failures */

static void nothing(void) {
}

/* What a creation over an old store leaves that is cut before its log has its name. */
static void cut_creation(void) {
    make_file("grips-creating", 2 * PAGE);
    make_file("grips-wal-creating", 32);
    make_file("grips-wal", 32 + LATEENBAEL_FRAME_SIZE);
}

/* A creation that finds no room leaves no file behind, neither its own nor those of one that was cut before; but what it could not even
 * open, with its first calls, it can't take away. */
static void no_room(void (*before)(void), unsigned opens, unsigned left) {
    bool failed = true;
    for (unsigned call = 1; failed; call++) {
        before();
        fail_at(call, ENOSPC);
        store_file *s = store_file_create("grips", &error);
        failed = has_failed();
        CHECK((s == NULL) == failed);
        CHECK(!failed || (error.code == ENOSPC && strchr(error.text, '/') != NULL));
        CHECK(names_flushed() || failed);
        store_file_close(s);
        CHECK(files_here(true) == (!failed ? 2 : call <= opens ? left : 0));
    }
    fail_at(0, 0);
}

static void full_disk(void) {
    no_room(nothing, 1, 0);
    no_room(cut_creation, 2, 3);
}

/* Nor does an opening that finds no room for a missing log. */
static void full_disk_for_a_log(void) {
    make_store("grips", 1);
    CHECK(unlink("grips-wal") == 0);
    bool failed = true;
    for (unsigned call = 1; failed; call++) {
        fail_at(call, ENOSPC);
        store_file *s = store_file_open("grips", STORE_READ_WRITE, &error);
        failed = has_failed();
        CHECK((s == NULL) == failed);
        CHECK(!failed || (error.code == ENOSPC && files_here(false) == 1));
        store_file_close(s);
    }
    fail_at(0, 0);
    CHECK(names_flushed() && length_of("grips-wal") == 32 && files_here(true) == 2);
}

/* After a failed write or fsync nothing is done any more; opened anew, the store has what was acknowledged. */
static void stopped_store(void) {
    make_store("grips", 1);
    store_file *s = store_file_open("grips", STORE_READ_WRITE, &error);
    fail_at(1, EIO);
    CHECK(!commit_page(s, 2, 2) && error.code == EIO && strstr(error.text, "grips-wal") != NULL);
    CHECK(!store_file_checkpoint(s, &error) && !append_batch(s, 1) && error.code == EIO);
    store_file_close(s);
    CHECK(seen_in("grips", STORE_READ_WRITE) == 1 && files_here(true) == 2);
}

/* Nor is anything shown that may not be on the medium. */
static void stopped_readers(void) {
    make_store("grips", 1);
    store_file *s = store_file_open("grips", STORE_READ_WRITE, &error);
    uint8_t bytes[PAGE] = {0};
    size_t frame = 0;
    CHECK(s != NULL && append_batch(s, 1) && commit_page(s, 2, 2) && batches_of(s) == 1);
    size_t frames = store_file_frames(s);
    fail_at(1, EIO);
    CHECK(!append_batch(s, 2) && has_failed());
    CHECK(store_file_page(s, 2) == NULL);
    CHECK(store_file_batch(s, &frame) == NULL);
    CHECK(!store_file_stage(s, 2, bytes, &error) && error.code == EIO && error.refusal == LATEENBAEL_OK);
    CHECK(store_file_header(s).page_count == 3 && store_file_frames(s) == frames + 1);
    store_file_close(s);
    CHECK(seen_in("grips", STORE_READ_WRITE) == 2 && files_here(true) == 2);
}

/* Commits and a checkpoint up to the failure; answers what was acknowledged. */
static int write_until_failure(void) {
    store_file *s = store_file_open("grips", STORE_READ_WRITE, &error);
    int byte = 1;
    if (s == NULL) {
        return byte;
    }
    if (append_batch(s, 2) && commit_page(s, 2, 2)) {
        byte = 2;
        if (store_file_checkpoint(s, &error) && commit_page(s, 2, 3)) {
            byte = 3;
        }
    }
    store_file_close(s);
    return byte;
}

/* After an fsync that failed, in whichever call, what an opening shows and what is committed behind it is still there when the medium is
 * all that is left. Answers whether an fsync failed. */
static bool forgetful_cache(unsigned sync, enum reached reached, bool direct_reads) {
    make_store("grips", 1);
    watch("grips", "grips-wal", direct_reads);
    fail_fsync(sync, reached);
    int byte = write_until_failure();
    bool happened = has_failed();
    CHECK(happened == (byte < 3));
    fail_fsync(0, NONE_REACHED);
    store_file *s = store_file_open("grips", STORE_READ_WRITE, &error);
    int shown = -1;
    if (CHECK(s != NULL)) {
        shown = byte_of(s, 2);
        CHECK(shown == byte || (happened && shown == byte + 1));
        CHECK(commit_page(s, 1, 7));
        store_file_close(s);
    }
    remount();
    s = store_file_open("grips", STORE_READ_WRITE, &error);
    if (CHECK(s != NULL)) {
        CHECK(byte_of(s, 2) == shown && byte_of(s, 1) == 7);
        store_file_close(s);
    }
    CHECK(files_here(true) == 2);
    return happened;
}

/* An opening writes nothing where it can read past the cache, else all; a flush for the main file takes an appended batch along. */
static void quiet_disk(void) {
    for (int direct = 0; direct < 2; direct++) {
        make_store("grips", 1);
        watch("grips", "grips-wal", direct);
        store_file *s = store_file_open("grips", STORE_READ_WRITE, &error);
        CHECK(s != NULL && (writes_made() == 0) == (direct == 1));
        CHECK(append_batch(s, 1) && store_file_checkpoint(s, &error) && log_went_first());
        store_file_close(s);
        remount();
        CHECK(seen_in("grips", STORE_READ_WRITE) == 1 && files_here(true) == 2);
    }
}

/* What the cache keeps in spite of all is not built on. */
static void kept_pages(void) {
    make_store("grips", 1);
    watch("grips", "grips-wal", true);
    store_file *s = store_file_open("grips", STORE_READ_WRITE, &error);
    fail_fsync(1, NONE_REACHED);
    CHECK(s != NULL && !commit_page(s, 2, 2));
    store_file_close(s);
    keep_pages(true);
    CHECK(store_file_open("grips", STORE_READ_WRITE, &error) == NULL && error.code == EIO);
    keep_pages(false);
    CHECK(seen_in("grips", STORE_READ_WRITE) == 1);
    remount();
    CHECK(seen_in("grips", STORE_READ_WRITE) == 1 && files_here(true) == 2);
}

/* Reads that give a part or are interrupted are done again; where the file has become shorter, that is told. */
static void weak_reads(void) {
    make_store("grips", 1);
    for (int direct = 0; direct < 2; direct++) {
        watch("grips", "grips-wal", direct);
        reads_give(PART_READS);
        CHECK(seen_in("grips", STORE_READ_WRITE) == 1);
        reads_give(NO_READS);
        CHECK(refused(store_file_open("grips", STORE_READ_WRITE, &error), EIO, "grips"));
        reads_give(WHOLE_READS);
        remount();
    }
    CHECK(seen_in("grips", STORE_READ_WRITE) == 1 && files_here(true) == 2);
}

static void failed_fsyncs(void) {
    for (int way = 0; way < 6; way++) {
        unsigned sync = 1;
        while (forgetful_cache(sync, (enum reached)(way % 3), way < 3)) {
            sync++;
        }
        CHECK(sync > 8);
    }
}

/* ---- names and locks */

/* By a symbolic link it is the same store with the same log. */
static void symbolic_link(void) {
    make_store("grips", 1);
    CHECK(symlink("grips", "current") == 0);
    store_file *s = store_file_open("current", STORE_READ_WRITE, &error);
    CHECK(s != NULL && commit_page(s, 2, 2));
    store_file_close(s);
    CHECK(seen_in("grips", STORE_READ_ONLY) == 2 && !is_there("current-wal"));
    CHECK(store_file_create("current", &error) == NULL && error.code == EEXIST && !is_there("grips-creating"));
    CHECK(unlink("grips") == 0 && unlink("grips-wal") == 0);
    CHECK(store_file_create("current", &error) == NULL && error.code == EEXIST);
    CHECK(store_file_open_or_create("current", &error) == NULL && files_here(true) == 1);
}

static void hard_link(void) {
    make_store("grips", 1);
    CHECK(link("grips", "other") == 0);
    CHECK(store_file_open("other", STORE_READ_WRITE, &error) == NULL && error.code == EMLINK);
    CHECK(store_file_open("grips", STORE_READ_ONLY, &error) == NULL && error.code == EMLINK);
    CHECK(!is_there("other-wal") && files_here(true) == 3);
    make_store("grips", 1);
    CHECK(link("grips-wal", "other-wal") == 0);
    CHECK(store_file_open("grips", STORE_READ_WRITE, &error) == NULL && error.code == EMLINK);
    CHECK(unlink("other-wal") == 0 && seen_in("grips", STORE_READ_WRITE) == 1 && files_here(true) == 2);
}

/* A file that lies there by another name too is not written. */
static void linked_creation(void) {
    make_file("mine", 100);
    CHECK(link("mine", "grips-creating") == 0);
    CHECK(refused(store_file_create("grips", &error), EMLINK, "grips-creating "));
    CHECK(length_of("mine") == 100);
    CHECK(files_here(true) == 2);
    CHECK(mkfifo("grips-creating", 0600) == 0);
    CHECK(refused(store_file_create("grips", &error), EINVAL, "grips-creating"));
    CHECK(files_here(true) == 1);
    make_file("mine", 100);
    CHECK(link("mine", "grips-wal-creating") == 0);
    create();
    CHECK(length_of("mine") == 100 && length_of("grips-wal") == 32);
    CHECK(unlink("grips-wal") == 0 && truncate("mine", 100) == 0 && link("mine", "grips-wal-creating") == 0);
    store_file_close(store_file_open("grips", STORE_READ_WRITE, &error));
    CHECK(length_of("mine") == 100 && length_of("grips-wal") == 32 && files_here(true) == 3);
}

/* The log that an opening makes may be used by those who may use the main file. */
static void owner_of_log(void) {
    struct stat status;
    uid_t owner = geteuid() == 0 ? 12345 : geteuid();
    make_store("grips", 1);
    gid_t group = geteuid() == 0 ? 12346 : getegid();
    CHECK(chmod("grips", 0624) == 0 && chown("grips", owner, group) == 0 && unlink("grips-wal") == 0);
    store_file_close(store_file_open("grips", STORE_READ_WRITE, &error));
    CHECK(lstat("grips-wal", &status) == 0 && (status.st_mode & 07777) == 0624 && status.st_uid == owner && status.st_gid == group);
    CHECK(files_here(true) == 2);
}

static void locks(void) {
    make_store("grips", 1);
    store_file *s = store_file_open("grips", STORE_READ_ONLY, &error);
    CHECK(s != NULL && !commit_page(s, 2, 2) && error.refusal == LATEENBAEL_REFUSED_READ_ONLY);
    CHECK(seen_in("grips", STORE_READ_ONLY) == 1);
    CHECK(store_file_open("grips", STORE_READ_WRITE, &error) == NULL && error.code == EWOULDBLOCK);
    store_file_close(s);
    s = store_file_open("grips", STORE_READ_WRITE, &error);
    CHECK(s != NULL && store_file_open("grips", STORE_READ_ONLY, &error) == NULL && error.code == EWOULDBLOCK);
    store_file_close(s);
    CHECK(files_here(true) == 2);
}

static void take_note(int signal) {
    (void)signal;
}

static double seconds(void) {
    struct timespec now;
    clock_gettime(CLOCK_MONOTONIC, &now);
    return (double)now.tv_sec + (double)now.tv_nsec / 1e9;
}

static int other_creation;

static void lock_creating(void) {
    other_creation = open("grips-creating", O_RDWR);
    CHECK(other_creation >= 0 && flock(other_creation, LOCK_EX) == 0);
}

/* Signals do not shorten the wait for a lock; what another creation has locked is its own, whoever made it. */
static void patience(void) {
    const struct itimerval every_ms = {{0, 1000}, {0, 1000}}, never = {{0, 0}, {0, 0}};
    struct sigaction action = {.sa_handler = take_note, .sa_flags = SA_RESTART};
    CHECK(sigaction(SIGALRM, &action, NULL) == 0 && setitimer(ITIMER_REAL, &every_ms, NULL) == 0);
    before_flock(lock_creating);
    double start = seconds();
    CHECK(refused(store_file_create("grips", &error), EWOULDBLOCK, "grips-creating"));
    double waited = seconds() - start;
    CHECK(setitimer(ITIMER_REAL, &never, NULL) == 0);
    CHECK(waited > 0.95);
    close(other_creation);
    CHECK(is_there("grips-creating"));
    CHECK(files_here(true) == 1);
}

static void no_locks(void) {
    fail_flock(ENOLCK);
    CHECK(refused(store_file_create("grips", &error), ENOLCK, "grips-creating"));
    CHECK(files_here(true) == 0);
    make_file("grips-creating", 0);
    fail_flock(ENOLCK);
    CHECK(refused(store_file_create("grips", &error), ENOLCK, "grips-creating"));
    CHECK(files_here(true) == 1);
}

/* A main file is lost. */
static void lose_main(void) {
    CHECK(rename("lost-wal", "grips-wal") == 0);
}

/* Another creation fails, and a main file is lost at once, or between the next two calls. */
static void fail_and_lose(void) {
    CHECK(unlink("grips-creating") == 0);
    lose_main();
}

static void fail_then_lose(void) {
    CHECK(unlink("grips-creating") == 0);
    before_flock(lose_main);
}

/* Another creation ends. */
static void name_main(void) {
    CHECK(rename("grips-creating", "grips") == 0);
}

/* What another creation does between two calls of this one: the log of a main file that was lost stays. */
static void creations_at_once(void) {
    void (*const places[])(void (*)(void)) = {before_flock, before_flock, behind_found, before_flock};
    void (*const acts[])(void) = {lose_main, fail_and_lose, fail_and_lose, fail_then_lose};
    for (int i = 0; i < 4; i++) {
        make_file("lost-wal", 33);
        if (i > 0) {
            make_file("grips-creating", 100);
        }
        places[i](acts[i]);
        CHECK(refused(store_file_create("grips", &error), EEXIST, "grips-wal "));
        places[i](NULL);
        CHECK(length_of("grips-wal") == 33);
        CHECK(files_here(true) == 1);
    }
    before_flock(create);
    CHECK(refused(store_file_create("grips", &error), EEXIST, "grips "));
    CHECK(rename("grips", "grips-creating") == 0);
    behind_lstat(name_main);
    CHECK(refused(store_file_create("grips", &error), EEXIST, "grips "));
    CHECK(files_here(true) == 2);
}

/* What a creation over a store that was cut has left beside it goes with the next opening that writes. */
static void left_beside(void) {
    make_store("grips", 1);
    make_file("grips-creating", 100);
    make_file("grips-wal-creating", 100);
    CHECK(seen_in("grips", STORE_READ_ONLY) == 1 && files_here(false) == 4);
    CHECK(seen_in("grips", STORE_READ_WRITE) == 1 && files_here(false) == 2);
    CHECK(unlink("grips") == 0);
    create_at_log();
    CHECK(files_here(true) == 1);
}

static void replace_store(void) {
    CHECK(rename("new-wal", "grips-wal") == 0 && rename("new", "grips") == 0);
}

/* What would be written to a log that was removed or cut behind the store's back is not acknowledged. */
static void lost_log(void) {
    for (int way = 0; way < 4; way++) {
        make_store("grips", 1);
        store_file *s = store_file_open("grips", STORE_READ_WRITE, &error);
        CHECK(s != NULL && (way % 2 == 0 ? unlink("grips-wal") : truncate("grips-wal", 32)) == 0);
        CHECK(!(way < 2 ? commit_page(s, 2, 2) : append_batch(s, 1)));
        CHECK(error.code == EIO && strstr(error.text, "grips-wal was removed") != NULL);
        CHECK(!commit_page(s, 2, 2) && strstr(error.text, "has failed before") != NULL);
        store_file_close(s);
        CHECK(length_of("grips-wal") == (way % 2 == 0 ? -1 : 32));
        files_here(true);
    }
}

/* Another store's files would be taken for a store of such a name. */
static void reserved_names(void) {
    CHECK(refused(store_file_create("grips-wal", &error), EINVAL, "grips-wal: "));
    CHECK(refused(store_file_open_or_create("grips-creating", &error), EINVAL, "grips-creating: "));
    CHECK(files_here(true) == 0);
}

/* Between opening and locking another store gets the name. */
static void replaced(void) {
    make_store("grips", 1);
    make_store("new", 5);
    before_flock(replace_store);
    CHECK(seen_in("grips", STORE_READ_WRITE) == 5 && files_here(true) == 2);
}

/* ---- what is refused */

static void refusals(void) {
    make_store("grips", 1);
    store_file *s = store_file_open("grips", STORE_READ_WRITE, &error);
    uint8_t bytes[PAGE] = {0};
    CHECK(store_file_stage(s, 3, bytes, &error) && !store_file_commit(s, store_file_header(s), &error));
    CHECK(error.code == EINVAL && strstr(error.text, "page 3") != NULL);
    store_file_clear_staged(s);
    CHECK(!store_file_stage(s, 1024, bytes, &error) && error.refusal == LATEENBAEL_REFUSED_PAGE);
    store_file_close(s);
    make_file("grips-wal", 31);
    CHECK(store_file_open("grips", STORE_READ_WRITE, &error) == NULL && error.refusal == LATEENBAEL_REFUSED_SHORT);
    CHECK(strstr(error.text, "grips-wal: refused 2 Short") != NULL);
    make_file("grips", 100);
    CHECK(store_file_open("grips", STORE_READ_ONLY, &error) == NULL && strstr(error.text, "grips: refused 2 Short") != NULL);
    make_file("grips-wal", (off_t)1 << 33);
    make_file("grips", (off_t)1 << 33);
    CHECK(store_file_open("grips", STORE_READ_WRITE, &error) == NULL && error.refusal == LATEENBAEL_REFUSED_AREA);
    CHECK(files_here(true) == 2);
}

/* A log is a cut creation's if STORE-creating is there, whatever is in it; and other files are not taken for stores. */
static void strange_files(void) {
    cut_creation();
    create();
    CHECK(length_of("grips-wal") == 32 && files_here(true) == 2);
    make_file("grips-wal", 32);
    make_file("grips-creating", 100000);
    make_file("grips-wal-creating", 100000);
    create();
    CHECK(length_of("grips") == 2 * PAGE && length_of("grips-wal") == 32 && files_here(true) == 2);
    CHECK(mkfifo("pipe", 0600) == 0 && store_file_open("pipe", STORE_READ_ONLY, &error) == NULL && error.code == EINVAL);
    CHECK(store_file_open("nothing", STORE_READ_WRITE, &error) == NULL && error.code == ENOENT);
    CHECK(store_file_create("no/folder", &error) == NULL && error.code == ENOENT);
    CHECK(store_file_create("folder/", &error) == NULL && error.code == ENOENT);
    char path[5000];
    memset(path, 'a', sizeof path - 1);
    path[sizeof path - 1] = 0;
    CHECK(store_file_create(path, &error) == NULL && error.code == ENAMETOOLONG);
    CHECK(files_here(true) == 1);
}

static void run(const char *name, void (*part)(void)) {
    unsigned checks_before = checks, failures_before = failures;
    part();
    files_here(true); /* what a check that failed has left */
    printf("%s: %u checks, %u failed\n", name, checks - checks_before, failures - failures_before);
}

int main(void) {
    setvbuf(stdout, NULL, _IOLBF, 0);
    acknowledged = mmap(NULL, sizeof *acknowledged, PROT_READ | PROT_WRITE, MAP_SHARED | MAP_ANONYMOUS, -1, 0);
    if (acknowledged == MAP_FAILED || files_here(false) != 0) {
        puts("run it in an empty folder");
        return 1;
    }
    run("cut creations", cut_creations);
    run("cut failures", cut_failures);
    run("lone log", lone_log);
    run("cut writers", cut_writers);
    run("full disk", full_disk);
    run("full disk for a log", full_disk_for_a_log);
    run("stopped store", stopped_store);
    run("stopped readers", stopped_readers);
    run("quiet disk", quiet_disk);
    run("failed fsyncs", failed_fsyncs);
    run("kept pages", kept_pages);
    run("weak reads", weak_reads);
    run("symbolic link", symbolic_link);
    run("hard link", hard_link);
    run("linked creation", linked_creation);
    run("owner of a log", owner_of_log);
    run("locks", locks);
    run("patience", patience);
    run("no locks", no_locks);
    run("creations at once", creations_at_once);
    run("left beside", left_beside);
    run("lost log", lost_log);
    run("reserved names", reserved_names);
    run("replaced", replaced);
    run("refusals", refusals);
    run("strange files", strange_files);
    printf("C example's test: %u checks, %u failed\n", checks, failures);
    return failures != 0;
}
