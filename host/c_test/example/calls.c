/* See calls.h. */
#define _GNU_SOURCE
#include "calls.h"
#include "../../lateenbael.h"
#include <errno.h>
#include <fcntl.h>
#include <limits.h>
#include <signal.h>
#include <stdarg.h>
#include <stdio.h>
#include <stdlib.h>
#include <string.h>
#include <sys/stat.h>
#include <unistd.h>

#define PAGE LATEENBAEL_PAGE_SIZE
#define PAGES (LATEENBAEL_LOG_AREA / PAGE + 1)

int __real_open(const char *path, int flags, ...);
ssize_t __real_pread(int fd, void *bytes, size_t len, off_t at);
ssize_t __real_pwrite(int fd, const void *bytes, size_t len, off_t at);
int __real_ftruncate(int fd, off_t len);
int __real_fsync(int fd);
int __real_rename(const char *from, const char *to);
int __real_unlink(const char *path);
int __real_lstat(const char *path, struct stat *status);
int __real_flock(int fd, int how);
int __real_fcntl(int fd, int what, ...);
int __real_posix_fadvise(int fd, off_t at, off_t len, int advice);

int __wrap_open(const char *path, int flags, ...);
ssize_t __wrap_pread(int fd, void *bytes, size_t len, off_t at);
ssize_t __wrap_pwrite(int fd, const void *bytes, size_t len, off_t at);
int __wrap_ftruncate(int fd, off_t len);
int __wrap_fsync(int fd);
int __wrap_rename(const char *from, const char *to);
int __wrap_unlink(const char *path);
int __wrap_lstat(const char *path, struct stat *status);
int __wrap_flock(int fd, int how);
int __wrap_fcntl(int fd, int what, ...);
int __wrap_posix_fadvise(int fd, off_t at, off_t len, int advice);

/* ---- one call that kills or fails */

static unsigned until_kill, until_failure;
static int failure, flock_failure;
static bool failed_once;
static void (*flock_act)(void), (*lstat_act)(void), (*found_act)(void);
static bool renamed;
static enum reads reads;

void kill_at(unsigned call) {
    until_kill = call;
}

void fail_at(unsigned call, int code) {
    until_failure = call;
    failure = code;
    failed_once = false;
}

bool has_failed(void) {
    return failed_once;
}

void fail_flock(int code) {
    flock_failure = code;
}

void before_flock(void (*act)(void)) {
    flock_act = act;
}

void behind_lstat(void (*act)(void)) {
    lstat_act = act;
}

void behind_found(void (*act)(void)) {
    found_act = act;
}

void reads_give(enum reads what) {
    reads = what;
}

bool names_flushed(void) {
    return !renamed;
}

/* Counts a call, which may be one that kills. */
static void count(void) {
    if (until_failure == 0 && until_kill > 0 && --until_kill == 0) {
        kill(getpid(), SIGKILL);
    }
}

/* Does once what another program is to do. */
static void let_act(void (**act)(void)) {
    void (*now)(void) = *act;
    *act = NULL;
    if (now != NULL) {
        now();
    }
}

/* Counts a call; whether it is to fail. */
static bool fails(void) {
    count();
    if (until_failure > 0 && --until_failure == 0) {
        errno = failure;
        failed_once = true;
        return true;
    }
    return false;
}

/* ---- the cache */

typedef struct {
    char path[PATH_MAX];
    ino_t inode;
    uint8_t *bytes; /* what is on the medium */
    size_t len;
    bool dirty[PAGES]; /* the cache has other bytes, to be stored */
    bool stale[PAGES]; /* it has forgotten to store them, and will, as long as it keeps the page */
    bool direct;       /* the descriptor reads past the cache */
} medium;

static medium media[2];
static bool watching, direct_allowed, keeping, log_left_behind;
static unsigned writes;
static unsigned until_sync_failure;
static enum reached what_reached;

static medium *behind(int fd) {
    struct stat status;
    if (!watching || fstat(fd, &status) != 0) {
        return NULL;
    }
    for (int i = 0; i < 2; i++) {
        if (media[i].inode == status.st_ino) {
            return &media[i];
        }
    }
    return NULL;
}

static void watch_one(medium *m, const char *path) {
    struct stat status;
    int fd = __real_open(path, O_RDONLY);
    *m = (medium){.bytes = calloc(PAGES, PAGE)};
    snprintf(m->path, sizeof m->path, "%s", path);
    if (fd < 0 || m->bytes == NULL || fstat(fd, &status) != 0) {
        abort();
    }
    m->inode = status.st_ino;
    m->len = (size_t)__real_pread(fd, m->bytes, PAGES * PAGE, 0);
    close(fd);
}

void watch(const char *main_path, const char *log_path, bool direct_reads) {
    watch_one(&media[0], main_path);
    watch_one(&media[1], log_path);
    watching = true;
    direct_allowed = direct_reads;
    keeping = false;
    until_sync_failure = 0;
    log_left_behind = false;
    writes = 0;
}

unsigned writes_made(void) {
    return writes;
}

bool log_went_first(void) {
    return !log_left_behind;
}

void keep_pages(bool keep) {
    keeping = keep;
}

void fail_fsync(unsigned sync, enum reached reached) {
    until_sync_failure = sync;
    failed_once = false;
    what_reached = reached;
}

void remount(void) {
    watching = false;
    for (int i = 0; i < 2; i++) {
        int fd = __real_open(media[i].path, O_RDWR);
        if (__real_ftruncate(fd, (off_t)media[i].len) != 0 || __real_pwrite(fd, media[i].bytes, media[i].len, 0) != (ssize_t)media[i].len) {
            abort();
        }
        close(fd);
        free(media[i].bytes);
    }
}

/* Stores the dirty pages; those that are not to reach the medium are forgotten. */
static void store_dirty(medium *m, int fd, bool even, bool odd) {
    for (size_t page = 0; page < PAGES; page++) {
        bool reaches = page % 2 == 0 ? even : odd;
        m->stale[page] = m->stale[page] || (m->dirty[page] && !reaches);
        if (m->dirty[page] && !m->stale[page]) {
            memset(m->bytes + page * PAGE, 0, PAGE);
            if (__real_pread(fd, m->bytes + page * PAGE, PAGE, (off_t)(page * PAGE)) < 0) {
                abort();
            }
        }
        m->dirty[page] = false;
    }
    m->len = (size_t)lseek(fd, 0, SEEK_END);
}

/* The cache lets go of the pages that are not dirty: what is read of them comes from the medium. */
static void drop_pages(medium *m, int fd) {
    size_t len = (size_t)lseek(fd, 0, SEEK_END);
    for (size_t page = 0; page * PAGE < len; page++) {
        size_t part = len - page * PAGE < PAGE ? len - page * PAGE : PAGE;
        if (!m->dirty[page] && __real_pwrite(fd, m->bytes + page * PAGE, part, (off_t)(page * PAGE)) != (ssize_t)part) {
            abort();
        }
        m->stale[page] = false;
    }
}

/* Whether the log has pages to be stored while the main file is flushed. */
static bool leaves_log(const medium *m) {
    return m == &media[0] && memchr(media[1].dirty, true, sizeof media[1].dirty) != NULL;
}

/* ---- the calls */

int __wrap_open(const char *path, int flags, ...) {
    va_list rest;
    va_start(rest, flags);
    mode_t mode = (flags & O_CREAT) != 0 ? va_arg(rest, mode_t) : 0;
    va_end(rest);
    int fd = fails() ? -1 : __real_open(path, flags, mode);
    if (fd < 0 && errno == EEXIST) {
        let_act(&found_act);
        errno = EEXIST;
    }
    return fd;
}

/* A read through the cache, as reads_give says. */
static ssize_t cached_pread(int fd, void *bytes, size_t len, off_t at) {
    static bool interrupted;
    interrupted = reads == PART_READS && !interrupted;
    if (interrupted) {
        errno = EINTR;
        return -1;
    }
    return reads == NO_READS ? 0 : __real_pread(fd, bytes, reads == PART_READS && len > 1000 ? 1000 : len, at);
}

ssize_t __wrap_pread(int fd, void *bytes, size_t len, off_t at) {
    medium *m = behind(fd);
    if (m == NULL || !m->direct) {
        return cached_pread(fd, bytes, len, at);
    }
    size_t end = (size_t)lseek(fd, 0, SEEK_END), from = (size_t)at;
    size_t part = from >= end ? 0 : end - from < len ? end - from : len;
    memcpy(bytes, m->bytes + from, part);
    return (ssize_t)part;
}

ssize_t __wrap_pwrite(int fd, const void *bytes, size_t len, off_t at) {
    medium *m = behind(fd);
    if (fails()) {
        return -1;
    }
    writes++;
    for (size_t page = (size_t)at / PAGE; m != NULL && page * PAGE < (size_t)at + len; page++) {
        m->dirty[page] = true;
    }
    return __real_pwrite(fd, bytes, len, at);
}

int __wrap_ftruncate(int fd, off_t len) {
    medium *m = behind(fd);
    if (fails()) {
        return -1;
    }
    for (size_t page = ((size_t)len + PAGE - 1) / PAGE; m != NULL && page < PAGES; page++) {
        m->dirty[page] = m->stale[page] = false;
    }
    return __real_ftruncate(fd, len);
}

int __wrap_fsync(int fd) {
    medium *m = behind(fd);
    if (fails()) {
        return -1;
    }
    if (m == NULL) {
        struct stat status;
        renamed = renamed && !(fstat(fd, &status) == 0 && S_ISDIR(status.st_mode));
        return __real_fsync(fd);
    }
    log_left_behind = log_left_behind || leaves_log(m);
    if (until_sync_failure > 0 && --until_sync_failure == 0) {
        store_dirty(m, fd, what_reached == EVEN_REACHED, what_reached == ODD_REACHED);
        failed_once = true;
        errno = EIO;
        return -1;
    }
    store_dirty(m, fd, true, true);
    return 0;
}

int __wrap_rename(const char *from, const char *to) {
    renamed = true;
    return fails() ? -1 : __real_rename(from, to);
}

int __wrap_unlink(const char *path) {
    count();
    int answer = __real_unlink(path);
    renamed = renamed || answer == 0;
    return answer;
}

int __wrap_lstat(const char *path, struct stat *status) {
    int answer = __real_lstat(path, status);
    let_act(&lstat_act);
    return answer;
}

/* Only a lock that is had is counted: a wait is many calls. */
int __wrap_flock(int fd, int how) {
    let_act(&flock_act);
    if (flock_failure != 0) {
        errno = flock_failure;
        flock_failure = 0;
        return -1;
    }
    int answer = __real_flock(fd, how);
    if (answer == 0) {
        count();
    }
    return answer;
}

int __wrap_fcntl(int fd, int what, ...) {
    va_list rest;
    va_start(rest, what);
    int flags = what == F_SETFL ? va_arg(rest, int) : 0;
    va_end(rest);
    medium *m = behind(fd);
    if (m == NULL || what != F_SETFL) {
        return __real_fcntl(fd, what, flags);
    }
    if ((flags & O_DIRECT) != 0 && !direct_allowed) {
        errno = EINVAL;
        return -1;
    }
    m->direct = (flags & O_DIRECT) != 0;
    return 0;
}

int __wrap_posix_fadvise(int fd, off_t at, off_t len, int advice) {
    medium *m = behind(fd);
    if (m == NULL) {
        return __real_posix_fadvise(fd, at, len, advice);
    }
    if (advice == POSIX_FADV_DONTNEED && !keeping) {
        drop_pages(m, fd);
    }
    return 0;
}
