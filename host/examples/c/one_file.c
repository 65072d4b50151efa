/* See one_file.h. */
#define _GNU_SOURCE /* O_DIRECT */
#include "one_file.h"
#include <errno.h>
#include <fcntl.h>
#include <stdarg.h>
#include <stdio.h>
#include <string.h>
#include <sys/file.h>
#include <sys/stat.h>
#include <time.h>
#include <unistd.h>

#define PAGE LATEENBAEL_PAGE_SIZE
#define LOCK_PATIENCE 1 /* in seconds: a host that only looks into the store is soon gone */

bool tell(store_error *error, uint32_t refusal, int code, const char *format, ...) {
    va_list words;
    va_start(words, format);
    *error = (store_error){.refusal = refusal, .code = code};
    vsnprintf(error->text, sizeof error->text, format, words);
    va_end(words);
    return false;
}

bool failed(store_error *error, const char *what, const char *path) {
    int code = errno;
    return tell(error, LATEENBAEL_OK, code, "%s %s: %s", what, path, strerror(code));
}

/* ---- writing, flushing, locking */

/* Writes all the bytes: pwrite may do a part of them, or be interrupted. */
bool write_all(one_file *f, const uint8_t *bytes, size_t len, size_t at, store_error *error) {
    f->unflushed = true;
    while (len > 0) {
        ssize_t n = pwrite(f->fd, bytes, len, (off_t)at);
        if (n == 0) {
            errno = EIO; /* no system does that, but a loop must end */
        }
        if (n == 0 || (n < 0 && errno != EINTR)) {
            return failed(error, "writing", f->path);
        }
        size_t done = n < 0 ? 0 : (size_t)n;
        bytes += done;
        len -= done;
        at += done;
    }
    return true;
}

bool set_len(one_file *f, size_t len, store_error *error) {
    f->unflushed = true;
    return ftruncate(f->fd, (off_t)len) == 0 || failed(error, "setting the length of", f->path);
}

bool flush_file(one_file *f, store_error *error) {
    if (fsync(f->fd) != 0) {
        return failed(error, "flushing", f->path);
    }
    f->unflushed = false;
    return true;
}

/* A resolved path has a slash. */
bool flush_folder(const char *path, store_error *error) {
    char folder[NAME_SIZE];
    int len = (int)(strrchr(path, '/') - path);
    snprintf(folder, sizeof folder, "%.*s", len == 0 ? 1 : len, path);
    int fd = open(folder, O_RDONLY | O_DIRECTORY | O_CLOEXEC);
    /* EINVAL: a file system that flushes no folders */
    bool done = (fd >= 0 && (fsync(fd) == 0 || errno == EINVAL)) || failed(error, "flushing the folder", folder);
    if (fd >= 0) {
        close(fd);
    }
    return done;
}

bool same_file(int fd, const char *path) {
    struct stat open_one, named;
    return fstat(fd, &open_one) == 0 && lstat(path, &named) == 0 && open_one.st_dev == named.st_dev && open_one.st_ino == named.st_ino;
}

/* Goes by the clock and not by the number of tries: a signal may cut a pause short. */
static bool lock(int fd, int how) {
    const struct timespec pause = {0, 10000000};
    struct timespec now, end;
    clock_gettime(CLOCK_MONOTONIC, &end);
    end.tv_sec += LOCK_PATIENCE;
    while (flock(fd, how | LOCK_NB) != 0) {
        int code = errno;
        clock_gettime(CLOCK_MONOTONIC, &now);
        bool over = now.tv_sec > end.tv_sec || (now.tv_sec == end.tv_sec && now.tv_nsec >= end.tv_nsec);
        if ((code != EWOULDBLOCK && code != EINTR) || over) {
            errno = code;
            return false;
        }
        nanosleep(&pause, NULL);
    }
    return true;
}

bool lock_file(int fd, const char *path, int how, store_error *error) {
    if (lock(fd, how)) {
        return true;
    }
    return errno == EWOULDBLOCK ? tell(error, LATEENBAEL_OK, EWOULDBLOCK, "%s is locked: another host has it open", path)
                                : failed(error, "locking", path);
}

static int open_and_lock(const char *path, int flags, int how, store_error *error) {
    /* O_NONBLOCK: a FIFO of that name must not keep the host waiting; regular files don't care. */
    int fd = open(path, flags | O_CLOEXEC | O_NONBLOCK | O_NOFOLLOW);
    if (fd < 0) {
        failed(error, "opening", path);
        return -1;
    }
    if (!lock_file(fd, path, how, error)) {
        close(fd);
        return -1;
    }
    return fd;
}

/* Between opening and locking another host may have put another file there: then that one is opened. */
int open_locked(const char *path, int flags, int how, store_error *error) {
    int fd = open_and_lock(path, flags, how, error);
    while (fd >= 0 && !same_file(fd, path)) {
        close(fd);
        fd = open_and_lock(path, flags, how, error);
    }
    return fd;
}

/* ---- reading what is on the medium */

size_t whole_pages(size_t len) {
    return (len + PAGE - 1) / PAGE * PAGE;
}

/* Reads that many bytes, or more, up to `room`: reads past the cache are of whole pages. pread may give a part, or be interrupted. */
static bool read_all(int fd, uint8_t *bytes, size_t room, size_t len, size_t at) {
    size_t done = 0;
    while (done < len) {
        ssize_t n = pread(fd, bytes + done, room - done, (off_t)(at + done));
        if (n == 0) {
            errno = EIO; /* it has become shorter in spite of the lock */
        }
        if (n == 0 || (n < 0 && errno != EINTR)) {
            return false;
        }
        done += n < 0 ? 0 : (size_t)n;
    }
    return true;
}

/* Reads a file of that length into its area. */
static bool read_file(one_file *f, size_t len) {
    return read_all(f->fd, f->area, whole_pages(f->area_size), len, 0);
}

static bool set_direct(int fd, bool direct) {
    int flags = fcntl(fd, F_GETFL);
    return flags >= 0 && fcntl(fd, F_SETFL, direct ? flags | O_DIRECT : flags & ~O_DIRECT) == 0;
}

static bool read_past_cache(one_file *f, size_t len) {
    bool done = set_direct(f->fd, true) && read_file(f, len);
    int code = errno;
    bool usual = set_direct(f->fd, false);
    errno = done ? errno : code;
    return done && usual;
}

/* Whether the cache holds what was read past it. If not, a program that has the file mapped keeps old pages there, and what is written to
 * them may never be stored. */
static bool cache_agrees(one_file *f, size_t len, store_error *error) {
    uint8_t cached[PAGE];
    for (size_t at = 0; at < len; at += PAGE) {
        size_t part = len - at < PAGE ? len - at : PAGE;
        if (!read_all(f->fd, cached, PAGE, part, at)) {
            return failed(error, "reading", f->path);
        }
        if (memcmp(cached, f->area + at, part) != 0) {
            return tell(error, LATEENBAEL_OK, EIO, "%s: the cache holds what the medium has not, and keeps it", f->path);
        }
    }
    return true;
}

/* Reads a file, which a writer has flushed, into its area. After an fsync that failed the cache may hold bytes that the medium has not, and
 * that no later fsync stores. So for a writer the cache lets go of the file, and what is read past it must be what it holds; where that
 * can't be read, it stores again what it reads, and a flush must follow. */
bool load(one_file *f, enum store_mode mode, size_t *len, store_error *error) {
    struct stat status;
    if (fstat(f->fd, &status) != 0) {
        return failed(error, "looking at", f->path);
    }
    *len = (size_t)status.st_size;
    if (*len > f->area_size) {
        return true; /* the opening refuses that length */
    }
    if (mode == STORE_READ_WRITE) {
        posix_fadvise(f->fd, 0, 0, POSIX_FADV_DONTNEED);
    }
    if (mode == STORE_READ_WRITE && read_past_cache(f, *len)) {
        return cache_agrees(f, *len, error);
    }
    /* EINVAL: this file system can't read past the cache */
    if ((mode == STORE_READ_WRITE && errno != EINVAL) || !read_file(f, *len)) {
        return failed(error, "reading", f->path);
    }
    return mode == STORE_READ_ONLY || write_all(f, f->area, *len, 0, error);
}
