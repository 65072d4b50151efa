/* See store_file.h. From top to bottom: opening, creation, reading, writing. */
#define _GNU_SOURCE /* realpath, O_NOFOLLOW */
#include "one_file.h"
#include <errno.h>
#include <fcntl.h>
#include <stdio.h>
#include <stdlib.h>
#include <string.h>
#include <sys/file.h>
#include <sys/stat.h>
#include <time.h>
#include <unistd.h>

#define PAGE LATEENBAEL_PAGE_SIZE

struct store_file {
    one_file main, log;
    uint32_t *table;
    uint8_t *staging;
    lateenbael_store store;
    bool stopped; /* a write or fsync has failed */
};

/* The areas as calls take them. */
#define AREAS(s)                                                                                                                           \
    (s)->table, LATEENBAEL_PAGES, (s)->log.area, LATEENBAEL_LOG_AREA, (s)->main.area, LATEENBAEL_MAIN_AREA, (s)->staging,                  \
        LATEENBAEL_STAGING_AREA

static bool refused(store_error *error, uint32_t refusal, const char *path) {
    return tell(error, refusal, 0, "%s: refused %u %s", path, (unsigned)refusal, lateenbael_refusal_name(refusal));
}

/* A flush is one of every file with writes since its last one, the log first: a batch is appended without a flush, and the commit frame
 * that a checkpoint goes by must be on the medium before the pages are. */
static bool flush(store_file *s, store_error *error) {
    return (!s->log.unflushed || flush_file(&s->log, error)) && (!s->main.unflushed || flush_file(&s->main, error));
}

/* ---- opening */

static bool joined(char out[NAME_SIZE], const char *first, const char *second) {
    if ((size_t)snprintf(out, NAME_SIZE, "%s%s", first, second) < NAME_SIZE) {
        return true;
    }
    errno = ENAMETOOLONG;
    return false;
}

/* The path of a file that is not there yet: its folder's resolved path, and its name. */
static bool resolve_new(const char *path, char out[NAME_SIZE]) {
    char folder[NAME_SIZE], resolved[PATH_MAX], start[NAME_SIZE];
    const char *slash = strrchr(path, '/');
    const char *name = slash == NULL ? path : slash + 1;
    if (*name == 0) {
        errno = ENOENT;
        return false;
    }
    /* "x" has the folder ".", "a/x" has "a/."; one that has no room here is too long for realpath as well */
    snprintf(folder, sizeof folder, "%.*s.", (int)(name - path), path);
    return realpath(folder, resolved) != NULL && joined(start, strcmp(resolved, "/") == 0 ? "" : resolved, "/") && joined(out, start, name);
}

/* The log is named by the main file's resolved path: a store that is opened by a symbolic link must not get a second log. */
static bool resolve(store_file *s, const char *path, store_error *error) {
    bool found = realpath(path, s->main.path) != NULL || (errno == ENOENT && resolve_new(path, s->main.path));
    return (found && joined(s->log.path, s->main.path, "-wal")) || failed(error, "resolving", path);
}

/* By another hard link the store would have another log, or the log another store. One that was
 * removed just now has none, and is not refused for that. */
static bool has_one_name(int fd, const char *path, store_error *error) {
    struct stat status;
    if (fstat(fd, &status) != 0) {
        return failed(error, "looking at", path);
    }
    if (!S_ISREG(status.st_mode)) {
        return tell(error, LATEENBAEL_OK, EINVAL, "%s is no regular file", path);
    }
    return status.st_nlink <= 1 || tell(error, LATEENBAEL_OK, EMLINK, "%s has more than one hard link", path);
}

static bool open_both(store_file *s, enum store_mode mode, store_error *error) {
    int flags = mode == STORE_READ_ONLY ? O_RDONLY : O_RDWR;
    s->main.fd = open_locked(s->main.path, flags, mode == STORE_READ_ONLY ? LOCK_SH : LOCK_EX, error);
    if (s->main.fd < 0 || !has_one_name(s->main.fd, s->main.path, error)) {
        return false;
    }
    s->log.fd = open(s->log.path, flags | O_CLOEXEC | O_NONBLOCK | O_NOFOLLOW);
    return s->log.fd >= 0 ? has_one_name(s->log.fd, s->log.path, error) : errno == ENOENT || failed(error, "opening", s->log.path);
}

static void remove_creating(const one_file *f) {
    char name[NAME_SIZE];
    if (joined(name, f->path, CREATING)) {
        unlink(name);
    }
}

/* What a creation over this store has left that was cut goes away: were the main file lost later, it would tell that the log is a cut
 * creation's. Only beside a store: what is none is refused, and nothing is altered. */
static void remove_left_beside(const store_file *s) {
    remove_creating(&s->log);
    remove_creating(&s->main);
}

/* What an earlier host has written and not flushed goes to the medium before anything is read. */
static bool settle(store_file *s, store_error *error) {
    s->main.unflushed = true;
    s->log.unflushed = s->log.fd >= 0;
    return flush(s, error) && flush_folder(s->main.path, error);
}

/* Never 0 and never the last one, so that no frame of the old log counts in the new one. */
static uint32_t new_salt(uint32_t last) {
    struct timespec now;
    clock_gettime(CLOCK_REALTIME, &now);
    uint32_t salt = (uint32_t)now.tv_nsec ^ (uint32_t)now.tv_sec << 16 ^ (uint32_t)getpid();
    while (salt == 0 || salt == last) {
        salt++;
    }
    return salt;
}

/* Which file a refused opening is about: the main file is judged first. */
static const one_file *blamed(const store_file *s, uint32_t refusal, size_t main_len) {
    bool main_is_wrong =
        main_len > LATEENBAEL_MAIN_AREA || lateenbael_decode_header(s->main.area, main_len < PAGE ? main_len : PAGE).refusal;
    return main_is_wrong || refusal == LATEENBAEL_REFUSED_MAIN_SHORT ? &s->main : &s->log;
}

static bool make_log(store_file *s, store_error *error);

static bool open_engine(store_file *s, enum store_mode mode, store_error *error) {
    size_t main_len = 0, log_len = 0;
    bool has_log = s->log.fd >= 0, writing = mode == STORE_READ_WRITE;
    if ((writing && !settle(s, error)) || !load(&s->main, mode, &main_len, error) || (has_log && !load(&s->log, mode, &log_len, error))) {
        return false;
    }
    lateenbael_answered opened = writing ? lateenbael_open_clean(AREAS(s), main_len, log_len, 0, has_log, new_salt(0))
                                         : lateenbael_open_with_mode(AREAS(s), main_len, log_len, 1, has_log, 0);
    if (opened.refusal != LATEENBAEL_OK) {
        return refused(error, opened.refusal, blamed(s, opened.refusal, main_len)->path);
    }
    s->store = opened.store;
    if (!writing) {
        return true;
    }
    remove_left_beside(s);
    return (has_log ? set_len(&s->log, s->store.wal.len, error) : make_log(s, error)) && flush(s, error);
}

static uint8_t *new_area(size_t size) {
    uint8_t *area = aligned_alloc(PAGE, whole_pages(size));
    return area == NULL ? NULL : memset(area, 0, whole_pages(size));
}

/* Nothing is open yet. */
static store_file *new_store(store_error *error) {
    store_file *s = calloc(1, sizeof *s);
    if (s == NULL) {
        failed(error, "memory for", "a store");
        return NULL;
    }
    s->main = (one_file){.fd = -1, .area = new_area(LATEENBAEL_MAIN_AREA), .area_size = LATEENBAEL_MAIN_AREA};
    s->log = (one_file){.fd = -1, .area = new_area(LATEENBAEL_LOG_AREA), .area_size = LATEENBAEL_LOG_AREA};
    s->table = calloc(LATEENBAEL_PAGES, sizeof *s->table);
    s->staging = new_area(LATEENBAEL_STAGING_AREA);
    if (s->main.area == NULL || s->log.area == NULL || s->table == NULL || s->staging == NULL) {
        failed(error, "memory for", "a store");
        store_file_close(s);
        return NULL;
    }
    return s;
}

/* Header and archive must belong together before any struct goes over. */
static store_file *new_store_at(const char *path, store_error *error) {
    if (lateenbael_version() != LATEENBAEL_VERSION) {
        tell(error, LATEENBAEL_OK, EINVAL, "lateenbael.h is not of the archive's version");
        return NULL;
    }
    store_file *s = new_store(error);
    if (s != NULL && !resolve(s, path, error)) {
        store_file_close(s);
        return NULL;
    }
    return s;
}

store_file *store_file_open(const char *path, enum store_mode mode, store_error *error) {
    store_file *s = new_store_at(path, error);
    if (s != NULL && !(open_both(s, mode, error) && open_engine(s, mode, error))) {
        store_file_close(s);
        return NULL;
    }
    return s;
}

/* The lock goes with the main file's descriptor. */
void store_file_close(store_file *s) {
    if (s == NULL) {
        return;
    }
    if (s->log.fd >= 0) {
        close(s->log.fd);
    }
    if (s->main.fd >= 0) {
        close(s->main.fd);
    }
    free(s->main.area);
    free(s->log.area);
    free(s->table);
    free(s->staging);
    free(s);
}

/* ---- creation: each file is made as CREATING says, and gets its own name when it is on the medium */

static bool creating_name(char out[NAME_SIZE], const one_file *f, store_error *error) {
    return joined(out, f->path, CREATING) || failed(error, "naming", f->path);
}

static bool rename_new(const one_file *f, store_error *error) {
    char name[NAME_SIZE];
    return creating_name(name, f, error) && (rename(name, f->path) == 0 || failed(error, "renaming", name));
}

/* The file has the first bytes of its area, whatever a creation that was cut has left in it. */
static bool fill(one_file *f, size_t len, store_error *error) {
    return set_len(f, 0, error) && write_all(f, f->area, len, 0, error) && flush_file(f, error);
}

/* A log has its main file's mode, group and owner, as far as that is allowed: who looks after a store as another user must not lock its
 * controller out. Where the group can't be given, the log's own group gets no rights that were another's. */
static void take_after(const one_file *log, const one_file *main) {
    struct stat like, own;
    if (fstat(main->fd, &like) != 0) {
        return;
    }
    mode_t mode = like.st_mode & 07777;
    int not_allowed = fchown(log->fd, (uid_t)-1, like.st_gid);
    if (fstat(log->fd, &own) != 0 || own.st_gid != like.st_gid) {
        mode &= ~(mode_t)070 | (mode & 07) << 3;
    }
    fchmod(log->fd, mode);
    not_allowed = fchown(log->fd, like.st_uid, (gid_t)-1);
    (void)not_allowed;
}

/* What a cut one has left is not opened but removed: by another hard link it may be another's. */
static bool make_new_log(store_file *s, store_error *error) {
    char name[NAME_SIZE];
    if (!creating_name(name, &s->log, error)) {
        return false;
    }
    unlink(name);
    s->log.fd = open(name, O_RDWR | O_CREAT | O_EXCL | O_CLOEXEC | O_NOFOLLOW, 0666);
    if (s->log.fd < 0) {
        return failed(error, "opening", name);
    }
    take_after(&s->log, &s->main);
    return fill(&s->log, s->store.wal.len, error);
}

/* Removes what a failed creation has made, whichever of its names it has. */
static void remove_made(const one_file *f) {
    char name[NAME_SIZE];
    if (f->fd >= 0 && joined(name, f->path, CREATING) && same_file(f->fd, name)) {
        unlink(name);
    }
    if (f->fd >= 0 && same_file(f->fd, f->path)) {
        unlink(f->path);
    }
}

/* The log of a store that has none. */
static bool make_log(store_file *s, store_error *error) {
    bool made = make_new_log(s, error) && rename_new(&s->log, error) && flush_folder(s->main.path, error);
    if (!made) {
        remove_made(&s->log);
    }
    return made;
}

static bool is_there(const char *path) {
    struct stat status;
    return lstat(path, &status) == 0;
}

/* A log with neither a main file nor one that is being created is left alone: someone has lost a main file. The caller has looked for the
 * log before this looks for the main file, so that another creation that ends meanwhile is not taken for that. */
static bool is_free(const store_file *s, bool lone_log, store_error *error) {
    if (is_there(s->main.path)) {
        return tell(error, LATEENBAEL_OK, EEXIST, "%s is there already", s->main.path);
    }
    return !lone_log || tell(error, LATEENBAEL_OK, EEXIST, "%s is there already, and its main file is not", s->log.path);
}

/* Opens the main file by its name in creation. Whether this call made it is told by the system: between a look and an opening another
 * creation might come or go. */
static int open_creating(const char *name, bool *was_there) {
    const int flags = O_RDWR | O_CLOEXEC | O_NONBLOCK | O_NOFOLLOW;
    int fd = open(name, flags | O_CREAT | O_EXCL, 0666);
    *was_there = fd < 0 && errno == EEXIST;
    return *was_there ? open(name, flags) : fd;
}

/* This lock keeps other creations out, and then is the store's. Where another has ended meanwhile and taken the name along, this looks at
 * all of it anew. */
static bool lock_creating(store_file *s, const char *name, bool *was_there, store_error *error) {
    do {
        if (s->main.fd >= 0) {
            close(s->main.fd);
            s->main.fd = -1;
        }
        if (!is_free(s, is_there(s->log.path) && !is_there(name), error)) {
            return false;
        }
        s->main.fd = open_creating(name, was_there);
        if (s->main.fd < 0 && !(*was_there && errno == ENOENT)) {
            return failed(error, "opening", name);
        }
        if (s->main.fd >= 0 && !lock_file(s->main.fd, name, LOCK_EX, error)) {
            /* if it is locked, another creation has taken it over */
            if (!*was_there && error->code != EWOULDBLOCK) {
                remove_made(&s->main);
            }
            return false;
        }
    } while (!same_file(s->main.fd, name));
    return true;
}

static bool remove_left(const char *path, store_error *error) {
    return unlink(path) == 0 || errno == ENOENT || failed(error, "removing", path);
}

/* Under the lock: a name in creation that was there tells of a creation that was cut, and that a log is what it has left. */
static bool clear_way(const store_file *s, bool was_there, store_error *error) {
    char name[NAME_SIZE];
    return is_free(s, is_there(s->log.path) && !was_there, error) &&
           (!was_there || (creating_name(name, &s->log, error) && remove_left(s->log.path, error) && remove_left(name, error)));
}

/* The main file gets its name last: before that there is no store. */
static bool make_both(store_file *s, store_error *error) {
    lateenbael_answered created = lateenbael_create(AREAS(s), new_salt(0));
    s->store = created.store;
    return (created.refusal == LATEENBAEL_OK || refused(error, created.refusal, s->main.path)) &&
           fill(&s->main, created.store.storage.len, error) && make_new_log(s, error) && rename_new(&s->log, error) &&
           rename_new(&s->main, error) && flush_folder(s->main.path, error);
}

/* Removes what a failed creation has made. A kill in between must leave what is told as a cut creation: a main file that has its own name
 * already loses it first, and the name in creation goes last. */
static void unmake(const store_file *s, const char *name) {
    if (same_file(s->main.fd, s->main.path)) {
        rename(s->main.path, name);
    }
    remove_made(&s->log);
    remove_made(&s->main);
}

static bool ends_in(const char *path, const char *suffix) {
    size_t len = strlen(path), part = strlen(suffix);
    return len >= part && strcmp(path + len - part, suffix) == 0;
}

/* Names that are those of another store's files. */
static bool is_no_other_name(const one_file *f, store_error *error) {
    return (!ends_in(f->path, "-wal") && !ends_in(f->path, CREATING)) ||
           tell(error, LATEENBAEL_OK, EINVAL, "%s: a name that ends in -wal or " CREATING " is that of another store's file", f->path);
}

static bool create_both(store_file *s, store_error *error) {
    char name[NAME_SIZE];
    bool was_there = false;
    if (!is_no_other_name(&s->main, error) || !creating_name(name, &s->main, error) || !lock_creating(s, name, &was_there, error)) {
        return false;
    }
    bool begun = has_one_name(s->main.fd, name, error) && clear_way(s, was_there, error);
    bool made = begun && make_both(s, error);
    /* one that has not begun leaves alone what it found */
    if (!made && (begun || !was_there)) {
        unmake(s, name);
    }
    return made;
}

store_file *store_file_create(const char *path, store_error *error) {
    store_file *s = new_store_at(path, error);
    if (s != NULL && !create_both(s, error)) {
        store_file_close(s);
        return NULL;
    }
    return s;
}

store_file *store_file_open_or_create(const char *path, store_error *error) {
    store_file *s = store_file_open(path, STORE_READ_WRITE, error);
    if (s == NULL && error->code == ENOENT) {
        s = store_file_create(path, error);
        /* another host was faster, or a log is there alone: then that is told */
        if (s == NULL && error->code == EEXIST) {
            store_error of_creation = *error;
            s = store_file_open(path, STORE_READ_WRITE, error);
            if (s == NULL && error->code == ENOENT) {
                *error = of_creation;
            }
        }
    }
    return s;
}

/* ---- reading */

lateenbael_db_header store_file_header(const store_file *s) {
    return s->store.current_header;
}

size_t store_file_frames(const store_file *s) {
    return s->store.wal.frame_count;
}

const uint8_t *store_file_page(const store_file *s, uint32_t page) {
    const uint8_t *areas[] = {NULL, s->log.area, s->main.area, s->staging};
    lateenbael_page_answer found = lateenbael_find_page(s->store, AREAS(s), page);
    bool there = !s->stopped && found.refusal == LATEENBAEL_OK && found.area != LATEENBAEL_AREA_NONE;
    return there ? areas[found.area] + found.at : NULL;
}

const uint8_t *store_file_batch(const store_file *s, size_t *frame) {
    lateenbael_batch_place place = lateenbael_wal_next_batch(s->log.area, s->store.wal.len, s->store.wal, *frame);
    *frame = place.index + 1;
    return place.found && !s->stopped ? s->log.area + place.offset + (LATEENBAEL_FRAME_SIZE - PAGE) : NULL;
}

/* ---- writing */

static bool usable(const store_file *s, store_error *error) {
    return !s->stopped || tell(error, LATEENBAEL_OK, EIO, "%s has failed before: open it anew", s->main.path);
}

/* Takes over the store that a call gives; a refused one gives the store that it had. */
static bool keep(store_file *s, const lateenbael_answered *answered, store_error *error) {
    s->store = answered->store;
    return answered->refusal == LATEENBAEL_OK || refused(error, answered->refusal, s->main.path);
}

/* Whether the log still has a name and that length: what is written to one that was removed or cut behind the store's back is lost. */
static bool log_is_intact(const store_file *s, size_t len, store_error *error) {
    struct stat status;
    if (fstat(s->log.fd, &status) != 0) {
        return failed(error, "looking at", s->log.path);
    }
    return (status.st_nlink > 0 && (size_t)status.st_size == len) ||
           tell(error, LATEENBAEL_OK, EIO, "%s was removed, replaced or altered while the store was open", s->log.path);
}

bool store_file_stage(store_file *s, uint32_t page, const uint8_t bytes[PAGE], store_error *error) {
    if (!usable(s, error)) {
        return false;
    }
    lateenbael_answered staged = lateenbael_stage_page(s->store, s->staging, LATEENBAEL_STAGING_AREA, page, bytes, PAGE);
    return keep(s, &staged, error);
}

void store_file_clear_staged(store_file *s) {
    s->store = lateenbael_clear_staged(s->store).store;
}

bool store_file_append(store_file *s, const uint8_t body[PAGE], store_error *error) {
    size_t at = s->store.wal.len;
    if (!usable(s, error)) {
        return false;
    }
    lateenbael_answered appended = lateenbael_append_mvcc_batch(s->store, s->log.area, LATEENBAEL_LOG_AREA, body, PAGE);
    if (!keep(s, &appended, error)) {
        return false;
    }
    s->stopped = !log_is_intact(s, at, error) || !write_all(&s->log, s->log.area + at, LATEENBAEL_FRAME_SIZE, at, error);
    return !s->stopped;
}

/* Does on the files what a step did in its area. */
static bool write_step(store_file *s, const lateenbael_step_answered *step, store_error *error) {
    one_file *f = step->area == LATEENBAEL_AREA_LOG ? &s->log : &s->main;
    bool written = step->len == 0 ? set_len(f, step->at, error) : write_all(f, f->area + step->at, step->len, step->at, error);
    return written && (step->flush == 0 || flush(s, error));
}

static bool run_steps(store_file *s, const lateenbael_answered *begun, store_error *error) {
    if (!keep(s, begun, error)) {
        return false;
    }
    uint32_t kind = begun->begun ? LATEENBAEL_STEP_WRITE : LATEENBAEL_STEP_IDLE;
    while (kind == LATEENBAEL_STEP_WRITE) {
        lateenbael_step_answered step = lateenbael_next_step(s->store, AREAS(s));
        s->store = step.store;
        kind = step.kind;
        if (step.refusal != LATEENBAEL_OK || !write_step(s, &step, error)) {
            s->stopped = true;
            return step.refusal == LATEENBAEL_OK ? false : refused(error, step.refusal, s->main.path);
        }
    }
    return true;
}

/* A page at or above the new count would be committed, and be nowhere. */
static bool staged_below(const store_file *s, uint32_t page_count, store_error *error) {
    for (size_t i = 0; i < s->store.staged.count; i++) {
        if (s->store.staged.pages[i] >= page_count) {
            return tell(error, LATEENBAEL_OK, EINVAL, "%s: page %u is staged, which is not below the new count %u", s->main.path,
                        (unsigned)s->store.staged.pages[i], (unsigned)page_count);
        }
    }
    return true;
}

bool store_file_commit(store_file *s, lateenbael_db_header header, store_error *error) {
    if (!usable(s, error) || !staged_below(s, header.page_count, error)) {
        return false;
    }
    lateenbael_answered begun = lateenbael_begin_commit(s->store, AREAS(s), header, new_salt(s->store.wal.header.salt));
    s->stopped = begun.refusal == LATEENBAEL_OK && !log_is_intact(s, s->store.wal.len, error);
    return !s->stopped && run_steps(s, &begun, error);
}

bool store_file_checkpoint(store_file *s, store_error *error) {
    if (!usable(s, error)) {
        return false;
    }
    lateenbael_answered begun = lateenbael_begin_checkpoint(s->store, AREAS(s), new_salt(s->store.wal.header.salt));
    return run_steps(s, &begun, error);
}
