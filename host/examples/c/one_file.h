/* One file of a store: written, flushed, locked, and read as it is on the medium. */
#ifndef ONE_FILE_H
#define ONE_FILE_H

#include "store_file.h"
#include <limits.h>

/* Behind the name of a file that is being created. */
#define CREATING "-creating"
#define NAME_SIZE (PATH_MAX + sizeof "-wal" CREATING) /* a path, and -wal-creating behind it */

typedef struct {
    char path[NAME_SIZE];
    int fd;         /* -1 while it is not open */
    bool unflushed; /* written since its last fsync */
    uint8_t *area;  /* aligned to pages and whole pages long, for reads past the cache */
    size_t area_size;
} one_file;

/* Fills an error in, and gives false for the caller to return; failed tells of the system call that has just failed. */
bool tell(store_error *error, uint32_t refusal, int code, const char *format, ...);
bool failed(store_error *error, const char *what, const char *path);

bool write_all(one_file *f, const uint8_t *bytes, size_t len, size_t at, store_error *error);
bool set_len(one_file *f, size_t len, store_error *error);
bool flush_file(one_file *f, store_error *error);
/* Flushes the folder that a resolved path names a file of: only then a new name outlasts a power cut. */
bool flush_folder(const char *path, store_error *error);

/* Whether the path still names the file that is open. */
bool same_file(int fd, const char *path);
/* Locks an open file, LOCK_EX or LOCK_SH, with a second's patience. */
bool lock_file(int fd, const char *path, int how, store_error *error);
/* Opens the file of that path and locks it; gives the descriptor, or -1. */
int open_locked(const char *path, int flags, int how, store_error *error);

size_t whole_pages(size_t len);
/* Reads a file into its area, for a writer as it is on the medium; a flush must follow. A file that is longer than its area is not
 * read. */
bool load(one_file *f, enum store_mode mode, size_t *len, store_error *error);

#endif
