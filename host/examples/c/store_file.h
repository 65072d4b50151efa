/* A store on two files: what lateenbael.h asks of a host, done. Take it and one_file, which it stands on, for a start. */
#ifndef STORE_FILE_H
#define STORE_FILE_H

#include "../../lateenbael.h"
#include <stdbool.h>

/* An open store, for one thread at a time. */
typedef struct store_file store_file;

/* Why a call failed. */
typedef struct {
    uint32_t refusal; /* the engine's, or LATEENBAEL_OK where the host or the system says no */
    int code;         /* errno's number beside LATEENBAEL_OK; EWOULDBLOCK: another host has the store open */
    char text[512];   /* all of it in words, with the file's name */
} store_error;

enum store_mode { STORE_READ_WRITE, STORE_READ_ONLY };

/* Opens the store of that path, cleanly if it is to be written: what no commit frame follows is dropped. NULL where it fails. */
store_file *store_file_open(const char *path, enum store_mode mode, store_error *error);
/* Makes a new store; EEXIST where there is one, or a log alone, whose main file was lost. A creation that was cut before is done again. */
store_file *store_file_create(const char *path, store_error *error);
store_file *store_file_open_or_create(const char *path, store_error *error);
/* What was staged, or appended and not committed, is lost. NULL is nothing to close. */
void store_file_close(store_file *s);

/* The header that counts, and how many frames the log has; after a failed write or fsync, what the store had at that moment. */
lateenbael_db_header store_file_header(const store_file *s);
size_t store_file_frames(const store_file *s);
/* A page's 4,096 bytes, up to the next call that changes the store; NULL if there is none, or it can't be read, as after a failed write or
 * fsync: what the areas then hold may not be on the medium. */
const uint8_t *store_file_page(const store_file *s, uint32_t page);
/* The body of the first committed batch at that frame or behind; NULL if there is none, or after a failed write or fsync. The frame behind
 * it goes into *frame. */
const uint8_t *store_file_batch(const store_file *s, size_t *frame);

/* Those below give false where they fail. After a failed write or fsync every later one fails too: close, and open anew. */

/* Stages a page for the next commit. */
bool store_file_stage(store_file *s, uint32_t page, const uint8_t bytes[LATEENBAEL_PAGE_SIZE], store_error *error);
void store_file_clear_staged(store_file *s);
/* Appends a batch, which the next commit makes count. */
bool store_file_append(store_file *s, const uint8_t body[LATEENBAEL_PAGE_SIZE], store_error *error);
/* Commits what is staged and appended; a page staged at or above the new page count is refused. The commit that brings the log to
 * LATEENBAEL_CHECKPOINT_FRAMES frames makes a checkpoint too. */
bool store_file_commit(store_file *s, lateenbael_db_header header, store_error *error);
/* Writes the log's pages to the main file and empties the log: its batches are gone. */
bool store_file_checkpoint(store_file *s, store_error *error);

#endif
