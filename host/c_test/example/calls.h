/* The system calls that the example makes, wrapped by the linker (--wrap): one of them kills the process or fails, and a cache stands
 * between the store's two files and a medium. */
#ifndef CALLS_H
#define CALLS_H

#include <stdbool.h>

/* The call of that number from here on, 1 for the next one, kills the process, or fails with that code. 0: none. Removals and locks may
 * kill, but do not fail so. Where a call is still to fail, those behind it are counted for the kill. */
void kill_at(unsigned call);
void fail_at(unsigned call, int code);
/* Whether that call, or the one of fail_fsync, has come; then it fails no more. */
bool has_failed(void);
/* The next flock fails with that code. */
void fail_flock(int code);
/* Another program does something just before the next flock, or just behind the next lstat or the next open that says EEXIST. */
void before_flock(void (*act)(void));
void behind_lstat(void (*act)(void));
void behind_found(void (*act)(void));
/* Reads through the cache give a part and are interrupted in turn, or find the file's end. */
enum reads { WHOLE_READS, PART_READS, NO_READS };
void reads_give(enum reads what);

/* Whether the folder was flushed since the last renaming or removal. */
bool names_flushed(void);

/* From here on both files lie behind a cache: what they hold now is on the medium. */
void watch(const char *main_path, const char *log_path, bool direct_reads);
/* The fsync of that number from here on fails with EIO, and the cache forgets what was to be stored, as Linux does; of a file's written
 * pages those with an even or odd number may have reached the medium. */
enum reached { NONE_REACHED, EVEN_REACHED, ODD_REACHED };
void fail_fsync(unsigned sync, enum reached reached);
/* A page that was forgotten stays so, whatever is written to it, until the cache lets go of it; it does when it is advised to, unless
 * another program keeps it there. */
void keep_pages(bool keep);
/* How many writes there were since watch, and whether all that was written to the log was flushed before each fsync of the main file. */
unsigned writes_made(void);
bool log_went_first(void);
/* The files have what is on the medium, and lie behind no cache any more. */
void remount(void);

#endif
