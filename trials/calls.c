/* Refuses or records calls of a built program, to test its reaction. Loaded before the C library:

       cc -O2 -shared -fPIC -o calls.so calls.c
       FAIL=r3 LD_PRELOAD=./calls.so tape list reel.tap
       RECORD=kept RECORD_LOG=log LD_PRELOAD=./calls.so tape extract .. --stage kept

   FAIL is a letter and a number: a (allocations), o (files opened), r (reads), w (writes), y (syncs, of directories
   too), n (new names), l (locks: another run has it), t (looks at files), h (second names), d (names removed),
   c (files closed). That call of the kind, counted from 1, fails; with a plus after the number all later calls fail too.
   A colon and a number after that select the error, instead of the one below. FAIL=s refuses
   no call, but limits each read and write to one byte; FAIL=u refuses each lock like a file system without locks. If
   FAIL_COUNTS is the path of a file, the numbers of calls are written to it at the end, in the order of the letters,
   followed by the number of bytes read. If FAIL_PATH is the path of a file, the path in the last refused call, if it has
   one, is written to it.

   RECORD_LOG gets a record for each successful call on the file RECORD: a letter, an offset and a length (8 bytes each,
   least byte first), followed by bytes of that length. W: the bytes were written at the offset. T: the file was truncated
   to the offset. Y: the file was synced. F: a sync of the file failed. D: a directory was synced. P: the bytes were
   written to standard output. N: a file got this name; the offset is 1 if it had bytes that were not synced, otherwise 0.
   RECORD_FAIL=N: only the N-th sync of the file fails; with 0 no sync fails.

   The C library's own calls are not seen here, so the program must do its input and output without stdio. */
#define _GNU_SOURCE
#include <errno.h>
#include <fcntl.h>
#include <stdarg.h>
#include <stdint.h>
#include <stdio.h>
#include <stdlib.h>
#include <string.h>
#include <sys/file.h>
#include <sys/stat.h>
#include <sys/syscall.h>
#include <sys/types.h>
#include <sys/uio.h>
#include <unistd.h>

enum kind { ALLOCATION, OPEN, READ, WRITE, SYNC, NAME, LOCK, LOOK, LINK, REMOVAL, CLOSE, KINDS };

static const char letters[KINDS + 1] = "aorwynlthdc";
static long counts[KINDS], given; /* calls of each kind; bytes returned by reads */
static char refused[4096]; /* the path in the last refused call */

#define FILES 1024
/* above the numbers that the program's own files get */
#define LOG 900

static int is_open_log;
static char is_noted[FILES];
static long syncs;
/* regular files with bytes that were not synced, including closed files */
static ino_t unsynced[FILES];

void *__libc_malloc(size_t size);
void *__libc_calloc(size_t count, size_t size);
void *__libc_realloc(void *old, size_t size);
void *__libc_memalign(size_t alignment, size_t size);

/* ---- refusals ---- */

static int is_refused(enum kind kind)
{
    const char *word = getenv("FAIL");
    char *end;
    counts[kind]++;
    if (!word || word[0] != letters[kind])
        return 0;
    long number = strtol(word + 1, &end, 10);
    return counts[kind] == number || (*end == '+' && counts[kind] > number);
}

/* the same for a call with a path */
static int is_refused_at(enum kind kind, const char *path)
{
    int is = is_refused(kind);
    if (is)
        snprintf(refused, sizeof refused, "%s", path);
    return is;
}

static size_t allowed(size_t count)
{
    const char *word = getenv("FAIL");
    return word && word[0] == 's' && count > 1 ? 1 : count;
}

/* the selected error, or the default */
static int refuse(int error)
{
    const char *word = getenv("FAIL");
    const char *colon = word ? strchr(word, ':') : NULL;
    errno = colon ? atoi(colon + 1) : error;
    return -1;
}

/* ---- records ---- */

static void note(char letter, uint64_t place, const void *bytes, uint64_t length)
{
    char head[17];
    const char *path = getenv("RECORD_LOG");
    if (!path)
        return;
    if (!is_open_log) {
        long file = syscall(SYS_openat, AT_FDCWD, path, O_WRONLY | O_CREAT | O_APPEND, 0600);
        syscall(SYS_dup3, file, LOG, O_CLOEXEC);
        syscall(SYS_close, file);
        is_open_log = 1;
    }
    head[0] = letter;
    memcpy(head + 1, &place, 8);
    memcpy(head + 9, &length, 8);
    struct iovec pieces[2] = {{head, sizeof head}, {(void *)bytes, length}};
    if (syscall(SYS_writev, LOG, pieces, 2) != (long)(sizeof head + length))
        abort();
}

static int noted(int file)
{
    return file >= 0 && file < FILES && is_noted[file];
}

/* the index of the file among those with bytes that were not synced, or of a free entry */
static int place_of(ino_t inode)
{
    int at = 0;
    while (at < FILES - 1 && unsynced[at] && unsynced[at] != inode)
        at++;
    return at;
}

static void mark(int file, int is_unsynced)
{
    struct stat is;
    if (!getenv("RECORD_LOG") || fstat(file, &is) != 0 || !S_ISREG(is.st_mode))
        return;
    int at = place_of(is.st_ino), last = place_of(0);
    if (is_unsynced)
        unsynced[at] = is.st_ino;
    else if (unsynced[at])
        unsynced[at] = unsynced[last - 1], unsynced[last - 1] = 0;
}

static ssize_t written(int file, uint64_t place, const void *bytes, ssize_t done)
{
    if (done > 0)
        mark(file, 1);
    if (done > 0 && noted(file))
        note('W', place, bytes, (uint64_t)done);
    else if (done > 0 && file == STDOUT_FILENO)
        note('P', 0, bytes, (uint64_t)done);
    return done;
}

static int synced(int file, long call)
{
    struct stat is;
    const char *fails = getenv("RECORD_FAIL");
    if (is_refused(SYNC))
        return refuse(EIO);
    if (noted(file) && fails && ++syncs == atol(fails)) {
        note('F', 0, NULL, 0);
        return refuse(EIO);
    }
    int done = (int)syscall(call, file);
    if (done == 0)
        mark(file, 0);
    if (done == 0 && noted(file))
        note('Y', 0, NULL, 0);
    else if (done == 0 && fstat(file, &is) == 0 && S_ISDIR(is.st_mode))
        note('D', 0, NULL, 0);
    return done;
}

static int named(int done, const char *to)
{
    struct stat is;
    if (done == 0 && stat(to, &is) == 0)
        note('N', unsynced[place_of(is.st_ino)] != 0, to, strlen(to));
    return done;
}

/* ---- memory ---- */

static void *no_memory(void)
{
    errno = ENOMEM;
    return NULL;
}

void *malloc(size_t size)
{
    return is_refused(ALLOCATION) ? no_memory() : __libc_malloc(size);
}

void *calloc(size_t count, size_t size)
{
    return is_refused(ALLOCATION) ? no_memory() : __libc_calloc(count, size);
}

void *realloc(void *old, size_t size)
{
    return is_refused(ALLOCATION) ? no_memory() : __libc_realloc(old, size);
}

void *aligned_alloc(size_t alignment, size_t size)
{
    return is_refused(ALLOCATION) ? no_memory() : __libc_memalign(alignment, size);
}

int posix_memalign(void **at, size_t alignment, size_t size)
{
    void *got = is_refused(ALLOCATION) ? NULL : __libc_memalign(alignment, size);
    if (!got)
        return ENOMEM;
    *at = got;
    return 0;
}

/* ---- files ---- */

static int open_file(int folder, const char *path, int flags, va_list rest)
{
    const char *name = getenv("RECORD");
    mode_t mode = flags & (O_CREAT | __O_TMPFILE) ? va_arg(rest, mode_t) : 0;
    if (is_refused_at(OPEN, path))
        return refuse(EACCES);
    int file = (int)syscall(SYS_openat, folder, path, flags, mode);
    if (file >= 0 && file < FILES)
        is_noted[file] = name && strcmp(path, name) == 0;
    return file;
}

int open(const char *path, int flags, ...)
{
    va_list rest;
    va_start(rest, flags);
    int file = open_file(AT_FDCWD, path, flags, rest);
    va_end(rest);
    return file;
}

int openat(int folder, const char *path, int flags, ...)
{
    va_list rest;
    va_start(rest, flags);
    int file = open_file(folder, path, flags, rest);
    va_end(rest);
    return file;
}

int open64(const char *path, int flags, ...) __attribute__((alias("open")));
int openat64(int folder, const char *path, int flags, ...) __attribute__((alias("openat")));

ssize_t read(int file, void *bytes, size_t count)
{
    ssize_t got = is_refused(READ) ? refuse(EIO) : syscall(SYS_read, file, bytes, allowed(count));
    given += got > 0 ? got : 0;
    return got;
}

ssize_t write(int file, const void *bytes, size_t count)
{
    uint64_t place = noted(file) ? (uint64_t)syscall(SYS_lseek, file, 0, SEEK_CUR) : 0;
    return is_refused(WRITE) ? refuse(EIO) : written(file, place, bytes, syscall(SYS_write, file, bytes, allowed(count)));
}

/* a call may always accept a part of its bytes: here the first piece that is not empty */
ssize_t writev(int file, const struct iovec *pieces, int count)
{
    int at = 0;
    while (at < count - 1 && pieces[at].iov_len == 0)
        at++;
    return count > 0 ? write(file, pieces[at].iov_base, pieces[at].iov_len) : 0;
}

ssize_t pwrite(int file, const void *bytes, size_t count, off_t place)
{
    return written(file, (uint64_t)place, bytes, syscall(SYS_pwrite64, file, bytes, count, place));
}

ssize_t pwrite64(int file, const void *bytes, size_t count, off_t place) __attribute__((alias("pwrite")));

int ftruncate(int file, off_t length)
{
    int done = (int)syscall(SYS_ftruncate, file, length);
    if (done == 0 && noted(file))
        note('T', (uint64_t)length, NULL, 0);
    return done;
}

int ftruncate64(int file, off_t length) __attribute__((alias("ftruncate")));

int fsync(int file)
{
    return synced(file, SYS_fsync);
}

int fdatasync(int file)
{
    return synced(file, SYS_fdatasync);
}

int rename(const char *from, const char *to)
{
    return is_refused_at(NAME, from) ? refuse(EIO) : named((int)syscall(SYS_renameat2, AT_FDCWD, from, AT_FDCWD, to, 0), to);
}

int flock(int file, int how)
{
    const char *word = getenv("FAIL");
    int is_held = is_refused(LOCK);
    if (!is_held && (!word || word[0] != 'u'))
        return (int)syscall(SYS_flock, file, how);
    if (is_held)
        return refuse(EWOULDBLOCK);
    errno = ENOLCK;
    return -1;
}

int statx(int folder, const char *restrict path, int flags, unsigned mask, struct statx *restrict found)
{
    return is_refused_at(LOOK, path) ? refuse(ESTALE) : (int)syscall(SYS_statx, folder, path, flags, mask, found);
}

int link(const char *from, const char *to)
{
    return is_refused_at(LINK, from) ? refuse(EPERM) : named((int)syscall(SYS_linkat, AT_FDCWD, from, AT_FDCWD, to, 0), to);
}

int unlink(const char *path)
{
    return is_refused_at(REMOVAL, path) ? refuse(EIO) : (int)syscall(SYS_unlinkat, AT_FDCWD, path, 0);
}

/* the file is closed even if the call fails, as on Linux */
int close(int file)
{
    if (file >= 0 && file < FILES)
        is_noted[file] = 0;
    int is_wrong = is_refused(CLOSE);
    int done = (int)syscall(SYS_close, file);
    return is_wrong ? refuse(EIO) : done;
}

static void write_file(const char *path, const char *text, size_t length)
{
    long file = path ? syscall(SYS_openat, AT_FDCWD, path, O_WRONLY | O_CREAT | O_TRUNC, 0600) : -1;
    if (file >= 0 && syscall(SYS_write, file, text, length) == (long)length)
        syscall(SYS_close, file);
}

__attribute__((destructor)) static void write_counts(void)
{
    char text[400];
    int length = 0;
    for (int kind = 0; kind < KINDS; kind++)
        length += snprintf(text + length, sizeof text - (size_t)length, "%ld ", counts[kind]);
    length += snprintf(text + length, sizeof text - (size_t)length, "%ld\n", given);
    write_file(getenv("FAIL_COUNTS"), text, (size_t)length);
    write_file(getenv("FAIL_PATH"), refused, strlen(refused));
}
