/* What the object file of tape needs besides POSIX, for any C library on Linux:

       cc -O2 -s -static tape.o shim.c -o tape

   tape.o is what the toolchain made of the proved sources, except that its main is named
   tape_main. What these functions do is assumed, not proved, as for those of the C library;
   ASSUMED.txt lists all of them. */
#define _GNU_SOURCE
#include <errno.h>
#include <signal.h>
#include <stdint.h>
#include <stdlib.h>
#include <string.h>
#include <sys/syscall.h>
#include <unistd.h>

#ifndef __GLIBC_PREREQ
#define __GLIBC_PREREQ(major, minor) 0
#endif

/* ---- arguments and the environment ---- */

extern char **environ;

static size_t count; /* of arguments, with the program's name */
static char **arguments;

int tape_main(int argc, char **argv);

int main(int argc, char **argv)
{
    count = argc < 0 ? 0 : (size_t)argc;
    arguments = argv;
    return tape_main(argc, argv);
}

/* copies a text without its 0; returns its length, -1 if there is no text, or -2 if it is too
   long, and then the room is full */
static ssize_t copied(const char *text, char *room, size_t size)
{
    if (!text)
        return -1;
    size_t length = strlen(text);
    memcpy(room, text, length < size ? length : size);
    return length > size ? -2 : (ssize_t)length;
}

size_t rattle_arg_count(void)
{
    return count;
}

ssize_t rattle_arg(size_t number, char *room, size_t size)
{
    return copied(number < count ? arguments[number] : NULL, room, size);
}

ssize_t rattle_env(const char *name, char *room, size_t size)
{
    return copied(getenv(name), room, size);
}

/* the variable with this number, as NAME=VALUE */
ssize_t rattle_env_at(size_t number, char *room, size_t size)
{
    char **at = environ;
    while (at && *at && number > 0) {
        at++;
        number--;
    }
    return copied(at ? *at : NULL, room, size);
}

/* ---- the number of the last error ---- */

int rattle_errno(void)
{
    return errno;
}

void rattle_set_errno(int number)
{
    errno = number;
}

/* ---- memory, aligned to 16 bytes at most ---- */

/* Returned in two registers. The first is 0 or 1 in all its bytes, the second never 0. */
struct tried {
    uint64_t is_made;
    void *memory;
};

static struct tried tried(void *memory)
{
    static char none; /* owned by nobody, never read or written */
    return (struct tried){ memory != NULL, memory ? memory : &none };
}

struct tried rattle_alloc(size_t size, size_t alignment)
{
    return tried(malloc(size ? size : alignment));
}

/* the bytes that are kept are copied by realloc */
struct tried rattle_realloc(void *memory, size_t kept, size_t size, size_t alignment)
{
    (void)kept;
    return tried(realloc(memory, size ? size : alignment));
}

void rattle_dealloc(void *memory)
{
    free(memory);
}

/* ---- names of glibc that other C libraries, or earlier versions of it, do not have ---- */

#if defined __x86_64__ && !__GLIBC_PREREQ(2, 33)
#include <cpuid.h>

struct leaf {
    unsigned cpuid[4], active[4];
};

/* what the processor can do: the program ends with status 127 if it is not an x86-64-v2 */
const struct leaf *__x86_get_cpuid_feature_leaf(unsigned number)
{
    static const unsigned of[] = { 1, 7, 0x80000001 };
    static struct leaf found[3];
    struct leaf *leaf = &found[number < 3 ? number : 0];
    unsigned *at = leaf->cpuid;
    if (number < 3 && __get_cpuid_count(of[number], 0, &at[0], &at[1], &at[2], &at[3]))
        memcpy(leaf->active, at, sizeof leaf->active);
    return leaf;
}
#endif

#ifndef __GLIBC__
ssize_t __write(int file, const void *bytes, size_t size)
{
    return write(file, bytes, size);
}

int statx(int directory, const char *path, int flags, unsigned mask, void *found)
{
    return (int)syscall(SYS_statx, directory, path, flags, mask, found);
}

void (*__sysv_signal(int number, void (*handler)(int)))(int)
{
    return signal(number, handler);
}
#endif
