/* A library to preload: it refuses one growth of a process, or all from one on.
   REFUSE=N refuses the Nth call of malloc or realloc, counted from 1; with REFUSE_ON set also all after it.
   COUNT=FILE writes to FILE how many calls there were.
   USED_UP=FILE refuses a call of half a tebibyte, by which a test asks whether memory can be used up (`Hoard` of
   upon_callable_tests), and then all that does not fit in what was given back since, until the last large block before
   it is given back. It writes to FILE how many calls that refused, the first one aside.
   MODE=FILE writes to FILE the permissions that a file has before its own are set, as an octal number; with REFUSE_MODE
   set they can't be set.
   ORDER=FILE writes to FILE a line for each call of fsync and rename; with REFUSE_SYNC set no file is written to the
   disk. */
#define _GNU_SOURCE
#include <dlfcn.h>
#include <errno.h>
#include <fcntl.h>
#include <malloc.h>
#include <stdio.h>
#include <stdlib.h>
#include <sys/stat.h>
#include <unistd.h>

static long calls, refused;
static int all_after, ready;
static void *(*next_malloc)(size_t);
static void *(*next_realloc)(void *, size_t);
static void (*next_free)(void *);

#define ALL_OF_MEMORY ((size_t)1 << 39)
#define LARGE ((size_t)1 << 20)
static int may_be_used_up, is_used_up;
static long used_up_calls;
static size_t room;
static void *large;

static void prepare(void) {
    const char *number;
    if (ready) return;
    ready = 1;
    next_malloc = dlsym(RTLD_NEXT, "malloc");
    next_realloc = dlsym(RTLD_NEXT, "realloc");
    next_free = dlsym(RTLD_NEXT, "free");
    number = getenv("REFUSE");
    refused = number ? atol(number) : 0;
    all_after = getenv("REFUSE_ON") != NULL;
    may_be_used_up = getenv("USED_UP") != NULL;
}

/* Whether this call is refused, which grows a block of so many bytes. */
static int is_refused(size_t size, size_t had) {
    calls++;
    if (may_be_used_up && size >= ALL_OF_MEMORY) {
        if (is_used_up) used_up_calls++;
        is_used_up = 1;
        return 1;
    }
    if (is_used_up && size > room + had) {
        used_up_calls++;
        return 1;
    }
    return refused && (calls == refused || (all_after && calls > refused));
}

/* Counts a block that was given, in place of one of so many bytes. */
static void *given(void *block, size_t had) {
    if (is_used_up) {
        size_t has = malloc_usable_size(block);
        room = room + had > has ? room + had - has : 0;
    } else if (may_be_used_up && malloc_usable_size(block) >= LARGE) {
        large = block;
    }
    return block;
}

void *malloc(size_t size) {
    prepare();
    if (is_refused(size, 0)) {
        errno = ENOMEM;
        return NULL;
    }
    return given(next_malloc(size), 0);
}

void *realloc(void *old, size_t size) {
    size_t had;
    prepare();
    had = malloc_usable_size(old);
    if (is_refused(size, had)) {
        errno = ENOMEM;
        return NULL;
    }
    return given(next_realloc(old, size), had);
}

void free(void *block) {
    prepare();
    if (is_used_up && block && block == large) {
        is_used_up = 0;
        room = 0;
    } else if (is_used_up) {
        room += malloc_usable_size(block);
    }
    if (next_free) next_free(block);
}

/* Writes a number to the file that a variable names, if it is set, in this form. */
static void write_as(const char *form, const char *variable, long number) {
    const char *name = getenv(variable);
    char text[32];
    int length, file;
    if (!name) return;
    length = snprintf(text, sizeof text, form, number);
    file = open(name, O_WRONLY | O_CREAT | O_TRUNC, 0600);
    if (file < 0) return;
    if (write(file, text, length) < 0) _exit(1);
    close(file);
}

static void write_number(const char *variable, long number) {
    write_as("%ld\n", variable, number);
}

int fchmod(int file, mode_t mode) {
    int (*next_fchmod)(int, mode_t) = dlsym(RTLD_NEXT, "fchmod");
    struct stat found;
    if (fstat(file, &found) == 0) write_as("%lo\n", "MODE", found.st_mode & 07777);
    if (getenv("REFUSE_MODE")) {
        errno = EPERM;
        return -1;
    }
    return next_fchmod(file, mode);
}

/* Writes a line to the end of the file that ORDER names. */
static void write_call(const char *name) {
    const char *order = getenv("ORDER");
    int file = order ? open(order, O_WRONLY | O_CREAT | O_APPEND, 0600) : -1;
    if (file < 0) return;
    if (dprintf(file, "%s\n", name) < 0) _exit(1);
    close(file);
}

int fsync(int file) {
    int (*next_fsync)(int) = dlsym(RTLD_NEXT, "fsync");
    write_call("fsync");
    if (getenv("REFUSE_SYNC")) {
        errno = EIO;
        return -1;
    }
    return next_fsync(file);
}

int rename(const char *from, const char *to) {
    int (*next_rename)(const char *, const char *) = dlsym(RTLD_NEXT, "rename");
    write_call("rename");
    return next_rename(from, to);
}

__attribute__((destructor)) static void write_count(void) {
    write_number("COUNT", calls);
    write_number("USED_UP", used_up_calls);
}
