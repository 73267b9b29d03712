/* Refuses one call of the C library to the program that this is loaded into (LD_PRELOAD). REFUSE_CALL is the number, from 1, of
   a call that opens, looks up, reads, writes, syncs, renames, removes or lists; REFUSE_MEMORY that of a request for memory. Both are
   counted from the program's start. The call that is refused makes the file REFUSE_MARK, so that the caller sees whether so many
   were made. */
#define _GNU_SOURCE
#include <dlfcn.h>
#include <errno.h>
#include <fcntl.h>
#include <stdarg.h>
#include <stdlib.h>
#include <sys/stat.h>
#include <sys/syscall.h>
#include <sys/types.h>
#include <sys/uio.h>
#include <unistd.h>
#include <dirent.h>

/* how many calls on files, and how many requests for memory, are left up to the one to refuse */
static long files_left, memory_left;
static const char *mark;

__attribute__((constructor)) static void begin(void) {
    const char *call = getenv("REFUSE_CALL"), *memory = getenv("REFUSE_MEMORY");
    mark = getenv("REFUSE_MARK");
    if (call && mark) files_left = atol(call);
    if (memory && mark) memory_left = atol(memory);
}

/* whether this call, one of those that are counted down there, is the one to refuse; it leaves this error then */
static int refuses(long *left, int error) {
    if (__sync_sub_and_fetch(left, 1) != 0) return 0;
    int file = syscall(SYS_openat, AT_FDCWD, mark, O_CREAT | O_WRONLY, 0666);
    if (file >= 0) syscall(SYS_close, file);
    errno = error;
    return 1;
}

/* defines NAME, which fails with ANSWER where it is refused, and else calls the next function of that name */
#define CALL(TYPE, NAME, PARAMETERS, ARGUMENTS, ANSWER)                                                                \
    TYPE NAME PARAMETERS {                                                                                             \
        static TYPE(*next) PARAMETERS;                                                                                 \
        if (!next) next = (TYPE(*) PARAMETERS)dlsym(RTLD_NEXT, #NAME);                                                 \
        return refuses(&files_left, EIO) ? ANSWER : next ARGUMENTS;                                                    \
    }

CALL(ssize_t, read, (int file, void *bytes, size_t size), (file, bytes, size), -1)
CALL(ssize_t, readv, (int file, const struct iovec *parts, int count), (file, parts, count), -1)
CALL(ssize_t, write, (int file, const void *bytes, size_t size), (file, bytes, size), -1)
CALL(ssize_t, writev, (int file, const struct iovec *parts, int count), (file, parts, count), -1)
CALL(int, fsync, (int file), (file), -1)
CALL(int, fdatasync, (int file), (file), -1)
CALL(int, rename, (const char *from, const char *to), (from, to), -1)
CALL(int, renameat, (int above, const char *from, int below, const char *to), (above, from, below, to), -1)
CALL(int, unlink, (const char *path), (path), -1)
CALL(int, unlinkat, (int folder, const char *path, int flags), (folder, path, flags), -1)
CALL(DIR *, opendir, (const char *path), (path), NULL)
CALL(DIR *, fdopendir, (int file), (file), NULL)
CALL(struct dirent *, readdir, (DIR * folder), (folder), NULL)
CALL(struct dirent64 *, readdir64, (DIR * folder), (folder), NULL)
CALL(int, statx, (int above, const char *path, int flags, unsigned wanted, struct statx *found),
     (above, path, flags, wanted, found), -1)
CALL(ssize_t, getdents64, (int file, void *bytes, size_t size), (file, bytes, size), -1)

/* the same for an opening, whose mode stands there only with some flags */
#define OPENING(NAME, PARAMETERS, ARGUMENTS)                                                                           \
    int NAME PARAMETERS {                                                                                              \
        static int (*next) PARAMETERS;                                                                                 \
        va_list more;                                                                                                  \
        va_start(more, flags);                                                                                         \
        int mode = (flags & (O_CREAT | O_TMPFILE)) ? va_arg(more, int) : 0;                                            \
        va_end(more);                                                                                                  \
        if (!next) next = (int(*) PARAMETERS)dlsym(RTLD_NEXT, #NAME);                                                  \
        return refuses(&files_left, EIO) ? -1 : next ARGUMENTS;                                                        \
    }

OPENING(open, (const char *path, int flags, ...), (path, flags, mode))
OPENING(open64, (const char *path, int flags, ...), (path, flags, mode))
OPENING(openat, (int folder, const char *path, int flags, ...), (folder, path, flags, mode))
OPENING(openat64, (int folder, const char *path, int flags, ...), (folder, path, flags, mode))

/* Defines a request for memory in the same way. What serves it else is the C library's own function, by the name that glibc
   gives it besides: the search for the next function would itself ask for memory. */
#define REQUEST(NAME, PARAMETERS, ARGUMENTS)                                                                           \
    void *__libc_##NAME PARAMETERS;                                                                                    \
    void *NAME PARAMETERS { return refuses(&memory_left, ENOMEM) ? NULL : __libc_##NAME ARGUMENTS; }

REQUEST(malloc, (size_t size), (size))
REQUEST(calloc, (size_t count, size_t size), (count, size))
REQUEST(realloc, (void *block, size_t size), (block, size))
REQUEST(memalign, (size_t alignment, size_t size), (alignment, size))

void *aligned_alloc(size_t alignment, size_t size) {
    return memalign(alignment, size);
}

int posix_memalign(void **block, size_t alignment, size_t size) {
    void *found = memalign(alignment, size);
    if (!found) return ENOMEM;
    *block = found;
    return 0;
}
