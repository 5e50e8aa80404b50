/* Makes calls of one kind fail in the program that it stands before (LD_PRELOAD).

   FAULT_IN     the kind: memory, folder (files and folders that are opened or read), script (reads of the standard input)
                or output (writes of the standard output)
   FAULT_AT     the number of the call of this kind that fails, from 1; none at 0
   FAULT_MARK   a file that is made when that call comes
   FAULT_PIECE  how many bytes a read of the standard input gives at most
   FAULT_ROOM   how many bytes the standard output takes before it is full */
#include <errno.h>
#include <fcntl.h>
#include <stdarg.h>
#include <stddef.h>
#include <stdlib.h>
#include <string.h>
#include <sys/syscall.h>
#include <unistd.h>

extern void *__libc_malloc(size_t);
extern void *__libc_calloc(size_t, size_t);
extern void *__libc_realloc(void *, size_t);

static long calls = 0, taken = 0;

static long number(const char *name, long otherwise) {
  const char *text = getenv(name);
  return text && *text ? atol(text) : otherwise;
}

/* Whether this call of a kind is the one that fails. */
static int fails(const char *kind, int error) {
  const char *wanted = getenv("FAULT_IN");
  if (!wanted || strcmp(wanted, kind) != 0) return 0;
  if (__atomic_add_fetch(&calls, 1, __ATOMIC_SEQ_CST) != number("FAULT_AT", 0)) return 0;
  int mark = syscall(SYS_openat, AT_FDCWD, getenv("FAULT_MARK"), O_CREAT | O_WRONLY | O_CLOEXEC, 0600);
  if (mark >= 0) close(mark);
  errno = error;
  return 1;
}

void *malloc(size_t size) { return fails("memory", ENOMEM) ? NULL : __libc_malloc(size); }
void *calloc(size_t count, size_t size) { return fails("memory", ENOMEM) ? NULL : __libc_calloc(count, size); }
void *realloc(void *old, size_t size) { return fails("memory", ENOMEM) ? NULL : __libc_realloc(old, size); }

int open(const char *path, int flags, ...) {
  va_list rest;
  va_start(rest, flags);
  int mode = flags & O_CREAT ? va_arg(rest, int) : 0;
  va_end(rest);
  return fails("folder", EIO) ? -1 : syscall(SYS_openat, AT_FDCWD, path, flags, mode);
}

ssize_t getdents64(int fd, void *into, size_t size) {
  return fails("folder", EIO) ? -1 : syscall(SYS_getdents64, fd, into, size);
}

ssize_t read(int fd, void *into, size_t size) {
  if (fails(fd == 0 ? "script" : "folder", EIO)) return -1;
  size_t piece = number("FAULT_PIECE", size);
  return syscall(SYS_read, fd, into, fd == 0 && piece < size ? piece : size);
}

ssize_t write(int fd, const void *from, size_t size) {
  if (fd != 1) return syscall(SYS_write, fd, from, size);
  if (fails("output", EIO)) return -1;
  size_t left = number("FAULT_ROOM", taken + size) - taken;
  if (left == 0 && size > 0) {
    errno = ENOSPC;
    return -1;
  }
  ssize_t done = syscall(SYS_write, fd, from, left < size ? left : size);
  if (done > 0) taken += done;
  return done;
}
