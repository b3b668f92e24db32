/* Stands before the C library (LD_PRELOAD) and lets fail what these variables name. All counts begin at 1, are of the whole
   process, whichever thread asks, and are made by atomic steps.
     REFUSE=N        refuses the Nth growth: a call of malloc, calloc, realloc, memalign, aligned_alloc or posix_memalign. What the
                     C library asks for itself, as for a new thread's locals, is among them.
     FAIL_READ=N     the Nth read of the file DUMP fails with the error READ_ERROR (a number)
     SHORT_READS=N   each read of the file DUMP gives at most N bytes
     FAIL_WRITE=N    the Nth write on standard output fails with WRITE_ERROR; where that is 0, it takes no byte
     SHORT_WRITES=N  each write on standard output takes at most N bytes
     FAIL_THREAD=N   the Nth thread can't be started (EAGAIN)
     ON=1            what is numbered fails from N on
     TELL=FILE       a file of 64 bytes or more, in which these stand as long integers: growths, refused; reads, failed; writes,
                     failed; threads, failed
   The memory of a thread's stack is taken by the C library inside of pthread_create, where no library stands before it:
   FAIL_THREAD is its want.            cc -O2 -shared -fPIC -o refuse.so refuse.c */
#define _GNU_SOURCE
#include <dlfcn.h>
#include <errno.h>
#include <fcntl.h>
#include <pthread.h>
#include <stdlib.h>
#include <sys/mman.h>
#include <sys/stat.h>
#include <sys/syscall.h>
#include <sys/uio.h>
#include <unistd.h>

extern void *__libc_malloc(size_t);
extern void *__libc_calloc(size_t, size_t);
extern void *__libc_realloc(void *, size_t);
extern void *__libc_memalign(size_t, size_t);

struct kind { long fails, asked, failed; };
static struct kind growths, reads, writes, threads;
static long here[8], *told = here, on, short_reads, short_writes, read_error, write_error, counting;
static struct stat dump;
static int (*start)(pthread_t *, const pthread_attr_t *, void *(*)(void *), void *);

static long number(const char *name) { const char *text = getenv(name); return text ? atol(text) : 0; }

__attribute__((constructor)) static void begin(void) {
  const char *name = getenv("TELL");
  int file = name ? open(name, O_RDWR | O_CLOEXEC) : -1;
  if (file >= 0) {
    void *map = mmap(NULL, sizeof here, PROT_READ | PROT_WRITE, MAP_SHARED, file, 0);
    if (map != MAP_FAILED) told = map;
    close(file);
  }
  if (!(name = getenv("DUMP")) || stat(name, &dump)) dump.st_ino = 0;
  growths.fails = number("REFUSE"); reads.fails = number("FAIL_READ"); writes.fails = number("FAIL_WRITE"); threads.fails = number("FAIL_THREAD");
  short_reads = number("SHORT_READS"); short_writes = number("SHORT_WRITES");
  read_error = number("READ_ERROR"); write_error = number("WRITE_ERROR"); on = number("ON");
  start = (int (*)(pthread_t *, const pthread_attr_t *, void *(*)(void *), void *)) dlsym(RTLD_NEXT, "pthread_create");
  counting = 1;
}

/* Counts a request, and whether it is to fail. */
static int fails(struct kind *kind, int place) {
  if (!counting) return 0;
  long n = __atomic_add_fetch(&kind->asked, 1, __ATOMIC_SEQ_CST);
  __atomic_add_fetch(&told[place], 1, __ATOMIC_SEQ_CST);
  if (!kind->fails || !(n == kind->fails || (on && n > kind->fails))) return 0;
  __atomic_add_fetch(&told[place + 1], 1, __ATOMIC_SEQ_CST);
  return 1;
}

static int is_refused(void) { if (!fails(&growths, 0)) return 0; errno = ENOMEM; return 1; }
void *malloc(size_t size) { return is_refused() ? NULL : __libc_malloc(size); }
void *calloc(size_t count, size_t size) { return is_refused() ? NULL : __libc_calloc(count, size); }
void *realloc(void *block, size_t size) { return is_refused() ? NULL : __libc_realloc(block, size); }
void *memalign(size_t align, size_t size) { return is_refused() ? NULL : __libc_memalign(align, size); }
void *aligned_alloc(size_t align, size_t size) { return memalign(align, size); }
int posix_memalign(void **block, size_t align, size_t size) { *block = memalign(align, size); return *block ? 0 : ENOMEM; }

static int is_dump(int file) {
  struct stat of;
  return dump.st_ino && !fstat(file, &of) && of.st_dev == dump.st_dev && of.st_ino == dump.st_ino;
}
ssize_t read(int file, void *to, size_t room) {
  if (is_dump(file)) {
    if (fails(&reads, 2)) { errno = (int) read_error; return -1; }
    if (short_reads && room > (size_t) short_reads) room = short_reads;
  }
  return syscall(SYS_read, file, to, room);
}
ssize_t readv(int file, const struct iovec *parts, int count) {
  if (!is_dump(file)) return syscall(SYS_readv, file, parts, count);
  for (int i = 0; i < count; i++) if (parts[i].iov_len) return read(file, parts[i].iov_base, parts[i].iov_len);
  return 0;
}
ssize_t write(int file, const void *from, size_t size) {
  if (file == 1 && size) {
    if (fails(&writes, 4)) { if (!write_error) return 0; errno = (int) write_error; return -1; }
    if (short_writes && size > (size_t) short_writes) size = short_writes;
  }
  return syscall(SYS_write, file, from, size);
}
ssize_t writev(int file, const struct iovec *parts, int count) {
  if (file != 1) return syscall(SYS_writev, file, parts, count);
  for (int i = 0; i < count; i++) if (parts[i].iov_len) return write(file, parts[i].iov_base, parts[i].iov_len);
  return 0;
}
int pthread_create(pthread_t *thread, const pthread_attr_t *how, void *(*body)(void *), void *given) {
  return fails(&threads, 6) ? EAGAIN : start(thread, how, body, given);
}
