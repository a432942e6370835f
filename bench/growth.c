/* Refuses one growth of a program's memory, or lets one of its reads and writes fail or move one byte. It is loaded before
 * the C library by bench/growth, and read by no proof.
 *
 * GROWTH_WHAT   alloc, io or short: what is counted, and what happens at the call that is hit
 * GROWTH_AT     the number of that call, from 1; 0 only counts
 * GROWTH_COUNT  a file of 8 bytes, into which the number of such calls is written as it rises */
#define _GNU_SOURCE
#include <dlfcn.h>
#include <errno.h>
#include <fcntl.h>
#include <stdatomic.h>
#include <stdlib.h>
#include <string.h>
#include <sys/mman.h>
#include <sys/socket.h>
#include <unistd.h>

extern void *__libc_malloc(size_t);
extern void *__libc_calloc(size_t, size_t);
extern void *__libc_realloc(void *, size_t);
extern void *__libc_memalign(size_t, size_t);

enum what { NOTHING, ALLOC, IO, SHORT };
static enum what what = NOTHING;
static long at;
static _Atomic long *count;

static ssize_t (*real_read)(int, void *, size_t);
static ssize_t (*real_write)(int, const void *, size_t);
static ssize_t (*real_recv)(int, void *, size_t, int);
static ssize_t (*real_send)(int, const void *, size_t, int);
static int (*real_fsync)(int);

__attribute__((constructor)) static void begin(void) {
  real_read = dlsym(RTLD_NEXT, "read");
  real_write = dlsym(RTLD_NEXT, "write");
  real_recv = dlsym(RTLD_NEXT, "recv");
  real_send = dlsym(RTLD_NEXT, "send");
  real_fsync = dlsym(RTLD_NEXT, "fsync");
  const char *word = getenv("GROWTH_WHAT"), *number = getenv("GROWTH_AT"), *file = getenv("GROWTH_COUNT");
  if (!word || !number || !file) return;
  int fd = open(file, O_RDWR | O_CLOEXEC);
  if (fd < 0) return;
  void *page = mmap(0, sizeof *count, PROT_READ | PROT_WRITE, MAP_SHARED, fd, 0);
  close(fd);
  if (page == MAP_FAILED) return;
  count = page;
  at = atol(number);
  what = !strcmp(word, "alloc") ? ALLOC : !strcmp(word, "io") ? IO : SHORT;
}

/* Whether this call is the one that is hit. */
static int hit(enum what kind) { return what == kind && atomic_fetch_add(count, 1) + 1 == at; }

static void *refused(void) {
  errno = ENOMEM;
  return 0;
}

void *malloc(size_t size) { return hit(ALLOC) ? refused() : __libc_malloc(size); }
void *calloc(size_t n, size_t size) { return hit(ALLOC) ? refused() : __libc_calloc(n, size); }
void *realloc(void *old, size_t size) { return hit(ALLOC) ? refused() : __libc_realloc(old, size); }
void *memalign(size_t align, size_t size) { return hit(ALLOC) ? refused() : __libc_memalign(align, size); }
void *aligned_alloc(size_t align, size_t size) { return memalign(align, size); }
int posix_memalign(void **to, size_t align, size_t size) {
  void *made = memalign(align, size);
  if (!made) return ENOMEM;
  *to = made;
  return 0;
}

static ssize_t failed(int error) {
  errno = error;
  return -1;
}

/* How many of so many bytes a call moves. */
static size_t moved(size_t size) { return size > 1 && hit(SHORT) ? 1 : size; }

ssize_t read(int fd, void *to, size_t size) { return hit(IO) ? failed(EIO) : real_read(fd, to, moved(size)); }
ssize_t write(int fd, const void *from, size_t size) { return hit(IO) ? failed(EIO) : real_write(fd, from, moved(size)); }
ssize_t recv(int fd, void *to, size_t size, int flags) {
  return hit(IO) ? failed(ECONNRESET) : real_recv(fd, to, moved(size), flags);
}
ssize_t send(int fd, const void *from, size_t size, int flags) {
  return hit(IO) ? failed(ECONNRESET) : real_send(fd, from, moved(size), flags);
}
int fsync(int fd) { return hit(IO) ? (int)failed(EIO) : real_fsync(fd); }
