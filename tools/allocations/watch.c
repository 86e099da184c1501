/* Watches what a program asks of the C library's heap between two marks: allocations of exactly MARK bytes, which the
   program makes for that alone. At each second mark the number since the first is written to the file descriptor
   WATCH_TELL, a line each. With WATCH_REFUSE in the environment each allocation between two marks is refused, and
   counts. With WATCH_AT=n there only the n-th after the first mark is refused, where it comes before the second. With
   WATCH_ALL the program begins with a mark.
   It is loaded before the C library: cc -O2 -shared -fPIC -o watch.so watch.c */
#include <errno.h>
#include <stdatomic.h>
#include <stdio.h>
#include <stdlib.h>
#include <unistd.h>

enum { MARK = 12345677 };
static atomic_long asked;
static atomic_int watches, marks;
static int refuses, tell = -1;
static long at;

/* the C library's own, below the names that are taken here */
void *__libc_malloc(size_t bytes);
void *__libc_calloc(size_t count, size_t bytes);
void *__libc_realloc(void *block, size_t bytes);
void *__libc_memalign(size_t alignment, size_t bytes);

static void mark(void) {
  atomic_fetch_add(&marks, 1);
  if (atomic_fetch_xor(&watches, 1)) {
    char line[40];
    int length = snprintf(line, sizeof line, "%ld\n", atomic_load(&asked));
    if (tell >= 0 && write(tell, line, length) != length) _exit(70);
  }
  atomic_store(&asked, 0);
}

__attribute__((constructor)) static void begin(void) {
  refuses = getenv("WATCH_REFUSE") != NULL;
  const char *fd = getenv("WATCH_TELL"), *number = getenv("WATCH_AT");
  if (fd) tell = atoi(fd);
  if (number) at = atol(number);
  if (getenv("WATCH_ALL")) mark();
}

/* whether an allocation is refused, which counts */
static int is_refused(void) {
  if (!atomic_load(&watches)) return 0;
  long number = atomic_fetch_add(&asked, 1) + 1;
  int refused = refuses || (number == at && atomic_load(&marks) == 1);
  if (refused) errno = ENOMEM;
  return refused;
}

void *malloc(size_t bytes) {
  if (bytes == MARK) {
    mark();
    return __libc_malloc(bytes);
  }
  return is_refused() ? NULL : __libc_malloc(bytes);
}

void *calloc(size_t count, size_t bytes) {
  return is_refused() ? NULL : __libc_calloc(count, bytes);
}

void *realloc(void *block, size_t bytes) {
  return is_refused() ? NULL : __libc_realloc(block, bytes);
}

void *memalign(size_t alignment, size_t bytes) {
  return is_refused() ? NULL : __libc_memalign(alignment, bytes);
}

void *aligned_alloc(size_t alignment, size_t bytes) {
  return memalign(alignment, bytes);
}

int posix_memalign(void **block, size_t alignment, size_t bytes) {
  void *found = memalign(alignment, bytes);
  if (found) *block = found;
  return found ? 0 : ENOMEM;
}
