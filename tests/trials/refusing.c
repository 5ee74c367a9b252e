/* A library before the system's `malloc`: the call that REFUSED counts is refused, and with RETRIES each next one that asks for no more, too.
   The file MARK gets a byte for each call that is refused. tests/trials/check-allocations calls programs with it. */
#include <errno.h>
#include <fcntl.h>
#include <stddef.h>
#include <stdlib.h>
#include <unistd.h>

void *__libc_malloc(size_t size);
void *__libc_calloc(size_t count, size_t size);
void *__libc_realloc(void *old, size_t size);
void *__libc_memalign(size_t align, size_t size);

static long left;
static int refuses_retries;
static size_t last;

__attribute__((constructor)) static void begin(void) {
  left = atol(getenv("REFUSED"));
  refuses_retries = getenv("RETRIES") != NULL;
}

static void note(void) {
  int mark = open(getenv("MARK"), O_CREAT | O_WRONLY | O_APPEND, 0600);
  if (mark < 0 || write(mark, "x", 1) != 1) abort();
  close(mark);
}

static int refuses(size_t size) {
  int is_counted = left > 0 && --left == 0;
  int is_retry = refuses_retries && size <= last;
  last = 0;
  if (!is_counted && !is_retry) return 0;
  note();
  last = size;
  errno = ENOMEM;
  return 1;
}

void *malloc(size_t size) { return refuses(size) ? NULL : __libc_malloc(size); }

void *calloc(size_t count, size_t size) { return refuses(count * size) ? NULL : __libc_calloc(count, size); }

void *realloc(void *old, size_t size) { return refuses(size) ? NULL : __libc_realloc(old, size); }

void *aligned_alloc(size_t align, size_t size) { return refuses(size) ? NULL : __libc_memalign(align, size); }

int posix_memalign(void **made, size_t align, size_t size) {
  if (refuses(size)) return ENOMEM;
  *made = __libc_memalign(align, size);
  return *made ? 0 : ENOMEM;
}
