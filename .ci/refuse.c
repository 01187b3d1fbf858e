/* Stands before the C library's allocator and refuses one request for memory: the one whose number is in the environment's
   REFUSE, counted from 1; or, where REFUSE_PIECE has a number, the first request that a thread makes after it received so many a
   piece of a stream, counted from 1 over all threads. At the end it writes to the file that REFUSE_COUNT names how many requests
   there were, how many of them asked for more room in place of some that they had, how many pieces were received, and by which
   call the refused one asked, if one was. */
#define _GNU_SOURCE
#include <errno.h>
#include <stdatomic.h>
#include <stddef.h>
#include <stdio.h>
#include <stdlib.h>
#include <sys/syscall.h>
#include <sys/types.h>
#include <unistd.h>

extern void *__libc_malloc(size_t);
extern void *__libc_realloc(void *, size_t);
extern void *__libc_calloc(size_t, size_t);
extern void *__libc_memalign(size_t, size_t);

static atomic_long count;
static atomic_long grown;
static atomic_long pieces;
static long refused;
static long refused_piece;
static const char *_Atomic refused_call = "none";

/* the number of the piece that this thread received last, until it asks for memory */
static __thread long piece __attribute__((tls_model("initial-exec")));

static long number_of(const char *name) {
  const char *number = getenv(name);
  return number ? atol(number) : 0;
}

__attribute__((constructor)) static void at_start(void) {
  refused = number_of("REFUSE");
  refused_piece = number_of("REFUSE_PIECE");
}

static int is_refused(const char *call) {
  long number = ++count;
  long received = piece;
  piece = 0;
  if ((refused == 0 || number != refused) && (received == 0 || received != refused_piece)) return 0;
  refused_call = call;
  return 1;
}

static void *none(void) {
  errno = ENOMEM;
  return NULL;
}

void *malloc(size_t size) { return is_refused("malloc") ? none() : __libc_malloc(size); }

void *calloc(size_t items, size_t size) { return is_refused("calloc") ? none() : __libc_calloc(items, size); }

void *realloc(void *old, size_t size) {
  if (old) grown++;
  return is_refused("realloc") ? none() : __libc_realloc(old, size);
}

void *aligned_alloc(size_t align, size_t size) { return is_refused("aligned_alloc") ? none() : __libc_memalign(align, size); }

int posix_memalign(void **out, size_t align, size_t size) {
  if (is_refused("posix_memalign")) return ENOMEM;
  *out = __libc_memalign(align, size);
  return *out ? 0 : ENOMEM;
}

ssize_t recv(int stream, void *to, size_t most, int flags) {
  ssize_t came = syscall(SYS_recvfrom, stream, to, most, flags, NULL, NULL);
  if (came > 0) piece = ++pieces;
  return came;
}

static void tell(void) {
  const char *name = getenv("REFUSE_COUNT");
  /* opening the file asks for memory too */
  long made = count;
  const char *call = refused_call;
  refused = refused_piece = 0;
  FILE *file = name ? fopen(name, "w") : NULL;
  if (file) {
    fprintf(file, "%ld %ld %ld %s\n", made, grown, pieces, call);
    fclose(file);
  }
}

__attribute__((destructor)) static void at_end(void) { tell(); }

/* A program that may start threads ends by this, which calls no destructor. */
void _exit(int status) {
  tell();
  syscall(SYS_exit_group, status);
  __builtin_unreachable();
}
