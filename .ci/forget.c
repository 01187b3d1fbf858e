/* Stands between a program and its files, so that a test can do what a power cut does to a device: to forget what was not synced.
   It notes, in the file that FORGET names, what the device has to keep, a line each:

     begun INODE          a file was begun, or begun anew: nothing of it is kept yet
     kept INODE SIZE      a file was synced when it was so long
     moved PATH BEFORE    a file got this name; what had it before stands in BEFORE, or `-` where nothing did
     names                the folder was synced, so all names are kept

   Nothing is synced in truth, since the machine goes on, but a sync takes some milliseconds, as one does, or so many as FORGET_MS says.
   FORGET_RUN names the file that is read as the name of this run of the machine. */
#define _GNU_SOURCE
#include <errno.h>
#include <fcntl.h>
#include <stdarg.h>
#include <stdatomic.h>
#include <stdint.h>
#include <stdio.h>
#include <stdlib.h>
#include <string.h>
#include <sys/stat.h>
#include <sys/syscall.h>
#include <time.h>
#include <unistd.h>

static const char run_of_machine[] = "/proc/sys/kernel/random/boot_id";

static void note(const char *form, ...) {
  char line[4096];
  va_list more;
  va_start(more, form);
  int size = vsnprintf(line, sizeof line, form, more);
  va_end(more);
  int file = syscall(SYS_openat, AT_FDCWD, getenv("FORGET"), O_WRONLY | O_CREAT | O_APPEND, 0600);
  /* what is not noted would be taken for lost */
  if (size >= (int)sizeof line || syscall(SYS_write, file, line, size) != size) abort();
  syscall(SYS_close, file);
}

static int opened(int folder, const char *path, int flags, mode_t mode) {
  if (!strcmp(path, run_of_machine)) path = getenv("FORGET_RUN");
  int fd = syscall(SYS_openat, folder, path, flags, mode);
  struct stat it;
  if (fd >= 0 && (flags & O_TRUNC) && !fstat(fd, &it)) note("begun %ju\n", (uintmax_t)it.st_ino);
  return fd;
}

int open(const char *path, int flags, ...) {
  va_list more;
  va_start(more, flags);
  mode_t mode = flags & O_CREAT ? va_arg(more, mode_t) : 0;
  va_end(more);
  return opened(AT_FDCWD, path, flags, mode);
}

int openat(int folder, const char *path, int flags, ...) {
  va_list more;
  va_start(more, flags);
  mode_t mode = flags & O_CREAT ? va_arg(more, mode_t) : 0;
  va_end(more);
  return opened(folder, path, flags, mode);
}

int rename(const char *from, const char *to) {
  static atomic_int count;
  char before[4096];
  snprintf(before, sizeof before, "%s.%d.%d", getenv("FORGET"), getpid(), ++count);
  note("moved %s %s\n", to, link(to, before) ? "-" : before);
  return syscall(SYS_rename, from, to);
}

static int synced(int fd) {
  struct stat it;
  if (fstat(fd, &it)) return -1;
  const char *ms = getenv("FORGET_MS");
  const struct timespec sync_takes = {0, 1000000L * (ms ? atol(ms) : 3)};
  nanosleep(&sync_takes, NULL);
  if (S_ISDIR(it.st_mode)) note("names\n");
  else note("kept %ju %jd\n", (uintmax_t)it.st_ino, (intmax_t)it.st_size);
  return 0;
}

int fsync(int fd) { return synced(fd); }

int fdatasync(int fd) { return synced(fd); }
