#!/usr/bin/env bash
# Plays runs again and again, each time with another call of the system failing: bench/faults.sh RUN-FOLDER..
#
# A run is a folder with `files/` (patches), `script` and `words` (the words of the command, one a line, the patch first). The program is run with a
# library before the system's own, made here by `cc`, that counts its calls for lines, for samples, for the script and for the files of the folder, and
# whose Nth call of one of these fails; N goes from 1 to the last call of a run without a fault. That is done with the calls as they come, and with reads
# and writes that give or take a few bytes at a time. Reads and writes of lines, samples and script are interrupted by a signal, too. Printed is for each
# run and kind of call how many went each way, and each one that went none of them:
#
#   unopened   the run wasn't begun, for a fault of the folder or of the file of samples: the line that says so, no sample, and the files as they were
#   cut        lines, samples and saved files are a first part of those of the run without a fault, and the exit code is that of the fault
#   refused    one edit or save was refused for a fault of the folder, and all else is as without that command
#   same       all is as without a fault
#
# Then it is tried without the library: lines that go to a full disk, to nothing or to a pipe that nobody reads, samples that go to a full disk, and
# a script that is a folder or isn't there.
#
# Where a message asks for an edit that fetches a file, that may be refused alone, which isn't compared. Build the program first, by ./play, or name
# another one in PDPLAY.
set -u
top=$(cd "$(dirname "$0")/.." && pwd) || exit 2
# shellcheck source=bench/program.sh
. "$top/bench/program.sh"
[ $# -gt 0 ] || { echo "usage: bench/faults.sh RUN-FOLDER.." >&2; exit 2; }
room=$(mktemp -d)
trap 'rm -rf "$room"' EXIT
command -v cc >/dev/null || { echo "bench: a C compiler is wanted: cc" >&2; exit 2; }

cat >"$room/faults.c" <<'END'
#define _GNU_SOURCE
#include <dlfcn.h>
#include <errno.h>
#include <fcntl.h>
#include <stdarg.h>
#include <stdio.h>
#include <stdlib.h>
#include <string.h>
#include <sys/stat.h>
#include <unistd.h>
enum kind { NONE, SCRIPT, LINES, SAMPLES, FOLDER };
static const char *const names[] = {"none", "script", "lines", "samples", "folder"};
#define MOST 1024
static enum kind kinds[MOST] = {SCRIPT, LINES};
static long calls[FOLDER + 1];
#define REAL(name) static __typeof__(&name) real; if (!real) real = (__typeof__(&name))dlsym(RTLD_NEXT, #name)

static enum kind of_file(int fd) { return fd >= 0 && fd < MOST ? kinds[fd] : NONE; }
static enum kind of_path(const char *path) { return path[0] == '/' || !path[0] ? NONE : strcmp(path, "out.pcm") ? FOLDER : SAMPLES; }
static void tell(enum kind kind, const char *what, long bytes) {
  const char *to = getenv("CALLS_TO");
  FILE *file = to ? fopen(to, "a") : NULL;
  if (file) fprintf(file, "%s %s %ld\n", names[kind], what, bytes), fclose(file);
}
static int is_set_to(const char *name, const char *text) {
  const char *value = getenv(name);
  return value && !strcmp(value, text);
}
static int fails(enum kind kind, const char *what) {
  char number[32];
  snprintf(number, sizeof number, "%ld", ++calls[kind]);
  tell(kind, what, 0);
  if (!is_set_to("FAULT", names[kind]) || !is_set_to("FAULT_AT", number)) return 0;
  errno = atoi(getenv("FAULT_ERROR"));
  return 1;
}
static size_t part(enum kind kind, size_t size) {
  char name[32];
  snprintf(name, sizeof name, "PART_%s", names[kind]);
  const char *text = getenv(name);
  size_t most = text ? (size_t)atol(text) : size;
  return size > most ? most : size;
}
#define MOVES(name, bytes) \
ssize_t name(int fd, bytes at, size_t size) { \
  REAL(name); \
  enum kind kind = of_file(fd); \
  if (kind == NONE) return real(fd, at, size); \
  if (fails(kind, #name)) return -1; \
  ssize_t count = real(fd, at, part(kind, size)); \
  if (count > 0) tell(kind, "took", count); \
  return count; \
}
MOVES(read, void *)
MOVES(write, const void *)
#define OPENS(name) \
int name(const char *path, int flags, ...) { \
  REAL(name); \
  va_list more; \
  va_start(more, flags); \
  mode_t mode = flags & O_CREAT ? va_arg(more, mode_t) : 0; \
  va_end(more); \
  enum kind kind = of_path(path); \
  if (kind != NONE && fails(kind, "open")) return -1; \
  int fd = real(path, flags, mode); \
  if (fd >= 0 && fd < MOST && kind != NONE) kinds[fd] = kind; \
  return fd; \
}
OPENS(open)
OPENS(open64)
int close(int fd) {
  REAL(close);
  enum kind kind = of_file(fd);
  if (kind != SAMPLES && kind != FOLDER) return real(fd);
  int failed = fails(kind, "close"), error = errno, result = real(fd);
  kinds[fd] = NONE;
  if (failed) errno = error;
  return failed ? -1 : result;
}
int statx(int at, const char *restrict path, int flags, unsigned int mask, struct statx *restrict to) {
  REAL(statx);
  enum kind kind = path[0] ? of_path(path) : of_file(at);
  return kind != NONE && fails(kind, "statx") ? -1 : real(at, path, flags, mask, to);
}
int fsync(int fd) {
  REAL(fsync);
  return of_file(fd) != NONE && fails(of_file(fd), "fsync") ? -1 : real(fd);
}
int fdatasync(int fd) {
  REAL(fdatasync);
  return of_file(fd) != NONE && fails(of_file(fd), "fdatasync") ? -1 : real(fd);
}
int fchmod(int fd, mode_t mode) {
  REAL(fchmod);
  return of_file(fd) != NONE && fails(of_file(fd), "fchmod") ? -1 : real(fd, mode);
}
int unlink(const char *path) {
  REAL(unlink);
  return of_path(path) != NONE && fails(of_path(path), "unlink") ? -1 : real(path);
}
int rename(const char *from, const char *to) {
  REAL(rename);
  return of_path(from) != NONE && fails(of_path(from), "rename") ? -1 : real(from, to);
}
END
cc -O1 -Wall -shared -fPIC -o "$room/faults.so" "$room/faults.c" -ldl || exit 2
python3 -B "$top/bench/faults.py" "$program" "$room/faults.so" "$@"
