#!/usr/bin/env bash
# Plays a patch again and again, each time with another growth of memory refused: bench/short-memory.sh [PATCH SCRIPT]
#
# The program is run with a library before the system's own, made here by `cc`, whose Nth call for memory gives none; N goes from 1 to the last
# call of a whole run. Where an edit or a save is refused for it, the rest of the run has to be the one without that command: the same lines, samples
# and files. Printed is how many of the runs went each way, and each run that went none of them:
#
#   opening   the patch wasn't opened: status 9, nothing but the line that says so, and no sample or file was written
#   refused   one command was refused for want of memory, and all else is as without it
#   same      nothing was refused: that memory wasn't wanted for the run's meaning
#
# PATCH lies in a folder of its own; SCRIPT is played on it, a command a line. Without them a patch and a script with edits of wires and saves are made.
# Build the program first, by ./play, or name another one in PDPLAY.
set -u
top=$(cd "$(dirname "$0")/.." && pwd) || exit 2
# shellcheck source=bench/program.sh
. "$top/bench/program.sh"
room=$(mktemp -d)
trap 'rm -rf "$room"' EXIT
command -v cc >/dev/null || { echo "bench: a C compiler is wanted: cc" >&2; exit 2; }

cat >"$room/refuse.c" <<'END'
#define _GNU_SOURCE
#include <dlfcn.h>
#include <errno.h>
#include <stdio.h>
#include <stdlib.h>
#include <string.h>
#include <unistd.h>
static long calls, refused = -1;
static void tell(void) {
  const char *to = getenv("CALLS_TO");
  FILE *file = to ? fopen(to, "w") : NULL;
  if (file) fprintf(file, "%ld\n", calls), fclose(file);
}
static int is_refused(void) {
  if (refused < 0) {
    refused = 0;
    const char *text = getenv("REFUSED");
    refused = text ? atol(text) : 0;
    if (!refused) atexit(tell);
  }
  return ++calls == refused;
}
#define REAL(name) static __typeof__(&name) real; if (!real) real = (__typeof__(&name))dlsym(RTLD_NEXT, #name)
void *malloc(size_t size) {
  REAL(malloc);
  return is_refused() ? NULL : real(size);
}
void *realloc(void *old, size_t size) {
  REAL(realloc);
  return is_refused() ? NULL : real(old, size);
}
void *aligned_alloc(size_t align, size_t size) {
  REAL(aligned_alloc);
  return is_refused() ? NULL : real(align, size);
}
int posix_memalign(void **to, size_t align, size_t size) {
  REAL(posix_memalign);
  return is_refused() ? ENOMEM : real(to, align, size);
}
END
cc -O1 -shared -fPIC -o "$room/refuse.so" "$room/refuse.c" -ldl || exit 2

mkdir "$room/patch"
if [ $# -ge 2 ]; then
  cp -r -- "$(dirname -- "$1")"/. "$room/patch/" && patch=$(basename -- "$1") && cp -- "$2" "$room/script" || exit 2
else
  patch=main.pd
  cat >"$room/patch/main.pd" <<'END'
#N canvas 0 50 450 300 12; #X obj 0 0 r go; #X obj 0 30 print a; #X obj 0 60 print b; #X obj 0 90 osc~ 440; #X obj 0 120 *~ 0.1;
#X obj 0 150 dac~; #X obj 0 180 t f f; #X msg 0 210 \; pd-main.pd connect 6 1 2 0; #X connect 0 0 1 0; #X connect 4 0 5 0;
END
  cat >"$room/script" <<'END'
0 send go 1;
0 edit . / connect 0 0 2 0;
0 send go 2;
1 edit . / connect 3 0 4 0;
2 edit . / disconnect 0 0 1 0;
2 edit . / connect 0 0 6 0;
2 edit . / connect 6 0 1 0;
3 send go 3;
3 save .;
4 edit . / disconnect 3 0 4 0;
4 edit . / connect 3 0 5 1;
5 send go 4;
6 save .;
7 end;
END
fi

# One run of a script: its lines, samples and files go to $room/NAME.
run_as() {
  rm -rf "$room/now" && cp -r "$room/patch" "$room/now"
  (cd "$room/now" && LD_PRELOAD=$room/refuse.so CALLS_TO=$room/calls REFUSED=$2 "$program" "$patch" <"$1") >"$room/$3" 2>/dev/null
  local code=$?
  cat "$room/now"/*.pd "$room/now/out.pcm" 2>/dev/null | cksum >"$room/$3.sum"
  return "$code"
}

run_as "$room/script" 0 whole || { echo "bench: the script is not played whole" >&2; exit 2; }
calls=$(cat "$room/calls")
cat "$room/patch"/*.pd | cksum >"$room/untouched.sum"
mapfile -t commands <"$room/script"
for i in "${!commands[@]}"; do
  case ${commands[i]} in *' edit '* | *' save '*) ;; *) continue ;; esac
  # The next command comes when it would have come.
  awk -v left="$((i + 1))" 'NR == left { more = $1; next } { if (more) { $1 += more; more = 0 } print }' "$room/script" >"$room/less"
  run_as "$room/less" 0 "without.$i"
done

opening=0 refused=0 same=0 other=0
for ((n = 1; n <= calls; n++)); do
  run_as "$room/script" "$n" got
  code=$?
  if [ "$code" = 0 ] && cmp -s "$room/got" "$room/whole" && cmp -s "$room/got.sum" "$room/whole.sum"; then
    same=$((same + 1))
  elif [ "$code" = 9 ] && [ "$(wc -l <"$room/got")" -le 1 ] && cmp -s "$room/got.sum" "$room/untouched.sum"; then
    opening=$((opening + 1))
  else
    fits=no
    grep -v '^error: .* refused: out of memory$' "$room/got" >"$room/rest"
    [ "$(grep -c '^error: .* refused: out of memory$' "$room/got")" = 1 ] && for one in "$room"/without.*.sum; do
      cmp -s "$room/rest" "${one%.sum}" && cmp -s "$room/got.sum" "$one" && fits=yes && break
    done
    if [ "$code" = 0 ] && [ $fits = yes ]; then refused=$((refused + 1)); else other=$((other + 1)); echo "call $n: status $code"; cat "$room/got"; fi
  fi
done
echo "$calls calls: opening $opening, refused $refused, same $same, other $other"
[ "$other" = 0 ]
