#!/usr/bin/env bash
# Measures how long patches take to open: bench/opening.sh
#
# Three patches of so many boxes: each a `f`; each of a name that nothing has, so that a file is asked for and a line printed; and each an abstraction
# with a file of its own, which holds one `f`. Printed are milliseconds of the processor of a whole run of no time, the least of five, and how many
# times longer a patch of twice the boxes takes. Build the program first, by ./play, or name another one in PDPLAY.
set -u
top=$(cd "$(dirname "$0")/.." && pwd) || exit 2
# shellcheck source=bench/program.sh
. "$top/bench/program.sh"
folder=$(mktemp -d)
trap 'rm -rf "$folder"' EXIT
# shellcheck source=bench/seconds.sh
. "$top/bench/seconds.sh"
: >"$folder/script"

# A patch of so many boxes of a kind, in a folder of its own.
known() { seq "$1" | sed 's/.*/#X obj 0 0 f;/'; }
unknown() { seq "$1" | sed 's/.*/#X obj 0 0 unknown&;/'; }
files() {
  local i
  for ((i = 1; i <= $1; i++)); do echo '#N canvas 0 0 100 100 12; #X obj 0 0 f;' >"small$i.pd"; done
  seq "$1" | sed 's/.*/#X obj 0 0 small&;/'
}

run() { "$program" main.pd; }

# The least seconds of five runs over a patch of a form and so many boxes.
seconds_of() {
  mkdir "$folder/patch" && cd "$folder/patch" || exit 2
  { echo '#N canvas 0 0 400 300 12;'; "$1" "$2"; } >main.pd
  least 5 run
  cd "$folder" && rm -rf patch
}

printf '%-9s %8s %12s %7s\n' boxes number time times
for form in known unknown files; do
  before=
  for count in 500 1000 2000 4000 8000 16000; do
    [ "$form $count" = "files 4000" ] && break
    now=$(seconds_of "$form" "$count")
    awk -v f="$form" -v c="$count" -v t="$now" -v b="$before" 'BEGIN {
      printf "%-9s %8d %9.0f ms %7s\n", f, c, t * 1000, (b > 0 ? sprintf("%.1f", t / b) : "-")
    }'
    before=$now
  done
done
