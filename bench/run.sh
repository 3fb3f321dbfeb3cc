#!/usr/bin/env bash
# Measures the layers: bench/run.sh, or bench/run.sh NAME for one benchmark alone.
#
# What plays, by the program pd_bench:
#
#   document   reading and writing a patch file, at 1, 4 and 16 MiB: messages of numbers and few names, messages of many names, rows of
#              array values; and a file of as many objects and wires as a document may have, which is the same at each size
#   clocks     owners whose clocks fire and are set again one period later, each owner with a period of its own
#   hear       messages heard by one box: a number at the left inlet of `+`, `trigger`, `route`, `pack` and a message box with `$1`
#   signal     blocks of one signal object after another, for all but min~, dac~, vline~ and those of the canvas's ports
#   growth     a patch with twice as many wires as boxes: its growth alone, and with reading and gathering
#
# Wires and orders, by the program pd_bench_orders:
#
#   wires      wires that are cut in the middle of an outlet's fan-out and added to it, by the number of wires of the outlet
#   fold       the signal order from nothing, of boxes that are each fed by two others
#   mend       the signal order of voices that feed one box: one voice's wire is cut and added again, where the chain stays and, apart, where it
#              changes; beside it a fold at the same size
#
# Edits, by the program pd_bench_edits:
#
#   edit       the calls that an edit makes, one kind after another, in patches of 101 to 10,001 boxes, flat and in subpatches
#
# Times are of the processor, so other work on the machine lengthens them little; each is the least of five runs. docs/BENCHMARKS.md has
# targets and figures. With sizes of your own, once the programs are built:
#
#   crates/pd_bench/out/pd_bench document BYTES
#   crates/pd_bench/out/pd_bench clocks OWNERS FIRINGS
#   crates/pd_bench/out/pd_bench hear MESSAGES
#   crates/pd_bench/out/pd_bench signal BLOCKS
#   crates/pd_bench/out/pd_bench growth BOXES [WIRES]
#   crates/pd_bench/out/pd_bench full messages BOXES
#   crates/pd_bench/out/pd_bench full packs BOXES
#   crates/pd_bench_orders/out/pd_bench_orders wires COUNT
#   crates/pd_bench_orders/out/pd_bench_orders fold BOXES
#   crates/pd_bench_orders/out/pd_bench_orders mend BOXES
#   crates/pd_bench_edits/out/pd_bench_edits edit flat BOXES
#   crates/pd_bench_edits/out/pd_bench_edits edit subpatches BOXES
#
# A program is built first where it isn't built, or where a source has changed since; that proves the crates below it, which takes
# minutes the first time.
set -u
top=$(cd "$(dirname "$0")/.." && pwd) || exit 2

# Builds a program where that is to be done.
build() {
  local name=$1 program=$top/crates/$1/out/$1 log
  if [ -x "$program" ] && [ -z "$(find "$top/crates" -path '*/src/*.rt' -newer "$program" -print -quit)" ]; then
    return 0
  fi
  echo "bench: building $name; the first time takes some minutes, since every crate below it is proved first" >&2
  log=$(mktemp)
  # A run without words measures nothing.
  if ! (cd "$top/crates/$name" && rt run </dev/null >"$log" 2>&1) || [ ! -x "$program" ]; then
    cat "$log" >&2
    rm -f "$log"
    return 2
  fi
  rm -f "$log"
  touch "$program"
}

plays=(
  "document 1048576" "document 4194304" "document 16777216"
  "clocks 1000 100" "clocks 10000 100"
  "hear 1000000"
  "signal 100000"
  "growth 100" "growth 1000" "growth 10000"
)

orders=(
  "wires 10" "wires 100" "wires 1000" "wires 10000"
  "fold 100" "fold 1000" "fold 10000"
  "mend 100" "mend 1000" "mend 10000"
)

edits=(
  "edit flat 101" "edit flat 301" "edit flat 1001" "edit flat 3001" "edit flat 10001"
  "edit subpatches 101" "edit subpatches 301" "edit subpatches 1001" "edit subpatches 3001" "edit subpatches 10001"
)

# Runs the benchmarks of a program, or those of one name: run_all PROGRAM NAME LINE..
run_all() {
  local program=$1 name=$2 built=0 line
  shift 2
  for line in "$@"; do
    if [ -z "$name" ] || [ "${line%% *}" = "$name" ]; then
      if [ $built -eq 0 ]; then
        build "$program" || return 2
        built=1
      fi
      # The words are one benchmark's name and its sizes.
      # shellcheck disable=SC2086
      "$top/crates/$program/out/$program" $line || return 1
    fi
  done
}

has() {
  local line
  for line in "${plays[@]}" "${orders[@]}" "${edits[@]}"; do
    [ "${line%% *}" = "$1" ] && return 0
  done
  return 1
}

name=${1:-}
if [ -n "$name" ] && ! has "$name"; then
  echo "bench: there is no benchmark $name" >&2
  exit 2
fi

set -o pipefail
run() {
  run_all pd_bench "$name" "${plays[@]}" &&
    run_all pd_bench_orders "$name" "${orders[@]}" &&
    run_all pd_bench_edits "$name" "${edits[@]}"
}

run | awk -F': ' '
  BEGIN { printf "%-10s %-56s %s\n", "benchmark", "size", "figures" }
  { printf "%-10s %-56s %s\n", $1, $2, $3 }'
