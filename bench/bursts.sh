#!/usr/bin/env bash
# Measures a patch that builds itself by messages: bench/bursts.sh [BURST]
#
# Each event asks for BURST boxes (200): an `until` bangs a message box, whose message asks the patch for an `f`, an `osc~` or a message box. So many boxes
# are made in this way, all at the start of the run. Printed are milliseconds of the processor of the whole run, the least of five, less those of a run
# without events, microseconds a box, and how many times longer it takes than for half of the boxes: twice where the time grows with their number alone.
# Build the program first, by ./play, or name another one in PDPLAY.
set -u
top=$(cd "$(dirname "$0")/.." && pwd) || exit 2
# shellcheck source=bench/program.sh
. "$top/bench/program.sh"
burst=${1:-200}
folder=$(mktemp -d)
trap 'rm -rf "$folder"' EXIT
# shellcheck source=bench/seconds.sh
. "$top/bench/seconds.sh"
cd "$folder" || exit 2

run() { "$program" main.pd; }

printf '%-12s %8s %12s %12s %7s\n' box number time each times
for words in 'f' 'osc~ 220' 'msg'; do
  case $words in
    msg) asks='msg 10 10 1 2' ;;
    *) asks="obj 10 10 $words" ;;
  esac
  echo "#N canvas 0 50 450 300 12; #X obj 0 0 r go; #X obj 0 0 until; #X msg 0 0 \\; pd-main.pd $asks; #X connect 0 0 1 0; #X connect 1 0 2 0;" >main.pd
  : >script
  idle=$(least 5 run)
  before=
  for count in 1000 2000 4000 8000 16000; do
    for ((i = 0; i < count; i += burst)); do echo "0 send go $burst;"; done >script
    said=$("$program" main.pd <script | head -n 1)
    [ -z "$said" ] || { echo "bench: $words, $count boxes: $said" >&2; exit 1; }
    now=$(least 5 run)
    awk -v f="$words" -v c="$count" -v t="$now" -v i="$idle" -v b="$before" 'BEGIN {
      t -= i
      printf "%-12s %8d %9.1f ms %9.2f us %7s\n", f, c, t * 1e3, t * 1e6 / c, (b > 0 ? sprintf("%.1f", t / b) : "-")
    }'
    before=$(awk -v t="$now" -v i="$idle" 'BEGIN { print t - i }')
  done
done
