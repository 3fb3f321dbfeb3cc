#!/usr/bin/env bash
# Measures delivery in whole runs: bench/deliveries.sh [EVENTS]
#
# Each patch loops by `until`; an event of pdplay makes nearly 1,000,000 deliveries, resumptions among them, and a run has EVENTS events (50).
# Printed are nanoseconds per delivery of the whole run less those of a run without events:
#
#   flat       `until` through `f` and `+ 1`, back to the right inlet of `f`
#   subpatch   the same with `f` and `+ 1` in a subpatch
#   name       the same, from `until` to `f` by `send` and `receive`
#   chain      through a chain that makes 1,000 boxes in all
#
# Beside it stands the same loop in Pd (`pd -nogui -batch`), where `pd` is installed, and how many times its time ours is, by the least times of
# nine runs and by those in the middle. The runs of the two take turns. Build the program first, by ./play, or name another one in PDPLAY.
set -u
top=$(cd "$(dirname "$0")/.." && pwd) || exit 2
# shellcheck source=bench/program.sh
. "$top/bench/program.sh"
events=${1:-50}
folder=$(mktemp -d)
trap 'rm -rf "$folder"' EXIT
# shellcheck source=bench/seconds.sh
. "$top/bench/seconds.sh"
cd "$folder" || exit 2

# The loop of a patch whose boxes begin at number $1: its first box is `until`.
flat() {
  echo "#X obj 0 0 until; #X obj 0 0 f; #X obj 0 0 + 1;"
  echo "#X connect $1 0 $(($1 + 1)) 0; #X connect $(($1 + 1)) 0 $(($1 + 2)) 0; #X connect $(($1 + 2)) 0 $(($1 + 1)) 1;"
}
subpatch() {
  echo "#X obj 0 0 until; #N canvas 0 0 100 100 s 0; #X obj 0 0 inlet; #X obj 0 0 f; #X obj 0 0 + 1;"
  echo "#X connect 0 0 1 0; #X connect 1 0 2 0; #X connect 2 0 1 1; #X restore 0 0 pd s; #X connect $1 0 $(($1 + 1)) 0;"
}
name() {
  echo "#X obj 0 0 until; #X obj 0 0 s tick; #X obj 0 0 r tick; #X obj 0 0 f; #X obj 0 0 + 1;"
  echo "#X connect $1 0 $(($1 + 1)) 0; #X connect $(($1 + 2)) 0 $(($1 + 3)) 0; #X connect $(($1 + 3)) 0 $(($1 + 4)) 0;"
  echo "#X connect $(($1 + 4)) 0 $(($1 + 3)) 1;"
}
chain() {
  local i
  echo "#X obj 0 0 until;"
  for ((i = 1; i < 999; i++)); do echo "#X obj 0 0 f;"; done
  for ((i = 0; i < 997; i++)); do echo "#X connect $(($1 + i)) 0 $(($1 + i + 1)) 0;"; done
  echo "#X connect $(($1 + 997)) 0 $(($1 + 998)) 1;"
}

# The same loop in Pd, whose first box has the number 6 there, with so many events.
pd_patch() {
  echo "#N canvas 0 0 400 300 12; #X obj 0 0 loadbang; #X obj 0 0 t b b; #X msg 0 0 $2; #X obj 0 0 until; #X msg 0 0 $3; #X msg 0 0 \; pd quit;"
  $1 6
  echo "#X connect 0 0 1 0; #X connect 1 1 2 0; #X connect 2 0 3 0; #X connect 3 0 4 0; #X connect 4 0 6 0; #X connect 1 0 5 0;"
}

# Runs of the two programs, over the script and the patches of the moment.
ours() { "$program" main.pd; }
theirs() { pd -nogui -noprefs -batch -open loop.pd; }
none() { :; }

other=none
command -v pd >/dev/null && other=theirs
printf '%-10s %12s %12s %8s %8s\n' loop pdplay pd times middle
for loop in flat subpatch name chain; do
  case $loop in
    flat) steps=4 ;;
    subpatch) steps=5 ;;
    name) steps=6 ;;
    chain) steps=999 ;;
  esac
  turns=$((999990 / steps))
  { echo "#N canvas 0 0 400 300 12; #X obj 0 0 r go;"; $loop 1; echo "#X connect 0 0 1 0;"; } >main.pd
  : >script
  pd_patch $loop 0 $turns >loop.pd
  read -r -a idle < <(in_turn 9 ours "$other")
  for ((i = 0; i < events; i++)); do echo "0 send go $turns;"; done >script
  pd_patch $loop "$events" $turns >loop.pd
  read -r -a whole < <(in_turn 9 ours "$other")
  awk -v l=$loop -v n=$((events * turns * steps)) -v o="$other" -v a="${whole[*]}" -v b="${idle[*]}" 'BEGIN {
    split(a, w, " "); split(b, i, " ")
    for (k = 1; k <= 4; k++) t[k] = (w[k] - i[k]) * 1e9 / n
    if (o == "none") printf "%-10s %9.1f ns %12s %8s %8s\n", l, t[1], "-", "-", "-"
    else printf "%-10s %9.1f ns %9.1f ns %8.1f %8.1f\n", l, t[1], t[2], t[1] / t[2], t[3] / t[4]
  }'
done
