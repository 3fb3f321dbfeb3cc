#!/usr/bin/env bash
# Measures the sound of whole runs: bench/sounds.sh
#
# A voice is `osc~` into `*~`, and all voices feed `dac~`. Printed are nanoseconds for a voice and a sample, of the whole run less those of a run
# of a block or two, by the number of voices; beside them the same patch in Pd (`pd -nogui -batch`) for the same length, where `pd` is installed,
# and how many times its time ours is, by the least times of 25 runs and by those in the middle. The runs of the two take turns. Build the
# program first, by ./play, or name another one in PDPLAY.
set -u
top=$(cd "$(dirname "$0")/.." && pwd) || exit 2
# shellcheck source=bench/program.sh
. "$top/bench/program.sh"
folder=$(mktemp -d)
trap 'rm -rf "$folder"' EXIT
# shellcheck source=bench/seconds.sh
. "$top/bench/seconds.sh"
cd "$folder" || exit 2

# As many voices, whose boxes begin at number $2 behind a `dac~`.
voices() {
  local i
  echo "#X obj 0 0 dac~;"
  for ((i = 0; i < $1; i++)); do echo "#X obj 0 0 osc~ $((100 + i * 37 % 400)); #X obj 0 0 *~ 0.001;"; done
  for ((i = 0; i < $1; i++)); do
    echo "#X connect $(($2 + 1 + 2 * i)) 0 $(($2 + 2 + 2 * i)) 0; #X connect $(($2 + 2 + 2 * i)) 0 $2 0;"
  done
}

# A run of Pd over so many milliseconds.
pd_patch() {
  echo "#N canvas 0 0 400 300 12; #X obj 0 0 loadbang; #X msg 0 0 \; pd dsp 1; #X obj 0 0 del $2; #X msg 0 0 \; pd quit;"
  voices "$1" 4
  echo "#X connect 0 0 1 0; #X connect 0 0 2 0; #X connect 2 0 3 0;"
}

# Runs of the two programs, over the script or the length of the moment.
ours() { "$program" main.pd; }
theirs() { pd -nogui -noprefs -batch -open sound.pd; }
none() { :; }

# The patches of so many voices over so many milliseconds.
prepare() {
  { echo "#N canvas 0 0 400 300 12;"; voices "$1" 0; } >main.pd
  echo "$2 end;" >script
  pd_patch "$1" "$2" >sound.pd
}

other=none
command -v pd >/dev/null && other=theirs
printf '%-8s %14s %14s %8s %8s\n' voices pdplay pd times middle
for count in 10 100 1000; do
  length=$((2100000 / count))
  prepare "$count" 1
  read -r -a idle < <(in_turn 25 ours "$other")
  prepare "$count" "$length"
  read -r -a whole < <(in_turn 25 ours "$other")
  awk -v c="$count" -v l="$length" -v o="$other" -v a="${whole[*]}" -v b="${idle[*]}" 'BEGIN {
    n = int(l * 44.1 * c)
    split(a, w, " "); split(b, i, " ")
    for (k = 1; k <= 4; k++) t[k] = (w[k] - i[k]) * 1e9 / n
    if (o == "none") printf "%-8s %11.1f ns %14s %8s %8s\n", c, t[1], "-", "-", "-"
    else printf "%-8s %11.1f ns %11.1f ns %8.1f %8.1f\n", c, t[1], t[2], t[1] / t[2], t[3] / t[4]
  }'
done
