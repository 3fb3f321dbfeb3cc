#!/usr/bin/env bash
# Measures boxes that come into a patch: bench/boxes.sh [EDITS]
#
# The patch has voices of `osc~` into `*~`, all led to one `dac~`. EDITS times (4,000) an edit puts a box last into it, an `f`, a message box, an
# `osc~`, an empty subpatch, or, a tenth as often, an abstraction of ten boxes whose file is known by then, all at the start of the run. Printed are
# microseconds an edit of the whole run, the reading of its record and the memory of the box with it, less those of a run without edits, by the number
# of boxes that the patch has at first; a patch has at most 16,384. Beside them stand the same edits in Pd (`pd -nogui -batch`), where `pd` is
# installed: fewer of them, asked for by messages from a `qlist`, with the sound on. The last columns tell how many times Pd's time ours is, by the
# least times of nine runs and by those in the middle. Build the program first, by ./play, or name another one in PDPLAY.
set -u
top=$(cd "$(dirname "$0")/.." && pwd) || exit 2
# shellcheck source=bench/program.sh
. "$top/bench/program.sh"
edits=${1:-4000}
folder=$(mktemp -d)
trap 'rm -rf "$folder"' EXIT
# shellcheck source=bench/seconds.sh
. "$top/bench/seconds.sh"
cd "$folder" || exit 2

# The patch of so many voices.
flat() {
  local i at
  echo "#N canvas 0 50 450 300 12; #X obj 0 0 dac~;"
  for ((i = 1; i <= $1; i++)); do echo "#X obj 0 0 osc~ $((100 + 37 * i % 400)); #X obj 0 0 *~ 0.001;"; done
  for ((i = 1, at = 1; i <= $1; i++, at += 2)); do echo "#X connect $at 0 $((at + 1)) 0; #X connect $((at + 1)) 0 0 0;"; done
}

# So many edits that put the box of these words, for pdplay's script or Pd's list: edits_of ours|theirs EDITS WORDS
edits_of() {
  awk -v who="$1" -v edits="$2" -v words="$3" 'BEGIN {
    for (n = 0; n < edits; n++) print (who == "ours" ? "0 edit . / " : "pd-made.pd ") words ";"
  }'
}

# The abstraction: ten boxes with nine wires among them.
{
  echo "#N canvas 0 50 450 300 12; #X obj 0 0 inlet; #X obj 0 0 f; #X obj 0 0 + 1; #X obj 0 0 mod 8; #X obj 0 0 sel 0 1 2; #X obj 0 0 mtof;"
  echo "#X obj 0 0 osc~ 220; #X obj 0 0 *~ 0.1; #X obj 0 0 lop~ 100; #X obj 0 0 outlet~;"
  for ((i = 0; i < 9; i++)); do echo "#X connect $i 0 $((i + 1)) 0;"; done
} >ten.pd

# shellcheck source=bench/beside-pd.sh
. "$top/bench/beside-pd.sh"
printf '%-16s %-7s %12s %12s %8s %8s\n' box boxes pdplay pd times middle
for words in "obj 10 10 f" "msg 10 10 1 2" "obj 10 10 osc~ 220" "obj 10 10 pd x" "obj 10 10 ten"; do
  for voices in 50 500 1500 5500; do
    few=$((30000 / voices))
    many=$edits
    [ "$words" != "obj 10 10 ten" ] || { many=$((edits / 10)) && few=$((few < many ? few : many)); }
    flat "$voices" >made.pd
    : >script && : >list
    read -r -a idle < <(in_turn 9 ours "$other")
    edits_of ours "$many" "$words" >script
    edits_of theirs "$few" "$words" >list
    refused=$(ours <script | head -n 1)
    [ -z "$refused" ] || { echo "bench: $words, $voices voices: $refused" >&2; exit 1; }
    read -r -a whole < <(in_turn 9 ours "$other")
    awk -v f="${words#* 10 10 }" -v c="$((2 * voices + 1))" -v n="$many" -v m="$few" -v o="$other" -v a="${whole[*]}" -v b="${idle[*]}" 'BEGIN {
      split(a, w, " "); split(b, i, " ")
      for (k = 1; k <= 4; k++) t[k] = (w[k] - i[k]) * 1e6 / (k % 2 ? n : m)
      if (o == "none") printf "%-16s %-7s %9.2f us %12s %8s %8s\n", f, c, t[1], "-", "-", "-"
      else printf "%-16s %-7s %9.2f us %9.2f us %8.3f %8.3f\n", f, c, t[1], t[2], t[1] / t[2], t[3] / t[4]
    }'
  done
done
