#!/usr/bin/env bash
# Measures inlets that come into subpatches of a patch, that go from them and that change places in them: bench/ports.sh [EDITS]
#
# The patch has voices of `osc~` into `*~`, all led to one `dac~`, and behind them EDITS subpatches (4,000, or as many as there is room for among the
# 16,384 boxes of a patch) with an inlet each, to which a message box is wired. An edit puts another inlet into each of them, to the left of the first, so
# that the wire follows; or there are two of them, and an edit deletes the left one, or moves it to the right of the other, so that the wire follows; all
# at the start of the run. Printed are microseconds an edit of the whole run, the reading of its record and the memory of the box with it, less those of
# a run without edits, the least of nine runs each, by the number of boxes that the patch has at first. Build the program first, by ./play, or name
# another one in PDPLAY.
set -u
top=$(cd "$(dirname "$0")/.." && pwd) || exit 2
# shellcheck source=bench/main-pd.sh
. "$top/bench/main-pd.sh"
most=${1:-4000}

# The patch of so many voices, with the subpatches behind them, whose inlets are these: patch VOICES INLETS
patch() {
  awk -v voices="$1" -v subs="$edits" -v inlets="$2" 'BEGIN {
    print "#N canvas 0 50 450 300 12; #X obj 0 0 dac~; #X msg 0 0 bang;"
    for (n = 0; n < voices; n++) print "#X obj 0 0 osc~ 220; #X obj 0 0 *~ 0.001;"
    for (n = 0; n < subs; n++) {
      print "#N canvas 0 0 200 200 s 0;"
      for (i = 1; i <= inlets; i++) print "#X obj " 100 * i " 10 inlet;"
      print "#X restore 0 0 pd s;"
    }
    for (n = 2; n <= 2 * voices; n += 2) print "#X connect " n " 0 " (n + 1) " 0; #X connect " (n + 1) " 0 0 0;"
    for (n = 0; n < subs; n++) print "#X connect 1 0 " (2 * voices + 2 + n) " " (inlets - 1) ";"
  }'
}

printf '%-8s %7s %12s\n' inlet boxes each
for kind in comes goes moves; do
  case $kind in
    comes) inlets=1 && words="obj 10 10 inlet" ;;
    goes) inlets=2 && words="delete 0" ;;
    moves) inlets=2 && words="move 0 300 10" ;;
  esac
  for voices in 50 500 1500 5500; do
    room=$(((16384 - 2 * voices - 2) / 3))
    edits=$((most < room ? most : room))
    patch "$voices" "$inlets" >main.pd
    : >script
    idle=$(least 9 run)
    for ((i = 0; i < edits; i++)); do echo "0 edit . /$((2 * voices + 2 + i)) $words;"; done >script
    said=$("$program" main.pd <script | head -n 1)
    [ -z "$said" ] || { echo "bench: $kind, $voices voices: $said" >&2; exit 1; }
    awk -v k="$kind" -v c="$((2 * voices + 2 + (inlets + 1) * edits))" -v n="$edits" -v t="$(least 9 run)" -v i="$idle" 'BEGIN {
      printf "%-8s %7d %9.2f us\n", k, c, (t - i) * 1e6 / n
    }'
  done
done
