#!/usr/bin/env bash
# Measures boxes that move in a patch: bench/moves.sh [EDITS]
#
# The patch has voices of `osc~` into `*~`, all led to one `dac~`, or these voices in subpatches of ten boxes each. EDITS times (10,000) an edit moves a
# box, the first, one in the middle or the last of its canvas, all at the start of the run. Printed are microseconds an edit of the whole run, the reading
# of its record with it, less those of a run without edits, the least of nine runs each, by the number of boxes of the patch. Build the program first, by
# ./play, or name another one in PDPLAY.
set -u
top=$(cd "$(dirname "$0")/.." && pwd) || exit 2
# shellcheck source=bench/main-pd.sh
. "$top/bench/main-pd.sh"
edits=${1:-10000}

# The patch of so many voices, flat or five voices a subpatch: patch flat|inside VOICES
patch() {
  awk -v form="$1" -v voices="$2" '
    function voice(n) { print "#X obj 0 0 osc~ 220; #X obj 0 0 *~ 0.001;" }
    function wires(first, count,    n) { for (n = 0; n < count; n++) print "#X connect " (first + 2 * n) " 0 " (first + 2 * n + 1) " 0;" }
    BEGIN {
      print "#N canvas 0 50 450 300 12; #X obj 0 0 dac~;"
      if (form == "flat") {
        for (n = 0; n < voices; n++) voice(n)
        wires(1, voices)
        for (n = 0; n < voices; n++) print "#X connect " (2 * n + 2) " 0 0 0;"
      } else for (n = 0; n < voices; n += 5) {
        print "#N canvas 0 0 450 300 v 0;"
        for (i = 0; i < 5; i++) voice(n + i)
        wires(0, 5)
        print "#X restore 0 0 pd v;"
      }
    }'
}

printf '%-8s %-7s %7s %12s\n' form where boxes each
for form in flat inside; do
  for where in first middle last; do
    for voices in 50 500 1500 5500; do
      patch "$form" "$voices" >main.pd
      : >script
      idle=$(least 9 run)
      path=/ && boxes=$((2 * voices + 1))
      [ "$form" = inside ] && path=/$((voices / 10)) && boxes=10
      case $where in
        first) number=0 ;;
        middle) number=$((boxes / 2)) ;;
        last) number=$((boxes - 1)) ;;
      esac
      for ((i = 0; i < edits; i++)); do echo "0 edit . $path move $number $((i % 400)) 20;"; done >script
      said=$("$program" main.pd <script | head -n 1)
      [ -z "$said" ] || { echo "bench: $form, $where, $voices voices: $said" >&2; exit 1; }
      whole=$(least 9 run)
      total=$((2 * voices + 1))
      [ "$form" = inside ] && total=$((2 * voices + voices / 5 + 1))
      awk -v f="$form" -v w="$where" -v c="$total" -v n="$edits" -v t="$whole" -v i="$idle" 'BEGIN {
        printf "%-8s %-7s %7d %9.2f us\n", f, w, c, (t - i) * 1e6 / n
      }'
    done
  done
done
