#!/usr/bin/env bash
# Measures boxes that get another text in a patch: bench/retypes.sh [EDITS]
#
# The patch has voices of `osc~` into `*~`, all led to one `dac~`. EDITS times (4,000) an edit gives the `*~` of a voice in the middle another factor,
# makes its `osc~` a `phasor~` and back again, or a `print` without wires behind all voices an `osc~` and a `print` again; or of three edits one makes a
# `t b b` there a `t b`, so that a wire goes, and two give it outlet and wire again. All are at the start of the run.
# Printed are microseconds an edit of the whole run, the reading of its record with it, less those of a run without edits, the least of nine runs each,
# by the number of boxes of the patch. Build the program first, by ./play, or name another one in PDPLAY.
set -u
top=$(cd "$(dirname "$0")/.." && pwd) || exit 2
# shellcheck source=bench/main-pd.sh
. "$top/bench/main-pd.sh"
edits=${1:-4000}

# The patch of so many voices, and behind them a box without wires, and two with a wire.
patch() {
  awk -v voices="$1" 'BEGIN {
    print "#N canvas 0 50 450 300 12; #X obj 0 0 dac~;"
    for (n = 0; n < voices; n++) print "#X obj 0 0 osc~ 220; #X obj 0 0 *~ 0.001;"
    print "#X obj 0 0 print; #X obj 0 0 t b b; #X obj 0 0 print;"
    for (n = 1; n <= 2 * voices; n += 2) print "#X connect " n " 0 " (n + 1) " 0; #X connect " (n + 1) " 0 0 0;"
    print "#X connect " (2 * voices + 2) " 1 " (2 * voices + 3) " 0;"
  }'
}

printf '%-16s %7s %12s\n' retype boxes each
for form in '*~' 'osc~ phasor~' 'print osc~' 't b'; do
  for voices in 50 500 1500 5500; do
    patch "$voices" >main.pd
    : >script
    idle=$(least 9 run)
    oscillator=$((voices / 2 * 2 + 1))
    for ((i = 0; i < edits; i++)); do
      case $form in
        '*~') echo "0 edit . / retype $((oscillator + 1)) *~ 0.00$((1 + i % 9));" ;;
        osc~*) ((i % 2)) && echo "0 edit . / retype $oscillator osc~ 220;" || echo "0 edit . / retype $oscillator phasor~ 220;" ;;
        t*)
          case $((i % 3)) in
            0) echo "0 edit . / retype $((2 * voices + 2)) t b;" ;;
            1) echo "0 edit . / retype $((2 * voices + 2)) t b b;" ;;
            *) echo "0 edit . / connect $((2 * voices + 2)) 1 $((2 * voices + 3)) 0;" ;;
          esac ;;
        *) ((i % 2)) && echo "0 edit . / retype $((2 * voices + 1)) print;" || echo "0 edit . / retype $((2 * voices + 1)) osc~ 220;" ;;
      esac
    done >script
    said=$("$program" main.pd <script | grep -v 'does not fit' | head -n 1)
    [ -z "$said" ] || { echo "bench: $form, $voices voices: $said" >&2; exit 1; }
    awk -v f="$form" -v c="$((2 * voices + 4))" -v n="$edits" -v t="$(least 9 run)" -v i="$idle" 'BEGIN {
      printf "%-16s %7d %9.2f us\n", f, c, (t - i) * 1e6 / n
    }'
  done
done
