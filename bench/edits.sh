#!/usr/bin/env bash
# Measures edits of wires in whole runs: bench/edits.sh [EDITS]
#
# A voice is `osc~` into `*~`. Flat, all voices lead to one `dac~`; in subpatches, each ten of them lead to the two outlets of a subpatch, and those to
# the `dac~`. Voice after voice its wire to the left is cut and one to the right is made, and then the other way round, until there were EDITS edits
# (100,000), all at the start of the run. Printed are microseconds an edit of the whole run, the reading of its record with it, less those of a run
# without edits, by the number of voices. Beside them stand the same edits in Pd (`pd -nogui -batch`), where `pd` is installed: fewer of them, asked
# for by messages from a `qlist`, with the sound on. The last columns tell how many times Pd's time ours is, by the least times of nine runs and by
# those in the middle. The runs of the two take turns. Build the program first, by ./play, or name another one in PDPLAY.
set -u
top=$(cd "$(dirname "$0")/.." && pwd) || exit 2
# shellcheck source=bench/program.sh
. "$top/bench/program.sh"
edits=${1:-100000}
folder=$(mktemp -d)
trap 'rm -rf "$folder"' EXIT
# shellcheck source=bench/seconds.sh
. "$top/bench/seconds.sh"
cd "$folder" || exit 2

# The voices $2 to $3, behind box $1 - 1, each led to the first inlet of box 0.
voices() {
  local i at
  for ((i = $2; i <= $3; i++)); do echo "#X obj 0 0 osc~ $((100 + 37 * i % 400)); #X obj 0 0 *~ 0.001;"; done
  for ((i = $2, at = $1; i <= $3; i++, at += 2)); do echo "#X connect $at 0 $((at + 1)) 0; #X connect $((at + 1)) 0 0 0;"; done
}

# The patch of so many voices: a `dac~`, and the voices or the subpatches behind it.
flat() {
  echo "#N canvas 0 50 450 300 12; #X obj 0 0 dac~;"
  voices 1 1 "$1"
}
subpatches() {
  local k
  echo "#N canvas 0 50 450 300 12; #X obj 0 0 dac~;"
  for ((k = 1; k <= $1 / 10; k++)); do
    echo "#N canvas 0 0 450 300 g$k 0; #X obj 0 0 outlet~; #X obj 100 0 outlet~;"
    voices 2 $((10 * k - 9)) $((10 * k))
    echo "#X restore 0 0 pd g$k;"
  done
  for ((k = 1; k <= $1 / 10; k++)); do echo "#X connect $k 0 0 0; #X connect $k 1 0 1;"; done
}

# So many edits of the voices of a form, each a cut and then a join, for pdplay's script or Pd's list: edits_of ours|theirs FORM VOICES EDITS
edits_of() {
  awk -v who="$1" -v form="$2" -v voices="$3" -v edits="$4" '
    function say(verb, box, right) {
      # The right side is the second inlet of the output, or the inlet of the second outlet.
      end = form == "flat" ? "0 " right : right " 0"
      if (who == "ours") printf "0 edit . /%s %s %d 0 %s;\n", form == "flat" ? "" : group, verb, box, end
      else printf "pd-%s %s %d 0 %s;\n", form == "flat" ? "made.pd" : "g" group, verb, box, end
    }
    BEGIN {
      for (n = 0; n < edits / 2; n++) {
        voice = n % voices; right = int(n / voices) % 2; group = int(voice / 10) + 1
        box = form == "flat" ? 2 * voice + 2 : 2 * (voice % 10) + 3
        say("disconnect", box, right); say("connect", box, 1 - right)
      }
    }'
}

# shellcheck source=bench/beside-pd.sh
. "$top/bench/beside-pd.sh"
printf '%-11s %-7s %12s %12s %8s %8s\n' form voices pdplay pd times middle
for form in flat subpatches; do
  for count in 50 150 500 1500; do
    few=$((60000 / count))
    $form "$count" >made.pd
    : >script && : >list
    read -r -a idle < <(in_turn 9 ours "$other")
    edits_of ours "$form" "$count" "$edits" >script
    edits_of theirs "$form" "$count" "$few" >list
    refused=$(ours <script | head -n 1)
    [ -z "$refused" ] || { echo "bench: $form, $count voices: $refused" >&2; exit 1; }
    read -r -a whole < <(in_turn 9 ours "$other")
    awk -v f="$form" -v c="$count" -v n="$edits" -v m="$few" -v o="$other" -v a="${whole[*]}" -v b="${idle[*]}" 'BEGIN {
      split(a, w, " "); split(b, i, " ")
      for (k = 1; k <= 4; k++) t[k] = (w[k] - i[k]) * 1e6 / (k % 2 ? n : m)
      if (o == "none") printf "%-11s %-7s %9.2f us %12s %8s %8s\n", f, c, t[1], "-", "-", "-"
      else printf "%-11s %-7s %9.2f us %9.2f us %8.3f %8.3f\n", f, c, t[1], t[2], t[1] / t[2], t[3] / t[4]
    }'
  done
done
