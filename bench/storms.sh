#!/usr/bin/env bash
# Plays storms of edits, and looks whether time and memory stay flat: bench/storms.sh [SHARE] [STORM..]
#
#   events        a message asks for 256 edits of wires in each of 10,000 events, a millisecond apart: 128 wires are made and cut again
#   script        a script has a million edits of the same wires
#   boxes         a script fills an empty patch with 16,384 boxes and deletes them all, half of them at its front and half at its end, 100 times
#   abstractions  a script puts an abstraction of ten boxes and deletes it, 20,000 times
#   blocks        a patch leads an oscillator from one channel to the other at each block, through ten minutes of sound
#   hour          the same through an hour
#
# Each is played by a tenth and as a whole, or by the SHAREth part of that. Printed are microseconds of the processor an event (an edit in `script`,
# `boxes` and `abstractions`, a block in `blocks` and `hour`), the reading of the script with it, and the greatest memory, by `/usr/bin/time`. No line
# may be printed, and the patch that is saved at the end has to be the one that is saved at the beginning (but in `blocks` and `hour`). Without names all
# but `hour` are played. Build the program first, by ./play, or name another one in PDPLAY.
set -u
top=$(cd "$(dirname "$0")/.." && pwd) || exit 2
# shellcheck source=bench/program.sh
. "$top/bench/program.sh"
[ -x /usr/bin/time ] || { echo "bench: /usr/bin/time is wanted" >&2; exit 2; }
folder=$(mktemp -d)
trap 'rm -rf "$folder"' EXIT
cd "$folder" || exit 2
share=1
[[ ${1:-} =~ ^[1-9][0-9]*$ ]] && share=$1 && shift
[ $# -gt 0 ] || set -- events script boxes abstractions blocks
echo '#N canvas 0 0 9 9 12; #X obj 0 0 inlet; #X obj 0 0 outlet; #X obj 0 0 r a; #X obj 0 0 f; #X obj 0 0 + 1; #X obj 0 0 osc~; #X obj 0 0 *~ 0.1;
#X obj 0 0 dac~; #X obj 0 0 metro 50; #X msg 0 0 1; #X connect 0 0 4 0; #X connect 4 0 1 0; #X connect 5 0 6 0; #X connect 6 0 7 0;' >ten.pd

# 128 wires from 16 oscillators to eight products, made and then cut, each by the words BEFORE and AFTER: wires BEFORE AFTER
wires() {
  awk -v before="$1" -v after="$2" 'BEGIN {
    for (cut = 0; cut < 2; cut++)
      for (i = 0; i < 16; i++)
        for (j = 0; j < 8; j++) printf "%s%s %d 0 %d 0%s", before, cut ? "disconnect" : "connect", 5 + i, 21 + j, after
  }'
}

# The patch of these boxes, with four message boxes that ask for all of it, 64 edits each.
wires_patch() {
  echo '#N canvas 0 50 450 300 12; #X obj 0 0 r go;'
  wires '\; pd-main.pd ' ' ' | awk '{ gsub(/\\;/, "\n\\;"); print }' | sed 1d | awk 'NR % 64 == 1 { print "#X msg 0 0" } { print } NR % 64 == 0 { print ";" }'
  for ((i = 0; i < 16; i++)); do echo "#X obj 0 0 osc~ $((100 + i));"; done
  for ((i = 0; i < 8; i++)); do echo '#X obj 0 0 *~ 0.01;'; done
  echo '#X obj 0 0 dac~;'
  for ((i = 1; i <= 4; i++)); do echo "#X connect 0 0 $i 0;"; done
  for ((i = 0; i < 8; i++)); do echo "#X connect $((21 + i)) 0 29 $((i % 2));"; done
}

# The patch of `blocks` and `hour`. A metro of 1.451 ms bangs once in each block of 64 samples, and in one of 5,800 twice.
blocks_patch() {
  cat <<'END'
#N canvas 0 50 450 300 12; #X obj 0 0 loadbang; #X obj 0 0 metro 1.451; #X obj 0 0 tgl 15 0 empty empty empty 17 7 0 10 #fcfcfc #000000 #000000 0 1;
#X obj 0 0 sel 0 1; #X msg 0 0 \; pd-main.pd disconnect 6 0 7 0 \; pd-main.pd connect 6 0 7 1;
#X msg 0 0 \; pd-main.pd disconnect 6 0 7 1 \; pd-main.pd connect 6 0 7 0; #X obj 0 0 osc~ 220; #X obj 0 0 dac~; #X msg 0 0 1;
#X connect 0 0 8 0; #X connect 8 0 1 0; #X connect 1 0 2 0; #X connect 2 0 3 0; #X connect 3 0 5 0; #X connect 3 1 4 0; #X connect 6 0 7 0;
END
}

# Writes the patch of a storm: patch_of STORM
patch_of() {
  case $1 in
    events | script) wires_patch ;;
    boxes | abstractions) echo '#N canvas 0 50 450 300 12;' ;;
    *) blocks_patch ;;
  esac
}

# Writes a script: script_of STORM COUNT, with so many events, edits, rounds of boxes, abstractions or milliseconds.
script_of() {
  case $1 in
    events) awk -v count="$2" 'BEGIN { for (i = 0; i < count; i++) print "1 send go;" }' ;;
    script) wires '0 edit . / ' $';\n' | awk -v count="$2" '{ line[NR] = $0 } END { for (i = 0; i < count; i++) print line[i % NR + 1] }' ;;
    boxes) awk -v count="$2" -v most="$most" 'BEGIN {
      split("obj 0 0 f,obj 0 0 osc~ 220,msg 0 0 1 2,obj 0 0 t b f", text, ",")
      for (round = 0; round < count; round++) {
        for (i = 0; i < most; i++) print "0 edit . / " text[i % 4 + 1] ";"
        for (i = 0; i < most; i++) print "0 edit . / delete " (i < most / 2 ? 0 : most - 1 - i) ";"
      } }' ;;
    abstractions) awk -v count="$2" 'BEGIN { for (i = 0; i < count; i++) print "0 edit . / obj 0 0 ten; 0 edit . / delete 0;" }' ;;
    *) echo "$2 end;" ;;
  esac
}

# Plays the script and prints seconds and kilobytes: play
play() {
  local said
  ln -sf /dev/null out.pcm
  said=$(/usr/bin/time -o measured -f '%U %S %M' "$program" main.pd <script | head -n 3) || return
  [ -z "$said" ] || { echo "bench: $said" >&2; return 1; }
  tail -n 1 measured
}

# How many events a count stands for: events_in STORM COUNT
events_in() {
  case $1 in
    boxes) echo $((2 * most * $2)) ;;
    abstractions) echo $((2 * $2)) ;;
    blocks | hour) echo $(($2 * 441 / 640)) ;;
    *) echo "$2" ;;
  esac
}

# Plays a storm by a count, and prints events, microseconds each and megabytes: measure STORM COUNT
measure() {
  local took
  patch_of "$1" >main.pd
  echo '0 save .;' >script
  play >/dev/null || return
  cp main.pd first.pd
  { script_of "$1" "$2"; echo '0 save .;'; } >script
  took=$(play) || return
  case $1 in
    blocks | hour) ;;
    *) cmp -s main.pd first.pd || { echo "bench: $1: another patch is saved" >&2; return 1; } ;;
  esac
  echo "$(events_in "$1" "$2") $took" | awk '{ printf "%d %.3f %.1f\n", $1, ($2 + $3) * 1e6 / $1, $4 / 1024 }'
}

failed=0 most=$((16384 / share))
printf '%-13s %9s %11s %9s %9s %11s %9s\n' storm events each memory events each memory
for storm in "$@"; do
  case $storm in
    events) count=10000 ;;
    script) count=1000000 ;;
    boxes) count=$((100 * share)) ;;
    abstractions) count=20000 ;;
    blocks) count=600000 ;;
    hour) count=3600000 ;;
    *) echo "bench: no storm $storm" >&2; exit 2 ;;
  esac
  count=$((count / share))
  # Whole turns of the wires, and a tenth that isn't none.
  [ "$storm" != script ] || count=$(((count + 2559) / 2560 * 2560))
  [ "$count" -ge 10 ] || count=10
  if tenth=$(measure "$storm" $((count / 10))) && whole=$(measure "$storm" "$count"); then
    echo "$storm $tenth $whole" | awk '{ printf "%-13s %9d %8.3f us %6.1f MB %9d %8.3f us %6.1f MB\n", $1, $2, $3, $4, $5, $6, $7 }'
  else
    failed=1
  fi
done
exit "$failed"
