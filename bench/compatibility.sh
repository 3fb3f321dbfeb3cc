#!/usr/bin/env bash
# Plays every patch under folders, or single ones: bench/compatibility.sh FOLDER-OR-PATCH..
#
# Each patch is played in a copy of its folder that ./play --complete has completed from library/, for half a second and 20 ms for each touch. After
# 200 ms a script touches, in the order of the file, each box of the patch that no wire and no name feeds, as a hand would: a click on a message box
# (but those that send to a canvas, or to pd anything but `dsp 1`), bng or tgl; for a number box, slider or row of buttons the middle of its range, or
# 60 where it has none.
# To that end the copy has receive boxes behind the others (bench/hands.py). A line is printed for each patch:
#
#   opens    whether it opens without a line `error: ..`
#   itself   whether a sample other than 0 is written in the first 200 ms
#   sounds   whether one is written in the whole run
#   pd       whether the same copy sounds in Pd, by the same touches, where `pd` is installed
#   alike    whether no sample differs from Pd's by more than 1/100 of the greatest of Pd's, and a step of 16 bits, where ours may come up to two
#            blocks sooner or later; else the greatest difference by that greatest sample
#   left     the objects that it asks for and that the library doesn't have
#
# Pd plays with its own objects where it has them, and with those of library/ where it hasn't (output~). At the end stands how many of each there are.
# Build the program first, by ./play, or name another one in PDPLAY. A patch may take SECONDS_EACH seconds (120).
set -u
top=$(cd "$(dirname "$0")/.." && pwd) || exit 2
# shellcheck source=bench/program.sh
. "$top/bench/program.sh"
[ $# -gt 0 ] || { echo "usage: bench/compatibility.sh FOLDER-OR-PATCH.." >&2; exit 2; }
limit=${SECONDS_EACH:-120}
room=$(mktemp -d)
trap 'rm -rf "$room"' EXIT

# Makes the copies of a patch's folder for pdplay and for Pd, and prints what the library doesn't have.
prepare() {
  rm -rf "$room/ours" "$room/theirs"
  mkdir "$room/ours" "$room/theirs" || return
  cp -- "$(dirname -- "$1")"/*.pd "$room/ours/"
  "$top/play" --complete "$room/ours/$2" 2>&1 | sed -n "s/^play: left, and not to be had: \(.*\) (docs.*/\1/p"
  cp -- "$room/ours"/*.pd "$room/theirs/"
  python3 "$top/bench/hands.py" touch "$room/ours/$2" "$room/ours" "$room/theirs" >/dev/null
}

# Plays the two copies; ends with the exit code of pdplay.
play_both() {
  if command -v pd >/dev/null; then
    (cd "$room/theirs" && timeout "$limit" pd -nogui -noprefs -nosound -nrt -batch -open "$1" -open hands-run.pd) >/dev/null 2>&1
  fi
  (cd "$room/ours" && timeout "$limit" "$program" "$1" <hands-script) >"$room/lines"
}

# Whether the patch opened, and no error was printed before the script began.
opens_quietly() {
  [ "$1" -eq 0 ] && ! sed '/^hands-begin: bang$/,$d' "$room/lines" | grep -q '^error: '
}

printf '%-40s %-6s %-7s %-7s %-4s %-10s %s\n' patch opens itself sounds pd alike left
while IFS= read -r -d '' file; do
  name=${file##*/}
  left=$(prepare "$file" "$name")
  play_both "$name"
  code=$?
  opens=no
  ! opens_quietly "$code" || opens=yes
  read -r itself sounds theirs alike < <(python3 "$top/bench/hands.py" look "$room/ours" "$room/theirs")
  [ "$code" -ne 124 ] || sounds="$sounds(cut)"
  printf '%-40s %-6s %-7s %-7s %-4s %-10s %s\n' "$name" "$opens" "$itself" "$sounds" "$theirs" "$alike" "$left"
done < <(find -H "$@" -name '*.pd' -print0 | sort -z) | tee "$room/table"
awk '{
    patches++; opens += $2 == "yes"; itself += $3 == "yes"; sounds += $4 ~ /^yes/; theirs += $5 == "yes"; alike += $4 ~ /^yes/ && $6 == "yes"
  }
  END {
    printf "%d patches: %d open without a line, %d sound by themselves, %d sound when they are touched (%d in Pd), %d of them alike\n",
      patches, opens, itself, sounds, theirs, alike
  }' "$room/table"
