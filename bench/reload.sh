#!/usr/bin/env bash
# Saves a run after each of its records, opens what was saved, and compares both patches: bench/reload.sh RUN-FOLDER..
#
# A run is a folder with `files/` (patches), `script` and `words` (the words of the command, one a line, the patch first). After each record the
# run is played to there, saved, and asked for the signal order of every canvas, those inside abstractions too, and for who owns every name: a
# message that no box hears is sent to it. What was saved is opened by a second player, saved again and asked the same. The file that is saved
# tells boxes, texts, wires and fan-outs. A line is printed for each record after which an answer, or the two files, differ, and how many times
# that was tried at the end.
#
# A message that is sent to a name is answered by what a box keeps too, as by an open or a shut `spigot`: such a line isn't wrong of itself.
# Build the program first, by ./play, or name another one in PDPLAY.
set -u
top=$(cd "$(dirname "$0")/.." && pwd) || exit 2
# shellcheck source=bench/program.sh
. "$top/bench/program.sh"
[ $# -gt 0 ] || { echo "usage: bench/reload.sh RUN-FOLDER.." >&2; exit 2; }
exec python3 "$top/bench/reload.py" "$program" "$@"
