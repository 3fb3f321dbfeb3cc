#!/usr/bin/env bash
# Plays runs whose patches or scripts are harmed, each at every place: bench/texts.sh RUN-FOLDER..
#
# A run is a folder with `files/` (patches), `script` and `words` (the words of the command, one a line, the patch first). Of each file, and of the
# script, each first part is played in its place, from none of it on, and then the whole with one byte after the other replaced by a semicolon, by 0 and
# by 255. Each such run has to end by itself with an exit code and lines that the manual names, say nothing on standard error, write whole blocks, and
# leave no file that wasn't there. Printed is for each text how many runs ended with each exit code, and each run that did otherwise.
#
# BESIDE may name another program, a command with its words, that is given the same folder, words and script and has to answer the same: exit code,
# lines, samples and files. WORKERS is how many runs are played at a time (1). Build the program first, by ./play, or name another one in PDPLAY.
set -u
top=$(cd "$(dirname "$0")/.." && pwd) || exit 2
# shellcheck source=bench/program.sh
. "$top/bench/program.sh"
[ $# -gt 0 ] || { echo "usage: bench/texts.sh RUN-FOLDER.." >&2; exit 2; }
exec python3 "$top/bench/texts.py" "$program" "$@"
