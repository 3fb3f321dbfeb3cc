# shellcheck shell=bash
# Read by the benchmarks that play one patch again and again, whose repository is $top: the program, a folder of their own in which they go on and which
# goes at their end, how long a run takes, and the run of the patch main.pd there.
# shellcheck disable=SC2154
# shellcheck source=bench/program.sh
. "$top/bench/program.sh"
folder=$(mktemp -d)
trap 'rm -rf "$folder"' EXIT
# shellcheck source=bench/seconds.sh
. "$top/bench/seconds.sh"
cd "$folder" || exit 2

run() { "$program" main.pd; }
