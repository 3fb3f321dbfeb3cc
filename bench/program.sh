# shellcheck shell=bash
# Read by the scripts that measure whole runs, whose repository is $top: the program that they measure, $program. It is the one that ./play built,
# or that of PDPLAY.
# shellcheck disable=SC2154,SC2034
program=$(readlink -f "${PDPLAY:-$top/crates/pdplay/out/pdplay}")
[ -x "$program" ] || { echo "bench: build the program first: ./play examples/hello/main.pd" >&2; exit 2; }
