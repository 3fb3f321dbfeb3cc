# shellcheck shell=bash
# Read by the benchmarks of whole runs, whose folder is $folder.
# shellcheck disable=SC2154

# Seconds of the processor that a command takes once; its input is the file `script` of the folder of the run.
once() {
  { TIMEFORMAT='%U %S'; time "$@" >/dev/null 2>&1 </dev/stdin; } 2>&1 <"$folder/script" | awk '{ print $1 + $2 }'
}

# The least time of so many runs of a command: least RUNS COMMAND..
least() {
  local i
  for ((i = 0; i < $1; i++)); do once "${@:2}"; done | sort -n | head -n 1
}

# Two commands, given as the names of functions, in an odd number $1 of turns, so that both meet the same machine: the least times of the two,
# and then the times in the middle.
in_turn() {
  local i
  : >"$folder/one" && : >"$folder/other"
  for ((i = 0; i < $1; i++)); do
    once "$2" >>"$folder/one"
    once "$3" >>"$folder/other"
  done
  echo "$(ranked 1 one) $(ranked 1 other) $(ranked $((($1 + 1) / 2)) one) $(ranked $((($1 + 1) / 2)) other)"
}

# The time of a rank in a file of times.
ranked() {
  sort -n "$folder/$2" | sed -n "$1p"
}
