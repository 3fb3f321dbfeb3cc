# shellcheck shell=bash
# Read by ./play: a patch that plays while it is heard, by what is typed. The driver is tools/live, in Python.
#
# It uses $top, $self, $program, $room, $folder, $name, $rate, $latency, $sends, $given, $code, say and stop of play, tools/report.sh and tools/sound.sh.
# shellcheck disable=SC2154

# Stops where the patch can't be played live. It sets $player.
check_live() {
  local option
  for option in --seconds --script --wav --listen --preview --make; do
    [ -z "${given[$option]+x}" ] || stop 2 "$option doesn't go with --live, whose script is typed and whose sound is heard at once"
  done
  [ -t 0 ] || stop 2 "--live plays by what is typed, and standard input is no terminal"
  command -v python3 >/dev/null || stop 2 "--live needs python3, and there is none on this machine"
  player=$(player) || stop 2 "--live finds none of aplay, play (of sox) and ffplay on this machine"
}

# Plays the patch by what is typed. It prints the lines of the run, and ends with its exit code.
drive_live() {
  local message messages=()
  for message in ${sends[@]+"${sends[@]}"}; do messages+=("--send=$message"); done
  python3 -B "$top/tools/live" --play "$0" --program "$program" --player "$player" --folder "$folder" --patch "$name" \
    --home "${given[--keep]-$folder}" --room "$room" --rate "$rate" --latency "$latency" ${messages[@]+"${messages[@]}"}
}

# Says what came of the run, where the driver hasn't.
finish_live() {
  local facts
  mapfile -t facts <"$room/facts"
  case $code in 0 | 1 | 5 | 11) ;; *) explain "$code" "${facts[0]}" ;; esac
  case $code in 0 | 1 | 5 | 6 | 7) tell_unmade "${facts[@]:1}" ;; esac
}
