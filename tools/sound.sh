# shellcheck shell=bash
# Read by ./play: what is done with the samples of a run, 16-bit little-endian, left then right.
#
# It uses $rate, $self and say of play.
# shellcheck disable=SC2154

bytes_of() {
  wc -c <"$1"
}

# Prints how many seconds the samples of a file last.
seconds_of() {
  awk -v bytes="$(bytes_of "$1")" -v rate="$rate" 'BEGIN { printf "%.3f", bytes / 4 / rate }'
}

# Whether all samples of a file are 0.
is_silent() {
  [ "$(LC_ALL=C tr -d '\000' <"$1" | head -c 1 | wc -c)" -eq 0 ]
}

# Prints a number as so many bytes, the least first.
little_endian() {
  local number=$1 i
  for ((i = 0; i < $2; i++)); do
    # shellcheck disable=SC2059
    printf "\\x$(printf %02x $((number & 255)))"
    number=$((number >> 8))
  done
}

# Prints the samples of a file behind the 44 bytes of a WAV header.
with_header() {
  local bytes
  bytes=$(bytes_of "$1")
  printf RIFF
  little_endian $((bytes + 36)) 4
  printf 'WAVEfmt '
  little_endian 16 4          # the length of what follows, to the word data
  little_endian 1 2           # whole numbers
  little_endian 2 2           # channels
  little_endian "$rate" 4     # frames a second
  little_endian $((rate * 4)) 4
  little_endian 4 2           # bytes a frame
  little_endian 16 2          # bits a sample
  printf data
  little_endian "$bytes" 4
  cat "$1"
}

# Writes the samples of a file as a WAV.
write_wav() {
  if command -v sox >/dev/null; then
    sox -t raw -r "$rate" -e signed -b 16 -c 2 "$1" -t wav "$2"
  elif command -v ffmpeg >/dev/null; then
    ffmpeg -v error -y -f s16le -ar "$rate" -ac 2 -i "$1" -f wav "$2" </dev/null
  elif [ "$(bytes_of "$1")" -gt $((0xffffffff - 36)) ]; then
    say "the sound is longer than a WAV of 4 GB can be: it is in $1"
    return 1
  else
    with_header "$1" >"$2"
  fi
}

# Prints the path of a program that plays sound, the first of aplay, play and ffplay that isn't this script.
player() {
  local name path
  for name in aplay play ffplay; do
    while read -r path; do
      [ "$path" -ef "$self" ] || { echo "$path"; return; }
    done < <(type -aP "$name")
  done
  return 1
}

# Hands the samples of a file to a player: listen PLAYER FILE
listen() {
  case ${1##*/} in
    aplay) with_header "$2" | "$1" -q - ;;
    play) with_header "$2" | "$1" -q -t wav - ;;
    ffplay) with_header "$2" | "$1" -nodisp -autoexit -loglevel error -i - ;;
  esac
}
