# shellcheck shell=bash
# Read by ./play: what is said of a run on standard error, from its exit code and its printed lines.
#
# It uses $folder, $name, say and script_text of play, and tools/sound.sh.
# shellcheck disable=SC2154

# Prints a record of the script or patch on standard input by its number, from 1: in one line, and at most 200 bytes of it. A record ends at a
# semicolon that no backslash takes into a word.
record_of() {
  tr '\t\n\v\f\r' ' ' | LC_ALL=C awk -v wanted="$1" '
    BEGIN { RS = ";" }
    {
      text = text $0
      if (match(text, /\\+$/) && RLENGTH % 2) { text = text ";"; next }
      if (++number == wanted) exit
      text = ""
    }
    END {
      if (number != wanted) exit
      gsub(/ +/, " ", text); sub(/^ /, "", text); sub(/ $/, "", text)
      print (length(text) > 200) ? substr(text, 1, 200) " .." : text
    }'
}

# Reads the printed lines of a run. Prints the last one, and then for each name of boxes that weren't made how many there are, a space and the name.
facts_of_lines() {
  LC_ALL=C awk '
    { last = $0 }
    !/^error: / || /^error: (edit|save|undo|redo) refused: / || /^error: .*: record [0-9]+: / { next }
    sub(/: couldn.t create$/, "") || sub(/: bad file at record [0-9]+$/, "") || sub(/: inside itself$/, "") || sub(/: too deep$/, "") {
      name = substr($0, 8)
      if (!(name in times)) order[++count] = name
      times[name]++
    }
    END { print last; for (i = 1; i <= count; i++) print times[order[i]], order[i] }'
}

# Says in one line what an exit code means: explain CODE LAST-LINE
explain() {
  local number=${2##*record } why
  number=${number%%:*}
  case $1 in
    2) why="the program doesn't take these words: see ./play --help" ;;
    3) why="there is no file $name in $folder" ;;
    4) why="the patch is refused (docs/MANUAL.md, 'Refused patches')"
      [[ $number =~ ^[1-9][0-9]*$ ]] && why+=": its record $number is: $(record_of "$number" <"$folder$name")" ;;
    5) why="record $number of the script is no command, is too long, or passes 24 hours: $(script_text | record_of "$number")" ;;
    6) why="the script couldn't be read to its end" ;;
    7) why="a line or a sample couldn't be written: standard output is closed, say, or the disk is full" ;;
    8) why="$name can't be read in $folder: it is a folder, or may not be opened" ;;
    9) why="there was too little memory" ;;
    10) why="a word can't be had, as one that isn't UTF-8" ;;
    11) why="out.pcm can't be made in $folder" ;;
    126 | 127) why="the program can't be started" ;;
    *) why="the program was ended by signal $(($1 - 128))" ;;
  esac
  say "code $1: $why"
}

# Says how many boxes weren't made and which names they ask for, from the words "TIMES NAME".
tell_unmade() {
  local box count=0 names=()
  for box in "$@"; do
    count=$((count + ${box%% *}))
    if [ "${box%% *}" -eq 1 ]; then names+=("${box#* }"); else names+=("${box#* } (${box%% *} times)"); fi
  done
  [ "$count" -gt 0 ] || return 0
  [ ${#names[@]} -le 20 ] || names=("${names[@]:0:20}" "and $((${#names[@]} - 20)) other names")
  say "boxes that weren't made: $count; they ask for $(printf '%s, ' "${names[@]}" | sed 's/, $//')"
}

# Says how much sound the samples of a file are: tell_sound FILE
tell_sound() {
  local seconds
  seconds=$(seconds_of "$1")
  if [ ! -s "$1" ]; then
    say "no sound was written: a run lasts as long as its script, and --seconds N plays on for N seconds"
  elif is_silent "$1"; then
    say "$seconds seconds of silence were written to $1: nothing that sounds reached a dac~"
  else
    say "$seconds seconds of sound were written to $1"
  fi
}
