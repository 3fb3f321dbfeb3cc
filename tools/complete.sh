# shellcheck shell=bash
# Read by ./play: which objects a patch and its abstractions ask for that pdplay doesn't have, and those of library/ that stand in for them.
#
# It uses $top, $folder, $name, say and stop of play.
# shellcheck disable=SC2154

# The names that pdplay makes a box of itself. `list` has a second word that it doesn't know.
own_names='bang b float f int i symbol trigger t pack unpack route select sel moses spigot swap change until loadbang print send s receive r
  metro delay del timer random list + - * / min max == != > < >= <= && || % mod div abs mtof clip inlet outlet table tabread tabwrite bng tgl pd
  sig~ phasor~ osc~ noise~ +~ -~ *~ /~ max~ min~ abs~ wrap~ clip~ line~ vline~ samphold~ lop~ hip~ delwrite~ delread~ send~ s~ receive~ r~
  throw~ catch~ snapshot~ tabread~ dac~ inlet~ outlet~'

# Prints the names that the objects of a patch file ask for beyond these, a line each. Records and words are read as pdplay reads them: a backslash
# takes the byte behind it into the word.
names_of() {
  LC_ALL=C awk -v own="$own_names" '
    # Takes the next word off the front of `rest`; a bare comma is a word by itself.
    function word(    place, taken, left) {
      sub(/^[ \t\n\r]+/, "", rest)
      if (rest == "") return ""
      if (substr(rest, 1, 1) == ",") { rest = substr(rest, 2); return "" }
      match(rest, /^(\\.|[^ \t\n\r,\\])+/)
      left = substr(rest, 1, RLENGTH)
      rest = substr(rest, RLENGTH + 1)
      taken = ""
      while ((place = index(left, "\\")) > 0) {
        taken = taken substr(left, 1, place - 1) substr(left, place + 1, 1)
        left = substr(left, place + 2)
      }
      return taken left
    }
    function look(    name, second) {
      if (word() != "#X" || word() != "obj") return
      word(); word()
      name = word()
      if (name == "" || name ~ /\n/) return
      if (name == "list") {
        second = word()
        if (second == "store" || second == "fromsymbol" || second == "tosymbol") print name " " second
      } else if (!(name in is_own)) print name
    }
    BEGIN { RS = ";"; count = split(own, names, /[ \n]+/); for (i = 1; i <= count; i++) is_own[names[i]] = 1 }
    {
      text = text $0
      if (match(text, /\\+$/) && RLENGTH % 2) { text = text ";"; next }
      rest = text
      text = ""
      if (rest ~ /^[ \t\n\r]*#X[ \t\n\r]+obj[ \t\n\r]/) look()
    }' "$1"
}

# Prints words with commas between them.
listed() {
  printf '%s, ' "$@" | sed 's/, $//'
}

# Copies to the patch's folder what the patch and its abstractions ask for and that isn't there, and says what was copied and what is left.
complete_patch() {
  local queue=("$name") next=0 object copied=() left=()
  local -A seen=()
  while [ "$next" -lt ${#queue[@]} ]; do
    while IFS= read -r object; do
      [ -z "${seen[=$object]+x}" ] || continue
      seen[=$object]=yes
      if [[ $object == */* || $object == 'list '* ]]; then
        left+=("$object")
      elif [[ -e $folder$object.pd || -L $folder$object.pd ]]; then
        queue+=("$object.pd")
      elif [ -f "$top/library/$object.pd" ]; then
        cp -- "$top/library/$object.pd" "$folder" || stop 11 "nothing more can be copied to $folder"
        copied+=("$object.pd")
        queue+=("$object.pd")
      else
        left+=("$object")
      fi
    done < <([ ! -f "$folder${queue[next]}" ] || names_of "$folder${queue[next]}")
    next=$((next + 1))
  done
  if [ ${#copied[@]} -gt 0 ]; then
    say "copied to $folder: $(listed "${copied[@]}")"
  else
    say "nothing was to be copied to $folder"
  fi
  [ ${#left[@]} -eq 0 ] || say "left, and not to be had: $(listed "${left[@]}") (docs/MANUAL.md, 'Objects of Pd that aren't there')"
}
