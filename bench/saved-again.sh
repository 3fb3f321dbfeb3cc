#!/usr/bin/env bash
# Saves every patch under folders, or single ones, and plays what was saved: bench/saved-again.sh FOLDER-OR-PATCH..
#
# Each patch is opened in a copy of its folder and saved at once, played for half a second, and then opened from the file that was saved, saved again
# and played as long. A line is printed for each patch that differs or isn't saved, and how many there are of each at the end:
#
#   opens    it opens: the exit code is 0
#   saved    its file was written anew
#   again    the second save wrote the same bytes as the first, which it doesn't where a patch turns a toggle that keeps its value as it opens
#   alike    both runs printed the same lines, but for wires that don't fit, which a save leaves out, and wrote the same samples
#
# Build the program first, by ./play, or name another one in PDPLAY. A patch may take SECONDS_EACH seconds (120).
set -u
top=$(cd "$(dirname "$0")/.." && pwd) || exit 2
# shellcheck source=bench/program.sh
. "$top/bench/program.sh"
[ $# -gt 0 ] || { echo "usage: bench/saved-again.sh FOLDER-OR-PATCH.." >&2; exit 2; }
limit=${SECONDS_EACH:-120}
room=$(mktemp -d)
trap 'rm -rf "$room"' EXIT

# Saves and plays a patch of the copied folder: its lines, samples and file go to $room/lines.N and so on.
play_and_save() {
  (cd "$room/patch" && timeout "$limit" "$program" "$1" <<<'0 save .; 500 end;') >"$room/lines.$2"
  local code=$?
  mv "$room/patch/out.pcm" "$room/samples.$2" 2>/dev/null || : >"$room/samples.$2"
  cp -- "$room/patch/$1" "$room/file.$2"
  return "$code"
}

# The lines of a run without those of wires that don't fit.
lines_of() { grep -v '^error: wire .* does not fit at ' "$room/lines.$1"; }

# One patch: the four words of its line.
try() {
  local saved=yes again=no alike=no
  rm -rf "$room/patch" && mkdir "$room/patch" || return
  cp -- "$(dirname -- "$1")"/*.pd "$room/patch/"
  chmod u+w "$room/patch"/*.pd
  play_and_save "$2" first || { echo no - - -; return; }
  ! grep -q '^error: save refused' "$room/lines.first" || saved=no
  play_and_save "$2" second || { echo "yes $saved no no"; return; }
  ! cmp -s "$room/file.first" "$room/file.second" || again=yes
  if cmp -s <(lines_of first) <(lines_of second) && cmp -s "$room/samples.first" "$room/samples.second"; then alike=yes; fi
  echo "yes $saved $again $alike"
}

printf '%-50s %-6s %-6s %-6s %s\n' patch opens saved again alike
while IFS= read -r -d '' file; do
  read -r opens saved again alike < <(try "$file" "${file##*/}")
  echo "$opens $saved $again $alike" >>"$room/table"
  [ "$opens $saved $again $alike" = "yes yes yes yes" ] || printf '%-50s %-6s %-6s %-6s %s\n' "${file##*/}" "$opens" "$saved" "$again" "$alike"
done < <(find -H "$@" -name '*.pd' -print0 | sort -z)
awk '{ patches++; opens += $1 == "yes"; saved += $2 == "yes"; again += $3 == "yes"; alike += $4 == "yes" }
  END { printf "%d patches: %d open, %d of them are saved, %d to the same bytes again, %d play alike\n", patches, opens, saved, again, alike }' "$room/table"
