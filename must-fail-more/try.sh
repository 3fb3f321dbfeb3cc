#!/usr/bin/env bash
# Tries must-fail edits that the gate leaves out, as each crate that has any costs it one more proof: must-fail-more/try.sh [NAME ..]
#
# Without names those of all crates here are tried, which takes hours. It works on a copy, over the libraries that are built here, and builds those that are
# not. It prints a line for each edit, also for those that the gate tries, and ends with a status other than 0 where one of them isn't refused.
set -u
top=$(cd "$(dirname "$0")/.." && pwd) || exit 2
copy=$(mktemp -d) || exit 2
trap 'rm -rf "$copy"' EXIT
names=("$@")
[ ${#names[@]} -gt 0 ] || mapfile -t names < <(cd "$top/must-fail-more" && printf '%s\n' */ | tr -d /)
for name in "${names[@]}"; do
  [ -d "$top/must-fail-more/$name" ] || { echo "must-fail-more: no edits of $name" >&2; exit 2; }
done
(cd "$top" && tar -c --exclude='out/[!r]*' crates crates.txt HANDLES) | tar -x -C "$copy" || exit 2
git init -q "$copy" || exit 2
for name in "${names[@]}"; do
  mkdir -p "$copy/crates/$name/must-fail"
  cp "$top/must-fail-more/$name"/*.edit "$copy/crates/$name/must-fail/"
done
cd "$copy" && rt must-fail "${names[@]}"
