# shellcheck shell=bash
# Read by ./play: whether the program is that of the sources as they stand, and how it is built.
#
# It is proved by `rt ci` in a copy of the crates that it stands on, without their must-fail edits: as many crates side by side as there are processors
# and memory, the longest chain first. That run is ended once the program is there. Where the kit keeps what was proved on this machine, `rt ci` of
# the whole repository doesn't prove it again; what `rt run` proves would count for nothing there.
#
# It uses $top, $program, $room, $running, say and stop of play.
# shellcheck disable=SC2154

# What the proof of a crate takes of a processor: so many milliseconds for itself and for each line of its code, definitions and proofs; and so many MB
# of memory. The times are fitted to those of 21 crates on an overloaded machine (Intel Xeon, 2.5 GHz), less a seventh for the overload; the memory is
# the middle of what rt ci plans for.
milliseconds_a_crate=15000
milliseconds_a_line=55
megabytes_a_crate=3750

# Prints each crate of crates.txt with those that it stands on.
dependencies() {
  sed 's/#.*//; s/[:,]/ /g' "$top/crates.txt" | awk 'NF { $1 = $1; print }'
}

# Prints the crates that the program stands on, and its own, each behind those below it; with names, only these and the crates above them.
crates_of_program() {
  dependencies | awk -v wanted=" $* " -v count=$# '
    function visit(name,    words, i, n, is_wanted) {
      if (!(name in below)) return 0
      if (name in seen) return seen[name]
      is_wanted = !count || index(wanted, " " name " ")
      n = split(below[name], words)
      for (i = 2; i <= n; i++) if (visit(words[i])) is_wanted = 1
      if (is_wanted) print name
      return seen[name] = is_wanted
    }
    { below[$1] = $0 }
    END { visit("pdplay") }'
}

# Prints each of these crates with its lines.
lines_of() {
  local name
  for name in "$@"; do
    echo "$name $(find "$top/crates/$name" \( -path '*/src/*.rt' -o -path '*/specs/*.antt' -o -path '*/proofs/*.antt' \) -exec cat {} + | wc -l)"
  done
}

# Whether a file that the proofs of these crates read has changed since the program's build began. The time is the one at which the system noted the
# change, so a copy that keeps old times is seen too.
has_changed() {
  local name part parts=()
  for name in "$@"; do
    for part in src specs proofs; do
      [ ! -e "$top/crates/$name/$part" ] || parts+=("$top/crates/$name/$part")
    done
  done
  [ -n "$(find "$top/crates.txt" "${parts[@]}" -cnewer "$program" -print -quit)" ]
}

# Whether the program is that of the sources as they stand.
is_current() {
  local crates
  mapfile -t crates < <(crates_of_program)
  [ -x "$program" ] && ! has_changed "${crates[@]}"
}

# Prints the crates to prove, as far as this checkout tells: those that have changed since the last build and those above them.
crates_to_prove() {
  local name changed=()
  if [ -x "$program" ]; then
    for name in $(crates_of_program); do
      ! has_changed "$name" || changed+=("$name")
    done
  fi
  crates_of_program ${changed[@]+"${changed[@]}"}
}

# Says how many crates are to be proved, and how long that takes here: their work by the processors and the memory that there are, a fifth more for
# tests that come between, and no less than the longest chain of crates that wait for one another.
estimate() {
  local memory jobs minutes
  jobs=$(nproc)
  memory=$(awk -v each="$megabytes_a_crate" '/^MemAvailable:/ { print int(0.85 * $2 / 1024 / each) }' /proc/meminfo)
  [ "${memory:-$jobs}" -ge "$jobs" ] || jobs=$((memory > 0 ? memory : 1))
  minutes=$({ lines_of "$@" && echo && dependencies; } | awk -v crate="$milliseconds_a_crate" -v line="$milliseconds_a_line" -v jobs="$jobs" '
    function chain(name,    words, i, n, most) {
      if (name in chains) return chains[name]
      n = split(below[name], words)
      for (i = 2; i <= n; i++) if (chain(words[i]) > most) most = chain(words[i])
      return chains[name] = most + times[name]
    }
    !NF { is_behind = 1; next }
    is_behind { below[$1] = $0; next }
    { times[$1] = crate + line * $2; all += times[$1] }
    END {
      least = chain("pdplay")
      work = 1.2 * all / jobs
      print int((work > least ? work : least) / 60000) + 1
    }')
  say "building pdplay: $# of its $(crates_of_program | wc -l) crates are to be proved, $jobs at a time"
  say "allow $minutes minutes, twice that on a slow processor, and less where the kit has kept what was proved on this machine before; later calls take seconds"
}

# Stops where the toolchain isn't there.
need_rt() {
  command -v rt >/dev/null ||
    stop 2 "there is no command rt on this machine, the Rattle toolchain that proves and builds pdplay; README.md, 'What is needed', tells where it comes from"
}

# Copies the crates that the program stands on to a new folder, a repository of their own.
copy_crates() {
  local name part
  mkdir -p "$1/crates" "$1/.git" && cp "$top/HANDLES" "$1/" || return
  for name in $(crates_of_program); do
    grep -E "^$name\\b" "$top/crates.txt" >>"$1/crates.txt"
    mkdir "$1/crates/$name" || return
    for part in "$top/crates/$name"/*; do
      case ${part##*/} in
        out | must-fail) ;;
        *) cp -R "$part" "$1/crates/$name/" || return ;;
      esac
    done
  done
}

# Prints which crates the processes of a job are at work on.
at_work() {
  local process
  cat "/proc/$1/task"/*/children 2>/dev/null | while read -rd ' ' process; do
    { tr '\0' ' ' <"/proc/$process/cmdline"; echo; } | sed -n 's/.* --crate-name \([a-z0-9_]*\).*/\1/p'
  done 2>/dev/null | sort -u | tr '\n' ' '
}

# Prints the time since SECONDS was 0.
clock() {
  printf '%d:%02d' $((SECONDS / 60)) $((SECONDS % 60))
}

# Says how far a job has come until it ends or its log has a line: watch JOB LOG PATTERN COMMAND.., where the command prints how far. On a terminal
# that is one line, written anew each time, else a line a minute.
watch() {
  local job=$1 log=$2 pattern=$3 next=0 width text
  shift 3
  width=$({ stty size <&2 || echo 0 80; } 2>/dev/null | cut -d ' ' -f 2)
  while kill -0 "$job" 2>/dev/null && ! grep -qE "$pattern" "$log"; do
    text="play: $(clock) $("$@")"
    if [ -t 2 ]; then
      printf '\r\033[K%s' "${text:0:$((width > 1 ? width - 1 : 79))}" >&2
    elif [ "$SECONDS" -ge "$next" ]; then
      printf '%s\n' "$text" >&2
      next=$((SECONDS + 60))
    fi
    sleep 0.5
  done
  [ ! -t 2 ] || printf '\r\033[K' >&2
}

# Prints how far the proofs of a job have come: its crates done of so many, and those at work.
progress() {
  local job=$1 log=$2 all=$3 doing
  doing=$(at_work "$job")
  [ -n "$doing" ] || doing=$(sed -n '$s/^rt: \([a-z0-9_]*\): another run on this machine .*/\1, in another run on this machine/p' "$log")
  echo "$(grep -cE '^rt: [a-z0-9_]+ (proved$|is kept: )' "$log") of $all crates done${doing:+; at work: $doing}"
}

# Prints the part of a log that tells of the first crate that isn't proved, or all where none does.
failed_part() {
  awk '/^== / { part = "" } { part = part $0 "\n"; all = all $0 "\n" } /^rt: [a-z0-9_]+ NOT PROVED/ { found = 1; exit } END { printf "%s", found ? part : all }' "$1"
}

# Becomes `rt ci` of the crates in this folder; with the kit 13b, whose rt would add up their files for a day, by tools/rt-once.
prove_crates() {
  case $(rt version) in
    rattle-kit-13b\ *) exec "$top/tools/rt-once" ci ;;
    *) exec rt ci ;;
  esac
}

# Builds the program, or says why it can't and fails; the program from before stays as it is then.
build() {
  local copy=$room/crates-to-prove log=$room/log crates job
  need_rt
  mapfile -t crates < <(crates_to_prove)
  estimate "${crates[@]}"
  SECONDS=0
  : >"$room/began"
  copy_crates "$copy" || return
  (cd "$copy" && export TMPDIR=$room && prove_crates) >"$log" 2>&1 </dev/null &
  job=$!
  running+=("$job")
  watch "$job" "$log" '^rt: (pdplay (proved$|is kept: )|[a-z0-9_]+ NOT PROVED)' progress "$job" "$log" "$(crates_of_program | wc -l)"
  kill "$job" 2>/dev/null
  wait "$job" 2>/dev/null
  if ! grep -qE '^rt: pdplay (proved$|is kept: )' "$log" || [ ! -x "$copy/crates/pdplay/out/pdplay" ]; then
    failed_part "$log" >&2
    mkdir -p "${program%/*}" && cp "$log" "${program%/*}/build.log"
    say "the build failed after $(clock) minutes, as told above, and nothing is played; its whole log is ${program%/*}/build.log"
    return 1
  fi
  # The program's time is that of the beginning, so that what was changed meanwhile is newer.
  mkdir -p "${program%/*}" && cp "$copy/crates/pdplay/out/pdplay" "$program.new" && touch -r "$room/began" "$program.new" &&
    mv -f "$program.new" "$program" || return
  remove "$copy"
  say "built in $(clock) minutes"
}
