# shellcheck shell=bash disable=SC2154

# What ./aia, ./plans, ./library and ./release share. Each sets `name`, its own, `top`, `made`, what
# it builds, and `unbuilt`, the status where nothing could be built; it has functions `usage` and
# `manual` that print these, and sources this.

unwritten='the output could not be written to its end'
ended_early='ended; what is proved by now stays, and the same command goes on from there'

# How the launchers are called in a repository, and in a release.
at=
[ ! -f "$top/crates.txt" ] || at=./

# Says something on standard error, as the launcher.
say() { printf '%s: %s\n' "$name" "$*" >&2; }

# Answers a request for help or for the version, and ends; `manual` prints the help.
answer_requests() { # WORDS..
  local answer
  case "${1-} ${2-}" in
    -h\ * | --help\ * | help\ * | *\ -h | *\ --help) answer=$(manual) ;;
    --version\ * | -V\ *) answer="$name $(< "$top/VERSION")" ;;
    *) return 0 ;;
  esac
  { printf '%s\n' "$answer"; } 2> /dev/null || {
    say "$unwritten"
    exit 4
  }
  exit 0
}

# Says what is wrong with the words, and what they may be, and ends; `usage` prints that.
refuse() { # WHAT
  say "$1"
  usage >&2
  exit 2
}

# Gives what reads a file of a plan: a line with a word of plans for `judge` says so; else `audit`
# does, with the words of its first line, or of the command that was given.
reader_of_plan() { # FILE COMMAND
  local line number=0 audit='aia audit KIND W'
  while { IFS= read -r line || [ -n "$line" ]; } && [ $((number += 1)) -le 1000 ]; do
    [[ $number != 1 || ! $line =~ ^'# audit '[a-z]+' '[0-9]+$ ]] || audit=aia${line#'#'}
    [[ ! $line =~ ^(producer|memory|notices|numbers|heeds|take|put|route|switch|free)' ' ]] || {
      echo 'plans judge'
      return
    }
  done < "$1"
  [[ $2 != 'aia audit'* ]] || audit=$2
  printf '%s\n' "$audit"
}

# Refuses a word; where it names a file, that file's text was meant, and its ending may say what
# reads it.
refuse_word() { # WHAT WORD COMMAND
  local command=$3
  [ -f "$2" ] || refuse "$1"
  case "$2" in
    *.script) command='aia replay' ;;
    *.plan) command=$(reader_of_plan "$2" "$3") ;;
  esac
  refuse "'$2' is a file: have it read from standard input, as $at$command < $2"
}

# Puts the words behind a command into `rest`, but for the first `--`, which divides and says
# nothing.
read_rest() { # WORDS..
  local word is_divided=
  rest=()
  for word; do
    if [ "$word" = -- ] && [ ! "$is_divided" ]; then is_divided=1; else rest+=("$word"); fi
  done
}

# Says whether a word spells a number in decimal that is at most so great.
is_number() { # WORD MOST
  local digits LC_ALL=C
  [[ $1 =~ ^[+]?0*([0-9]+)$ ]] || return 1
  digits=${BASH_REMATCH[1]}
  [ ${#digits} -lt ${#2} ] || { [ ${#digits} = ${#2} ] && [[ ! $digits > $2 ]]; }
}

# Prints a crate, if it is one of `uses` and not of `seen`, after those that it uses.
visit_crate() { # CRATE
  local other
  [[ -v uses[$1] && ! -v seen[$1] ]] || return 0
  seen[$1]=1
  for other in ${uses[$1]}; do visit_crate "$other"; done
  printf '%s\n' "$1"
}

# Prints the crates on which a crate stands, each after those that it uses, and last itself: the
# order in which rt proves them.
crates_of() { # CRATE
  local -A uses=() seen=()
  local line each
  while IFS= read -r line; do
    line=${line%%#*}
    [[ $line = *:* ]] || continue
    read -r each _ <<< "${line%%:*}"
    uses[$each]=${line#*:}
  done < "$top/crates.txt"
  visit_crate "$1"
}

# Prints the names of the calls that the library's header declares.
calls_of_header() {
  sed -n 's/^[a-z].*[ *]\(aia_[a-z0-9_]*\)(.*/\1/p' "$top/include/aia.h"
}

# Prints how far a build is by its log: the crate that was named last, among those of a list. None
# is named while rt looks at what was proved before. On a terminal the first minutes have seconds.
progress_of() { # LOG LIST
  local -A place=()
  local crates each line at=0 past=$((SECONDS - build_begun)) how='looks at what is proved'
  mapfile -t crates < "$2"
  for each in "${!crates[@]}"; do place[${crates[each]}]=$((each + 1)); done
  while IFS= read -r line; do
    [[ $line =~ ^'crate '([a-z0-9_]+): || $line =~ ^'rt: chose --jobs '[0-9]+' for '(.+)$ ]] || continue
    each=${BASH_REMATCH[1]##* }
    [[ -v place[$each] ]] || continue
    at=${place[$each]}
    [[ $line != crate* ]] || at=$((at + 1)) # that one is proved
  done < "$1"
  if [ "$at" -gt ${#crates[@]} ]; then
    how="all ${#crates[@]} crates are proved, and it is compiled"
  elif [ "$at" != 0 ]; then
    how="crate $at of ${#crates[@]}"
  fi
  printf '%s: %s, %d min' "$name" "$how" $((past / 60))
  [ ! -t 2 ] || [ "$past" -ge 600 ] || printf ' %02d s' $((past % 60))
  printf ' so far'
}

# Says whether what is built of a crate is missing, or older than a source that it is made of. In a
# release there is no source, and nothing is stale.
is_stale() { # CRATE BUILT
  local crates
  [ -f "$top/crates.txt" ] || return 1
  mapfile -t crates < <(crates_of "$1")
  "$top/suite/stale" "$2" "${crates[@]}"
}

# Begins a new line on a terminal, which shows how far a build is, and the keys that end it.
leave_line() { [ ! -t 2 ] || printf '\n' >&2; }

# Shows how a build goes on until it ends: on a terminal in one line, else in a line a crate and a
# minute.
watch_build() { # PROCESS LOG LIST
  local shown=x line
  while kill -0 "$1" 2> /dev/null; do
    line=$(progress_of "$2" "$3")
    if [ -t 2 ]; then
      printf '\r%s' "$line" >&2
    elif [ "$line" != "$shown" ]; then
      printf '%s\n' "$line" >&2
    fi
    shown=$line
    sleep 1
  done
  [ ! -t 2 ] || printf '\r\033[K' >&2
}

# Proves and builds by a command of rt in the folder of a crate, with nothing printed but how far it
# is; what the prover says goes to a log, which is named where something fails.
build() { # CRATE INPUT COMMAND..
  local crate=$1 input=$2 log=$top/out/build-$name.log list worker status
  shift 2
  list=$(mktemp) || exit "$unbuilt"
  mkdir -p "$top/out"
  crates_of "$crate" > "$list"
  build_begun=$SECONDS
  : > "$log"
  # It stays in this group, so that it ends where that is ended; rt ends what it has started.
  env -C "$top/crates/$crate" "$@" < "$input" > "$log" 2>&1 &
  worker=$!
  trap 'kill -TERM "$worker" 2> /dev/null; rm -f "$list"; leave_line; say "$ended_early"; exit 130' INT TERM HUP
  watch_build "$worker" "$log" "$list"
  wait "$worker"
  status=$?
  trap - INT TERM HUP
  rm -f "$list"
  [ "$status" = 0 ] || {
    say "it could not be built: rt ended with status $status, and $log has what it said:"
    tail -n 5 "$log" >&2
    exit "$unbuilt"
  }
}

# Sees that rt is there, and says before a first build how long it takes, in minutes of processor
# time as measured on a server's processor of 2.5 GHz: of the library crate by crate. Ends where
# there is none.
begin_build() { # WHAT MINUTES WITH_RT WITHOUT_RT
  local processors
  command -v rt > /dev/null || {
    say "rt, the toolchain that proves and builds $made, is not on the path; $4"
    exit "$unbuilt"
  }
  processors=$(nproc 2> /dev/null || echo 1)
  [ "$processors" -le 4 ] || processors=4
  if [ -f "$1" ]; then
    say "sources have changed since it was built: what they touch is proved again, which takes at" \
      "most $2 minutes of processor time.${3:+ $3}"
  else
    say "first $made is proved and built, once: some $2 minutes of processor time, which take" \
      "$((($2 + processors - 1) / processors)) or more here. Ctrl-C ends it, and the same command" \
      "goes on from there.${3:+ $3}"
  fi
  [ ! -t 0 ] || say 'the program reads standard input, which is the terminal here'

}

# Runs the program, and hands on to it what would end this; says of a failure in a sentence what it
# is. Ends with the program's status.
run_program() { # PROGRAM WORDS..
  local child status
  if { : <&0; } 2> /dev/null; then
    "$@" <&0 &
  else
    "$@" &
  fi
  child=$!
  trap 'kill -TERM "$child" 2> /dev/null' INT TERM HUP
  wait "$child"
  status=$?
  while kill -0 "$child" 2> /dev/null; do
    wait "$child"
    status=$?
  done
  case "$status" in
    3) say 'the input could not be read to its end' ;;
    4) say "$unwritten" ;;
    5) say 'there was not enough memory' ;;
    6) say 'the input has more than 16,777,216 bytes' ;;
    8) say 'there is no plan in the input' ;;
  esac
  exit "$status"
}
