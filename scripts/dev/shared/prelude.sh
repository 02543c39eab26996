# shellcheck shell=bash
# What the checks in bash share. A check sets `check` to its name and takes this in; there are then
#   $top     the top of the repository
#   $work    a folder that is taken away at the end, as are programs that still run
#   PATH     with the folder in which Debian has games
# and the functions below; programs speak English. With --help a check prints the comment at its
# head.
# shellcheck disable=SC2034
top=$(cd "${BASH_SOURCE[0]%/*}/../../.." && pwd)
PATH=$PATH:/usr/games
export LC_ALL=C.UTF-8
unset LANGUAGE
failed=0
missing=

usage() { sed -n '2,/^[^#]/{/^[^#]/d;s/^# \{0,1\}//;p}' "$0"; }
case ${1-} in
  -h | --help)
    usage
    exit 0
    ;;
esac

work=$(mktemp -d) || exit 1
# shellcheck disable=SC2046
at_end() {
  kill $(jobs -p) 2>/dev/null
  rm -rf "$work"
}
trap at_end EXIT

say() { printf 'checks: %s\n' "${check:+$check: }$*"; }
fail() {
  say "FAILED: $*"
  failed=1
}

# the programs that the check is given, by their full names in these variables
take_programs() { # the names of the variables in one word, then what the check was given
  local name names=$1
  shift
  if [ $# != "$(wc -w <<<"$names")" ]; then
    usage >&2
    exit 2
  fi
  for name in $names; do
    if [ ! -e "$1" ]; then
      echo "${0##*/}: there is no $name at $1" >&2
      exit 2
    fi
    printf -v "$name" '%s' "$(realpath "$1")"
    shift
  done
}

# whether all of these programs are there; those that are not are named in the check's last line
installed() {
  local program status=0
  for program in "$@"; do
    command -v "$program" >/dev/null && continue
    case " $missing " in *" $program "*) ;; *) missing="$missing $program" ;; esac
    status=1
  done
  return "$status"
}

wants_status() { # of what, the status that it must have, the one that it has
  [ "$3" = "$2" ] || fail "$1: status $3, not $2"
}

# the log of a bridge is lawful, and replays to itself
is_lawful() { # of what, the log
  local answer
  answer=$("$replay" check <"$2" 2>&1)
  [ "$answer" = lawful ] || fail "$1: its log is not lawful: $answer"
  "$replay" replay <"$2" 2>/dev/null | cmp -s - "$2" ||
    fail "$1: its log does not replay to itself"
}

# the log of a driver or of a reviver is what this command of replay writes for its events
is_its_own() { # of what, the log, the command
  "$replay" "${@:3}" <"$2" 2>"$work/told" | cmp -s - "$2" ||
    fail "$1: its log is not what is written for its events: $(head -n 1 "$work/told")"
}

# how many lines of a file have this pattern
lines_with() { # the pattern, the file
  cat "$2" 2>/dev/null | grep -c -- "$1"
}

# waits until a file has a line with this pattern, or so many, or two minutes: a machine may be busy
await() { # the pattern, the file, how many lines
  local end=$((SECONDS + 120))
  until [ "$(lines_with "$1" "$2")" -ge "${3:-1}" ]; do
    [ "$SECONDS" -lt "$end" ] || return 1
    sleep 0.1
  done
}

# a screen in memory, which is then $DISPLAY
start_screen() {
  Xvfb -displayfd 3 -screen 0 1024x768x24 3>"$work/screen" >/dev/null 2>&1 &
  await . "$work/screen" || fail "Xvfb gives no screen"
  DISPLAY=:$(cat "$work/screen")
  export DISPLAY
}

# says what was not tried, and ends with 1 if something failed
finish() {
  [ -z "$missing" ] || say "not installed, so not tried:$missing"
  exit "$failed"
}
