# shellcheck shell=bash
# Read by ./mapcheck, ./sheetgraph and ./install: how a command speaks; and how the first two take their words, find their program and run it.
# They have root, the folder of the repository or of a copy made by ./install, and command, their name.
: "${root:?}" "${command:?}"

# Prints a line on standard error.
say() {
  printf '%s: %s\n' "$command" "$1" >&2
}

# Says why there is no answer.
stop() {
  say "$1"
  exit 2
}

# Prints a text. The system's reason is what a message has behind its last colon.
print() {
  local said
  { said=$({ trap '' PIPE; printf '%s\n' "$1" >&3; } 2>&1); } 3>&1 || stop "standard output: ${said##*: }"
}

# Makes file $1, which is shown as $name, standard input. Where that fails, it is tried once more for the reason.
open_file() {
  local said
  { exec <"$1"; } 2>/dev/null || {
    said=$({ : <"$1"; } 2>&1)
    stop "$name: ${said##*: }"
  }
}

# Where standard error is closed, bash has opened the script itself in its place.
mend_errors() {
  [ ! /dev/fd/2 -ef "$0" ] || exec 2>/dev/null
}

# The place of another closed stream would be taken by the next file or pipe that is opened.
mend_streams() {
  { true 3>&1; } 2>/dev/null || stop 'standard output is closed'
  input=open
  { true 3<&0; } 2>/dev/null || { input=closed; exec </dev/null; }
}

# Finds the program, and what says its version and builds it. The repository has crates.txt, a copy has VERSION. While ./install replaces the files of a
# copy, the second line of VERSION says so.
find_program() {
  local state
  if [ -e "$root/crates.txt" ]; then
    program=$root/crates/$command/out/$command
    # shellcheck source=tools/prove.sh
    . "$root/tools/prove.sh" 2>/dev/null || stop "$root/tools/prove.sh cannot be read"
  else
    { read -r _ && read -r state && [ "$state" != incomplete ]; } 2>/dev/null <"$root/VERSION" || stop "$root is an incomplete copy; run ./install again"
    program=$root/lib/$command
    version_text() { cat "$root/VERSION"; }
    build_where_due() { :; }
  fi
}

# Takes the words of a command that has help, its text for --help; words, how it is called; options, those of its own; awaited, what it reads; and
# heading, the first line of an answer that is no refusal. Runs its program on the file or on standard input. Leaves the own options that were given as
# given, what is to be printed as answer, and as status 0, or 1 for a refusal.
ask() {
  local usage="usage: $command ${words:?}, or $command --help, or $command --version" name='standard input'
  mend_errors
  mend_streams
  find_program
  given=''
  while [[ ${1-} == -?* ]]; do
    case $1 in
    --help | --version) [ $# -eq 1 ] || stop "$usage" ;;&
    --help) print "${help:?}"; exit 0 ;;
    --version) print "$(version_text)"; exit 0 ;;
    --) shift; break ;;
    *) [[ " ${options?} " == *" $1 "* ]] || stop "$usage"; given="$given $1" ;;
    esac
    shift
  done
  [ $# -le 1 ] || stop "$usage"
  [ "${1-}" != - ] || shift

  if [ $# -eq 1 ]; then
    # A name that does not fit on a line is shown as the shell quotes it.
    [[ -n $1 && $1 != *[[:cntrl:]]* ]] && name=$1 || printf -v name %q "$1"
    open_file "$1"
  elif [ "$input" = closed ]; then
    stop 'standard input is closed'
  fi

  build_where_due "$command" "$program"
  [ $# -eq 1 ] || [ ! -t 0 ] || say "waiting for ${awaited:?} from the terminal; Ctrl-D on a line of its own ends it"

  # The program has no status of its own: where it cannot read, it says why and prints no answer.
  answer=$("$program" 2>&1) || stop "$program: status $?${answer:+, ${answer##*: }}"
  # shellcheck disable=SC2034
  case $answer in
  "${heading:?}"$'\n'*) status=0 ;;
  'refusal table row'$'\n'*) status=1 ;;
  *) stop "$name: ${answer##*: }" ;;
  esac
}
