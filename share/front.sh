# What the ms_cli of the repository and the installed one share. Whoever reads this file sets first:
#   program   the built program
#   share     the folder that holds help/
#   version   the file with the version
#   messages  the page of messages
# shellcheck shell=bash disable=SC2154

# How the script itself ends where it can't run the program: a status that the program never has.
NO_RUN=125

say() {
  printf 'ms_cli: %s\n' "$*" >&2
}

# Answers the words --help, --help COMMAND and --version, and then ends. Other words are left to the program.
answer() {
  case ${1-} in
    --version)
      if [ $# -gt 1 ]; then
        say "--version stands alone"
        exit "$NO_RUN"
      fi
      printf 'ms_cli %s\n' "$(cat "$version")"
      exit
      ;;
    --help)
      if [ $# -gt 2 ]; then
        say "--help takes one command at most"
        exit "$NO_RUN"
      fi
      print_help "${2-ms_cli}"
      exit
      ;;
  esac
}

# The help of a command, with or without its dash.
print_help() {
  local name=${1#-}
  case $name in
    i) name=import ;;
    '' | *[!a-z_-]*) name=none ;;
  esac
  if [ ! -f "$share/help/$name.txt" ]; then
    say "no command $1: ms_cli --help names them all"
    exit "$NO_RUN"
  fi
  cat "$share/help/$name.txt"
}

# Runs the program and ends as it does. At a terminal a refusal is followed by a line that says where it is explained.
run() {
  if [ ! -x "$program" ]; then
    say "the program is missing: $program"
    exit "$NO_RUN"
  fi
  [ -t 2 ] || exec "$program" "$@"
  "$program" "$@"
  local status=$?
  case $status in
    1 | 2 | 3) say "the reasons and what to do: $messages" ;;
  esac
  exit "$status"
}
