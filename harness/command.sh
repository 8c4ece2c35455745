# shellcheck shell=bash
# The form of the shell scripts' command lines, as command.py has it for those in Python. To be sourced, before the script
# changes its folder:
#
#     command_line MOST KIND "$@"
#
# `--help` prints the comment at the script's head, with status 0. A word that begins with `-`, more words than MOST
# (`any`: as many as there are), or one that is no number where KIND is `number` (else `word`) gets a line on standard
# error and status 2.

wrong() {
  local top
  top=$(dirname "${BASH_SOURCE[0]}")/..
  echo "$(realpath --relative-to="$top" "$0"): $1 (--help says more)" >&2
  exit 2
}

command_line() {
  local most=$1 kind=$2 word
  shift 2
  for word in "$@"; do
    case $word in
      -h | --help) sed -n '2,/^[^#]/s/^# \{0,1\}//p' "$0" && exit ;;
      -*) wrong "no option $word" ;;
    esac
    [[ $kind != number || $word =~ ^[0-9]+$ ]] || wrong "no number: $word"
  done
  [[ $most == any || $# -le $most ]] || wrong "too many words"
}
