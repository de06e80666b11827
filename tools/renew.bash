#!/usr/bin/env bash
# renew PROGRAM: builds a program of the repository into out/ where it is missing there or older than its sources, and
# else does nothing, in a few milliseconds. All that it says goes to standard error. Status: 0 where out/PROGRAM is up to
# date, 70 where it was not built.
#
# renew PROGRAM MARK: takes what the merge gate built, if nothing was changed since the file MARK was written.
#
# MARK, PROGRAM.built and PROGRAM.failed have in their first line the folders with the sources of a program
# (tools/build.py --sources PROGRAM), and are as old as the start of the build.

# Whether these folders are as they were when the file was written. The folders count too, since a file that went changes
# only its folder; and the time is that which the system keeps of the change itself, which no command sets back.
is_unchanged_since() {
  local folders newer
  read -r -a folders 2>/dev/null <"$1" || return 1
  newer=$(find "$top/crates.txt" "${folders[@]/#/"$top"/}" -cnewer "$1" -print -quit 2>&1) && [[ -z $newer ]]
}

is_up_to_date() {
  [[ -x $top/out/$1 ]] && is_unchanged_since "$top/out/$1.built"
}

# Builds the program while no other call does.
build_in_turn() {
  local program=$top/out/$1 gate=$top/crates/$1/out/$1 mark=$2
  mkdir -p "$top/out" && exec 9>>"$program.lock" || return 70
  if ! flock -n 9; then
    echo "$1: another call builds the program; waiting for it" >&2
    flock 9 || return 70
    is_up_to_date "$1" && return 0
    if is_unchanged_since "$program.failed"; then
      tail -n +2 "$program.failed" >&2
      return 70
    fi
  fi
  rm -f "$program.failed"
  if [[ -n $mark && -x $gate ]] && is_unchanged_since "$mark"; then
    cp "$gate" "$program.new" && mv "$program.new" "$program" && cp -p "$mark" "$program.built" && return 0
  fi
  # (it inherits the lock, and so keeps it even if this shell ends first)
  python3 "$top/tools/build.py" "$1"
}

renew() {
  local top=${BASH_SOURCE[0]%/*}/.. status
  is_up_to_date "$1" </dev/null && return
  (build_in_turn "$@") </dev/null >&2
  status=$?
  ((status == 0 || status > 128)) || status=70
  return "$status"
}

[[ ${BASH_SOURCE[0]} != "$0" ]] || renew "$@"
