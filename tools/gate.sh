#!/bin/sh
# Proves every crate, tries the edits that must be refused and runs the programs. It fails where rt does, and
# where an edit could not be tried for what it says, which rt counts as bad and passes. Used by the Makefile.
set -u
said=$(mktemp)
trap 'rm -f "$said"' EXIT
{ rt ci; echo $? > "$said.status"; } | tee "$said"
status=$(cat "$said.status")
rm -f "$said.status"
[ "$status" = 0 ] || exit "$status"
if grep -E '^rt: ok.*, [1-9][0-9]* bad' "$said" > /dev/null; then
  echo 'an edit is bad: it was refused for no fact' >&2
  exit 1
fi
