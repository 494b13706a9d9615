#!/bin/sh
# Does what docs/INTEGRATION.md says: takes its files out of it into an empty folder beside the repository's,
# builds and runs both programs, and compares what they print with the page. Used by the Makefile, which
# says how to build and run for x86-64.
set -eu
cd "$(dirname "$0")/.."
work=$(mktemp -d)
trap 'rm -rf "$work"' EXIT
ln -s "$PWD" "$work/hazelhusk"
mkdir -p "$work/first/src"

# A file of the page is a fenced block with its name behind the language.
awk -v folder="$work/first/" '
  /^```[a-z]+ / { file = folder $2; next }
  /^```/ { file = "" }
  file { print > file }
' docs/INTEGRATION.md

cd "$work/first"
$CC -std=c11 -Wall -Wextra -Werror -I../hazelhusk/include first.c ../hazelhusk/target/staticlib/libhusk.a -lcrypto -o first
$RUN ./first | diff output.txt -
env $CARGO run -q --offline --target "$TARGET" | diff output.txt -
