#!/usr/bin/env bash
# usage: test_readme.sh PROGRAM
# The demonstration of README, 'From the sources to a recovered file': each command with a comment, whose text must be the last line that the command
# writes. Prints each failure, and last 'N passed, M failed'.
set -u
[ $# = 1 ] || { sed -n 2,2p "$0" >&2; exit 2; }
here=$(cd "$(dirname "$0")" && pwd)
. "$here/lib.sh"
enter_folder "$1"
find_native "$here/../programs/bin/hash"
ln -s "$here/../crates/binrec/data" data
sed -n '/^## From the sources/,/^## /s/^    \(.* # .*\)$/\1/p' "$here/../README.md" > commands
[ "$(wc -l < commands)" = 5 ] || fail "README has another demonstration: $(cat commands)"
while IFS= read -r line; do
    command=$(sed "s| *#.*||; s|/tmp/|$folder/|g; s|out/binrec|${tool[0]}|" <<< "$line")
    if [[ $command == chmod* && $native_kind != processor ]]; then
        skip "$line: the machine runs no 32-bit executable"
        continue
    fi
    last=$(bash -c "$command" < /dev/null 2>&1 | tail -n 1)
    if [ "$last" = "${line##*# }" ]; then pass; else fail "$line: $last"; fi
done < commands
finish
