#!/usr/bin/env bash
# usage: record.sh [CASE..]: runs each case (or those named) on the processor and writes its stdout, stderr, status and steps.
# A case is a folder of cases/; its program is what stands before the first '-' of its name.
# status is the exit status, or `fault KIND` where a signal ended the program; steps is the number of single steps.
set -u
cd "$(dirname "$0")" || exit 1
. ../scripts/lib.sh
counter=$(mktemp) && gcc -O2 -Wall -Wextra -o "$counter" steps.c || exit 1
trap 'rm -f "$counter"' EXIT
[ $# -gt 0 ] || set -- $(ls cases)
for case in "$@"; do
    folder=cases/$case
    words=()
    [ ! -e "$folder/args" ] || mapfile -t words < "$folder/args"
    input=/dev/null
    [ ! -e "$folder/stdin" ] || input=$folder/stdin
    got=$folder/got
    run_natively "bin/${case%%-*}" "${words[@]}"
    mv "$got.out" "$folder/stdout"
    mv "$got.err" "$folder/stderr"
    echo "$status" > "$folder/status"
    "$counter" "bin/${case%%-*}" "${words[@]}" < "$input" > /dev/null 2> /dev/null 3> "$folder/steps"
    for stream in stdout stderr; do
        [ -s "$folder/$stream" ] || rm -f "$folder/$stream"
    done
done
