#!/usr/bin/env bash
# usage: compare_demo.sh PROGRAM FOLDER STAGE
# Compares the lines of `demo K` with those of the reference program, for K 1 to 64, 255, 256, 999 and 1000. FOLDER has check/ and oracle/; the
# reference is built where needed, and STAGE is a name that check/compare.py knows. Ends with 1 where a line differs, or where a call does
# not answer 0 and report nothing.
set -u
[ $# = 3 ] || { sed -n 2,2p "$0" >&2; exit 2; }
program=$1
reference=$(python3 -c 'import sys
sys.path.insert(0, sys.argv[1] + "/check")
import compare
print(compare.reference(), "--stage", "R%d" % (compare.STAGES.index(sys.argv[2]) + 1))' "$2" "$3") || exit 2
read -ra reference <<< "$reference"
folder=$(mktemp -d) || exit 2
trap 'rm -rf "$folder"' EXIT
bad=0
count=0
for number in $(seq 1 64) 255 256 999 1000; do
    "$program" demo "$number" > "$folder/got" 2> "$folder/report"
    status=$?
    "${reference[@]}" demo "$number" > "$folder/wanted" 2> "$folder/reference"
    if [ $status != 0 ] || [ -s "$folder/report" ] || ! cmp -s "$folder/got" "$folder/wanted"; then
        echo "demo $number: status $status: $(cat "$folder/got" "$folder/report")"
        echo "    wanted: $(cat "$folder/wanted" "$folder/reference")"
        bad=1
    fi
    count=$((count + 1))
done
echo "$count lines of demo compared"
exit $bad
