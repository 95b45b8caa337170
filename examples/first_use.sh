#!/usr/bin/env bash
# usage: first_use.sh [PROGRAM]
# The walk-through of docs/USING.md, 'A first use': from a C file to a recompiled file, in a folder of its own. Each command is printed, run and
# checked. Without a PROGRAM it takes what scripts/br takes. Status 0 where all is as it should be, 1 where something is not, 3 where a tool is missing.
set -u
here=$(cd "$(dirname "$0")" && pwd)
top=$(dirname "$here")
. "$top/scripts/lib.sh"
[ $# = 0 ] || BINREC=$(realpath "$1")
export BINREC=${BINREC-} PATH=$top/scripts:$PATH
for tool in gcc nm objdump python3; do
    command -v "$tool" > /dev/null || { echo "first_use.sh: no $tool" >&2; exit 3; }
done
folder=$(mktemp -d) && cp "$here"/*.c "$here"/*.txt "$here"/*.asm "$folder" && cd "$folder" || exit 3
trap 'rm -rf "$folder"' EXIT
find_native "$top/programs/bin/hash"
[ "$native_kind" = processor ] || skip 'what the machine runs by itself: it runs no 32-bit executable'
records=yes
command -v qemu-i386 > /dev/null || { skip 'record: no qemu-i386'; records=no; }
told=()

# COMMAND PATTERN..: the command ends with status 0, and each pattern matches a whole line of what it writes.
does() {
    local command=$1 pattern status
    shift
    told+=("$command")
    printf '$ %s\n' "$command"
    # A file of this machine's own needs a machine that runs it.
    if [[ $command == ./* && $native_kind != processor ]]; then return; fi
    if [[ $command == *R2* && $records = no ]]; then return; fi
    eval "$command" > "$folder/.said" 2>&1 < /dev/null
    status=$?
    cat "$folder/.said"
    [ "$status" = 0 ] || fail "$command: status $status"
    for pattern; do
        if grep -Exq -- "$pattern" "$folder/.said"; then pass; else fail "$command: no line '$pattern'"; fi
    done
}

number='[0-9]+'
does 'cc32 -o count count.c' 'accepted: count is an original, .*' "none of its $number instructions is outside the subset"
does 'br run count < one.txt' '2 12 75' "exit 0 steps $number undefined 0"
does 'br trace T1 count < one.txt' '2 12 75' "exit 0 steps $number undefined 0 edges $number"
does 'br trace T2 count o < two.txt' 1 "exit 0 steps $number undefined 0 edges $number"
does 'br record R2 count o < two.txt' 1 "recorded $number exit 0"
does 'cmp R2 T2'
does 'br merge T count T1 T2' "merged $number"
does 'br show count T | head -n 4' 'block 080[0-9a-f]{5}'
does 'coverage count T | tail -n 1' "seen $number of $number instructions \\([0-9.]+ percent\\), $number blocks, $number ways to the original"
does 'br build N0 count' "built 0 5 $number"
does 'chmod +x N0'
does './N0 < one.txt' '2 12 75'
does 'br build N count T' "built $number $number $number"
does 'br run N < two.txt' '0 6 23' "exit 0 steps $number undefined $number"
does 'br info count T N' 'count: an original' '  SHA-256 [0-9a-f]{64}' "  version 1, $number pairs" '  of count' 'N: a file that BinRec wrote' '  made of count'
does 'chmod +x N'
does './N < two.txt' '0 6 23'
does './N o < one.txt' 6
does 'br where N 01000100 count T' '01000100: byte [0-9]+ of [0-9]+ in the code of this block:' 'block 080[0-9a-f]{5} \(.*\)'
does 'cc32 -o greet greet.c' "none of its $number instructions is outside the subset"
does 'echo Ada | br run greet "Who is there"' 'Who is there\? Hello, Ada.' "exit 0 steps $number undefined 0"
does 'coverage --functions --html count.html count T1' "function 080[0-9a-f]{5} print_number: seen $number, not seen $number, .*" "seen $number of $number instructions .*"
does "printf 'add T1\nemit N\nadd T2\nemit N\nremove 1\nemit N2\n' | br session count" 'added 1' "emitted $number $number $number made $number" 'added 2' 'removed 1' 'lines 6'
does 'br asm hi hi.asm' 'assembled 133'
does 'br run hi' hi 'exit 0 steps 15 undefined 0'
does 'br asm X1 x1.asm' 'assembled 121'
does 'br trace TX X1' hi 'exit 0 steps 8 undefined 0 edges 1'
does 'br build NX X1 TX' "built 5 $number 8313"
if cmp -s X1 "$top/crates/binrec/data/X1"; then pass; else fail 'x1.asm gives another file than crates/binrec/data/X1'; fi
does 'br demo 1' "demo 1 file 137 blocks 7 code $number image $number out 588139be 588139be steps 15 $number"

# The page has these commands and no other.
sed -n '/^## A first use/,/^## /s/^\$ //p' "$top/docs/USING.md" > "$folder/.page"
if printf '%s\n' "${told[@]}" | cmp -s - "$folder/.page"; then pass; else
    fail "docs/USING.md has other commands:"
    printf '%s\n' "${told[@]}" | diff "$folder/.page" -
fi
finish
