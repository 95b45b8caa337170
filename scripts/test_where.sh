#!/usr/bin/env bash
# usage: test_where.sh PROGRAM
# `where` over written files, whole and damaged: each fragment of real programs, whose copies of native instructions tell their block apart from what `where` reads; and
# the other places of a file. Prints each failure, and last 'N passed, M failed'.
set -u
[ $# = 1 ] || { sed -n 2,2p "$0" >&2; exit 2; }
here=$(cd "$(dirname "$0")" && pwd)
. "$here/lib.sh"
enter_folder "$1"
export BINREC=${tool[0]}

# NAME STATUS PATTERN WORD..: `br where` ends with the status, and says a line that matches.
case_of() {
    local name=$1 wanted=$2 pattern=$3
    shift 3
    "$here/br" where "$@" > got.out 2>&1
    judge "$name" "$wanted" "$pattern" $? got.out
}

# 08048054 mov ebx,[esp]; 08048057 cmp ebx,1; 0804805a jz 08048061; 0804805c mov ebx,7; 08048061 mov eax,1; 08048066 int 80
executable E '8b1c24 83fb01 7405 bb07000000 b801000000 cd80'
"$BINREC" trace T E < /dev/null 2> /dev/null
"$BINREC" trace T2 E one < /dev/null 2> /dev/null
"$BINREC" build N E T 2> /dev/null
case_of 'the code at the entry' 0 '^01000000: the code at the entry' N 01000000 E T
case_of 'the first block' 0 '^0100006a: byte 0 of [0-9]+ in the code of this block:$' N 0100006a E T
case_of 'its instructions' 0 '^  0804805a jz 0x08048061$' N 0x0100006a E T
case_of 'the original' 0 "^08048061: the original's own code, in the segment at 08048000" N 08048061 E T
case_of 'what stands there' 0 '^  08048061 mov +eax,0x1$' N 08048061 E T
case_of 'a slot' 0 "^07000004: slot 1 of the private segment: at a block's border the original's ecx" N 07000004 E T
case_of 'a slot of a register' 0 "original's esp is in ebp" N 07000010 E T
case_of 'nowhere' 1 '^0a000000: in none of its segments' N 0a000000 E T
case_of 'another trace' 2 'N is not what .build. writes' N 01000000 E T2
case_of 'both' 2 'N is not what .build. writes' N 01000000 E T T2
case_of 'the original in place of N' 2 'E is no file that BinRec wrote' E 01000000 E T
case_of 'no trace' 2 'N is not what' N 01000000 E
case_of 'a trace that is refused' 2 'build ended with status 2' N 01000000 E E
case_of 'too few words' 2 '^usage: where' N 01000000
"$BINREC" build N0 E 2> /dev/null
case_of 'a file without recovered code' 0 '^01000000: the code at the entry' N0 01000000 E

# An address has 1 to 8 digits; the first and the last byte of each segment, and the bytes beside them.
for word in 100006a 0100006a 0x100006a 0X0100006A; do
    case_of "the address $word" 0 '^0100006a: byte 0 of [0-9]+ in the code of this block:$' N "$word" E T
done
case_of 'one digit' 1 '^00000000: in none of its segments' N 0 E T
case_of 'the last address' 1 '^ffffffff: in none of its segments' N ffffffff E T
for word in start g '' 0x 123456789 0x123456789 000000001 -1 +1 1_0 ' 1' '1 ' 1.0 0x0x1 $'1\n' '٣'; do
    case_of "the address \`$word\`" 2 'is no address, which has 1 to 8 hexadecimal digits$' N "$word" E T
done
mapfile -t borders < <(PYTHONPATH=$here python3 -c 'import executables
for s in executables.segments(executables.read("N")):
    print("%x %x %x %x" % (s.start - 1, s.start, s.start + s.size - 1, s.start + s.size))')
[ "${#borders[@]}" = 3 ] || fail "N has ${#borders[@]} segments, and its E has one"
inside=('^01000000: the code at the entry|byte [0-9]+ of [0-9]+ in the code of this block:$' '^0700[0-9a-f]{4}: slot [0-9]+ of the private segment' "the original's own code, in the segment at 08048000")
for k in 0 1 2; do
    set -- ${borders[k]}
    case_of "before segment $k" 1 'in none of its segments' N "$1" E T
    case_of "the first byte of segment $k" 0 "${inside[k]}" N "$2" E T
    case_of "the last byte of segment $k" 0 "${inside[k]}" N "$3" E T
    case_of "behind segment $k" 1 'in none of its segments' N "$4" E T
done
set -- ${borders[0]}
"$here/br" where N "$3" E T > got.out
if [[ $(head -n 1 got.out) =~ byte\ ([0-9]+)\ of\ ([0-9]+) ]] && ((BASH_REMATCH[1] + 1 == BASH_REMATCH[2])); then pass; else fail "the last byte of the code: $(head -n 1 got.out)"; fi

# Files that are damaged or absent: a line for the user and status 2.
damaged() {
    case_of "$@"
    if grep -q Traceback got.out; then fail "$1: $(cat got.out)"; else pass; fi
}
cp N D
for length in 0 1 51 52 83 84 115 116 147 148 179 180 4095 4096 4097 8191 8192 "$(($(wc -c < N) - 1))"; do
    head -c "$length" N > D
    damaged "N cut at $length" 2 '^where: D is (no file that BinRec wrote|not what .build. writes)' D 01000000 E T
done
{ cat N; printf x; } > D
damaged 'a byte behind N' 2 '^where: D is not what .build. writes' D 01000000 E T
for at in 4 16 24 28 29 31 42 43 52 56 60 68 72 76 84 92 116 124 4096 8192; do
    { head -c "$at" N; printf '\377'; tail -c +$((at + 2)) N; } > D
    damaged "N with another byte at $at" 2 '^where: D is (no file that BinRec wrote|not what .build. writes)' D 01000000 E T
done
head -c 51 E > D
damaged 'a damaged original' 2 '^where: build ended with status 2$' N 01000000 D T
head -c 51 T > D
damaged 'a damaged trace' 2 '^where: build ended with status 2$' N 01000000 E D
damaged 'an absent file' 2 '^where: there is no file absent$' absent 01000000 E T
damaged 'an absent original' 2 '^where: build ended with status 3$' N 01000000 absent T
damaged 'an absent trace' 2 '^where: build ended with status 3$' N 01000000 E absent
damaged 'a folder' 2 '^where: \. is a folder$' . 01000000 E T
rm -f D

# An edge that no run took, from a jump that stands in no block, to a start that no block leads to: where that is, the code does not tell.
executable F 'b801000000 cd80 c3 eb00 90 c3'
"$BINREC" trace TF F < /dev/null 2> /dev/null
{ head -c 8 TF; bytes "$(sha256sum F | cut -c 1-64) 02000000 00000000 54800408 5c800408 5e800408"; } > false
"$BINREC" build N F false 2> built
case_of 'a block that nothing leads to' 1 'recovered code, whose block is not told' N 0100006a F false

# A division by 0 in recovered code: from the fault of N, by br and gdb, to the division of the original.
executable G '31c9 f7f1'
"$BINREC" trace TG G < /dev/null 2> /dev/null
"$BINREC" build NG G TG 2> /dev/null
if ! command -v gdb > /dev/null; then
    skip 'from a fault to its block: no gdb'
else
    "$here/br" --where run NG < /dev/null > got.out 2>&1
    at=$(sed -n 's/^br: `br where NG \([0-9a-f]*\) E T..` says which block of the original E this is$/\1/p' got.out)
    if [ -n "$at" ]; then
        case_of 'from a fault to its block' 0 '^  08048056 div ecx$' NG "$at" G TG
    elif grep -q 'gdb did not come to the fault' got.out; then
        skip 'from a fault to its block: gdb runs no 32-bit executable here'
    else
        fail "br does not say how to find the block: $(cat got.out)"
    fi
fi

# Real programs: every fragment has one block, in order; where the block is a native instruction, its bytes stand in the fragment, and where it is none, CD 80 does not.
for binary in "$here"/../programs/bin/*; do
    name=$(basename "$binary")
    "$BINREC" trace --steps 200000 T "$binary" < /dev/null > /dev/null 2>&1
    "$BINREC" build N "$binary" T 2> built || fail "$name: $(cat built)"
    if PYTHONPATH=$here python3 - "$binary" > got.out 2>&1 << 'END'; then pass; else fail "$name: $(cat got.out)"; fi
import importlib.machinery, importlib.util, os, subprocess, sys
import executables, listing, recompiled
loader = importlib.machinery.SourceFileLoader("where", os.path.join(os.environ["PYTHONPATH"], "where"))
where = importlib.util.module_from_spec(importlib.util.spec_from_loader("where", loader))
loader.exec_module(where)
code = recompiled.code(executables.read("N"))
blocks = listing.show("test", os.environ["BINREC"], sys.argv[1], ["T"])
pairs = where.fragments(code, blocks)
assert pairs is not None and len(pairs) == len(blocks), "no fragments"
assert [b.start for b, _ in pairs] == sorted(b.start for b in blocks)
ends = [start for _, start in pairs[1:]] + [len(code)]
native = 0
for (block, start), end in zip(pairs, ends):
    is_call = [text for _, text in block.instructions] == ["int 0x80"]
    native += is_call
    assert (code[start:end].count(b"\xcd\x80") == 1) == is_call, f"{block.start:08x} at {start:x}"
assert native > 0, "no system call was seen"
END
done
finish
