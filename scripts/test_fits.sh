#!/usr/bin/env bash
# usage: test_fits.sh PROGRAM
# `fits` over files of known kinds: it must name each instruction outside the subset, also where objdump gives it a name that the subset has,
# and say what stands against a file that is no original. Prints each failure, and last 'N passed, M failed'.
set -u
[ $# = 1 ] || { sed -n 2,2p "$0" >&2; exit 2; }
here=$(cd "$(dirname "$0")" && pwd)
. "$here/lib.sh"
enter_folder "$1"
export BINREC=${tool[0]}

# NAME STATUS PATTERN FILE: `fits` ends with the status, and a line of it matches.
case_of() {
    "$here/fits" "$4" > got.out 2> got.err
    judge "$1" "$2" "$3" $? got.out
}

exit_code='b801000000 bb00000000 cd80'
# NAME CODE PATTERN: an executable without sections, with one instruction outside.
outside() {
    executable E "$2 $exit_code"
    case_of "$1" 1 '^1 of [45] instructions of a linear reading are outside' E
    case_of "$1, its line" 1 "$3" E
}

case_of 'no file' 2 '^refused: there is no file absent$' absent
echo 'int main' > text
case_of 'a text' 2 '^refused: text: .*it is a text' text
: > empty
case_of 'an empty file' 2 '^refused: empty: .*fewer than 52 bytes' empty
case_of 'a folder' 2 '^refused: \. is a folder$' .
case_of 'a 64-bit file' 2 'it is a 64-bit file' /bin/sh
executable plain "$exit_code"
case_of 'an executable without sections' 0 '^none of its 3 instructions is outside' plain
outside 'without sections, UD2' 0f0b '^ +1 ud2 +as 0f0b'
outside 'a segment register: mov %gs:0x14,%eax' 65a114000000 '^ +1 mov \(gs\)'
outside 'push %es' 06 '^ +1 push +as 06'
outside 'int $0x21' cd21 '^ +1 int +as cd21'
outside 'address size 67' 678b07 '^ +1 mov \(16-bit address\)'
outside 'opcode 82' 82c001 '^ +1 add .*as 82c001'
outside 'call *%gs:' 65ff1500800408 '^ +1 call \(gs\)'
outside '8-bit MUL' f6e1 '^ +1 mul \(8 bits\)'
outside 'SHRD' 0fadd0 '^ +1 shrd'
outside 'CBW' 6698 '^ +1 cbw'
outside 'CLC, which has no operand' f8 '^ +1 clc +as f8 clc$'
outside '8-bit DIV of memory' f631 '^ +1 div \(8 bits\)'
outside 'BSWAP' 0fc8 '^ +1 bswap +as'
outside 'a vector instruction by VEX, whose length is known' c5f96ec0 '^ +1 vmovd +as c5f96ec0'
outside 'lock' f0ff00 '^ +1 inc \(lock\)'
executable twice "0f0b 0f0b $exit_code"
case_of 'two of a kind' 1 '^ +2 ud2' twice
case_of 'where they are' 1 '^ +at 08048054$' twice
# NAME STATUS CODE PATTERN: an executable whose calls are told so.
calls() {
    executable calling "$3"
    case_of "$1" "$2" "$4" calling
}
calls 'a call that the machine answers' 0 "$exit_code" '^ +1 exit \(1\)$'
calls 'a call that it does not answer' 1 "b805000000 31c9 cd80 $exit_code" '^ +1 open \(5\) +the machine answers -38$'
calls 'where that call is' 1 "b805000000 31c9 cd80 $exit_code" '^ +at 0804805b$'
calls 'a number that is pushed' 1 "6a0e 58 cd80 $exit_code" '^ +1 mknod \(14\)'
calls 'a number that is counted' 0 '31c0 40 cd80' '^ +1 exit \(1\)$'
calls 'a number in AL' 1 "31c0 b00b cd80 $exit_code" '^ +1 execve \(11\)'
calls 'a number that is not told' 0 "89d8 cd80 $exit_code" '^ +1 of a number that the instructions before it do not tell$'
calls 'a call behind a call' 0 "$exit_code cd80" '^ +1 of a number'
calls 'a number without a call' 1 "b8deffff7f cd80" '^ +1 no call \(2147483614\) +the machine answers -38$'
# The table by the header of this machine's kernel, where it is there.
header=$(find /usr/include -name unistd_32.h 2> /dev/null | head -n 1)
if [ -z "$header" ]; then
    skip 'the names of system calls: no unistd_32.h'
elif PYTHONPATH=$here python3 -c 'if True:
    import re, sys, system_calls as s
    wanted = {int(n): name for name, n in re.findall(r"#define __NR_(\w+) (\d+)", open(sys.argv[1]).read())}
    have = {n: name for n, name in enumerate(s.NAMES) if name != "-"}
    other = [n for n in wanted if n in have and have[n] != wanted[n]]
    sys.exit(bool(other) or len(wanted.keys() & have.keys()) < 400)' "$header"; then
    pass
else
    fail "the names of system calls are not those of $header"
fi

# Fifteen megabytes of code, those of a real program again and again, of which seconds are asked; and a word of progress on a terminal alone.
python3 - "$here/../programs/bin/hash" plain large << 'END'
import struct, sys
code = open(sys.argv[1], "rb").read()[116:2000]
data = bytearray(open(sys.argv[2], "rb").read())
data += code * (15 * 2 ** 20 // len(code))
struct.pack_into("<II", data, 68, len(data), len(data))
open(sys.argv[3], "wb").write(data)
END
begun=$SECONDS
case_of 'fifteen megabytes of code' 1 '^[0-9]+ of [0-9]{7} instructions' large
if [ -s got.err ]; then fail "progress where there is no terminal: $(cat got.err)"; else pass; fi
if [ $((SECONDS - begun)) -le 60 ]; then pass; else fail "fifteen megabytes took $((SECONDS - begun)) s"; fi
if command -v script > /dev/null; then
    script -qec "$here/fits large" /dev/null < /dev/null > got.out 2>&1
    if grep -q 'fits: [0-9]* of 14 MB' got.out; then pass; else fail "no progress on a terminal: $(head -c 300 got.out)"; fi
else
    skip 'progress on a terminal: no script'
fi
executable high "$exit_code" 0x07000000
case_of 'a file that is refused' 2 '^refused: high: a segment begins too low' high
"$BINREC" build N plain 2> /dev/null
case_of 'a file that BinRec wrote' 2 'it is a file that BinRec wrote' N
for binary in "$here"/../programs/bin/*; do
    # stops has one ud2 on purpose
    case $(basename "$binary") in
        stops) case_of stops 1 '^ +1 ud2' "$binary" ;;
        *) case_of "$(basename "$binary")" 0 '^none of its [0-9]+ instructions' "$binary" ;;
    esac
done
finish
