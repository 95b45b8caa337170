#!/usr/bin/env bash
# usage: test_info.sh PROGRAM
# `info` over originals, written files, traces and files that are none of these, and the originals that it takes out of written files: each is built
# again, and gives the same written file. Prints each failure, and last 'N passed, M failed'.
set -u
[ $# = 1 ] || { sed -n 2,2p "$0" >&2; exit 2; }
here=$(cd "$(dirname "$0")" && pwd)
. "$here/lib.sh"
enter_folder "$1"
export BINREC=${tool[0]}

# NAME STATUS PATTERN WORD..: `br info` ends with the status, and a line of what it says matches.
case_of() {
    local name=$1 wanted=$2 pattern=$3
    shift 3
    "$here/br" info "$@" > got.out 2>&1
    judge "$name" "$wanted" "$pattern" $? got.out
}
digest() { sha256sum "$1" | cut -d ' ' -f 1; }

# E TRACE..: the original that is taken out of the written file gives that file again, and a front of E.
comes_back() {
    local original=$1 name
    name="$(basename "$1") of $(($# - 1)) traces"
    shift
    "$BINREC" build N "$original" "$@" 2> /dev/null || fail "$name: build"
    case_of "$name: what it is made of" 0 "^  made of $original\$" "$original" N
    "$here/info" --original N > O 2> got.err || fail "$name: $(cat got.err)"
    cmp -s -n "$(stat -c %s O)" O "$original" || fail "$name: no front of the original"
    "$BINREC" build again O 2> /dev/null
    "$BINREC" build plain "$original" 2> /dev/null
    if cmp -s again plain; then pass; else fail "$name: taken out, it gives another file"; fi
    case_of "$name: its digest" 0 "SHA-256 $(digest O)\$" N
}

exit_code='b801000000 bb00000000 cd80'
executable E "$exit_code"
"$BINREC" trace T E < /dev/null 2> /dev/null
comes_back E
comes_back E T
if cmp -s O E; then pass; else fail 'a file that is all segment comes back whole'; fi
case_of 'an original' 0 '^E: an original$' E
case_of 'its segment' 0 '^  segment 08048000 to 08048060 r-x, 96 bytes, 96 bytes in the file$' E
case_of 'its digest' 0 "^  SHA-256 $(digest E)\$" E
case_of 'a written file without recovered code' 0 '^  recovered code: none' again
case_of 'a written file with it' 0 '^  recovered code: [0-9]{3,} bytes$' N
case_of 'a written file alone' 0 'made of none of the executables' N
case_of 'a trace' 0 '^  version 1, 1 pair$' T
case_of 'whose trace it is' 0 '^  of E$' T E
case_of 'a trace alone' 0 "^  SHA-256 of its executable $(digest E)\$" T
for binary in "$here"/../programs/bin/*; do
    "$BINREC" trace --steps 100000 T1 "$binary" < /dev/null > /dev/null 2>&1
    comes_back "$binary" T1
    comes_back "$binary"
done

# Segments without the headers, as some assemblers lay files out: 0 bytes before the code are in no segment.
python3 - << 'END'
import struct
code = bytes.fromhex("90b801000000bb00000000cd80")
head = b"\x7fELF\1\1\1".ljust(16, b"\0") + struct.pack("<HHIIIIIHHHHHH", 2, 3, 1, 0x08048055, 52, 0, 0, 52, 32, 1, 0, 0, 0)
open("bare", "wb").write(head + struct.pack("<8I", 1, 84, 0x08048054, 0x08048054, len(code), len(code), 5, 4096) + code)
END
"$BINREC" trace TB bare < /dev/null 2> /dev/null
"$BINREC" build N bare 2> /dev/null
"$here/info" --original N > O 2> got.err
"$BINREC" build again O 2> /dev/null
if cmp -s again N; then pass; else fail 'segments without headers, without traces: taken out, they give another file'; fi
"$BINREC" build N bare TB 2> /dev/null
case_of 'an entry that is not told' 0 "entry is not told" N
case_of 'and is not taken out' 1 'N does not tell its original.s entry' --original N

# Files that are none of the three.
echo text > text
case_of 'a text' 1 '^text: none of' text
case_of 'why' 1 '^  text: the file has fewer than 52 bytes, so it is no executable: it is a text' text
case_of 'no file' 1 '^  there is no file absent$' absent
case_of 'a folder' 1 '^  \. is a folder$' .
case_of 'the original of an original' 1 'E is no file that BinRec wrote' --original E
case_of 'a file that is no original' 1 'it is a 64-bit file' /bin/sh
trace_of() { { head -c 40 T; bytes "$1"; } > wrong; }
trace_of '02000000 00000000 54800408'
case_of 'a trace that is cut off' 1 'the trace is cut off \(number 23, at 52\)' wrong
trace_of '02000000 00000000 54800408 00000000 54800408'
case_of 'a pair twice' 1 '\(number 24, at 52\)' wrong
trace_of '01000000 00000000 54800408 00'
case_of 'bytes behind' 1 '\(number 25, at 52\)' wrong
trace_of '81841e00'
case_of 'too many pairs' 1 '\(number 26, at 40\)' wrong
printf 'BRTRACE9' > wrong
case_of 'another version' 1 '\(number 21, at 7\)' wrong
# The numbers and places are those of the program.
for pairs in '02000000 00000000 54800408' '02000000 00000000 54800408 00000000 54800408' '01000000 00000000 54800408 00' '81841e00'; do
    trace_of "$pairs"
    read -r _ _ _ number place <<< "$("$BINREC" show E wrong 2>&1)"
    case_of "as the program, $number" 1 "\\(number $number, at $place\\)" wrong
done
case_of 'no words' 2 '^usage: info'
case_of 'two words behind --original' 2 '^usage: info' --original N N
case_of 'help' 0 '^usage: info FILE' --help
finish
