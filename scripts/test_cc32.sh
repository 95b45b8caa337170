#!/usr/bin/env bash
# usage: test_cc32.sh PROGRAM
# `cc32` compiles for the subset, fails where there is no entry, and tells what is outside. Its flags are those that docs/USING.md names.
# Prints each failure, and last 'N passed, M failed'.
set -u
[ $# = 1 ] || { sed -n 2,2p "$0" >&2; exit 2; }
here=$(cd "$(dirname "$0")" && pwd)
. "$here/lib.sh"
enter_folder "$1"
export BINREC=${tool[0]}
command -v gcc > /dev/null || { fail 'no gcc'; finish; exit 1; }

# NAME STATUS PATTERN WORD..: cc32 ends with the status, and says a line that matches.
case_of() {
    local name=$1 wanted=$2 pattern=$3
    shift 3
    "$here/cc32" "$@" > got.out 2>&1
    judge "$name" "$wanted" "$pattern" $? got.out
}

cat > guest.c << 'C'
#include "guest.h"
int guest_main(int count, char **words) { put_text(words[count - 1]); put_byte('\n'); return count; }
C
case_of 'a program with guest_main' 0 '^none of its [0-9]+ instructions is outside' -o E guest.c
"$BINREC" run E one two > got.out 2> got.err < /dev/null
if [ "$(cat got.out)" = two ] && [[ $(cat got.err) =~ ^exit\ 3\ steps\ [0-9]+\ undefined\ 0$ ]]; then pass; else fail "the program runs: $(cat got.err)"; fi

cat > start.s << 'S'
.globl _start
_start: movl $1, %eax
        movl $7, %ebx
        int $0x80
S
case_of 'assembly with its own _start' 0 '^none of its 3 instructions is outside' -o A start.s
sed 's/_start/begin/' start.s > begin.s
case_of 'another entry, by a flag' 0 '^none of its 3 instructions is outside' -o B begin.s -Wl,-e,begin
case_of 'the entry that the flag names' 0 "^accepted: B is an original, with . segments and the entry $(nm B | sed -n 's/ T begin$//p')\$" -o B begin.s -Wl,-e,begin
case_of 'the same by --entry' 0 '^none of its 3' -o B begin.s -Wl,--entry=begin
case_of 'the same by -e' 0 '^none of its 3' -o B begin.s -e begin
case_of 'an entry that no source has' 2 'no source defines start or guest_main' -o B begin.s -Wl,-e,start
for flag in -c -S -E; do case_of "$flag" 2 "^cc32: $flag makes no executable, and cc32 links one; use .gcc" "$flag" guest.c; done
# A flag reaches the start file: with debug information it names its source, and a macro of the flag breaks it.
case_of 'debug information' 0 '^accepted' -o G guest.c -g
if objdump --dwarf=info G | grep -q 'guest\.c' && objdump --dwarf=info G | grep -q 'programs/src/guest.c'; then pass; else fail 'the start file has no debug information'; fi
case_of 'a macro for the start file' 2 'error' -o X guest.c '-Dwaiting=]'
# What the text of the refusal of -c says: an object by the flags, and cc32 links it.
"$here/cc32" --flags > flags
# shellcheck disable=SC2046
gcc $(cat flags) "-I$here/../programs/src" -c guest.c && case_of 'an object' 0 '^accepted' -o O guest.o
echo 'int main(void) { return 0; }' > main.c
case_of 'main alone' 2 'no source defines _start or guest_main' main.c
case_of 'a linker without an entry' 2 'the linker found no entry' -o X guest.c -Wl,-e,nowhere
case_of 'a source that is wrong' 2 'error' -o X no.c
echo 'long long s(long long a, int n) { return a >> n; } int guest_main(int c, char **w) { return (int)s((long long)w << 3, c); }' > wide.c
case_of 'a shift of long long' 1 '^ +[0-9]+ shrd' -o X wide.c -fno-inline -O2
echo 'double d; int guest_main(int c, char **w) { (void)w; d = c; return (int)(d * 2); }' > float.c
case_of 'a double' 2 'undefined reference' -o X float.c
case_of 'help' 0 '^usage: cc32' -h
case_of 'no words' 2 '^usage: cc32'
# The flags that the docs explain are these, and the Makefile of programs/ takes them from here.
for flag in $("$here/cc32" --flags | sed 's/-Wl,/-z /; s/,/ /g; s/-z //g; s/-z//g'); do
    if grep -q -- "${flag#-z}" "$here/../docs/USING.md"; then pass; else fail "docs/USING.md does not say what $flag is for"; fi
done
finish
