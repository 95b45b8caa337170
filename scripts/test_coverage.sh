#!/usr/bin/env bash
# usage: test_coverage.sh PROGRAM
# `coverage` and `graph` over a program whose covered instructions are known by hand. Prints each failure, and last 'N passed, M failed'.
set -u
[ $# = 1 ] || { sed -n 2,2p "$0" >&2; exit 2; }
here=$(cd "$(dirname "$0")" && pwd)
. "$here/lib.sh"
enter_folder "$1"
export BINREC=${tool[0]}

# By the number of words:
# 08048054 mov ebx,[esp]; 08048057 cmp ebx,1; 0804805a jz 08048061; 0804805c mov ebx,7; 08048061 mov eax,1; 08048066 int 80; 08048068 ret
executable E '8b1c24 83fb01 7405 bb07000000 b801000000 cd80 c3'
"$BINREC" trace T1 E < /dev/null 2> /dev/null
"$BINREC" trace T2 E one < /dev/null 2> /dev/null

# NAME STATUS WANTED WORD..: the script ends so, and prints these lines.
case_of() {
    local name=$1 wanted=$2 lines=$3
    shift 3
    "$@" > got.out 2> got.err
    local status=$?
    if [ "$status" != "$wanted" ]; then
        fail "$name: status $status, wanted $wanted: $(cat got.out got.err)"
    elif [ "$(cat got.out)" != "$lines" ]; then
        fail "$name: printed
$(cat got.out)"
    else
        pass
    fi
}

# Seen without words: mov, cmp, jz, then from 08048061 mov; int; and ret, where the block behind the call begins. The move of 7 is not.
one='block 08048054: to the original: 0804805c
block 08048068: to the original: anywhere
seen 6 of 7 instructions (85.7 percent), 4 blocks, 2 ways to the original'
case_of 'one trace' 0 "$one" "$here/coverage" E T1
case_of 'what was not seen' 0 "${one%seen*}unseen 0804805c to 0804805c: 1 instructions
seen${one##*seen}" "$here/coverage" --unseen E T1
# With a word the move of 7 and what stands behind it is one block, which ends before the call.
both='block 08048068: to the original: anywhere
seen 7 of 7 instructions (100.0 percent), 5 blocks, 1 ways to the original'
case_of 'both traces' 0 "$both" "$here/coverage" E T1 T2
case_of 'a share that is reached' 0 "$both" "$here/coverage" --at-least 100 E T1 T2
case_of 'a share that is not reached' 1 "$one" "$here/coverage" --at-least 90 E T1
# Without symbols all code is one function; the move of 7 is not seen, and a direct way leads to it. ret has a way that is not direct.
case_of 'by function, without symbols' 0 'function 08048054 no name: seen 6, not seen 1, direct without a trace 1: 0804805c, returns and indirect 1
seen 6 of 7 instructions (85.7 percent), 4 blocks, 2 ways to the original' "$here/coverage" --functions E T1
case_of 'by function, both traces' 0 'function 08048054 no name: seen 7, not seen 0, direct without a trace 0, returns and indirect 1
seen 7 of 7 instructions (100.0 percent), 5 blocks, 1 ways to the original' "$here/coverage" --functions E T1 T2

# With symbols: `both` is called, `never` is not, and of `both` one way is not taken.
if command -v gcc > /dev/null && command -v as > /dev/null; then
    cat > F.s << 'S'
.globl _start
.type _start, @function
_start: call both
        xorl %ebx, %ebx
        movl $1, %eax
        int $0x80
.type both, @function
both:   cmpl $1, 4(%esp)
        jz 1f
        incl %ecx
1:      ret
.type never, @function
never:  decl %ecx
        ret
S
    gcc -m32 -nostdlib -static -no-pie -Wl,-z,noseparate-code,--build-id=none -o F F.s 2> /dev/null
    "$BINREC" trace TF F < /dev/null 2> /dev/null
    address() { nm F | sed -n "s/ [tT] $1\$//p"; }
    untaken=$(printf %08x $((0x$(address both) + 7)))
    case_of 'by function' 0 "function $(address _start) _start: seen 4, not seen 0, direct without a trace 0, returns and indirect 0
function $(address both) both: seen 3, not seen 1, direct without a trace 1: $untaken, returns and indirect 1
function $(address never) never: seen 0, not seen 2, direct without a trace 0, returns and indirect 0
seen 7 of 10 instructions (70.0 percent), 5 blocks, 2 ways to the original" "$here/coverage" --functions F TF
    page_of=F page_trace=TF seen=7 unseen=3
else
    skip 'by function: no gcc'
    page_of=E page_trace=T1 seen=6 unseen=1
fi

# The page, as it is stored and as a browser has it.
spans() { grep -o "<span class=\"$1[a-z ]*\" id=" "$2" | wc -l; }
page() {
    if [ "$(spans seen "$1") $(spans unseen "$1") $(grep -c 'class="way">no trace to' "$1")" = "$seen $unseen 1" ]; then pass; else fail "$2: $(cat "$1")"; fi
}
"$here/coverage" --html page.html $page_of $page_trace > /dev/null
page page.html 'the page'
cp page.html before.html
"$here/coverage" --html page.html $page_of $page_trace > /dev/null
if cmp -s page.html before.html; then pass; else fail 'a page is replaced by another'; fi
case_of 'a file that is no page' 2 "$one" "$here/coverage" --html E E T1
case_of 'a page in no folder' 2 "$one" "$here/coverage" --html no/page.html E T1
browser=$(command -v chromium || command -v chromium-browser || command -v google-chrome)
if [ -z "$browser" ]; then
    skip 'the page in a browser: no chromium'
else
    timeout 120 "$browser" --headless --no-sandbox --disable-gpu --user-data-dir="$folder/browser" --dump-dom "file://$folder/page.html" > dom.html 2> /dev/null
    page dom.html 'the page in a browser'
    # What is seen has the colour of the style, which a script asks of the browser.
    sed 's|</body>|<script>document.title = getComputedStyle(document.querySelector("pre .seen")).backgroundColor + getComputedStyle(document.querySelector("pre .unseen")).backgroundColor</script></body>|' \
        page.html > asking.html
    timeout 120 "$browser" --headless --no-sandbox --disable-gpu --user-data-dir="$folder/browser" --dump-dom "file://$folder/asking.html" > dom.html 2> /dev/null
    if grep -q '<title>rgb(216, 243, 216)rgb(249, 220, 220)</title>' dom.html; then pass; else fail "the colours of the page: $(grep -o '<title>.*</title>' dom.html)"; fi
fi
case_of 'no trace' 2 '' "$here/coverage" E E
case_of 'the graph' 0 'digraph "E" {
  node [shape=box, fontname=monospace];
  "08048054" [label="08048054\l3 instructions\l", style=bold];
  "08048054 to 0804805c" [shape=plaintext, fontcolor=red, label="original\n0804805c"];
  "08048054" -> "08048054 to 0804805c" [style=dashed, color=red];
  "08048054" -> "08048061";
  "08048061" [label="08048061\l1 instruction\l"];
  "08048061" -> "08048066";
  "08048066" [label="08048066\l1 instruction\l"];
  "08048066" -> "08048068";
  "08048068" [label="08048068\l1 instruction\l"];
  "08048068 to anywhere" [shape=plaintext, fontcolor=red, label="original\nanywhere"];
  "08048068" -> "08048068 to anywhere" [style=dashed, color=red];
}' "$here/graph" E T1
"$here/graph" --instructions E T1 T2 > got.dot
if grep -q 'mov ebx, dword \[esp\]' got.dot; then pass; else fail "the graph with instructions: $(cat got.dot)"; fi
if ! command -v dot > /dev/null; then
    skip 'the graph read by Graphviz: no dot'
elif dot -Tsvg got.dot > got.svg && [ -s got.svg ]; then
    pass
else
    fail 'dot does not read the graph'
fi
finish
