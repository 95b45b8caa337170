#!/usr/bin/env bash
# usage: test_record.sh PROGRAM
# `br record`: over the cases of programs/ its traces are those of `trace`, byte for byte; over two programs that `trace` cannot finish, files
# built with its traces do what the original does; no slip loses a file, and no run that disturbs its log gives a trace.
# Prints each failure, and last 'N passed, M failed'.
set -u
[ $# = 1 ] || { sed -n 2,2p "$0" >&2; exit 2; }
here=$(cd "$(dirname "$0")" && pwd)
. "$here/lib.sh"
programs=$here/../programs
enter_folder "$1"
export BINREC=${tool[0]}
br=$here/br

# NAME STATUS PATTERN WORD..: br ends with the status, and a line of its standard error matches.
told() {
    local name=$1 wanted=$2 pattern=$3
    shift 3
    "$br" "$@" > got.out 2> got.err < "${input:-/dev/null}"
    judge "$name" "$wanted" "$pattern" $? got.err
}

# NAME FILE FILE: the two have the same bytes.
same() { if cmp -s "$2" "$3"; then pass; else fail "$1: $2 and $3 differ"; fi; }

# ---- Where nothing is to be run ----

cp "$programs/bin/hash" E
# A PATH with python3 and what br needs, and no qemu.
mkdir few
for needed in dirname realpath; do ln -s "$(command -v $needed)" few/; done
ln -s "$(python3 -c 'import sys; print(sys.executable)')" few/python3
env PATH="$folder/few" /bin/sh "$br" record T E > got.out 2> got.err < /dev/null
judge 'no qemu' 9 '^br: no qemu-i386: install it' $? got.err
[ ! -e T ] || fail 'no qemu: a trace was stored'
told 'no executable' 1 '^br: record takes a trace to write and an executable$' record T
told 'help' 0 '' record --help
told 'a file that is not there' 3 '^br: there is no file absent$' record T absent
printf 'no executable' > text
chmod +x text
told 'no executable' 2 '^br: ' record T text
chmod -x E
told 'not to be executed' 2 'may not be executed' record T E
chmod +x E
cp text kept
told 'no trace' 8 '^br: kept is no trace, and would be replaced; nothing was done' record kept E
same 'no trace' text kept
cp E itself
told 'the executable itself' 8 '^br: itself is the executable itself' record itself itself
same 'the executable itself' E itself
told 'the executable itself, by force' 8 '^br: itself is the executable itself' --force record itself itself
if ! command -v qemu-i386 > /dev/null; then
    skip 'runs that are recorded: no qemu-i386'
    finish
    exit
fi
qemu=qemu-i386

# ---- The programs that `trace` can finish ----

# Pairs of a trace whose targets lie in the segments of programs, as lines.
pairs_in_code() { od -An -v -tx4 -w8 --endian=little -j44 "$1" | grep -E ' 080[0-9a-f]{5}$'; }

# Sets the words and input of a case.
load_case() {
    words=()
    [ ! -e "$programs/cases/$1/args" ] || mapfile -t words < "$programs/cases/$1/args"
    input=$programs/cases/$1/stdin
    [ -e "$input" ] || input=/dev/null
}

# One case: the trace of `record` is that of `trace`. Where the machine's stack decides what is executed, only the pairs in the code are.
check_case() {
    local case=$1 at=$programs/cases/$1
    load_case "$case"
    cp "$programs/bin/${case%%-*}" E
    rm -f T R
    "${tool[@]}" trace --steps 2000000000 T E "${words[@]}" < "$input" > /dev/null 2>&1
    "$br" record R E "${words[@]}" < "$input" > got.out 2> got.err
    judge "$case: record" 0 '(^|[^a-z])recorded [0-9]+ (exit [0-9]+|signal SIG[A-Z]+)$' $? got.err
    if [ -e "$at/guest-only" ]; then
        if [ "$(pairs_in_code R)" = "$(pairs_in_code T)" ]; then pass; else fail "$case: other pairs in the code"; fi
    else
        same "$case: the trace" T R
        if [ -e "$at/stdout" ]; then same "$case: output" "$at/stdout" got.out; fi
    fi
}
for case in $(ls "$programs/cases"); do check_case "$case"; done
input=/dev/null

# ---- Programs that it cannot ----

# The original and a file on the processor, or under qemu: the same output and status, WORD.. behind the name of the file.
agree() {
    local name=$1 file=$2
    shift 2
    run_natively "${native[@]}" ./E "$@"
    mv got.out want.out
    mv got.err want.err
    wanted=$status
    chmod +x "$file"
    run_natively "${native[@]}" "./$file" "$@"
    if [ "$status" = "$wanted" ]; then pass; else fail "$name: status $status, wanted $wanted"; fi
    same "$name: output" want.out got.out
    same "$name: standard error" want.err got.err
}

# How many blocks the listing of E with a trace has.
blocks() { "${tool[@]}" show E "$1" < /dev/null 2> /dev/null | grep -c '^block '; }

# PROGRAM: with traces M of the machine and R of real runs, R has more blocks, and N of R does what E does.
check_foreign() {
    local name=$1
    if (($(blocks R) > $(blocks M))); then pass; else fail "$name: $(blocks R) blocks of record, $(blocks M) of trace"; fi
    if "${tool[@]}" build N E R < /dev/null > got.out 2> got.err; then pass; else fail "$name: build: $(cat got.err)"; fi
}

find_native "$programs/bin/hash"
[ "$native_kind" = processor ] || skip "files on the processor: they are run by $native_kind"

cp "$programs/foreign/bin/cat" E
printf 'one\ntwo' > first
printf '\nthree\n' > second
seq 1 3000 > third
rm -f M R
"${tool[@]}" trace M E -n first second < /dev/null > /dev/null 2>&1
told 'cat: record' 0 '^recorded [0-9]+ exit 0$' record R E -n first second
same 'cat: its output' got.out <(cat first second | cat -n | sed 's/^ *//')
check_foreign cat
told 'cat: record of another run' 0 '^recorded [0-9]+ exit 1$' record --merge R E first absent
check_foreign 'cat, two runs'
for words in '-n first second' '-n third first' 'absent' 'first absent second' ''; do
    input=first
    # shellcheck disable=SC2086
    agree "cat $words" N $words
done
input=/dev/null

cp "$programs/foreign/bin/base64" E
head -c 5000 third | base64 > coded
rm -f M R
"${tool[@]}" trace M E -d < coded > got.out 2> got.err
judge 'base64: trace ends outside the subset' 5 '^fault illegal ' $? got.err
input=coded told 'base64: record' 0 '(^|[^a-z])recorded [0-9]+ exit 0$' record R E -d
same 'base64: its output' got.out <(head -c 5000 third)
check_foreign base64
input=third told 'base64: record of another way' 0 '^recorded [0-9]+ exit 0$' record --merge R E
same 'base64: its inverse' got.out <(base64 third)
check_foreign 'base64, two ways'
base64 third > whole
head -c 77 coded > part
printf 'TWFu!' > wrong
for words in '' '-d'; do
    for input in coded whole third part wrong first /dev/null; do
        # shellcheck disable=SC2086
        agree "base64 $words < $input" N $words
    done
done
input=/dev/null

# ---- What stands under the name ----

cp "$programs/bin/hash" E
rm -f T
told 'a first run' 0 '^recorded [0-9]+ exit 0$' record T E
cp T one
told 'a trace of the same' 8 '^br: T is a trace of E, and would be replaced; nothing was done' record T E
same 'a trace of the same' one T
input=first told 'a trace of the same, replaced' 0 '^recorded [0-9]+ exit 0$' record --replace T E
if cmp -s one T; then fail 'a trace of the same was not replaced'; else pass; fi
cp T two
told 'joined' 0 '^recorded [0-9]+ exit 0$' record --merge T E
"${tool[@]}" merge both E one two < /dev/null 2> /dev/null
same 'joined' both T
told 'joined to nothing' 0 '^recorded [0-9]+ exit 0$' record --merge new E
same 'joined to nothing' one new
cp "$programs/bin/sort" S
told 'a trace of another' 8 '^br: T is a trace of another executable' record --replace T S
same 'a trace of another' both T
head -c 60 both > cut
cp cut cut.kept
told 'a trace that was cut off' 2 '^br: ' record --merge cut E
same 'a trace that was cut off' cut cut.kept
told 'by force' 0 '^recorded ' --force record text E
same 'by force' one text
told 'a folder that takes no file' 3 '^br: /proc/T cannot be stored' record /proc/T E
[ ! -s got.out ] || fail 'a folder that takes no file: E was run'
told 'a folder that is not there' 3 'cannot be stored' record no/T E
told 'a folder' 3 '^br: few is a folder' record few E
if ls | grep part- > got.out; then fail "parts were left: $(cat got.out)"; else pass; fi

# ---- Runs that end otherwise ----

# A program of a code, which writes and stops; the bytes come from as.
# mov eax, 4; mov ebx, DESCRIPTOR; mov ecx, 08048000; mov edx, 3; int 80; mov eax, 1; mov ebx, 7; int 80
end='b801000000 bb07000000 cd80'
executable W "b804000000 bb03000000 b900800408 ba03000000 cd80 $end"
chmod +x W
rm -f T
told 'a write into the log' 10 '^br: E used a descriptor of the log of its run \(write\)' record T W
[ ! -e T ] || fail 'a write into the log: a trace was stored'
executable W "b806000000 bb03000000 cd80 $end"
chmod +x W
told 'the log is closed' 10 '^br: E used a descriptor of the log of its run \(close\)' record T W
executable W "b83f000000 bb01000000 b903000000 cd80 $end"
chmod +x W
told 'the log is covered' 10 '^br: E used a descriptor of the log of its run \(dup2\)' record T W
executable W "$end"
chmod +x W
told 'its own status' 0 '^recorded 1 exit 7$' record T W
same 'its own status: the pair of the entry' <(bytes "4252545241434531 $(sha256sum W | cut -c1-64) 01000000 00000000 54800408") T
rm -f T
# An endless loop, ended by a signal: jmp to itself.
executable W 'ebfe'
chmod +x W
for sent in TERM INT HUP; do
    rm -f T
    # What a shell starts in the background does not hear SIGINT.
    timeout 60 python3 -c 'import os, signal, sys; signal.signal(signal.SIGINT, signal.SIG_DFL); os.execv(sys.argv[1], sys.argv[1:])' \
        "$br" record T W > got.out 2> got.err < /dev/null &
    for ((k = 0; k < 200; k++)); do
        front=$(pgrep -P $! | head -n 1)
        child=$([ -z "$front" ] || pgrep -P "$front" -f "$qemu" | head -n 1)
        [ -z "$child" ] || break
        sleep 0.05
    done
    sleep 0.5
    kill "-$sent" "$front"
    wait $!
    judge "SIG$sent" 0 "recorded 2 signal SIG$sent" $? got.err
    same "SIG$sent: the loop is there" <(bytes "4252545241434531 $(sha256sum W | cut -c1-64) 02000000 00000000 54800408 54800408 54800408") T
    [ -z "$child" ] || ! kill -0 "$child" 2> /dev/null || fail "SIG$sent: the run goes on"
done
# A handler of SIGALRM, which exits with 3, comes in `jmp eax` to itself: it is not where that jump goes.
executable W 'b8ae000000 bb0e000000 b98b800408 31d2 be08000000 cd80 b81b000000 bb01000000 cd80 b87d800408 ffe0
    b801000000 bb03000000 cd80 7f800408 00000000 00000000 00000000 00000000'
chmod +x W
rm -f T
told 'a handler of a signal' 0 '^br: W: it asks for handlers of signals \(rt_sigaction\)' record T W
judge 'a handler of a signal: its end' 0 '^recorded 2 exit 3$' 0 got.err
pairs() { od -An -v -tx4 -w8 --endian=little -j44 "$1"; }
if [ "$(pairs T)" = ' 00000000 08048054
 0804807d 0804807d' ]; then pass; else fail "a handler of a signal: $(pairs T)"; fi
# A thread, by clone, that loops, calls and ends while the first one loops: each has its own pairs.
executable W 'b878000000 bb000f0500 8d8c2400c0ffff cd80 85c0 7411 b9400d0300 49 75fd b8fc000000 31db cd80
    b9e8030000 49 75fd e809000000 b801000000 31db cd80 c3'
chmod +x W
rm -f T
told 'a thread' 0 '^br: W: it makes threads, or processes in the same memory' record T W
judge 'a thread: its end' 0 '^recorded 9 exit 0$' 0 got.err
if pairs T | grep -q '08048092 08048089'; then pass; else fail "a thread: $(pairs T)"; fi
# fork: mov eax, 2; int 80.
executable W "b802000000 cd80 $end"
chmod +x W
rm -f T
told 'processes' 0 '^br: W: it makes processes' record T W

# ---- Limits, and parts of the way that fail ----

# The same with a limit of 3 pairs: E runs to its end, and nothing is stored.
cp "$programs/bin/hash" E
rm -f T
PYTHONPATH=$here python3 -c 'import sys, recording; recording.MOST = 3; sys.exit(recording.main(sys.argv[1:]))' T E < first > got.out 2> got.err
judge 'too many pairs' 7 '^br: the run has more than 3 pairs' $? got.err
same 'too many pairs: the output' got.out <(./E < first 2> /dev/null || $qemu ./E < first)
[ ! -e T ] || fail 'too many pairs: a trace was stored'
# A `merge` that fails leaves the trace as it was, and the pairs of the run beside it.
cp one T
printf '#!/bin/sh\n[ "$1" != merge ] || { echo "limit union 2000000" >&2; exit 7; }\nexec %s "$@"\n' "$BINREC" > failing
chmod +x failing
BINREC=$folder/failing input=first told 'a merge that fails' 7 '^br: the pairs of this run alone are in .*/T.part-[0-9]+$' record --merge T E
same 'a merge that fails' one T
same 'a merge that fails: the pairs of the run' two "$(ls T.part-*)"
# A log that is none, and an emulator that is none.
mkdir other
printf '#!/bin/sh\necho no emulator\n' > other/qemu-i386
chmod +x other/qemu-i386
rm -f T
PATH=$folder/other:$PATH told 'nothing is logged' 9 'logged nothing; no trace was stored$' record T E
[ ! -e T ] || fail 'nothing is logged: a trace was stored'
# Standard error that takes nothing: the trace is stored, and the status tells that the report is lost.
"$br" record T E > got.out 2> /dev/full < /dev/null
judge 'no report' 3 '' $? /dev/null
same 'no report' one T
# No room for the trace: told, and nothing is left.
(ulimit -f 0; "$br" record no-room E 2>&1 < /dev/null; echo "status $?") | cat > got.out
judge 'no room' 0 'cannot be stored: File too large$' 0 got.out
judge 'no room: the status' 0 '^status 3$' 0 got.out
[ -z "$(ls | grep no-room)" ] || fail "no room: $(ls | grep no-room) was left"

# ---- The decoder of transfers ----

if "$here/check_transfers.py" --seed "$(date +%Y%m%d)" "${tool[0]}" > got.out; then pass; else fail "transfers: $(cat got.out)"; fi
finish
