#!/usr/bin/env bash
# usage: check_rows.sh PROGRAM [WORD..]
# Runs the recompiler PROGRAM (the WORDs stand before its own words) on small stated files, real ones in a folder of its own, and
# compares status, output, report and stored bytes with what is stated here. Where the machine runs 32-bit executables, the
# original and its recompiled file also run on the processor. What is built stands in built.sh: a command of it that is missing fails. Prints each failure, and last 'N passed, M failed'.
set -u
[ $# -gt 0 ] || { sed -n 2,2p "$0" >&2; exit 2; }
here=$(cd "$(dirname "$0")" && pwd)
. "$here/lib.sh"
enter_folder "$@"
input=/dev/null

# The recompiler with the words after NAME STATUS OUTPUT REPORT must end with that status and those two texts.
row() {
    local name=$1 status=$2 output=$3 report=$4
    shift 4
    "${tool[@]}" "$@" < "$input" > got.out 2> got.err
    local found=$?
    if [ "$found" != "$status" ]; then
        fail "$name: status $found, wanted $status: $(tail -n 1 got.err)"
    elif ! printf '%b' "$output" | cmp -s - got.out; then
        fail "$name: output $(head -c 200 got.out), wanted $output"
    elif ! printf '%b' "$report" | cmp -s - got.err; then
        fail "$name: report $(head -c 200 got.err), wanted $report"
    else
        pass
    fi
}

# A row that must store nothing under the name N, and leave what stands there.
row_keeping() {
    printf 'as before' > N
    row "$@"
    if [ "$(cat N)" = 'as before' ]; then pass; else fail "$1: the file N was changed"; fi
    rm -f N
}

# Whether the bytes of FILE from OFFSET are those of the other file.
holds_at() {
    if tail -c +$(($3 + 1)) "$2" | head -c "$(wc -c < "$4")" | cmp -s - "$4"; then pass; else fail "$1"; fi
}

# Writes hi and LF to descriptor 1, and exits with 0; the text stands at the end of the code.
hi_code() {
    echo "b804000000 bb01000000 b9$(word $(($1 + 118))) ba03000000 cd80 b801000000 bb00000000 cd80 68690a"
}
exit_code='b801000000 bb00000000 cd80'

build_rows() {
    row 'build without traces' 0 '' 'built 0 5 8313\n' build N X1
    bytes 'e94f800407' > jump
    holds_at 'the recovered code is a jump to the entry of the original' N 4096 jump
    holds_at 'the segment of the original is unchanged' N 8192 X1
    if [ "$(wc -c < N)" = 8313 ]; then pass; else fail 'the recompiled file has 8313 bytes'; fi
    cp N N1
    cp -- X1 -dash
    row 'names that begin with a dash' 0 '' 'built 0 5 8313\n' build -N -dash
    if cmp -s N1 -- -N; then pass; else fail 'a name that begins with a dash: another file'; fi
    row 'over the original' 0 '' 'built 0 5 8313\n' build -dash -dash
    if cmp -s N1 -- -dash; then pass; else fail 'the file that is read is the file that is written: another file'; fi
}

# The demonstration: it calls the output alone.
demo_rows() {
    local number
    for number in 1 1 000000000000000001; do
        row_keeping 'demo with one function' 0 "$demo_1\\n" '' demo "$number"
    done
    row 'demo with two functions' 0 "$demo_2\\n" '' demo 2
    row 'demo with seven functions' 0 "$demo_7\\n" '' demo 7
    row 'demo with a thousand functions' 0 "$demo_1000\\n" '' demo 1000
    for number in 0 1001 x +1 '' 0000000000000000001; do
        row "demo $number" 1 '' 'usage 1\n' demo "$number"
    done
    row 'demo without a number' 1 '' 'usage 1\n' demo
    row 'demo with a further word' 1 '' 'usage 2\n' demo 1 2
    if [ -w /dev/full ]; then
        "${tool[@]}" demo 1 > /dev/full 2> got.err
        if [ $? = 3 ] && [ "$(cat got.err)" = 'outside output' ]; then pass; else fail "demo on a full output: $(cat got.err)"; fi
    fi
}

# The first refusal of each file, with its place; nothing is stored.
# A source under the name S, whose text is given as by printf, is assembled: the report, and the last bytes of N.
asm_row() {
    local name="asm, $1" report=$3 ends=${4:-}
    printf "$2" > S
    rm -f N
    row "$name" 0 '' "$report\n" asm N S
    bytes "$ends" > end
    if tail -c "$(wc -c < end)" N | cmp -s - end; then pass; else fail "$name: the file ends otherwise"; fi
}

# A source of the text, given as by printf, is refused with the number and the line.
refused_source() {
    printf "$1" > S
    row_keeping "asm of \"$1\"" 2 '' "refused word 2 $2\n" asm N S
}

asm_rows() {
    local line
    asm_row 'a small program' '  mov eax, 0x00000004\n  mov ebx, 0x00000001\n  mov ecx, 0x08048076\n  mov edx, 0x00000003\n  int 0x80\n  mov eax, 0x00000001\n  mov ebx, 0x00000000\n  int 0x80\n  byte 68690a\n' 'assembled 121' '68690a'
    if cmp -s N X1; then pass; else fail 'asm, a small program: another file'; fi
    asm_row 'a jump to itself' 'a:\n  jmp a\n' 'assembled 89' 'e9fbffffff'
    asm_row 'a last line without an end' '  nop' 'assembled 85' '90'
    asm_row 'a jump forward' '  jo a\na:\n' 'assembled 90' '0f8000000000'
    asm_row 'a label that is a mnemonic of a source' 'byte:\n  jmp byte\n' 'assembled 89' 'e9fbffffff'
    for line in '  mov eax, 4' 'eax:' 'A:' '1a:' ':' 'a: ' '\tnop' '  nop ' '  nop\r' '  byte 6' '  byte 6A' '  byte 68 69' '  jmp 8048054' '  push 0x01' '  ret 0x0000' \
        '  mov eax, [eax]' '  lea eax, dword [eax]' '  inc dword [eax*3]' '  inc dword [esp*1]' '  mov  eax, 0x00000001' '  jmp al' "  byte $(printf '%0130d' 0)" "$(printf 'a%064d' 0):"; do
        refused_source "$line\n" '41 1'
    done
    asm_row '64 bytes' "  byte $(printf '%0128d' 0)\n" 'assembled 148' '00'
    asm_row 'a label of 64 characters' "$(printf 'a%063d' 0):\n  nop\n" 'assembled 85' '90'
    refused_source 'a:\na:\n' '42 2'
    refused_source 'a:\na:\n  foo\n' '42 2'
    refused_source '  jmp b\n  foo\n' '41 2'
    refused_source '  nop\n  nop\n  n\200p\n' '41 3'
    refused_source '  jmp b\n' '43 1'
    refused_source '  nop\n  jz b\n' '43 2'
    refused_source '' '44 0'
    refused_source '\n\n\n' '44 0'
    refused_source 'a:\n' '44 0'
    head -c 16777217 /dev/zero | tr '\0' '\n' > S
    row_keeping 'asm of a source that is too long' 7 '' 'limit file 16777216\n' asm N S
    head -c 16777216 S > S2
    row_keeping 'asm of 16777216 line feeds' 2 '' 'refused word 2 44 0\n' asm N S2
    yes '  nop' | head -n 2796202 > S
    row 'asm of many instructions' 0 '' 'assembled 2796286\n' asm N S
    { echo 'a:'; yes '  jo a' | head -n 2396744; } > S
    row 'asm of many jumps' 0 '' 'assembled 14380548\n' asm N S
    row 'asm without a source' 1 '' 'usage 2\n' asm N
    row 'asm with a word too many' 1 '' 'usage 3\n' asm N S S
    row 'asm of an empty name' 1 '' 'usage 2\n' asm N ''
    row_keeping 'asm of a source that is not there' 3 '' 'outside shelf\n' asm N nowhere
    rm -f N S S2
}

refusal_rows() {
    : > empty
    row_keeping 'an empty file' 2 '' 'refused word 2 1 0\n' build N empty
    head -c 51 X1 > short
    row_keeping '51 bytes' 2 '' 'refused word 2 1 51\n' build N short
    { printf '\0'; tail -c +2 X1; } > magic
    row_keeping 'a wrong first byte' 2 '' 'refused word 2 2 0\n' build N magic
    executable writable "$(hi_code 0x08048000)" 0x08048000 7
    row_keeping 'a segment to write and execute' 2 '' 'refused word 2 8 52\n' build N writable
    { head -c 44 writable; bytes 0200; tail -c +47 writable | head -c 38; bytes "$(word 3) $(printf '00%.0s' {1..28})"; tail -c +85 writable; } > interpreted
    row_keeping 'a PT_INTERP after it' 2 '' 'refused word 2 7 84\n' build N interpreted
    executable low "$(hi_code 0x07fff000)" 0x07fff000
    row_keeping 'a segment below the lowest address' 2 '' 'refused word 2 9 52\n' build N low
    { head -c 24 X1; bytes "$(word 0x08049000)"; tail -c +29 X1; } > outside
    row_keeping 'an entry outside' 2 '' 'refused word 2 11 24\n' build N outside
    { head -c 68 X1; bytes "$(word 122)"; tail -c +73 X1; } > past
    row_keeping 'a segment past the end of the file' 2 '' 'refused word 2 9 52\n' build N past
    truncate -s 16777217 long
    row_keeping 'a file over the limit' 7 '' 'limit file 16777216\n' build N long
    row_keeping 'an absent file' 3 '' 'outside shelf\n' build N absent
}

usage_rows() {
    row 'no words' 1 '' 'usage 0\n'
    row 'an unknown command' 1 '' 'usage 0\n' recompile N X1
    row 'a missing name' 1 '' 'usage 2\n' build N
    row_keeping 'an empty name' 1 '' 'usage 2\n' build N ''
    row 'a name of 4097 bytes' 1 '' 'usage 1\n' build "$(printf '%04097d' 0)" X1
}

outside_rows() {
    row 'a folder that is not there' 3 '' 'outside shelf\n' build nowhere/N X1
    [ -w /dev/full ] || { skip 'a full device: no /dev/full'; return; }
    "${tool[@]}" build N X1 2> /dev/full
    if [ $? = 3 ]; then pass; else fail 'a report that cannot be written: status 3 wanted'; fi
}

run_rows() {
    row 'run of the original' 0 'hi\n' 'exit 0 steps 8 undefined 0\n' run X1
    row 'run of the recompiled file' 0 'hi\n' 'exit 0 steps 9 undefined 0\n' run N1
    row 'run below the lowest address of an original' 0 'hi\n' 'exit 0 steps 8 undefined 0\n' run low
    row 'a budget of no steps' 6 '' 'budget steps 0 undefined 0\n' run --steps 0 X1
    row 'a budget that is just met' 0 'hi\n' 'exit 0 steps 8 undefined 0\n' run --steps 8 X1
    row 'a budget that is one too small' 6 'hi\n' 'budget steps 7 undefined 0\n' run --steps 7 X1
    executable illegal 'b801000000 0f0b'
    row 'bytes that spell nothing' 5 '' 'fault illegal 08048059 steps 2 undefined 0\n' run illegal
    row 'words that are wrong' 1 '' 'usage 2\n' run --steps x X1
    row 'a budget of 19 digits' 1 '' 'usage 2\n' run --steps 1234567890123456789 X1
    row 'no file' 1 '' 'usage 1\n' run
    row 'too many words' 1 '' 'usage 258\n' run X1 $(seq 257)
    row '256 words' 0 'hi\n' 'exit 0 steps 8 undefined 0\n' run X1 $(seq 256)
    row 'an absent guest' 3 '' 'outside shelf\n' run absent
}

# What needs the whole instruction table: division, flags, reading.
machine_rows() {
    executable turn 'ebfe'
    row 'a budget of 10 steps' 6 '' 'budget steps 10 undefined 0\n' run --steps 10 turn
    executable reading 'a100000000'
    row 'a read where nothing is' 5 '' 'fault access 00000000 steps 1 undefined 0\n' run reading
    executable writing 'a300800408'
    row 'a write to a segment without leave' 5 '' 'fault access 08048000 steps 1 undefined 0\n' run writing
    executable divide "b804000000 bb01000000 b97b800408 ba03000000 cd80 b801000000 ba00000000 b900000000 f7f1 68690a"
    row 'a division by zero' 5 'hi\n' 'fault divide 08048079 steps 9 undefined 0\n' run divide
    executable defined "21c0 7200 $exit_code"
    row 'a flag that AND defines' 0 '' 'exit 0 steps 5 undefined 0\n' run defined
    executable undefined "f7e0 7400 $exit_code"
    row 'a flag that MUL leaves undefined' 0 '' 'exit 0 steps 5 undefined 1\n' run undefined
    executable zero_count "b801000000 b920000000 83f801 d3e0 7405 bb07000000 $exit_code"
    row 'a shift by a count that is 0 modulo 32 keeps the flags' 0 '' 'exit 0 steps 8 undefined 0\n' run zero_count
    executable downwards "be02f0ffbf bf03f0ffbf b903000000 fd f3a4 89cb b801000000 cd80"
    row 'three repeated moves are three steps' 0 '' 'exit 0 steps 10 undefined 0\n' run downwards
    executable none "be02f0ffbf bf03f0ffbf b900000000 fd f3a4 89cb b801000000 cd80"
    row 'no repeated move is one step' 0 '' 'exit 0 steps 8 undefined 0\n' run none
    executable header 'b804000000 bb01000000 b900800408 ba04000000 cd80 b801000000 bb00000000 cd80'
    row 'a guest that writes its own header' 0 '\x7fELF' 'exit 0 steps 8 undefined 0\n' run header
    executable three 'b803000000 bb00000000 8d4c24f0 ba03000000 cd80 89c3 b801000000 cd80'
    printf 12345 > five
    { "${tool[@]}" run three > got.out 2> got.err; cat > got.left; } < five
    if [ "$(cat got.err)" = 'exit 3 steps 8 undefined 0' ] && [ "$(cat got.left)" = 45 ]; then pass; else
        fail "a read of three of five bytes: $(cat got.err), and '$(cat got.left)' is left, wanted 45"; fi
    input=/
    row 'an input that cannot be read' 3 '' 'outside input\n' run three
    input=/dev/null
    executable heap 'b82d000000 bb00000000 cd80 89c3 c1eb0c b801000000 cd80'
    row 'the break is at the next page' 0 '' 'exit 73 steps 7 undefined 0\n' run heap
    executable words '8b1c24 b801000000 cd80'
    row 'the number of arguments' 0 '' 'exit 3 steps 3 undefined 0\n' run words one ''
    "${tool[@]}" run X1 > /dev/full 2> got.err
    if [ $? = 3 ] && [ "$(cat got.err)" = 'outside output' ]; then pass; else fail "an output that cannot be written: $(cat got.err)"; fi
}

trace_rows() {
    row 'trace' 0 'hi\n' 'exit 0 steps 8 undefined 0 edges 1\n' trace T1 X1
    trace_file T0 X1 1 0 08048054
    if cmp -s T0 T1; then pass; else fail "the trace of a run without transfers: $(od -An -tx1 T1 | tr -d '\n')"; fi
    row 'a budget for a trace' 6 '' 'budget steps 10 undefined 0 edges 2\n' trace --steps 10 T9 turn
    trace_file T0 turn 2 0 08048054 08048054 08048054
    if cmp -s T0 T9; then pass; else fail 'a trace whose budget is met is stored'; fi
    row 'a fault in a traced run' 5 'hi\n' 'fault divide 08048079 steps 9 undefined 0 edges 1\n' trace T8 divide
    trace_file T0 divide 1 0 08048054
    if cmp -s T0 T8; then pass; else fail 'the trace of a run that faults is stored'; fi
    executable untaken "39c0 7500 $exit_code"
    row 'a jump that is not taken' 0 '' 'exit 0 steps 5 undefined 0 edges 2\n' trace T7 untaken
    trace_file T0 untaken 2 0 08048054 08048056 08048058
    if cmp -s T0 T7; then pass; else fail 'the edge of a jump that is not taken is recorded'; fi
    row_keeping 'a traced file below the lowest address' 2 '' 'refused word 2 9 52\n' trace N low
    row_keeping 'the same with a budget' 2 '' 'refused word 4 9 52\n' trace --steps 9 N low
    row_keeping 'a traced file over the limit' 7 '' 'limit file 16777216\n' trace N long
    row_keeping 'an absent original' 3 '' 'outside shelf\n' trace N absent
    row 'a trace into a folder that is not there' 3 'hi\n' 'outside shelf\n' trace nowhere/N X1
    row 'a trace without an original' 1 '' 'usage 2\n' trace T1
}

# A trace file: NAME ORIGINAL COUNT, and then hexadecimal numbers of 32 bits, two a pair.
trace_file() {
    local name=$1 original=$2 count=$3
    shift 3
    { printf BRTRACE1; bytes "$(sha256sum < "$original" | cut -c 1-64) $(word "$count") $(for number; do word $((16#$number)); done)"; } > "$name"
}

merge_rows() {
    row 'merge' 0 '' 'merged 1\n' merge T2 X1 T1 T1
    if cmp -s T1 T2; then pass; else fail 'a trace joined with itself is another file'; fi
    trace_file T3 X1 2 0 08048053 5 0
    trace_file T4 X1 2 0 08048054 5 1
    row 'merge of two' 0 '' 'merged 4\n' merge T2 X1 T3 T4
    trace_file T0 X1 4 0 08048053 0 08048054 5 0 5 1
    if cmp -s T0 T2; then pass; else fail 'two traces joined: another file'; fi
    row 'merge over one of its traces' 0 '' 'merged 4\n' merge T3 X1 T4 T3
    if cmp -s T0 T3; then pass; else fail 'the file that is read is the file that is written: another file'; fi
    row 'merge of none' 0 '' 'merged 0\n' merge T2 X1
    trace_file T0 X1 0
    if cmp -s T0 T2; then pass; else fail 'no traces joined: another file'; fi
    refused_traces merge
    row_keeping 'an absent trace' 3 '' 'outside shelf\n' merge N X1 T1 absent
    row_keeping 'a trace over the limit' 7 '' 'limit file 16777216\n' merge N X1 long
    row_keeping 'too many edges in all' 7 '' 'limit edges 16777216\n' merge N X1 $(yes large | head -n 9)
    row_keeping 'too many edges in one' 7 '' 'limit union 2000000\n' merge N X1 half other
}

# Traces of many pairs: `large` has as many as a trace may have, and `half` and `other` have together too many.
large_traces() {
    { trace_head 2000000; seq 1 2000000 | pairs; } > large
    { trace_head 1500000; seq 1 1500000 | pairs; } > half
    { trace_head 1500000; seq 1500001 3000000 | pairs; } > other
}
trace_head() { trace_file head "${2:-X1}" "$1"; cat head; }
pairs() { perl -ne 'print pack("VV", $_, 0)'; }

# The refusals of a trace by a command that fetches it as word 3.
refused_traces() {
    { printf A; tail -c +2 T1; } > magic
    row_keeping "$1: a wrong first byte of a trace" 2 '' 'refused word 3 21 0\n' "$1" N X1 magic
    head -c 51 T1 > short
    row_keeping "$1: a trace of 51 bytes" 2 '' 'refused word 3 23 51\n' "$1" N X1 short
    { head -c 8 T1; printf '\0'; tail -c +10 T1; } > digest
    row_keeping "$1: a changed digest" 2 '' 'refused word 3 22 8\n' "$1" N X1 digest
    trace_file twice X1 2 0 08048054 0 08048054
    row_keeping "$1: a pair twice" 2 '' 'refused word 3 24 52\n' "$1" N X1 twice
    { cat T1; printf '\0'; } > longer
    row_keeping "$1: one byte more" 2 '' 'refused word 3 25 52\n' "$1" N X1 longer
    trace_file many X1 2000001 0 08048054
    row_keeping "$1: too many pairs" 2 '' 'refused word 3 26 40\n' "$1" N X1 many
    row_keeping "$1: a trace of another file" 2 '' 'refused word 3 22 8\n' "$1" N X1 T9
    row_keeping "$1: a file that is no trace" 2 '' 'refused word 3 21 0\n' "$1" N X1 X1
    row_keeping "$1: the second trace" 2 '' 'refused word 4 24 52\n' "$1" N X1 T1 twice
}

# OUT T SITE TARGET..: the trace T with these pairs too.
with_pairs() {
    python3 -c 'import struct, sys
held, more = open(sys.argv[2], "rb").read(), [int(n, 16) for n in sys.argv[3:]]
pairs = sorted(set(struct.iter_unpack("<II", held[44:])) | set(zip(more[::2], more[1::2])))
open(sys.argv[1], "wb").write(held[:40] + struct.pack("<I", len(pairs)) + b"".join(struct.pack("<II", *p) for p in pairs))' "$@"
}

# The block that begins inside the first instruction of that program.
inside='block 08048055
  08048055 0100 add dword [eax], eax
  08048057 0000 add byte [eax], al
  08048059 e820000000 call 0x0804807e
  to 0804807e known'

# Traces that say what is not so, of a program with one function: the file does what the original does.
false_rows() {
    local pair length
    executable G1 'b801000000 e820000000 50 b804000000 bb01000000 89e1 ba04000000 cd80 b801000000 bb00000000 cd80 81c0a67ec641 7802 f7d0 c3'
    row 'the program with one function' 0 'X\0201\0071\0276' 'exit 0 steps 15 undefined 0 edges 4\n' trace F0 G1
    row 'build of it' 0 '' 'built 7 1310 8329\n' build FN G1 F0
    row 'its file' 0 'X\0201\0071\0276' 'exit 0 steps 184 undefined 0\n' run FN
    for pair in '0 0804807e' '08048055 0804807e' '08048059 08048086' '08048088 00000010'; do
        with_pairs F1 F0 $pair
        row "with the false pair $pair" 0 '' 'built 7 1310 8329\n' build N G1 F1
        if cmp -s N FN; then pass; else fail "the false pair $pair makes another file"; fi
    done
    with_pairs F1 F0 08048088 08048055
    "${tool[@]}" show G1 F1 > got.out 2> got.err
    if [ "$(cat got.err)" = 'shown 8' ] && [ "$(sed -n '/^block 08048055$/,/^block/p' got.out | sed '$d')" = "$inside" ]; then pass; else fail "show of a block inside an instruction: $(cat got.err got.out)"; fi
    "${tool[@]}" build N G1 F1 2> got.err
    row 'the file with a block inside an instruction' 0 'X\0201\0071\0276' 'exit 0 steps 186 undefined 0\n' run N
    for ((length = 0; length < 76; length++)); do
        head -c "$length" F0 > F1
        row_keeping "a trace cut at $length" 2 '' "refused word 3 $([ "$length" -lt 8 ] && echo 21 || echo 23) $length\n" build N G1 F1
    done
    { head -c 40 F0; bytes "$(word 2000000)"; } > F1
    row_keeping 'a count without its pairs' 2 '' 'refused word 3 23 44\n' build N G1 F1
    executable returns "$(for length in {1..40}; do printf '90%.0s' {1..63}; printf c3; done)"
    python3 -c 'import struct, sys
sites, starts = [0x08048054 + 64 * k + 63 for k in range(40)], range(0x08048054, 0x08048054 + 2560)
sys.stdout.buffer.write(b"".join(struct.pack("<II", s, t) for s in sites for t in starts))' > targets
    { trace_file head returns 102400; cat head targets; } > returns.t
    row_keeping 'targets of returns that would be too much code' 7 '' 'limit code 100663296\n' build N returns returns.t
    python3 -c 'import struct, sys
sys.stdout.buffer.write(b"".join(struct.pack("<II", s, t) for s in range(0x00100000, 0x00100000 + 1000000) for t in (0x08048054, 0x0804807e)))' > targets
    { trace_file head G1 2000000; cat head targets; } > F1
    row 'a trace of pairs whose sites spell nothing' 0 '' 'built 0 5 8329\n' build N G1 F1
    "${tool[@]}" build F1 G1 2> got.err
    if cmp -s N F1; then pass; else fail 'pairs whose sites spell nothing make another file'; fi
    false_sessions
}

# Traces that share pairs, taken away in each order: after each removal the file is that of `build` for those left.
false_sessions() {
    local order
    with_pairs S1 F0 08048084 08048088
    with_pairs S2 F0 08048088 08048055 08048059 08048086
    cp F0 S3
    for order in '1 2 3' '1 3 2' '2 1 3' '2 3 1' '3 1 2' '3 2 1'; do
        set -- $order
        printf 'add S1\nadd S2\nadd S3\nremove %s\nemit A\nremove %s\nemit B\nremove %s\nemit C\n' "$@" | "${tool[@]}" session G1 > got.out 2> got.err
        "${tool[@]}" build A1 G1 "S$2" "S$3" 2> /dev/null
        "${tool[@]}" build B1 G1 "S$3" 2> /dev/null
        "${tool[@]}" build C1 G1 2> /dev/null
        if [ "$(cat got.err)" = 'lines 9' ] && cmp -s A A1 && cmp -s B B1 && cmp -s C C1; then pass; else fail "a session that removes $order: $(cat got.err)"; fi
    done
    rm -f A B C A1 B1 C1 S1 S2 S3
}

# The blocks of X1 that its trace has seen.
listing='block 08048054
  08048054 b804000000 mov eax, 0x00000004
  08048059 bb01000000 mov ebx, 0x00000001
  0804805e b976800408 mov ecx, 0x08048076
  08048063 ba03000000 mov edx, 0x00000003
  to 08048068 known
block 08048068
  08048068 cd80 int 0x80
  to 0804806a known
block 0804806a
  0804806a b801000000 mov eax, 0x00000001
  0804806f bb00000000 mov ebx, 0x00000000
  to 08048074 known
block 08048074
  08048074 cd80 int 0x80
  to 08048076 known
block 08048076
  to 08048076 original
'

show_rows() {
    row 'show' 0 "$listing" 'shown 5\n' show X1 T1
    row 'show without traces' 0 '' 'shown 0\n' show X1
    trace_file T5 X1 2 0 08048054 08048054 08048056
    row 'show with an edge from no transfer' 0 "$listing" 'shown 5\n' show X1 T5
    row 'show of a trace of another file' 2 '' 'refused word 2 22 8\n' show X1 T9
    row 'show of the second trace' 2 '' 'refused word 3 21 0\n' show X1 T1 X1
    row 'show of a file below the lowest address' 2 '' 'refused word 1 9 52\n' show low
    command -v perl > /dev/null || { skip 'show of too many blocks: no perl, which makes a large trace'; return; }
    executable wide "$(perl -e 'print "c3", "90" x 65540')"
    { trace_head 65537 wide; perl -e 'print pack("VV", 0x08048054, 0x08048055 + $_) for 0 .. 65536'; } > targets
    row 'show of too many blocks' 7 '' 'limit blocks 65536\n' show wide targets
}

traced_rows() {
    local line
    refused_traces build
    row 'build with a trace' 0 '' "built $x1_built\\n" build N2 X1 T1
    row 'run of the file with a trace' 0 'hi\n' "exit 0 steps $x1_steps undefined 0\\n" run N2
    row 'build with the trace twice' 0 '' "built $x1_built\\n" build N3 X1 T1 T1
    if cmp -s N2 N3; then pass; else fail 'the trace twice gives another file'; fi
    native_row 'the file with a trace on the processor' N2
    command -v perl > /dev/null || { skip 'build with too many blocks or too much code: no perl, which makes large traces'; return; }
    executable wide "$(perl -e 'print "c3", "90" x 65540')"
    { trace_head 65537 wide; perl -e 'print pack("VV", 0x08048054, 0x08048055 + $_) for 0 .. 65536'; } > targets
    row 'build with too many blocks' 7 '' 'limit blocks 65536\n' build N4 wide targets
}

# Files of one trace each: constants that fold, and a block of 64 instructions without a transfer.
small_rows() {
    executable X2 '31c0 40 31db cd80'
    row 'trace of constants' 0 '' 'exit 0 steps 4 undefined 0 edges 1\n' trace T2 X2
    row 'build of constants' 0 '' "built $x2_built\\n" build N4 X2 T2
    row 'run of the file of constants' 0 '' "exit 0 steps $x2_steps undefined 0\\n" run N4
    executable nops "$(printf '90%.0s' {1..200}) $exit_code"
    row 'trace of 200 NOPs' 0 '' 'exit 0 steps 203 undefined 0 edges 1\n' trace T2 nops
    row 'build of 200 NOPs' 0 '' "built $nops_built\\n" build N4 nops T2
    row 'run of the file of 200 NOPs' 0 '' "exit 0 steps $nops_steps undefined 0\\n" run N4
}

# A session on X1 over the lines of a script: NAME STATUS OUTPUT REPORT SCRIPT.
session_row() {
    printf '%b' "$5" > script
    input=script
    row "$1" "$2" "$3" "$4" session X1
    input=/dev/null
}

session_rows() {
    rm -f A B C
    session_row 'traces come and go' 0 "emitted 0 5 8313 made 0\\nadded 1\\nemitted $x1_built made 5\\nremoved 1\\nemitted 0 5 8313 made 0\\n" \
        'lines 5\n' 'emit A\nadd T1\nemit B\nremove 1\nemit C\n'
    if cmp -s A N1 && cmp -s C N1 && cmp -s B N2; then pass; else fail 'a session emits other files than build writes'; fi
    session_row 'a trace that two have' 2 "added 1\\nadded 2\\nremoved 1\\nemitted $x1_built made 5\\n" 'refused line 5 32 0\n' \
        'add T1\nadd T1\nremove 1\nemit N3\nremove 1\n'
    if cmp -s N3 N2; then pass; else fail 'an edge that another live trace has is gone'; fi
    session_row 'nothing is compiled twice' 0 "added 1\\nemitted $x1_built made 5\\nemitted $x1_built made 0\\n" 'lines 4\n' 'add T1\n\nemit N3\nemit N3'
    session_row 'no order' 2 '' 'refused line 1 31 0\n' 'drop 1\n'
    session_row 'an order of 4201 bytes' 2 '' 'refused line 1 31 0\n' "add $(printf '%04197d' 0)\\n"
    session_row 'a number that is not live' 2 '' 'refused line 2 32 0\n' '\nremove 0\n'
    session_row 'a trace that is none' 2 '' 'refused line 2 21 0\n' '\nadd X1\n'
    session_row 'a trace of another file' 2 '' 'refused line 1 22 8\n' 'add T9\n'
    session_row 'a file that the session wrote is no trace' 2 'emitted 0 5 8313 made 0\n' 'refused line 2 21 0\n' 'emit N3\nadd N3\n'
    session_row 'an absent trace' 3 'added 1\n' 'outside shelf\n' 'add T1\nadd absent\n'
    session_row 'a long trace' 7 '' 'limit file 16777216\n' 'add long\n'
    session_row 'no line' 0 '' 'lines 0\n' ''
    row 'a session with a further word' 1 '' 'usage 2\n' session X1 F
    row 'a session on an absent file' 3 '' 'outside shelf\n' session absent
    input=/
    row 'a script that cannot be read' 3 '' 'outside input\n' session X1
    input=/dev/null
    { head -c 4201 /dev/zero | tr '\0' a; head -c 100000 /dev/zero | tr '\0' '\n'; } > script
    { "${tool[@]}" session X1 2> got.err; cat > got.left; } < script
    if [ "$(cat got.err)" = 'refused line 1 31 0' ] && [ "$(wc -c < got.left)" -ge $((104201 - 8192)) ]; then pass; else fail "a long line: $(cat got.err), $(wc -c < got.left) bytes are left"; fi
    tr '\0' a < /dev/zero | timeout 10 "${tool[@]}" session X1 2> got.err
    if [ "${PIPESTATUS[1]}" = 2 ] && [ "$(cat got.err)" = 'refused line 1 31 0' ]; then pass; else fail "a line without an end: $(cat got.err)"; fi
    yes 'add T1' | head -n 4097 > script
    "${tool[@]}" session X1 < script > got.out 2> got.err
    if [ $? = 7 ] && [ "$(cat got.err)" = 'limit traces 4096' ] && [ "$(wc -l < got.out)" = 4096 ]; then pass; else fail "4097 traces: $(cat got.err)"; fi
    head -c 1048576 /dev/zero | tr '\0' '\n' > script
    "${tool[@]}" session X1 < script > got.out 2> got.err
    if [ $? = 0 ] && [ "$(cat got.err)" = 'lines 1048576' ]; then pass; else fail "1048576 lines: $(cat got.err)"; fi
    printf x >> script
    "${tool[@]}" session X1 < script > got.out 2> got.err
    if [ $? = 7 ] && [ "$(cat got.err)" = 'limit lines 1048576' ]; then pass; else fail "1048577 lines: $(cat got.err)"; fi
    [ -e large ] || return 0
    yes 'add large' | head -n 9 > script
    "${tool[@]}" session X1 < script > got.out 2> got.err
    if [ $? = 7 ] && [ "$(cat got.err)" = 'limit edges 16777216' ] && [ "$(wc -l < got.out)" = 8 ]; then pass; else fail "too many edges in a session: $(cat got.err)"; fi
}

# NAME STORED WORD..: with a full output status 3, which is told; the file STORED is that of X1 without traces, or nothing is stored (`-`).
full_output() {
    local name=$1 stored=$2
    shift 2
    rm -f N N4
    "${tool[@]}" "$@" < "$input" > /dev/full 2> got.err
    if [ $? = 3 ] && [ "$(cat got.err)" = 'outside output' ]; then pass; else fail "$name on a full output: $(cat got.err)"; fi
    if if [ "$stored" = - ]; then [ ! -e N ] && [ ! -e N4 ]; else cmp -s "$stored" N1; fi; then pass; else fail "$name on a full output: its file"; fi
}

# NAME USUAL WORD..: with a full report all is done, and N is as USUAL.
full_report() {
    local name=$1 usual=$2
    shift 2
    rm -f N
    "${tool[@]}" "$@" < "$input" > got.out 2> /dev/full
    if [ $? = 3 ] && cmp -s N "$usual"; then pass; else fail "$name with a full report"; fi
}

full_rows() {
    [ -w /dev/full ] || { skip 'a full output and a full report: no /dev/full'; return; }
    full_output trace - trace N X1
    full_output show - show X1 T1
    printf 'add T1\nemit N\n' > script
    input=script
    full_output 'a session that adds' - session X1
    printf 'emit N4\nemit N\n' > script
    full_output 'a session that emits' N4 session X1
    if [ ! -e N ]; then pass; else fail 'a session that emits on a full output goes on'; fi
    printf 'add T1\nemit N\n' > script
    full_report session N2 session X1
    input=/dev/null
    full_report build N2 build N X1 T1
    full_report trace T1 trace N X1
    full_report merge T1 merge N X1 T1 T1
    rm -f N N4
}

# NAME STATUS OUTPUT REPORT SCRIPT ORIGINAL: a session on the original, which must leave N as it is.
session_keeping() {
    printf '%b' "$5" > script
    input=script
    row_keeping "$1" "$2" "$3" "$4" session "$6"
    input=/dev/null
}

# Every limit of every command that no row above passes, and what is just within it.
limit_rows() {
    local command length
    cp X1 padded
    for length in 16777216 16777217 268435456; do
        truncate -s "$length" padded
        row "run of a file of $length bytes" 0 'hi\n' 'exit 0 steps 8 undefined 0\n' run padded
    done
    truncate -s 268435457 padded
    row 'run of a file over its limit' 7 '' 'limit file 268435456\n' run padded
    row 'run with steps of a file over its limit' 7 '' 'limit file 268435456\n' run --steps 1 padded
    truncate -s 16777216 padded
    row 'build of a file of 16777216 bytes' 0 '' 'built 0 5 8313\n' build N padded
    rm -f padded
    row_keeping 'a traced file over the limit, with steps' 7 '' 'limit file 16777216\n' trace --steps 9 N long
    row_keeping 'merge for a file over the limit' 7 '' 'limit file 16777216\n' merge N long T1
    row 'show of a file over the limit' 7 '' 'limit file 16777216\n' show long T1
    row 'a session on a file over the limit' 7 '' 'limit file 16777216\n' session long
    row_keeping 'build with a trace over the limit' 7 '' 'limit file 16777216\n' build N X1 T1 long
    row 'show with a trace over the limit' 7 '' 'limit file 16777216\n' show X1 T1 long
    union_rows
    graph_rows
    [ -e large ] || return 0
    row_keeping 'build with too many edges in all' 7 '' 'limit edges 16777216\n' build N X1 $(yes large | head -n 9)
    row 'show of too many edges in all' 7 '' 'limit edges 16777216\n' show X1 $(yes large | head -n 9)
    row_keeping 'merge of as many edges as there may be in all' 0 '' 'merged 2000000\n' merge T6 X1 $(yes large | head -n 8)
    rm -f T6
}

# FILE N: an executable with a second, empty header whose code is a RET and N jumps, each back to what stands before it; and beside it FILE.t, a trace by
# which the RET leads to the last jump and each jump was taken.
jumps_back() {
    python3 -c 'import hashlib, struct, sys
name, count, start = sys.argv[1], int(sys.argv[2]), 0x08048074
code = b"\xc3\xeb\xfd" + b"\xeb\xfc" * (count - 1)
size = 116 + len(code)
head = b"\x7fELF\1\1\1".ljust(16, b"\0") + struct.pack("<HHIIIIIHHHHHH", 2, 3, 1, start, 52, 0, 0, 52, 32, 2, 0, 0, 0)
file = head + struct.pack("<8I", 1, 0, start - 116, start - 116, size, size, 5, 4096).ljust(64, b"\0") + code
places = [start] + [start + 1 + 2 * k for k in range(count)]
pairs = [(0, start), (start, places[-1])] + list(zip(places[1:], places))
open(name, "wb").write(file)
open(name + ".t", "wb").write(b"BRTRACE1" + hashlib.sha256(file).digest() + struct.pack("<I", len(pairs)) + b"".join(struct.pack("<II", *p) for p in pairs))' "$@"
}

# 2000000 jumps, each to what follows it: with the edge of the entry one more than a trace may have.
union_rows() {
    python3 -c 'import struct, sys
code, start = b"\xeb\0" * 2000000, 0x08048000
size = 84 + len(code)
head = b"\x7fELF\1\1\1".ljust(16, b"\0") + struct.pack("<HHIIIIIHHHHHH", 2, 3, 1, start + 84, 52, 0, 0, 52, 32, 1, 0, 0, 0)
sys.stdout.buffer.write(head + struct.pack("<8I", 1, 0, start, start, size, size, 5, 4096) + code)' > jumps
    row_keeping 'a trace with too many edges' 7 '' 'limit union 2000000\n' trace N jumps
    row_keeping 'a trace with too many edges at its last step' 7 '' 'limit union 2000000\n' trace --steps 2000000 N jumps
    row 'a trace with as many edges as it may have' 6 '' 'budget steps 1999999 undefined 0 edges 2000000\n' trace --steps 1999999 T6 jumps
    if [ "$(wc -c < T6)" = 16000044 ]; then pass; else fail 'a trace with as many edges as it may have: another length'; fi
    trace_file T5 jumps 1 1 0
    row_keeping 'merge of one edge more' 7 '' 'limit union 2000000\n' merge N jumps T6 T5
    row_keeping 'merge of one edge more, the other way round' 7 '' 'limit union 2000000\n' merge N jumps T5 T6
    row 'merge of just as many' 0 '' 'merged 2000000\n' merge T7 jumps T6 T6
    if cmp -s T6 T7; then pass; else fail 'merge of just as many: another file'; fi
    rm -f jumps T5 T6 T7
}

# As many blocks as there may be, and one more; and too much code: by each command that makes a graph, and in a session whose earlier files stay.
graph_rows() {
    jumps_back most 65535
    jumps_back more 65536
    row 'build of 65536 blocks' 0 '' 'built 65536 327967 467059\n' build N most most.t
    cp N N5
    session_keeping 'a session with 65536 blocks' 0 'added 1\nemitted 65536 327967 467059 made 65536\n' 'lines 2\n' 'add most.t\nemit N4\n' most
    if cmp -s N4 N5; then pass; else fail 'a session with 65536 blocks: another file'; fi
    row_keeping 'build of 65537 blocks' 7 '' 'limit blocks 65536\n' build N more more.t
    row 'show of 65537 blocks' 7 '' 'limit blocks 65536\n' show more more.t
    rm -f N4
    session_keeping 'a session with 65537 blocks' 7 'emitted 0 5 139381 made 0\nadded 1\n' 'limit blocks 65536\n' 'emit N4\nadd more.t\nemit N\nemit N4\n' more
    "${tool[@]}" build N5 more 2> /dev/null
    if cmp -s N4 N5; then pass; else fail 'a session with 65537 blocks: the earlier file did not stay'; fi
    rm -f N4
    session_keeping 'a session with too much code' 7 'emitted 0 5 10836 made 0\nadded 1\n' 'limit code 100663296\n' 'emit N4\nadd returns.t\nemit N\nemit N4\n' returns
    "${tool[@]}" build N5 returns 2> /dev/null
    if cmp -s N4 N5; then pass; else fail 'a session with too much code: the earlier file did not stay'; fi
    rm -f most most.t more more.t returns returns.t N4 N5
}

# hi and status 0 on the processor or its emulator.
native_row() {
    [ "$native_kind" != none ] || return 0
    chmod +x "$2"
    run_natively "${native[@]}" "./$2"
    if [ "$status" = 0 ] && [ "$(cat got.out)" = hi ] && [ ! -s got.err ]; then pass; else fail "$1: status $status, $(cat got.out)"; fi
}

# What is built of the small files with their traces, and the steps that the written files take.
x1_built='5 795 8313' x1_steps=104
x2_built='2 420 8283' x2_steps=56
nops_built='5 385 8488' nops_steps=54
demo_1='demo 1 file 137 blocks 7 code 1310 image 8329 out 588139be 588139be steps 15 184'
demo_2='demo 2 file 153 blocks 10 code 1904 image 8345 out 6518aedc 6518aedc steps 18 248'
demo_7='demo 7 file 233 blocks 25 code 5104 image 12521 out d3eb52cc d3eb52cc steps 43 608'
demo_1000='demo 1000 file 16121 blocks 3004 code 628917 image 651001 out a7670ab2 a7670ab2 steps 4499 70068'

executable X1 "$(hi_code 0x08048000)"
executable zero "$exit_code"
chmod +x zero
find_native ./zero
expects build0
build_rows
refusal_rows
usage_rows
outside_rows
if [ "$native_kind" = none ]; then
    skip 'on the processor: this machine runs no 32-bit executable and has no qemu-i386'
fi
native_row 'the original on the processor' X1
native_row 'its recompiled file on the processor' N1
if expects run; then
    run_rows
    machine_rows
fi
if expects trace; then
    trace_rows
    if expects build; then traced_rows; small_rows; false_rows; fi
fi
if expects merge; then
    if command -v perl > /dev/null; then
        large_traces
        merge_rows
    else
        skip 'merge: no perl, which makes large traces'
    fi
fi
if expects show; then
    show_rows
fi
if expects demo; then
    demo_rows
fi
if expects session; then
    session_rows
    full_rows
    limit_rows
fi
if expects asm; then
    asm_rows
fi
finish
