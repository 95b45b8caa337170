#!/usr/bin/env bash
# usage: check_programs.sh PROGRAM [WORD..]
# Runs every case of programs/cases with the recompiler PROGRAM (the WORDs stand before its own words), in a folder of its own:
#   `run` of the executable shows the stored output, standard error and status in the steps that a processor took, and reads
#   no undefined flag;
#   `build` without traces, then `run` of what it wrote shows the same in one step more, the jump to the original's entry;
#   `trace` shows the same and stores a file, `merge` joins the traces of all cases of a program to the set of their pairs,
#   where it is built, `build` with the traces and with the joined one writes the same file, and `run` of that file shows the same,
#   also where the segments of the original in it may not be executed: every path of a traced run is recovered code;
#   and every case over the file built with the trace of one case alone, most of whose paths leave for the original;
#   a session that adds the traces and takes them away again writes what `build` does for those that are live;
#   where the machine runs 32-bit executables, each of these files shows the same on the processor.
# What is built stands in built.sh: a command of it that is missing fails. A case's status is a number, or `fault KIND`. Prints each failure, and last 'N passed, M failed'; status 1 on a failure.
set -u
[ $# -gt 0 ] || { sed -n 2,3p "$0" >&2; exit 2; }
here=$(cd "$(dirname "$0")" && pwd)
. "$here/lib.sh"
programs=$here/../programs
enter_folder "$@"
budget=2000000000

# Sets the words, input, wanted output and wanted status of a case.
load_case() {
    local at=$programs/cases/$1
    words=()
    [ ! -e "$at/args" ] || mapfile -t words < "$at/args"
    input=/dev/null
    [ ! -e "$at/stdin" ] || input=$at/stdin
    cat "$at/stdout" > want.out 2> /dev/null
    cat "$at/stderr" > want.err 2> /dev/null
    wanted=$(cat "$at/status")
    steps=$(cat "$at/steps")
    native_too=$native_kind
    [ ! -e "$at/guest-only" ] || native_too=none
}

# The report of a guest at the end of a file, whose own last byte before it may be no line feed; the last line where there is none.
report_of() {
    tail -n 1 "$1" | grep -Eo '(exit [0-9]+|fault [a-z]+ [0-9a-f]{8}|budget) steps [0-9]+ undefined [0-9]+( edges [0-9]+)?$' || tail -n 1 "$1"
}

# The exit status of `run` and `trace` for the wanted status: 5 for a fault, else 0.
command_status() { case $wanted in fault*) echo 5 ;; *) echo 0 ;; esac; }

# One guest of the recompiler: output, standard error and last line. $1 names the check, $2 is a pattern for the line's end
# from the number of steps on, and of steps that read an undefined flag. Recovered code reads the flags that a division leaves undefined
# when it keeps the state, and no more than keeps them; other files must read none.
check_guest() {
    local name=$1 ending=$2 last
    shift 2
    [ "$has_run" = 1 ] || return 0
    timeout 300 "${tool[@]}" "$@" "${words[@]}" < "$input" > got.out 2> got.err
    status=$?
    last=$(report_of got.err)
    case $wanted in
        fault*) line="^$wanted [0-9a-f]{8} steps $ending\$" ;;
        *) line="^exit $wanted steps $ending\$" ;;
    esac
    head -c -$((${#last} + 1)) got.err > got.said
    if [ "$status" != "$(command_status)" ]; then
        fail "$name: status $status, wanted $(command_status): $last"
    elif ! [[ $last =~ $line ]]; then
        fail "$name: report '$last', wanted a line $line"
    elif ! cmp -s got.out want.out; then
        fail "$name: another output"
    elif ! cmp -s got.said want.err; then
        fail "$name: another standard error"
    else
        pass
    fi
}

# One executable on the processor or its emulator.
check_native() {
    local name=$1 file=$2
    [ "$native_too" != none ] || return 0
    chmod +x "$file"
    run_natively "${native[@]}" "./$file" "${words[@]}"
    if [ "$status" != "$wanted" ]; then
        fail "$name: ended with $status, wanted $wanted"
    elif ! cmp -s got.out want.out || ! cmp -s got.err want.err; then
        fail "$name: another output or standard error"
    else
        pass
    fi
}

# The little-endian word of a file at an offset, as eight hexadecimal digits.
word_at() { od -An -tx4 -j"$2" -N4 --endian=little "$1" | tr -d ' '; }

# `build N E T..` with status 0, its report line, and a file of the length that it tells, with the entry of recovered code.
check_build() {
    local name=$1 line
    shift
    line=$("${tool[@]}" build "$@" 2>&1 < /dev/null)
    if [ $? = 0 ] && [[ $line =~ ^built\ [0-9]+\ [0-9]+\ ([0-9]+)$ ]] && [ "$(wc -c < "$1")" = "${BASH_REMATCH[1]}" ] &&
        [ "$(word_at "$1" 24)" = 01000000 ]; then
        pass
    else
        fail "$name: $line"
        return 1
    fi
}

# The file $1 as $2, without the execute flag of each segment from 08000000 on.
forbid_original() {
    local at count start
    cp "$1" "$2"
    count=$((0x$(word_at "$1" 44) & 0xffff))
    for ((at = 52; at < 52 + 32 * count; at += 32)); do
        start=$((0x$(word_at "$1" $((at + 8)))))
        if ((start >= 0x08000000)); then
            printf "\\x$(printf %02x $((0x$(word_at "$1" $((at + 24))) & 6)))" | dd of="$2" bs=1 seek=$((at + 24)) conv=notrunc status=none
        fi
    done
}

# Each case that ends by itself, over the file whose original code may not be executed.
check_coverage() {
    forbid_original "$1" R
    for case in "${cases[@]}"; do
        load_case "$case"
        [[ $wanted == fault* ]] || check_guest "$case: run of recovered code alone" '[0-9]+ undefined [0-9]+' run --steps "$budget" R
    done
}

# A trace of each case, stored under its name.
trace_cases() {
    for case in "${cases[@]}"; do
        load_case "$case"
        check_guest "$case: trace" "$steps undefined 0 edges [0-9]+" trace --steps "$budget" "trace-$case" E
        [ -s "trace-$case" ] || fail "$case: trace stored no file"
    done
}

# The pairs of trace files as lines.
pairs_of() { for file; do tail -c +45 "$file" | od -An -v -tx4 -w8 --endian=little; done; }

# The traces of all cases joined: the pairs are those of the traces, each once, in order, and as many as is told.
merge_traces() {
    local traces=("${cases[@]/#/trace-}") line
    line=$("${tool[@]}" merge joined E "${traces[@]}" 2>&1 < /dev/null) || line="status $?: $line"
    pairs_of "${traces[@]}" | LC_ALL=C sort -u > want.pairs
    if [ "$line" = "merged $(wc -l < want.pairs)" ]; then pass; else fail "$program: merge: $line"; fi
    if pairs_of joined | cmp -s - want.pairs; then pass; else fail "$program: the joined trace has other pairs"; fi
    if head -c 40 joined | cmp -s - <(head -c 40 "${traces[0]}"); then pass; else fail "$program: the joined trace is of another original"; fi
}

# The file built with traces; where `merge` is there, the file of the joined traces is the same.
build_traced() {
    local traces=("${cases[@]/#/trace-}")
    check_build "$program: build with traces" N E "${traces[@]}" || return 1
    [ "$has_merge" = 1 ] || return 0
    check_build "$program: build with the joined trace" J E joined || return 1
    if cmp -s N J; then pass; else fail "$program: the joined trace gives another file"; fi
}

# A session in which the traces of all cases come, and go one after another, with a file after each: what `build` writes for those that are left.
session_files() {
    local traces=("${cases[@]/#/trace-}") last k
    {
        printf 'add %s\n' "${traces[@]}"
        echo 'emit S0'
        for ((k = 1; k <= ${#traces[@]}; k++)); do printf 'remove %d\nemit S%d\n' "$k" "$k"; done
    } > script
    last=$(timeout 300 "${tool[@]}" session E < script 2>&1 > /dev/null)
    if [ "$last" = "lines $(wc -l < script)" ]; then pass; else fail "$program: session: $last"; fi
    for ((k = 0; k <= ${#traces[@]}; k++)); do
        check_build "$program: build with all traces but $k" B E "${traces[@]:$k}" || continue
        if cmp -s B "S$k"; then pass; else fail "$program: after $k traces have gone, a session writes another file than build"; fi
    done
}

# Each case of the program over one file. $2 says what it is, $3 how many steps more than the original it takes, or `any`
# number of steps, also such as read undefined flags.
run_cases() {
    local ending
    for case in "${cases[@]}"; do
        load_case "$case"
        ending='[0-9]+ undefined [0-9]+'
        [ "$3" = any ] || ending="$((steps + $3)) undefined 0"
        check_guest "$case: run of $2" "$ending" run --steps "$budget" "$1"
        check_native "$case: $2 on the $native_kind" "$1"
    done
}

find_native "$programs/bin/hash"
[ "$native_kind" != none ] || skip 'on the processor: this machine runs no 32-bit executable and has no qemu-i386'
expects build0
has_run=0 has_merge=0 has_trace=0 builds_traced=0 has_session=0
! expects run || has_run=1
! expects merge || has_merge=1
! expects trace || has_trace=1
! expects build || builds_traced=1
! expects session || has_session=1

for binary in "$programs"/bin/*; do
    program=$(basename "$binary")
    cases=($(cd "$programs/cases" && ls -d "$program"-*))
    cp "$binary" E
    run_cases E 'the original' 0
    check_build "$program: build" N E && run_cases N 'its recompiled file' 1
    [ "$has_trace" = 1 ] || continue
    trace_cases
    [ "$has_merge" = 0 ] || merge_traces
    [ "$builds_traced" = 1 ] || continue
    build_traced || continue
    run_cases N 'its recompiled file with traces' any
    check_coverage N
    [ "$has_session" = 0 ] || session_files
    check_build "$program: build with one trace" O E "trace-${cases[0]}" && run_cases O 'its file with one trace' any
done
finish
