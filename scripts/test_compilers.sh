#!/usr/bin/env bash
# usage: test_compilers.sh PROGRAM
# The commands of docs/USING.md, 'Other compilers and assemblers', each where its tools are there: what it writes is read by `fits`, runs, and is
# traced and built to a file that shows the same. Prints each failure, and last 'N passed, M failed'.
set -u
[ $# = 1 ] || { sed -n 2,2p "$0" >&2; exit 2; }
here=$(cd "$(dirname "$0")" && pwd)
. "$here/lib.sh"
enter_folder "$1"
export BINREC=${tool[0]}
cp "$here"/../examples/*.c "$here"/../examples/*.txt "$here"/../examples/hello.* .
find_native "$here/../programs/bin/hash"
sed -n '/^### Other compilers/,/^## /s/^\$ //p' "$here/../docs/USING.md" > commands

# FILE: prints what the processor shows of it where the machine runs it, and in any case what `run` shows.
shown() {
    "$BINREC" run "$1" < one.txt 2> report
    [ "$native_kind" = none ] || { chmod +x "$1" && "${native[@]}" "./$1" < one.txt; }
}

# FILE WANTED: it runs to its end in the machine, and N shows the same, also natively.
recovered() {
    local file=$1 wanted=$2 times=2
    [ "$native_kind" != none ] || times=1
    "$BINREC" trace T "$file" < one.txt > /dev/null 2>&1
    "$BINREC" build N "$file" T 2> built || fail "$file: $(cat built)"
    for each in "$file" N; do
        if [ "$(shown "$each")" = "$(for _ in $(seq $times); do echo "$wanted"; done)" ]; then pass; else fail "$file: $each shows '$(shown "$each")'"; fi
    done
}

# FILE STATUS PATTERN: what `fits` says.
fitting() {
    "$here/fits" "$1" > got.out 2>&1
    judge "fits $1" "$2" "$3" $? got.out
}

made=0
while read -r command; do
    for word in $command; do
        case $word in tcc | clang | as | ld | nasm | fasm) command -v "$word" > /dev/null || { skip "$command: no $word"; continue 2; } ;; esac
    done
    # A tcc without its 32-bit compiler, and a clang without a linker for i386, cannot make these files.
    if ! bash -c "$command" > said 2>&1; then
        if grep -q 'i386-tcc\|unable to execute command' said; then skip "$command: $(tail -n 1 said)"; else fail "$command: $(cat said)"; fi
        continue
    fi
    made=$((made + 1))
    file=$(grep -Eo -- '(-o [a-z.]+ (count.c|hello.o)$|fasm [a-z.]+ [a-z.]+$)' <<< "$command")
    case $file in
        fasm*) file=${file##* } ;;
        *) file=${file#-o }; file=${file% *} ;;
    esac
    case $file in
        count.clang)
            fitting "$file" 1 '^ +1 bt +as 0fa3'
            "$BINREC" trace T "$file" < one.txt > got.out 2>&1
            judge "trace of $file ends at the BT" 5 '^fault illegal ' $? got.out
            "$BINREC" build N "$file" T 2> built && chmod +x N
            [ "$native_kind" = none ] || { [ "$("${native[@]}" ./N < one.txt)" = '2 12 75' ] && pass || fail "$file: N natively"; }
            ;;
        count*) fitting "$file" 0 '^none of its'; recovered "$file" '2 12 75' ;;
        hello*) fitting "$file" 0 '^none of its 8 instructions'; recovered "$file" 'Hello.' ;;
        *) fail "$command: no case for what it writes" ;;
    esac
done < commands
[ "$(wc -l < commands)" = 6 ] || fail "docs/USING.md has other commands: $(cat commands)"
[ $made -gt 0 ] || skip 'every command: no tool of them is there'
finish
