#!/usr/bin/env bash
# usage: check_all.sh [PROGRAM]
# The project's own checks of the built program, which `.ci/run` makes after the gate. Without a PROGRAM they take the two that
# `rt ci` leaves: by LLVM, and by Rattle's own compiler. What the program must have stands in built.sh. Only a tool or a folder that this machine
# does not have lets a check be skipped, and the last line counts those. Prints a line for each check, and ends with 1 where one failed.
set -u
cd "$(dirname "$0")/.." || exit 2
. scripts/built.sh
bad=0
skipped=0
started=$SECONDS

# NAME COMMAND..: runs it with at most five minutes, and says how it ended.
check() {
    local name=$1 begun=$SECONDS
    shift
    echo "== $name"
    if timeout 300 "$@"; then
        echo "== $name: passed, $((SECONDS - begun)) s"
    else
        echo "== $name: FAILED with status $?, $((SECONDS - begun)) s"
        bad=1
    fi
}
skip() {
    echo "== $1: skipped: $2"
    skipped=$((skipped + 1))
}

# The tools of a check, and then the check: skipped where one is missing.
check_with() {
    local tools=$1 name=$2 tool
    for tool in $tools; do
        command -v "$tool" > /dev/null || { skip "$name" "no $tool"; return; }
    done
    shift
    check "$@"
}

# The comparison with the reference program, from a copy of both, since the reference is built beside its sources.
compare() {
    local copy today
    copy=${TMPDIR:-/tmp}/binrec-compare-$(id -u)
    if [ ! -e ../shared/check/compare.py ] || [ ! -d ../shared/oracle ]; then
        skip 'comparison with the reference program' 'no ../shared/check and ../shared/oracle'
        return
    fi
    mkdir -p -m 700 "$copy" && cp -ru --preserve=timestamps ../shared/check ../shared/oracle "$copy" && chmod -R u+w "$copy"
    today=$(date +%Y%m%d)
    for seed in 1 "$today"; do
        check_with 'cargo python3' "comparison with the reference program, stage $built_stage, seed $seed" \
            python3 "$copy/check/compare.py" --tool "$program" --stage "$built_stage" --commands "$built_commands" --count 60 --seed "$seed"
    done
    check_with 'cargo python3' 'lines of demo, beside the reference program' scripts/compare_demo.sh "$program" "$copy" "$built_stage"
}

# The scripts for users, and the walk-through.
tools_of_users() {
    check_with python3 'the front br' scripts/test_br.sh "$program"
    check_with 'python3 objdump' 'fits' scripts/test_fits.sh "$program"
    check_with 'python3 objdump' 'info' scripts/test_info.sh "$program"
    check_with 'python3 objdump' 'where' scripts/test_where.sh "$program"
    check_with 'python3 objdump gcc nm' 'cc32' scripts/test_cc32.sh "$program"
    check_with 'python3 objdump' 'other compilers and assemblers' scripts/test_compilers.sh "$program"
    check_with 'python3 objdump' 'coverage and graph' scripts/test_coverage.sh "$program"
    check_with python3 'traces of real runs' scripts/test_record.sh "$program"
    check 'stores' scripts/test_stores.sh "$program"
    check_with 'python3 objdump gcc nm' 'a first use' examples/first_use.sh "$program"
    check 'the demonstration of README' scripts/test_readme.sh "$program"
    check_with python3 'the docs' scripts/test_docs.sh
}

if [ $# -gt 0 ]; then
    programs=("$(realpath "$1")")
else
    programs=("$PWD/crates/binrec/out/binrec" "$PWD/crates/binrec/out/binrec.by-rattle")
fi

for program in "${programs[@]}"; do
    if [ ! -x "$program" ]; then
        echo "== $program: FAILED: the gate left no such program"
        bad=1
        continue
    fi
    check "stated rows by $(basename "$program")" scripts/check_rows.sh "$program"
done
program=${programs[0]}
if [ -x "$program" ]; then
    check 'real programs' scripts/check_programs.sh "$program"
    check_with 'python3 objdump' 'spellings, by show' \
        python3 scripts/check_spellings.py --seed "$(date +%Y%m%d)" python3 scripts/decode_by_show.py "$program"
    check_with 'python3 objdump' 'sources, by show and asm' python3 scripts/check_sources.py "$program"
    check_with 'python3 objdump' 'lengths of a fast reading' python3 scripts/check_lengths.py --seed "$(date +%Y%m%d)" "$program"
    tools_of_users
    compare
fi
echo "== the project's own checks: $([ $bad = 0 ] && echo passed || echo FAILED), $skipped skipped, $((SECONDS - started)) s"
exit $bad
