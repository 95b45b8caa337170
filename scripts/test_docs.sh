#!/usr/bin/env bash
# usage: test_docs.sh
# What README and docs say of the repository, counted or looked up once more. Prints each failure, and last 'N passed, M failed'.
set -u
cd "$(dirname "$0")/.." || exit 2
. scripts/lib.sh

# NAME CONDITION..: the words are a test.
holds() {
    local name=$1
    shift
    if "$@"; then pass; else fail "$name"; fi
}

# Each local link of a page leads to a file.
links() {
    local page target
    for page in README.md docs/*.md programs/README.md; do
        for target in $(grep -o '](\([^)#:]*\))' "$page" | tr -d '()]'); do
            holds "$page: there is no $target" [ -e "$(dirname "$page")/$target" ]
        done
    done
}

# Each script, example and program that a page names is there.
names() {
    local page name
    for page in README.md docs/*.md programs/README.md; do
        for name in $(grep -Eoh '(scripts|examples|bench|programs|crates)/[A-Za-z0-9_./]*[A-Za-z0-9_]' "$page" | sort -u); do
            case $name in crates/NAME* | crates/*/out/* | scripts/test_) continue ;; esac
            holds "$page: there is no $name" [ -e "$name" ]
        done
    done
}

# The table of what is proved has rows of crates alone; a crate without a row is named.
crates() {
    local crate
    for crate in $(sed -n 's/^\([a-z_0-9]*\):.*/\1/p' crates.txt); do
        holds "docs/PROVED.md has a row for $crate" grep -q "^|.*\`$crate\`.*|" docs/PROVED.md
    done
    for crate in $(sed -n 's/^| \(`[a-z_`, ]*`\) |.*/\1/p' docs/PROVED.md | tr -d '`,'); do
        holds "docs/PROVED.md has a row for $crate, which is no crate" grep -q "^$crate:" crates.txt
    done
}

# Numbers.
counts() {
    local programs cases
    programs=$(ls programs/bin | wc -l)
    cases=$(ls programs/cases | wc -l)
    [ "$programs" = 10 ] && holds 'README: ten programs' grep -q 'ten C programs' README.md
    holds "README: $cases cases" grep -q "with $cases cases" README.md
    holds 'README: the size of X1' grep -q "$(stat -c %s crates/binrec/data/X1)-byte executable" README.md
    if command -v rt > /dev/null; then
        holds "README: $(rt version)" grep -qF "$(rt version)" README.md
    else
        skip 'the version of the toolchain: no rt'
    fi
    holds 'docs/USING.md: the flags of cc32' [ "$(scripts/cc32 --flags | tr ' ' '\n' | grep -v '^$')" = \
        "$(sed -n '/^    -m32 -march/,/^$/p' docs/USING.md | tr ' ' '\n' | grep -v '^$')" ]
}

# The page for man has no mistake that its tools see.
page() {
    if command -v mandoc > /dev/null; then
        holds 'docs/binrec.1, by mandoc' [ -z "$(mandoc -Tlint docs/binrec.1 2>&1)" ]
    elif command -v man > /dev/null; then
        holds 'docs/binrec.1, by man' [ -z "$(man --warnings -l docs/binrec.1 2>&1 > /dev/null)" ]
    else
        skip 'docs/binrec.1: no man'
    fi
}

links
page
names
crates
counts
if scripts/count_definitions.py; then pass; else fail 'the table of definitions'; fi
finish
