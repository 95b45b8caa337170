#!/usr/bin/env bash
# usage: test_memory.sh PROGRAM
# Every command while one call of malloc or realloc fails, each call in turn: the answer is the usual one, or status 4 with `memory` as the last line, and what was
# stored, printed and reported before is a front part of the usual. No file is stored in part. Prints each failure, how many calls each command makes, and last
# 'N passed, M failed'. It is no part of the gate, which it would make some minutes longer. Status 3 where a tool is missing.
set -u
[ $# = 1 ] || { sed -n 2,2p "$0" >&2; exit 2; }
here=$(cd "$(dirname "$0")" && pwd)
. "$here/lib.sh"
for tool in gcc python3; do
    command -v "$tool" > /dev/null || { echo "test_memory.sh: no $tool" >&2; exit 3; }
done
enter_folder "$1"

# The library counts the calls, answers none at call FAIL_AT, and writes at the end how many there were to the file COUNT_IN.
cat > fails.c << 'END'
#define _GNU_SOURCE
#include <dlfcn.h>
#include <errno.h>
#include <stdio.h>
#include <stdlib.h>

static unsigned long calls, fail_at;
static void *(*usual_malloc)(size_t);
static void *(*usual_realloc)(void *, size_t);

__attribute__((constructor)) static void begin(void) {
    const char *at = getenv("FAIL_AT");
    usual_malloc = dlsym(RTLD_NEXT, "malloc");
    usual_realloc = dlsym(RTLD_NEXT, "realloc");
    fail_at = at ? strtoul(at, 0, 10) : 0;
    calls = 0;
}

static int fails(void) {
    if (++calls != fail_at)
        return 0;
    errno = ENOMEM;
    return 1;
}

void *malloc(size_t size) {
    if (!usual_malloc)
        usual_malloc = dlsym(RTLD_NEXT, "malloc");
    return fails() ? 0 : usual_malloc(size);
}

void *realloc(void *held, size_t size) {
    if (!usual_realloc)
        usual_realloc = dlsym(RTLD_NEXT, "realloc");
    return fails() ? 0 : usual_realloc(held, size);
}

__attribute__((destructor)) static void end(void) {
    unsigned long made = calls;
    const char *name = getenv("COUNT_IN");
    FILE *file = name ? fopen(name, "w") : 0;
    fail_at = 0;
    if (file) {
        fprintf(file, "%lu\n", made);
        fclose(file);
    }
}
END
gcc -O1 -shared -fPIC -o fails.so fails.c -ldl || { echo 'test_memory.sh: gcc makes no shared library' >&2; exit 3; }

# An original that writes hi; a guest that reads 3 bytes and writes them to 1 and to 2; one with a function; and one that faults.
executable E 'b804000000 bb01000000 b976800408 ba03000000 cd80 b801000000 bb00000000 cd80 68690a'
executable G 'b803000000 bb00000000 89e1 ba03000000 cd80 b804000000 bb01000000 cd80 b804000000 bb02000000 cd80 b801000000 bb00000000 cd80'
executable F 'b801000000 e820000000 50 b804000000 bb01000000 89e1 ba04000000 cd80 b801000000 bb00000000 cd80 81c0a67ec641 7802 f7d0 c3'
executable Z '31c9 f7f1'
"${tool[0]}" trace T E > /dev/null 2>&1
"${tool[0]}" trace TF F > /dev/null 2>&1
"${tool[0]}" trace TZ Z > /dev/null 2>&1
cat > S << 'END'
  mov ecx, 0x00000003
again:
  dec ecx
  jnz again
  mov eax, 0x00000001
  int 0x80
  byte 68690a
END
printf 'add TF\nemit A\nremove 1\nadd TF\nadd TF\nemit B\nremove 2\nemit C\n' > script
printf 'emit A\nadd S\n' > refused
printf abcdef > input

python3 - "${tool[0]}" << 'END'
import os, subprocess, sys
program, bad, good, places = os.path.realpath(sys.argv[1]), 0, 0, 0
folder = os.getcwd()
# The words, the input, and the names that are stored, in order.
CASES = [
    ("build N E", "", "N"), ("build N F TF", "", "N"), ("build N F TF TF", "", "N"), ("build N Z TZ", "", "N"), ("build N S", "", "N"), ("build N F S", "", "N"),
    ("build N absent", "", "N"), ("run G", "input", ""), ("run F one two", "", ""), ("run --steps 3 F", "", ""), ("run Z", "", ""), ("run S", "", ""), ("trace N G", "input", "N"),
    ("trace N F", "", "N"), ("trace --steps 4 N F", "", "N"), ("trace N Z", "", "N"), ("merge N F TF TF", "", "N"), ("merge N E", "", "N"), ("merge N F S", "", "N"),
    ("show F TF", "", ""), ("show E", "", ""), ("show F T", "", ""), ("session F", "script", "A B C"), ("session F", "refused", "A"), ("session F", "", ""), ("asm N S", "", "N"),
    ("asm N E", "", "N"), ("demo 1", "", ""), ("demo 3", "", ""), ("", "", ""), ("build N", "", "N"), ("demo 0", "", ""),
]


def files():
    held = {}
    for name in os.listdir(folder):
        with open(os.path.join(folder, name), "rb") as f:
            held[name] = f.read()
    return held


def run(words, source, stores, before, at):
    """Status, output, error, the files under the names, and how many calls were made, where call `at` fails and the names hold `before`."""
    for name in stores:
        if before is None:
            if os.path.exists(name):
                os.remove(name)
        else:
            with open(name, "wb") as f:
                f.write(before)
    env = {"LD_PRELOAD": os.path.join(folder, "fails.so"), "FAIL_AT": str(at), "COUNT_IN": os.path.join(folder, "count")}
    with open(source or os.devnull, "rb") as given:
        done = subprocess.run([program, *words], stdin=given, capture_output=True, env=env, timeout=60)
    with open("count") as f:
        count = int(f.read())
    held = [open(name, "rb").read() if os.path.exists(name) else None for name in stores]
    return (done.returncode, done.stdout, done.stderr, held), count


def is_front(left, usual, before):
    """Whether this is want of memory, before which a front part of the usual was done."""
    status, out, err, held = left
    stored = 0
    while stored < len(held) and held[stored] == usual[3][stored] and held[stored] != before:
        stored += 1
    return status == 4 and err.endswith(b"memory\n") and usual[2].startswith(err[:-7]) and usual[1].startswith(out) and all(h == before for h in held[stored:])


def check(words, source, stores, before):
    """The number of calls of a command, each of which has failed once; how many of these ended it with 4; and what was wrong."""
    usual, count = run(words, source, stores, before, 0)
    wrong, ended = [] if usual[0] != 4 else ["without a failure: 4"], 0
    kept = {name: data for name, data in files().items() if name not in stores and name != "count"}
    for at in range(1, count + 1):
        left, _ = run(words, source, stores, before, at)
        ended += left[0] == 4
        if left != usual and not is_front(left, usual, before):
            wrong.append(f"call {at} of {count}: status {left[0]}, {left[1][-60:]!r}, {left[2][-60:]!r}, {[None if h is None else len(h) for h in left[3]]}")
        if at % 50 == 0 or at == count:
            now = {name: data for name, data in files().items() if name not in stores and name != "count"}
            if now != kept:
                wrong.append(f"up to call {at} of {count}: other files {sorted(set(now) ^ set(kept))}")
                break
    again, _ = run(words, source, stores, before, count + 1)
    if again != usual:
        wrong.append("past the last call: not the usual answer")
    if ended == 0:
        wrong.append("no call that failed ended with 4")
    return count, ended, wrong


for text, source, names in CASES:
    stores = names.split()
    for before in (None, b"as before") if stores else (None,):
        count, ended, wrong = check(text.split(), source, stores, before)
        places += count
        good += count + 2 - len(wrong)
        bad += len(wrong)
        for line in wrong[:5]:
            print(f"FAIL {text or 'no words'}{' < ' + source if source else ''}{', over files' if before else ''}: {line}")
    print(f"{text or 'no words'}{' < ' + source if source else ''}: {count} calls, and {ended} of them end it with 4", flush=True)
print(f"{places} failures in turn")
print(f"{good} passed, {bad} failed")
sys.exit(bad != 0)
END
