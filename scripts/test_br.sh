#!/usr/bin/env bash
# usage: test_br.sh PROGRAM
# `br`: no slip loses a file, each mistake is told with its cause and what to do, and words, streams and status pass through.
# Prints each failure, and last 'N passed, M failed'.
set -u
[ $# = 1 ] || { sed -n 2,2p "$0" >&2; exit 2; }
here=$(cd "$(dirname "$0")" && pwd)
. "$here/lib.sh"
enter_folder "$1"
export BINREC=${tool[0]}
br=$here/br
user=()
# Root may read and write everything, so the rows on permissions run as nobody.
[ "$(id -u)" != 0 ] || user=(setpriv --reuid 65534 --regid 65534 --clear-groups)

# NAME STATUS PATTERN WORD..: br ends with the status, and a line of its standard error matches.
told() {
    local name=$1 wanted=$2 pattern=$3
    shift 3
    "$br" "$@" > got.out 2> got.err < "${input:-/dev/null}"
    judge "$name" "$wanted" "$pattern" $? got.err
}

# As `told` with status 8, over words that would replace the file KEPT: it stays.
kept() {
    local name=$1 file=$2 pattern=$3 before
    shift 3
    before=$(sha256sum < "$file")
    told "$name" 8 "$pattern" "$@"
    if [ "$(sha256sum < "$file")" = "$before" ]; then pass; else fail "$name: $file was changed"; fi
}

# An executable that writes hi, and one that loops.
hi="b804000000 bb01000000 b976800408 ba03000000 cd80 b801000000 bb00000000 cd80 68690a"
executable E "$hi"
executable other "$hi 90"
executable turn ebfe
"$BINREC" trace T E > /dev/null 2>&1
"$BINREC" trace T2 E > /dev/null 2>&1
"$BINREC" trace alien other > /dev/null 2>&1
"$BINREC" build otherN other > /dev/null 2>&1
printf 'my notes' > notes

loss_rows() {
    kept 'trace over the executable' E 'E is the executable itself' trace E E
    kept 'merge over the executable' E 'E is the executable itself' merge E E T
    kept 'build over the executable' E 'E is the executable itself' build E E
    ln -s E link
    ln E hard
    kept 'trace over a link to the executable' E 'link is the executable itself' trace link E
    kept 'trace over another name of the executable' E 'hard is the executable itself' trace hard E
    kept 'trace over another file' notes 'notes is no trace' trace notes E
    kept 'trace with a budget over another file' notes 'notes is no trace' trace --steps 9 notes E
    kept 'merge over another file' notes 'notes is no trace' merge notes E T
    kept 'build over another file' notes 'notes is no file that BinRec wrote' build notes E
    kept 'build over another executable' other 'other is no file that BinRec wrote' build other E
    kept 'build over a trace' T 'T is no file that BinRec wrote' build T E
    kept 'trace over a trace of the same executable' T 'T is a trace of this executable already.*--replace does it' trace T E
    kept 'trace over it with steps' T 'cure: .*`br merge`' trace --steps 9 T E
    kept 'build over a file of another executable' otherN 'otherN was written from another executable.*--replace does it' build otherN E
    kept 'build over it, with traces' otherN 'cure: name another file' build otherN E T
    kept 'replacing what BinRec did not write' notes 'notes is no trace.*--force does it' --replace trace notes E
    kept 'replacing the executable' E 'E is the executable itself' --replace build E E
    kept 'trace over a trace of another executable' alien 'alien is a trace of another executable' trace alien E
    kept 'merge that drops the trace it stores under' T 'T is a trace whose pairs would not be kept' merge T E T2
    kept 'merge of no traces over a trace' T 'T is a trace whose pairs would not be kept' merge T E
    told 'merge of no traces' 8 'merge of no traces would store an empty trace' merge new E
    if [ ! -e new ]; then pass; else fail 'merge of no traces stored a file'; fi
}

# NAME STATUS PATTERN SCRIPT: as `told`, of a session over E that follows the script.
source_rows() {
    printf '  nop\n' > source
    told 'asm' 0 '^assembled 85$' asm assembled source
    told 'asm over an assembled file' 0 '^assembled 85$' asm assembled source
    kept 'asm over another file' notes 'notes is no file as `asm` writes one.*--force does it' asm notes source
    kept 'asm over the source' source 'source is the source itself' asm source source
    kept 'asm over a file that BinRec wrote' otherN 'otherN is no file as `asm` writes one' asm otherN source
    printf 'a:\n  mov eax, 4\n' > source
    told 'a line of no form' 2 'source, line 2: the line has none of the forms of a source: .  mov eax, 4. .number 41.' asm fresh source
    printf 'a:\n  jmp b\n' > source
    told 'a label that stands nowhere' 2 'source, line 2: the label that is used stands nowhere: .  jmp b. .number 43.' asm fresh source
    printf 'a:\na:\n' > source
    told 'a label that stands twice' 2 'source, line 2: the label stands for the second time' asm fresh source
    printf 'a:\n' > source
    told 'a source without bytes' 2 '^br: source: the lines give no bytes .number 44.$' asm fresh source
    told 'a source that is not there' 3 'there is no file nowhere' asm fresh nowhere
    told 'a word too many of asm' 1 'word 3 is one too many' asm fresh source source
    told 'a source that is not named' 1 'usage: asm N TEXT' asm fresh
}

session_told() {
    printf "$4" > script
    input=script
    told "$1" "$2" "$3" session E
    input=
}

session_rows() {
    session_told 'a session' 0 '^lines 3$' 'add T\nemit S\nremove 1\n'
    session_told 'a session over a file that BinRec wrote' 0 '^lines 1$' 'emit S\n'
    session_told 'a session over the executable' 8 "'E' is the executable itself" 'add T\nemit E\n'
    session_told 'a session over another file' 8 "'notes' is no file that BinRec wrote" 'emit S\nemit notes'
    session_told 'a session over a file of another executable' 8 "'otherN' was written from another executable" 'emit S\nemit otherN'
    session_told 'a line that is none' 2 "ended at line 2: 'drop 1'" 'add T\ndrop 1\n'
    session_told 'a number that is not live' 2 'no live trace has the number' 'remove 1\n'
    session_told 'a trace of another executable in a session' 2 "'alien': the trace is of another executable" 'add alien\n'
    session_told 'an absent trace in a session' 3 "there is no file 'absent'" 'add absent\n'
    printf 'add T\nemit S\n' | "$br" session E > got.out 2> got.err
    judge 'a session through a pipe' 0 '^lines 2$' $? got.err
    "$br" session E > got.out 2> got.err <&-
    judge 'a session without an input' 3 'standard input is closed' $? got.err
    if [ "$(cat notes)" = 'my notes' ]; then pass; else fail 'a session changed another file'; fi
}

# Where a session ended: the line that the program came to, and no name of a line behind it.
end_rows() {
    local script='add T\n\nemit S\nadd absent\nadd missing\nemit nowhere/N\n'
    session_told 'the line that ended a session' 3 "ended at line 4: 'add absent'" "$script"
    if grep -Eq 'missing|nowhere' got.err; then fail "names of lines that were not reached: $(cat got.err)"; else pass; fi
    session_told 'a folder that is not there in a session' 3 "ended at line 2: 'emit nowhere/N'" 'add T\nemit nowhere/N\nadd absent'
    if grep -q 'there is no folder nowhere' got.err && ! grep -q absent got.err; then pass; else fail "the cause of line 2: $(cat got.err)"; fi
    session_told 'a CR at the end of a line' 3 "there is no file 'T.r'" 'add T\r\nemit S\r\n'
    if grep -q 'line 1 ends with CR LF' got.err; then pass; else fail "what a CR does: $(cat got.err)"; fi
    session_told 'a CR in a session that ends well' 0 'line 2 ends with CR LF' 'add T\nemit S\r\n'
    session_told 'a CR alone in a line' 2 "ended at line 2: '.r'" 'add T\n\r\nemit S\n'
    printf 'add T\nadd T\nemit S\n' | "$br" session E 2> got.err > /dev/full
    judge 'a session whose output is full' 3 "ended at line 1: 'add T'" $? got.err
    session_told 'a long line' 2 "ended at line 2: 'add x*'[.][.];" "add T\nadd $(printf '%05000d' 0 | tr 0 x)\nemit S\n"
    printf 'emit S\n' | "$br" session absent > got.out 2> got.err
    judge 'a session of an absent file' 3 'there is no file absent' $? got.err
    if grep -q 'ended at line' got.err; then fail "a line of a session that never began: $(cat got.err)"; else pass; fi
}

# A script is taken whole, or the program is not started.
whole_rows() {
    local lines
    # Some 60000 bytes of empty lines, and the last line is no whole name where the script is cut.
    lines=$(printf '%060000d' 0 | tr 0 '\n'; echo x)
    lines=${lines%x}
    printf 'add T\n%semit E' "$lines" > script
    cp E before
    (ulimit -f 20 && exec "$br" session E < script > /dev/null 2> /dev/null)
    [ $? = 8 ] && pass || fail 'a script under a limit on file size'
    if cmp -s E before; then pass; else fail 'a script under a limit on file size: E was replaced'; fi
    printf 'add T\n%s' "$lines" > script
    (ulimit -f 1 && exec "$br" session E < script > got.pipe 2> /dev/null)
    [ $? = 0 ] && pass || fail 'a script that is longer than a file may be'
    (ulimit -f 1 && exec "$br" --where run E < script > got.out 2> got.err)
    judge 'an input of --where under a limit on file size' 9 'cannot be taken whole: File too large; the program was not started' $? got.err
    small_rows "$lines"
    # Memory that does not hold the script.
    { printf 'emit S\n'; head -c 300000000 /dev/zero | tr '\0' '\n'; } | "$br" session E > got.out 2> got.err
    judge 'a script that is too long' 9 'cannot be taken whole.*not started' $? got.err
    "$br" session E < / > got.out 2> got.err
    judge 'a script that is a folder' 9 'cannot be taken whole.*not started' $? got.err
    if (ulimit -v 200000 && "$br" --help > /dev/null 2>&1); then
        { printf 'emit S\n'; head -c 200000000 /dev/zero | tr '\0' '\n'; } > long.script
        (ulimit -v 200000 && exec "$br" session E < long.script > got.out 2> got.err)
        judge 'a script that memory does not hold' 9 'no memory for it.*not started' $? got.err
        rm long.script
    else
        skip 'a script that memory does not hold: br does not start in 200 MB'
    fi
}

# The same where the folder for temporary files is full: $1 is the text behind the first line.
small_rows() {
    mkdir -p small
    if ! unshare -m true 2> /dev/null; then
        skip 'a small file system: unshare -m is not allowed, or is not there'
        return
    fi
    printf 'add T\n%semit E' "$1" > script
    unshare -m sh -c 'mount -t tmpfs -o size=8k small small && head -c 8192 /dev/zero > small/full; TMPDIR=$PWD/small exec "$0" session E < script' \
        "$br" > got.out 2> got.err
    judge 'a script where the temporary folder is full' 8 "'E' is the executable itself" $? got.err
    if cmp -s E before; then pass; else fail 'a script where the temporary folder is full: E was replaced'; fi
    printf 'add T\n%semit small/N' "$1" > script
    unshare -m sh -c 'mount -t tmpfs -o size=20k small small && cp otherN small/N && "$0" --replace session E < script; status=$?; cmp small/N otherN && ls -A small && exit $status' \
        "$br" > got.out 2> got.err
    judge 'a store on a small file system' 3 'ended at line 60002|file system of small is full' $? got.err
    if [ "$(tail -n 1 got.out)" = N ]; then pass; else fail "a small file system: $(cat got.out)"; fi
}

# Whether a process is there, and is no zombie.
lives() { [ -e "/proc/$1/stat" ] && [ "$(sed 's/.*) //; s/ .*//' "/proc/$1/stat" 2> /dev/null)" != Z ]; }

# The number of the program that the br $1 is waiting for, once there is one: $2 is a word of its command.
program_of() {
    local found
    for _ in $(seq 200); do
        for found in $(ps -o pid= --ppid "$1"); do
            # Before it is the program, it is a copy of Python; and br itself is first a shell with copies of itself.
            { tr '\0' '\n' < "/proc/$found/cmdline" > command; } 2> /dev/null || continue
            if grep -qx -- "$2" command && ! grep -Eq '/(br|front\.py)$' command; then
                echo "$found"
                return
            fi
        done
        sleep 0.05
    done
}

# A signal to br ends the program too, and br with it.
signal_rows() {
    local name waiter program status
    command -v ps > /dev/null || { skip 'signals: no ps'; return; }
    for name in TERM HUP INT KILL; do
        # A job of a script ignores INT, which env gives back where it can.
        python3 -c 'import os, signal, sys; signal.signal(signal.SIGINT, signal.SIG_DFL); os.execvp(sys.argv[1], sys.argv[1:])' \
            "$br" trace --steps 999999999999 "signal.$name" turn > /dev/null 2> got.err &
        waiter=$!
        program=$(program_of "$waiter" "signal.$name")
        if [ -z "$program" ]; then
            fail "$name: br has no child"
            kill -KILL "$waiter"
            continue
        fi
        kill "-$name" "$waiter"
        wait "$waiter" 2> /dev/null
        status=$?
        [ "$status" = $((128 + $(kill -l "$name"))) ] && pass || fail "$name: br ended with $status"
        # After KILL the system ends the program, which nobody waits for.
        for _ in $(seq 40); do lives "$program" || break; sleep 0.05; done
        if lives "$program"; then fail "$name: the program goes on"; kill -KILL "$program"; else pass; fi
        if [ "$name" = KILL ] || grep -q "ended by SIG$name" got.err; then pass; else fail "$name is not told: $(cat got.err)"; fi
        if [ -e "signal.$name" ]; then fail "$name: a trace was stored"; else pass; fi
    done
}

# Descriptors that words name.
descriptor_rows() {
    "$BINREC" show E T > listed 2> /dev/null
    "$br" show <(cat E) T > got.out 2> got.err
    judge 'an executable through a pipe' 0 '^shown [1-9]' $? got.err
    if cmp -s listed got.out; then pass; else fail 'an executable through a pipe: another listing'; fi
    "$br" show /dev/fd/3 /dev/fd/4 3< E 4< T > got.out 2> got.err
    judge 'descriptors by number' 0 '^shown [1-9]' $? got.err
    if cmp -s listed got.out; then pass; else fail 'descriptors by number: another listing'; fi
    "$br" run <(cat null) > got.out 2> got.err
    judge 'a fault of an executable through a pipe' 5 '^fault access 00000000 steps 2 undefined 0$' $? got.err
    if grep -q Traceback got.err; then fail "a fault through a pipe: $(cat got.err)"; else pass; fi
    printf 'add /dev/fd/7\nemit S\n' | "$br" session E 7< T > got.out 2> got.err
    judge 'a descriptor in a script' 0 '^lines 2$' $? got.err
}

# An output that cannot be written is told, with a status of its own and no trace of Python.
output_rows() {
    local words
    for words in "9 $br --help" "9 $br --version" "4 $here/fits E" "4 $here/fits --help" "4 $here/coverage E T" "4 $here/coverage --help" "4 $here/graph E T" "4 $here/graph --help" \
        "4 $here/info E" "4 $here/info E T notes" "4 $here/info --original otherN" "4 $here/info --help" "4 $here/where otherN 01000000 other" "4 $here/where otherN 0 other" "4 $here/where --help"; do
        set -- $words
        if [ "${2##*/}" != br ] && [ "${2##*/}" != graph ] && ! command -v objdump > /dev/null; then
            skip "a failing output of ${2##*/}: no objdump"
            continue
        fi
        "${@:2}" 2> got.err > /dev/full
        judge "a full output: ${2##*/} $3" "$1" "^${2##*/}: standard output cannot be written: No space left" $? got.err
        [ "$(wc -l < got.err)" = 1 ] && pass || fail "a full output: ${2##*/} $3: $(cat got.err)"
        "${@:2}" 2> got.err >&-
        judge "a closed output: ${2##*/} $3" "$1" "^${2##*/}: standard output is closed$" $? got.err
        { "${@:2}" 2> got.err; echo $? > status; } | true
        if grep -q Traceback got.err; then fail "an output without a reader: ${2##*/} $3: $(cat got.err)"; else pass; fi
        "${@:2}" > /dev/full 2>&-
        [ $? = "$1" ] && pass || fail "a full output and a closed error: ${2##*/} $3"
    done
    if command -v objdump > /dev/null; then
        "$br" info E 2> got.err > /dev/full
        judge 'a full output: br info' 4 '^info: standard output cannot be written: No space left' $? got.err
        "$br" where otherN 01000000 other 2> got.err >&-
        judge 'a closed output: br where' 4 '^where: standard output is closed$' $? got.err
    fi
    "$br" --where run null 2> got.err >&-
    judge 'where it faulted, with a closed output' 5 '^fault access' $? got.err
    if grep -q Traceback got.err; then fail "where it faulted, with a closed output: $(cat got.err)"; else pass; fi
    "$br" --where run null 2> got.err > /dev/null <&-
    judge 'where it faulted, with a closed input' 5 '^fault access' $? got.err
    if grep -q Traceback got.err; then fail "where it faulted, with a closed input: $(cat got.err)"; else pass; fi
    "$br" --where run null > /dev/null 2> /dev/full
    [ $? = 3 ] && pass || fail 'where it faulted, with a full error'
}

leave_rows() {
    told 'trace over a trace of it, replaced' 0 '^exit 0 steps 8 undefined 0 edges 1$' --replace trace T E
    cp otherN replacedN
    told 'build over a file of another executable, replaced' 0 '^built 0 5 ' --replace build replacedN E
    told 'build over a file of the same executable' 0 '^built 0 5 ' build replacedN E
    told 'trace to another name' 0 '^exit 0 steps 8 undefined 0 edges 1$' trace T3 E
    told 'merge that keeps what it stores under' 0 '^merged 1$' merge T E T T2
    : > free
    told 'over an empty file' 0 '^built 0 5 ' build free E
    told 'over a file that BinRec wrote' 0 '^built 0 5 ' build free E
    told 'over a device' 0 '^built 0 5 ' build /dev/null E
    told 'merge of no traces, forced' 0 '^merged 0$' --force merge new E
    cp notes replaced
    told 'over another file, forced' 0 '^built 0 5 ' --force build replaced E
}

mistake_rows() {
    told 'no words' 1 'word 0 is missing'
    told 'an unknown command' 1 'there is no command `frob`' frob E
    told 'a missing word' 1 'word 2 is missing' trace T
    told 'a demonstration without functions' 1 '`0` is no number from 1 to 1000' demo 0
    told 'a session with a further word' 1 'word 2 is one too many' session E F
    told 'an empty name' 1 'word 1 has 0 bytes' show ''
    told 'steps that are no number' 1 '`x` is no number of steps' run --steps x E
    told 'too many words' 1 'at most 256 words' run E $(seq 257)
    told 'an absent file' 3 'there is no file absent' show absent
    told 'a link to nothing' 3 'dangling is a link to a file that is not there' show dangling
    told 'a folder' 3 '\. is a folder' show .
    told 'a folder to store under' 3 '\. is a folder' build . E
    told 'a folder that is not there' 3 'there is no folder nowhere' build nowhere/N E
    told 'a folder of the kernel' 3 '/proc is made by the kernel, and takes no new files' build /proc/x E
    if grep -q full got.err; then fail "a folder of the kernel: $(cat got.err)"; else pass; fi
    told 'a 64-bit file' 2 'it is a 64-bit file' show /bin/sh
    echo 'a text that is longer than the fifty-two bytes of a header' > text
    told 'a text' 2 'it is a text' show text
    { head -c 16 E; printf '\3'; tail -c +18 E; } > pie
    told 'a position-independent executable' 2 'it is a position-independent executable' show pie
    { head -c 52 E; printf '\2'; tail -c +54 E; } > dynamic
    told 'a dynamic section' 2 'it has a dynamic section' show dynamic
    told 'a trace of another executable' 2 'the trace is of another executable' show E alien
    head -c 50 T > cut
    told 'a trace that is cut off' 2 'the trace is cut off' show E cut
    told 'an executable as a trace' 2 'the file is no trace of this version: it is an executable' show E E
    truncate -s 16777217 long
    told 'a file over the limit' 7 'at most 16777216 bytes' show long
    told 'steps that are used up' 6 'give more by --steps' run --steps 5 turn
    told 'flags that are undefined' 0 '1 steps read a flag' run undefined
    input=/
    told 'an input that is a folder' 3 'standard input is a folder' run reading
    input=
    "$br" run reading > /dev/null 2> got.err <&-
    judge 'an input that is closed' 3 'standard input is closed' $? got.err
    "$br" run E 2> got.err >&-
    judge 'an output that is closed' 3 'standard output is closed' $? got.err
    { "$br" run E 2> got.err; echo $? > status; } | true
    judge 'an output without a reader' 3 'standard output is a pipe whose reader ended' "$(cat status)" got.err
    "$br" run E > /dev/null 2> /dev/full
    [ $? = 3 ] && pass || fail 'a report that cannot be written'
    "$br" run E > /dev/null 2>&-
    [ $? = 3 ] && pass || fail 'a report that is closed'
    (ulimit -f 1 && "$br" build grown E 2> got.err)
    judge 'a limit on files' 3 'a file may have at most' $? got.err
}

permission_rows() {
    local name
    chmod 755 .
    cp E secret && chmod 600 secret
    mkdir closed && chmod 755 closed
    mkdir open && chmod 777 open && cp E open/kept && chmod 644 open/kept
    if [ "$(id -u)" = 0 ] && ! "${user[@]}" "$br" show E > /dev/null 2>&1; then
        skip 'permissions: nobody cannot run br here'
        return
    fi
    for name in 'show secret:may not be read' 'build closed/N E:closed may not be written'; do
        "${user[@]}" "$br" ${name%:*} > /dev/null 2> got.err
        judge "${name%:*} without permission" 3 "${name#*:}" $? got.err
    done
}

fault_rows() {
    told 'an access near 0' 5 'near address 0: a null pointer' run null
    told 'a write to code' 5 'in the segment at 08048000, which may not be written' run code
    told 'a division by zero' 5 'a division by 0.* at 08048056: f7f1 div' run divide
    told 'an instruction outside' 5 'no instruction of the subset at 08048054: 0fa2 cpuid' run outside
    if [ "$native_kind" = processor ] && command -v gdb > /dev/null; then
        told 'where it faulted' 5 '^br: step 2 at 08048059: a300000000 mov' --where run null
        if [ ! -s got.out ]; then pass; else fail 'where it faulted: an output'; fi
    else
        skip 'where it faulted: no gdb, or no 32-bit executables here'
    fi
}

# What goes through: words as they are, a prompt before its answer, the bytes before the report.
stream_rows() {
    local said
    executable words '8b5c2404 8b5c2408 0fb61b b801000000 cd80'
    told 'a word' 0 '^exit 65 steps 5' run words 'A *'
    # Writes "? " and LF, reads 1 byte, and exits with it.
    executable dialogue 'b804000000 bb01000000 b98b800408 ba02000000 cd80
        b803000000 bb00000000 8d4c24f0 ba01000000 cd80 0fb65c24f0 b801000000 cd80 3f20'
    mkfifo question answer
    # Opened both ways, so that neither end waits for the other.
    exec 5<> answer 6<> question
    "$br" run dialogue > question 2> got.err < answer 5>&- 6>&- &
    IFS= read -r -t 20 -n 2 said <&6
    if [ "$said" = '? ' ]; then pass; else fail "the prompt comes before its answer: '$said'"; fi
    printf 'A' >&5
    exec 5>&- 6<&-
    wait $!
    judge 'a dialogue' 0 '^exit 65 steps' $? got.err
    # Writes "exit 1" to descriptor 2 without a line feed, and exits: the report stands behind it.
    executable mixed 'b804000000 bb02000000 b976800408 ba06000000 cd80 b801000000 bb00000000 cd80 657869742031'
    told 'a text before the report' 0 '^exit 1exit 0 steps 8 undefined 0$' run mixed
    told 'help' 0 '' --help
    told 'the version' 0 '' --version
    if grep -q '^program .*SHA-256 [0-9a-f]\{64\}$' got.out; then pass; else fail "the version: $(cat got.out)"; fi
    BINREC=/nowhere "$br" --version > got.out 2> got.err
    judge 'a program that is not there' 127 'BINREC names /nowhere, and there is no such file' $? got.err
    BINREC=$PWD/notes "$br" --version > got.out 2> got.err
    judge 'a program that is none' 127 'BINREC names .*notes, which is no program' $? got.err
    BINREC=/nowhere "$here/graph" E T > got.out 2> got.err
    judge 'a program that is not there, of graph' 3 'BINREC names /nowhere, and there is no such file' $? got.err
}

ln -s nothing dangling
executable undefined 'f7e0 7400 b801000000 bb00000000 cd80'
executable reading 'b803000000 bb00000000 8d4c24f0 ba01000000 cd80 b801000000 cd80'
executable null 'b801000000 a300000000'
executable code 'a300800408'
executable divide '31c9 f7f1'
executable outside '0fa2'
executable zero 'b801000000 bb00000000 cd80'
chmod +x zero
find_native ./zero
loss_rows
source_rows
leave_rows
session_rows
end_rows
whole_rows
signal_rows
descriptor_rows
output_rows
mistake_rows
permission_rows
fault_rows
stream_rows
finish
