#!/usr/bin/env bash
# usage: test_stores.sh PROGRAM
# How the program stores a file: what is there already is kept or replaced as a whole, with its permissions. Prints each failure, and last 'N passed, M failed'.
set -u
[ $# = 1 ] || { sed -n 2,2p "$0" >&2; exit 2; }
here=$(cd "$(dirname "$0")" && pwd)
. "$here/lib.sh"
enter_folder "$1"
hi="b804000000 bb01000000 b976800408 ba03000000 cd80 b801000000 bb00000000 cd80 68690a"
executable E "$hi"
executable second "$hi 90"
"${tool[0]}" build whole E 2> /dev/null

# NAME CONDITION..: the words are a test.
holds() {
    local name=$1
    shift
    if "$@"; then pass; else fail "$name"; fi
}
# NAME STATUS WORD..: the program ends with the status.
ends() {
    local name=$1 wanted=$2
    shift 2
    "${tool[0]}" "$@" > got.out 2> got.err < /dev/null
    local status=$?
    [ "$status" = "$wanted" ] && pass || fail "$name: status $status, wanted $wanted: $(cat got.err)"
}
same() { cmp -s "$1" "$2"; }
mode() { stat -c %a "$1"; }
parts() { ls | grep -c '\.part'; }

new_rows() {
    ends 'a new file' 0 build N E
    holds 'a new file has the permissions that the system gives' [ "$(mode N)" = "$(printf %o $((0666 & ~$(umask))))" ]
    holds 'no part is left' [ "$(parts)" = 0 ]
}

mode_rows() {
    local given
    for given in 644 600 755 640; do
        echo old > kept && chmod "$given" kept
        ends "over a file of mode $given" 0 build kept E
        holds "the mode $given is kept: $(mode kept)" [ "$(mode kept)" = "$given" ]
        holds "the content of mode $given" same kept whole
    done
    echo old > special && chmod 6755 special
    ends 'over a file that sets its user' 0 build special E
    holds "only nine bits are kept: $(mode special)" [ "$(mode special)" = 755 ]
    if [ "$(id -u)" = 0 ]; then
        echo old > foreign && chown 65534:65534 foreign && chmod 4755 foreign
        ends 'over a file of another owner' 0 build foreign E
        holds "the permissions of another owner are not taken over: $(mode foreign)" [ "$(mode foreign)" = "$(printf %o $((0666 & ~$(umask))))" ]
    else
        skip 'a file of another owner: not root'
    fi
}

# Parts of the process with the number $1, from $2 to $3.
left_parts() {
    local k
    for k in $(seq "$2" "$3"); do echo stale > "N.part-$1-$k"; done
}

# In a process whose number is known before: stores N where the parts from $1 to $2 of this very process are there already.
stores_beside() {
    (
        trap '' XFSZ
        left_parts "$BASHPID" "$1" "$2"
        [ -z "${3-}" ] || ulimit -f "$3"
        exec "${tool[0]}" build N E
    ) > got.out 2> got.err
}

# What was left by a store that was killed hinders nothing and is not touched. Where no part can be had, the old file stays.
stale_rows() {
    local status
    rm -f N*
    echo old > N
    for k in '' 1 2 3 4 5 6 7 8 9; do echo stale > "N.part$k"; done
    stores_beside 0 2
    holds "beside parts that were left: $(cat got.err)" same N whole
    holds 'parts that were left stay' [ "$(cat N.part* | tr -d '\0' | sort -u)" = stale ]
    holds 'no further part' [ "$(parts)" = 13 ]
    rm -f N*
    echo old > N
    stores_beside 0 98
    holds "beside all parts but one: $(cat got.err)" same N whole
    holds 'no further part beside all but one' [ "$(parts)" = 99 ]
    rm -f N*
    echo old > N
    stores_beside 0 99
    status=$?
    holds "where all parts are taken: status $status, $(cat got.err)" [ "$status $(cat got.err)" = '3 outside shelf' ]
    holds 'where all parts are taken the old file stays' grep -qx old N
    holds 'where all parts are taken none is touched' [ "$(parts) $(cat N.part* | tr -d '\0' | sort -u)" = '100 stale' ]
    rm -f N*
}

# A store that is killed at any time leaves the old file or the new one, whole, also beside what the kills before it left.
kill_rows() {
    local k pause old=0 new=0 other=0
    rm -f N*
    "${tool[0]}" build oldN second 2> /dev/null
    for k in $(seq 300); do
        cp oldN N
        "${tool[0]}" build N E > /dev/null 2>&1 &
        # From no time at all to longer than a store takes.
        pause=$((k % 30 * 4 / 10))
        [ "$pause" = 0 ] || sleep "0.00$pause"
        { kill -KILL $! && wait $!; } 2> /dev/null
        if same N oldN; then old=$((old + 1)); elif same N whole; then new=$((new + 1)); else other=$((other + 1)); fi
    done
    holds "after 300 kills the old file or the new one: $old old, $new new, $other others" [ "$other" = 0 ]
    holds "kills before and behind the store: $old old, $new new" [ "$old" -gt 0 ]
    holds 'a store after 300 kills' "${tool[0]}" build N E 2> got.err
    holds "the new content after 300 kills: $(cat got.err)" same N whole
    rm -f N*
}

# A limit on the size of files stands for a full disk: the old content stays, also beside many parts that were left.
full_rows() {
    local left
    for left in 0 31; do
        rm -f N*
        cp E N
        if [ "$left" = 0 ]; then
            stores_beside 1 0 4
        else
            for k in '' 1 2 3 4 5 6 7 8 9; do echo stale > "N.part$k"; done
            stores_beside 0 20 4
        fi
        holds "a full disk, $left parts: $(cat got.err)" [ "$(cat got.err)" = 'outside shelf' ]
        holds "the old content stays on a full disk, $left parts" same N E
        holds "no part is added on a full disk beside $left" [ "$(parts)" = "$left" ]
    done
    rm -f N*
    ends 'a full device' 3 build /dev/full E
    ends 'a device' 0 build /dev/null E
}

# A file system that has no room for a second file, or no number for one: the old content stays.
small_rows() {
    local row status
    if ! unshare -m true 2> /dev/null; then
        skip 'small file systems: unshare -m is not allowed, or is not there'
        return
    fi
    mkdir -p small
    for row in size=12k nr_inodes=2; do
        unshare -m sh -c 'mount -t tmpfs -o "$1" small small && cp E small/N && "$0" build small/N E; status=$?; cmp small/N E && ls -A small && exit $status' \
            "${tool[0]}" "$row" > got.out 2> got.err
        status=$?
        holds "a file system of $row: $(cat got.out got.err)" [ "$status $(cat got.err) $(cat got.out)" = '3 outside shelf N' ]
    done
}

link_rows() {
    echo old > target
    ln -sf target link
    ends 'through a link' 0 build link E
    holds 'a link stays a link' [ -L link ]
    holds 'the file that a link leads to is written' same target whole
    echo old > one
    ln -f one two
    ends 'over one of two names of a file' 0 build one E
    holds 'the other name keeps the old file' [ "$(cat two)" = old ]
}

# A folder that lets nobody rename another user's file, and one that takes no new file: written in place.
folder_rows() {
    local user=(setpriv --reuid 65534 --regid 65534 --clear-groups)
    chmod 755 .
    if [ "$(id -u)" != 0 ] || ! "${user[@]}" "${tool[0]}" show E > /dev/null 2>&1; then
        skip 'sticky and closed folders: not root, or nobody cannot run the program'
        return
    fi
    mkdir sticky closed && chmod 1777 sticky && chmod 755 closed
    for folder_of in sticky closed; do
        echo old > $folder_of/N && chmod 666 $folder_of/N
        "${user[@]}" "${tool[0]}" build $folder_of/N E 2> got.err
        holds "in a $folder_of folder: $(cat got.err)" same $folder_of/N whole
        holds "the owner stays in a $folder_of folder" [ "$(stat -c %u $folder_of/N)" = 0 ]
        holds "no part in a $folder_of folder" [ "$(ls $folder_of)" = N ]
    done
}

# The output is a pipe whose reader ended; the other streams are told.
stream_rows() {
    executable many "be00800408 b804000000 bb01000000 b900800408 ba54000000 cd80 4e75e7 b801000000 bb00000000 cd80"
    { "${tool[0]}" run --steps 100000 many 2> got.err; echo $? > status; } | head -c 10 > /dev/null
    holds "a pipe whose reader ended: $(cat status) $(cat got.err)" [ "$(cat status) $(cat got.err)" = '3 outside output' ]
}

new_rows
mode_rows
stale_rows
full_rows
small_rows
kill_rows
link_rows
folder_rows
stream_rows
finish
