# shellcheck shell=bash
# What the checks share: counting, what must be built, and whether and how this machine runs a 32-bit executable.
. "$(dirname "${BASH_SOURCE[0]}")/built.sh"
passed=0
failed=0

pass() { passed=$((passed + 1)); }
fail() {
    failed=$((failed + 1))
    printf 'FAIL %s\n' "$*"
}
skip() { printf 'skipped: %s\n' "$*"; }

# The last line of a check, and its status.
finish() {
    printf '%s passed, %s failed\n' "$passed" "$failed"
    [ "$failed" = 0 ]
}

# Sets `native` to the words before a 32-bit executable, and `native_kind` to what that is:
# `processor` (no words), `emulator` (qemu-i386), or `none`. $1 is an executable that exits with 0 given no arguments.
find_native() {
    native=()
    native_kind=none
    if "$1" < /dev/null > /dev/null 2>&1; then
        native_kind=processor
    elif command -v qemu-i386 > /dev/null && qemu-i386 "$1" < /dev/null > /dev/null 2>&1; then
        native=(qemu-i386)
        native_kind=emulator
    fi
}

# Runs the words with $input as standard input into the files $got.out and $got.err; `status` is a number, or
# `fault KIND` for the three signals that stand for the faults of the machine.
run_natively() {
    { timeout 60 "$@" < "$input" > "$got.out" 2> "$got.err"; } 2> /dev/null
    status=$?
    case $status in
        132) status='fault illegal' ;;
        136) status='fault divide' ;;
        139) status='fault access' ;;
    esac
}

# Passes where the status is the wanted one and a line of the file matches: NAME WANTED PATTERN STATUS FILE.
# Without a pattern the status alone decides.
judge() {
    if [ "$4" != "$2" ]; then
        fail "$1: status $4, wanted $2: $(cat "$5")"
    elif [ -n "$3" ] && ! grep -Eq -- "$3" "$5"; then
        fail "$1: no line '$3': $(cat "$5")"
    else
        pass
    fi
}

# Hexadecimal digits, blanks between them ignored, as bytes on standard output.
bytes() { printf "$(tr -d ' \n' <<< "$*" | sed 's/../\\x&/g')"; }

# A number as the four bytes of a little-endian word, in hexadecimal.
word() { printf '%02x%02x%02x%02x' $(($1 & 255)) $(($1 >> 8 & 255)) $(($1 >> 16 & 255)) $(($1 >> 24 & 255)); }

# An executable of one segment that is the file itself, with the code after the headers: FILE CODE [ADDRESS] [FLAGS].
executable() {
    local code start=${3:-0x08048000} flags=${4:-5} size
    code=$(tr -d ' \n' <<< "$2")
    size=$((84 + ${#code} / 2))
    bytes "7f454c46 01010100 00000000 00000000 02000300 01000000 $(word $((start + 84))) 34000000 00000000 00000000
        34002000 01000000 00000000 01000000 00000000 $(word $((start))) $(word $((start))) $(word $size) $(word $size)
        $(word "$flags") 00100000 $code" > "$1"
}

# Whether the recompiler `tool` has the command: without words it refuses an unknown one at position 0.
knows() {
    "${tool[@]}" "$1" < /dev/null > /dev/null 2> usage
    [ "$(cat usage)" != 'usage 0' ]
}

# Whether `build` takes traces: it does not where it refuses the first one at its position.
knows_build_with_traces() { [ "$("${tool[@]}" build no-file no-file no-file 2>&1 < /dev/null)" != 'usage 3' ] && knows build; }

# Whether the checks of a command are to be made. A command that is built must be there; one that is not built yet is checked where it is
# there all the same, and else said to wait.
expects() {
    local found=0
    case $1 in
        build0) knows build || found=1 ;;
        build) knows_build_with_traces || found=1 ;;
        *) knows "$1" || found=1 ;;
    esac
    if [ "$found" = 0 ]; then
        return 0
    elif is_built "$1"; then
        fail "the program has no command $1, which is built"
    else
        waits "checks of $1: it is not built yet"
    fi
    return 1
}

# Takes PROGRAM [WORD..] as the recompiler `tool`, and goes to a `folder` of its own, which is removed at the end.
enter_folder() {
    tool=("$@")
    tool[0]=$(realpath "$(command -v "$1" || echo "$1")")
    [ -x "${tool[0]}" ] || { echo "$(basename "$0"): $1 is no program" >&2; exit 2; }
    folder=$(mktemp -d) || exit 2
    trap 'rm -rf "$folder"' EXIT
    cd "$folder" || exit 2
    got=$folder/got
}
