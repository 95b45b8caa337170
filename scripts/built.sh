# shellcheck shell=bash
# What the program of today has. Raise these when more is built: a command that stands here and is missing from the program fails the checks,
# and one that does not stand here is said to wait.
#   build0 is `build N E` without traces, build the same with traces; the words are those of ../shared/check/compare.py, as the stage is.
built_stage=registers
built_commands=build0,run,trace,merge,show,build,demo,session,asm

# Whether a command is built.
is_built() { [[ ,$built_commands, == *",$1,"* ]]; }
waits() { printf 'waits: %s\n' "$*"; }
