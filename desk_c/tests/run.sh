#!/bin/sh
# Runs the tests: run.sh FOLDER, where FOLDER holds the programs desk, desk_checked, desk_faults, words, list, calls,
# random, answers and text.
# The last line counts the tests; the exit status is 0 if none failed.
set -u
LC_ALL=C
export LC_ALL
umask 022

start=$PWD

# Prints a path that does not depend on the present folder.
absolute() {
    case $1 in
    /*) echo "$1" ;;
    *) echo "$start/$1" ;;
    esac
}

tests=$(absolute "$(dirname "$0")")
built=$(absolute "$1")
words=$built/words list=$built/list calls=$built/calls random=$built/random answers=$built/answers text=$built/text
faults=$built/desk_faults

top=${TMPDIR:-/tmp}/desk-test-$$
mkdir "$top" || exit 2
trap 'chmod -R u+rwx "$top"; rm -rf "$top"' EXIT
trap 'exit 2' HUP INT TERM

. "$tests/lib.sh"
. "$tests/samples.sh"

# The program with and the one without sanitizers are tested alike, each in a folder of its own.
for program in desk desk_checked; do
    desk=$built/$program
    work=$top/$program
    mkdir "$work" && cd "$work" || exit 2
    write_samples
    for group in plans sheets away days glue listings arguments reading writing permissions texts writes shows rounds; do
        . "$tests/$group.sh"
    done
done
. "$tests/words.sh"
. "$tests/list.sh"
. "$tests/calls.sh"
. "$tests/random.sh"
. "$tests/faults.sh"

[ "$skipped" -eq 0 ] || echo "$skipped skipped"
echo "$passed passed, $failed failed"
[ "$failed" -eq 0 ]
