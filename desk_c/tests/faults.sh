# System calls that fail while a file is written: the present file stays, and nothing else is left.
# shellcheck shell=sh

mkdir faulty
"$desk" build a.plan a.built

# Runs the command with a fault: with_fault FAULT
with_fault() {
    DESK_FAULT=$1 "$faults" "$faulty_command" "$faulty_source" faulty/new
}

# Tests that the file is the one before, and the only one: still_old AFTER
still_old() {
    verdict "$faulty_command: the file is untouched by $1" cmp -s "$faulty_old" faulty/new
    verdict "$faulty_command: nothing is left by $1" holds faulty new
}

# Tests that the file is the right one, and the only one, and puts the one before in its place: is_right AFTER
is_right() {
    verdict "$faulty_command: the file is right after $1" cmp -s "$faulty_right" faulty/new
    verdict "$faulty_command: nothing is left after $1" holds faulty new
    cp "$faulty_old" faulty/new
}

# Tests that a fault is trouble and changes nothing: fault FAULT MESSAGE
fault() {
    expect "$faulty_command: fault $1" 2 '' "desk: cannot $2" with_fault "$1"
    still_old "the fault $1"
}

# Tests that a fault does no harm: no_fault FAULT
no_fault() {
    quiet "$faulty_command: harmless $1" with_fault "$1"
    is_right "$1"
}

# With all standard files closed, no other file gets their numbers.
closed_files() {
    with_fault none <&- >&- 2>&-
}

# A signal during the work ends the program after it, with 128 + SIGTERM; the shell's own message is dropped.
ended() {
    (with_fault signal) 2>/dev/null
}

# Tests a command that writes RIGHT where OLD is, with every fault: each_fault COMMAND SOURCE OLD RIGHT
each_fault() {
    faulty_command=$1 faulty_source=$2 faulty_old=$3 faulty_right=$4
    cp "$faulty_old" faulty/new
    fault names 'create a temporary file beside faulty/new: File exists'
    fault fchmod 'write faulty/new: Operation not permitted'
    fault write 'write faulty/new: No space left on device'
    fault 'second write' 'write faulty/new: No space left on device'
    fault 'write nothing' 'write faulty/new: No space left on device'
    fault fsync 'write faulty/new: Input/output error'
    fault close 'write faulty/new: Input/output error'
    fault renameat 'write faulty/new: Permission denied'
    no_fault none
    no_fault pieces
    no_fault 'three names'
    no_fault 'fsync directory unsupported'
    quiet "$faulty_command: closed files keep their numbers" closed_files
    is_right 'closed files'
    expect "$faulty_command: a signal during the work" 143 '' '' ended
    is_right 'the signal'
    expect "$faulty_command: fault fsync directory" 2 '' \
        'desk: cannot sync the directory of the new faulty/new: Input/output error' with_fault 'fsync directory'
    is_right 'the fault fsync directory, all the same'
}

each_fault build a.plan zero.right a.built
each_fault write a.txt zero.plan a.plan
