# Helpers of the tests. They count in passed, failed and skipped, and work in the present folder.
# shellcheck shell=sh

passed=0 failed=0 skipped=0

# Writes a file of the bytes given in hexadecimal: hex FILE BYTE...
hex() {
    hex_file=$1 hex_list=
    shift
    for hex_byte in "$@"; do hex_list="$hex_list 0x$hex_byte"; done
    # The list is split into words on purpose, and its text is the format on purpose.
    # shellcheck disable=SC2059,SC2086
    if [ $# -eq 0 ]; then : >"$hex_file"; else printf "$(printf '\\%03o' $hex_list)" >"$hex_file"; fi
}

# Copies a file with one byte changed: patch FROM TO OFFSET BYTE
patch() {
    cp "$1" "$2"
    hex patch.byte "$4"
    dd if=patch.byte of="$2" bs=1 seek="$3" conv=notrunc 2>/dev/null
}

# Prints a character many times: repeat CHARACTER COUNT
repeat() {
    head -c "$2" /dev/zero | tr '\0' "$1"
}

# Tells whether a file holds this text and a line feed, or nothing if the text is empty.
same_text() {
    if [ -z "$2" ]; then [ ! -s "$1" ]; else printf '%s\n' "$2" | cmp -s - "$1"; fi
}

# Counts a test by the status of the command that tests it: verdict NAME COMMAND...
verdict() {
    verdict_name=$1
    shift
    if "$@"; then
        passed=$((passed + 1))
    else
        failed=$((failed + 1))
        echo "FAILED: $verdict_name ($desk)"
    fi
}

# Says that a test cannot be run here.
skip() {
    skipped=$((skipped + 1))
    echo "skipped: $1"
}

# Tells whether the last run had this exit status, output and messages; shows them if not.
as_expected() {
    [ "$got" = "$1" ] && same_text got.out "$2" && same_text got.err "$3" && return 0
    echo "exit status $got; output, then messages:"
    cat got.out got.err
    return 1
}

# Runs a command and tests its exit status, output and messages: expect NAME STATUS OUTPUT MESSAGES COMMAND...
expect() {
    expect_name=$1 expect_status=$2 expect_out=$3 expect_err=$4
    shift 4
    "$@" >got.out 2>got.err </dev/null
    got=$?
    verdict "$expect_name" as_expected "$expect_status" "$expect_out" "$expect_err"
}

# Tests that a command is done without a word: quiet NAME COMMAND...
quiet() {
    quiet_name=$1
    shift
    expect "$quiet_name" 0 '' '' "$@"
}

# Tells whether show ends with the words of a refusal, and with its exit status: shows_refusal PLAN WORDS
shows_refusal() {
    "$desk" show "$1" >got.out 2>got.err
    [ $? -eq 1 ] && [ ! -s got.err ] && [ "$(tail -n 2 got.out)" = "$2" ]
}

# Tests that explain, build and show refuse a plan alike, and that build writes nothing: refused_plan NAME WORDS BYTE...
refused_plan() {
    refused_name=$1 refused_words=$2
    shift 2
    hex bad.plan "$@"
    expect "explain: $refused_name" 1 "$refused_words" '' "$desk" explain bad.plan
    expect "build: $refused_name" 1 "$refused_words" '' "$desk" build bad.plan bad.sheet
    verdict "no sheet: $refused_name" test ! -e bad.sheet
    verdict "show: $refused_name" shows_refusal bad.plan "$refused_words"
}

# Tests that check, explain and page refuse a sheet alike: refused_sheet NAME WORDS PLAN SHEET
refused_sheet() {
    expect "check: $1" 1 "$2" '' "$desk" check "$3" "$4"
    expect "explain: $1" 1 "$2" '' "$desk" explain "$3" "$4"
    expect "page: $1" 1 '' "$2" "$desk" page "$3" "$4" 0
}

# Tells whether a folder holds these files and no others, in the order of their names: holds FOLDER NAME...
holds() {
    holds_folder=$1
    shift
    [ "$(ls -A "$holds_folder")" = "$(printf '%s\n' "$@")" ]
}

# Runs a command where no file may have a byte; prints its messages and its status: limited COMMAND...
limited() {
    { (ulimit -f 0 && "$desk" "$@" 2>&1; echo "status $?"); } | cat
}

# Runs a command on a full disk of 64 KB with OLD as FOLDER/new; prints what became of it: on_full_disk FOLDER OLD COMMAND SOURCE
# shellcheck disable=SC2016
on_full_disk() {
    unshare -rm sh -c '
        mount -t tmpfs -o size=64k tmpfs "$2" && cp "$3" "$2/new" || exit
        dd if=/dev/zero of="$2/filler" bs=1024 2>/dev/null
        "$1" "$4" "$5" "$2/new"
        echo "status $?"
        cmp "$3" "$2/new"
        ls -A "$2"' sh "$desk" "$@"
}

# Tests that a full disk is trouble and that the file on it stays, where a disk can be mounted: full_disk FOLDER OLD COMMAND SOURCE
full_disk() {
    mkdir mount.try
    if unshare -rm mount -t tmpfs -o size=64k tmpfs mount.try 2>/dev/null; then
        expect "a full disk: $3" 0 'status 2
filler
new' "desk: cannot write $1/new: No space left on device" on_full_disk "$@"
    else
        skip "a full disk, $3: no disk can be mounted here"
    fi
    rmdir mount.try
}

# Runs a command eight times at once: eight COMMAND...
eight() {
    for eight_run in 1 2 3 4 5 6 7 8; do
        "$desk" "$@" &
    done
    wait
}

# Prints the message for a result that cannot be written in this way: missed_result WAY
missed_result() {
    case $1 in
    to_full) echo 'desk: cannot write the result: No space left on device' ;;
    to_closed) echo 'desk: cannot write the result: Bad file descriptor' ;;
    *) echo 'desk: cannot write the result: Broken pipe' ;;
    esac
}
