# Sheets are written whole or not at all, and results are written or missed aloud.
# shellcheck shell=sh

mkdir out
quiet 'a new sheet' "$desk" build a.plan out/new
expect 'the new sheet is accepted' 0 ACCEPTED '' "$desk" check a.plan out/new
verdict 'the new sheet is alone' holds out new
hex zero.right 11 00 01 00 13 00 00 00 00 00 00 00 00 14 00 00 00 00 00 00 00 00 00 00 16
quiet 'a sheet without instruments' "$desk" build zero.plan out/zero
verdict 'the one right sheet without instruments' cmp -s zero.right out/zero

# A present file is replaced at once: whoever has it open still reads the old one.
quiet 'a sheet over another' "$desk" build zero.plan out/new
verdict 'the sheet was replaced' cmp -s zero.right out/new
exec 5<out/new
quiet 'a sheet over an open one' "$desk" build a.plan out/new
verdict 'the old sheet was not written to' cmp -s zero.right - <&5
exec 5<&-
expect 'the sheet in its place is accepted' 0 ACCEPTED '' "$desk" check a.plan out/new
chmod 640 out/new
quiet 'a sheet over one with permissions' "$desk" build zero.plan out/new
verdict 'permissions are kept' test "$(find out/new -perm 640)" = out/new
private_umask() {
    (umask 077 && "$desk" build zero.plan out/private)
}
quiet 'a new sheet under a umask' private_umask
verdict 'the umask is obeyed' test "$(find out/private -perm 600)" = out/private
verdict 'nothing else is left' holds out new private zero

# A refused plan leaves the present sheet as it was.
hex bad.plan 01 01
expect 'a refused plan over a sheet' 1 'REFUSED 2 0
Command 1 of the plan, START at byte 0 (01 01), is cut short; it takes 2 operands, and the file ends after 1.' '' \
    "$desk" build bad.plan out/new
verdict 'the sheet is untouched after a refusal' cmp -s zero.right out/new
verdict 'nothing is left after a refusal' holds out new private zero

# The sheet's name: with a folder, from the root, as long as names go.
quiet 'a sheet by its full path' "$desk" build a.plan "$work/out/full"
expect 'the sheet by its full path is accepted' 0 ACCEPTED '' "$desk" check a.plan "$work/out/full"
long=$(printf '%0255d' 0)
quiet 'a sheet with the longest name' "$desk" build a.plan "out/$long"
verdict 'the longest name is there' test -f "out/$long"
rm "out/$long" out/full
expect 'a name too long' 2 '' "desk: cannot write out/0$long: File name too long" "$desk" build a.plan "out/0$long"
path=$(printf '%05000d' 0)
expect 'a folder too long' 2 '' "desk: cannot open the directory of $path/new: File name too long" \
    "$desk" build a.plan "$path/new"
from_input() {
    "$desk" "$@" <a.plan
}
quiet 'a plan from standard input' from_input build - out/input
expect 'its sheet is accepted' 0 ACCEPTED '' "$desk" check a.plan out/input
rm out/input

# Places that cannot be written to.
expect 'a folder as the sheet' 2 '' 'desk: cannot write out: It is not a regular file' "$desk" build a.plan out
expect 'a path that ends in a slash' 2 '' 'desk: cannot write out/: The path ends without the name of a file' \
    "$desk" build a.plan out/
expect 'an empty path' 2 '' 'desk: cannot write the sheet: The path ends without the name of a file' \
    "$desk" build a.plan ''
expect 'a missing folder' 2 '' 'desk: cannot open the directory of missing/new: No such file or directory' \
    "$desk" build a.plan missing/new
expect 'a file as the folder' 2 '' 'desk: cannot open the directory of a.plan/new: Not a directory' \
    "$desk" build a.plan a.plan/new
expect 'a device as the sheet' 2 '' 'desk: cannot write /dev/full: It is not a regular file' \
    "$desk" build a.plan /dev/full
verdict 'the device is still there' test -c /dev/full
ln -s zero out/link
expect 'a symbolic link as the sheet' 2 '' 'desk: cannot write out/link: It is a symbolic link; name the file itself' \
    "$desk" build a.plan out/link
verdict 'the link is still there' test -L out/link
verdict 'the file behind the link is untouched' cmp -s zero.right out/zero
rm out/link
cp a.plan out/plan
ln out/plan out/same
# The plan is read and then named as the sheet on purpose.
# shellcheck disable=SC2094
own_input() {
    "$desk" build - out/plan <out/plan
}
own='It is the plan'\''s own file'
expect 'the plan as the sheet' 2 '' "desk: cannot write out/plan: $own" "$desk" build out/plan out/plan
expect 'the plan as the sheet by another path' 2 '' "desk: cannot write out/../out/plan: $own" \
    "$desk" build out/plan out/../out/plan
expect 'the plan as the sheet by another name' 2 '' "desk: cannot write out/same: $own" "$desk" build out/plan out/same
expect 'the plan on standard input as the sheet' 2 '' "desk: cannot write out/plan: $own" own_input
verdict 'the plan is untouched' cmp -s a.plan out/plan
rm out/plan out/same
verdict 'nothing is left after trouble' holds out new private zero

# Full disks: a limit on file sizes, which every user may set, and where it is allowed a small disk of our own.
expect 'a new sheet above the limit' 0 'desk: cannot write out/limited: File too large
status 2' '' limited build a.plan out/limited
expect 'a present sheet above the limit' 0 'desk: cannot write out/new: File too large
status 2' '' limited build a.plan out/new
verdict 'the sheet is untouched at the limit' cmp -s zero.right out/new
verdict 'nothing is left at the limit' holds out new private zero

full_disk out zero.right build a.plan

# Many at once: one of them wins, whole.
quiet 'eight builds at once' eight build a.plan out/many
expect 'their sheet is accepted' 0 ACCEPTED '' "$desk" check a.plan out/many
rm out/many
verdict 'nothing is left after many' holds out new private zero

# Results that cannot be written.
to_full() {
    "$desk" "$@" >/dev/full
}
to_closed() {
    "$desk" "$@" >&-
}
mkfifo pipe
# A pipe that nobody reads any more: its reader is there only until it is open.
# shellcheck disable=SC2094
to_broken_pipe() {
    exec 6<>pipe 7>pipe 6<&-
    "$desk" "$@" >&7
    broken_status=$?
    exec 7>&-
    return $broken_status
}
for way in to_full to_closed to_broken_pipe; do
    missed=$(missed_result $way)
    expect "help $way" 2 '' "$missed" $way --help
    expect "check $way" 2 '' "$missed" $way check a.plan a.sheet
    expect "refused check $way" 2 '' "$missed" $way check a.plan empty
    expect "page $way" 2 '' "$missed" $way page a.plan a.sheet 0
    expect "explain $way" 2 '' "$missed" $way explain a.plan
    expect "refused build $way" 2 '' "$missed" $way build bad.plan out/new
    verdict "the sheet is untouched $way" cmp -s zero.right out/new
    quiet "build has no result $way" $way build a.plan out/quiet
    expect "its sheet is accepted $way" 0 ACCEPTED '' "$desk" check a.plan out/quiet
done

# With all standard files closed no message gets into the sheet.
all_closed() {
    "$desk" "$@" <&- >&- 2>&-
}
quiet 'build with closed files' all_closed build zero.plan out/quiet
verdict 'its sheet is right' cmp -s zero.right out/quiet
expect 'trouble with closed files' 2 '' '' all_closed build missing out/quiet
verdict 'the sheet is untouched with closed files' cmp -s zero.right out/quiet
rm out/quiet
verdict 'nothing is left at the end' holds out new private zero
