# Plans are written whole or not at all, as sheets are; texts that cannot be read.
# shellcheck shell=sh

mkdir plans
"$desk" show a.plan >a.txt
"$desk" show zero.plan >zero.txt
quiet 'a new plan' "$desk" write a.txt plans/new
verdict 'the new plan is right' cmp -s a.plan plans/new
verdict 'the new plan is alone' holds plans new

# A present file is replaced at once: whoever has it open still reads the old one.
exec 5<plans/new
quiet 'a plan over an open one' "$desk" write zero.txt plans/new
verdict 'the old plan was not written to' cmp -s a.plan - <&5
exec 5<&-
verdict 'the plan was replaced' cmp -s zero.plan plans/new
chmod 640 plans/new
quiet 'a plan over one with permissions' "$desk" write a.txt plans/new
verdict 'permissions of the plan are kept' test "$(find plans/new -perm 640)" = plans/new
cp zero.plan plans/new

# Texts from standard input, also in pieces.
text_input() {
    "$desk" write - "$1" <a.txt
}
text_pieces() {
    { dd bs=5 count=1 2>/dev/null && sleep 1 && cat; } <a.txt | "$desk" write - "$1"
}
for way in text_input text_pieces; do
    quiet "$way" $way plans/input
    verdict "the plan of $way" cmp -s a.plan plans/input
    rm plans/input
done
closed_text() {
    "$desk" write - plans/new <&-
}
folder_text() {
    "$desk" write - plans/new <folder
}
expect 'closed standard input: write' 2 '' 'desk: cannot read standard input: Bad file descriptor' closed_text
expect 'folder as standard input: write' 2 '' 'desk: cannot read standard input: Is a directory' folder_text
expect 'empty standard input: write' 1 'REFUSED 1 0
The plan is empty; command 1, at byte 0, has to be START (01).
The text has no commands.' '' "$desk" write - plans/new

# Tests a text that cannot be read: bad_text NAME PATH MESSAGE
bad_text() {
    expect "write: $1" 2 '' "desk: $3" "$desk" write "$2" plans/new
}
bad_text 'missing text' missing 'cannot open missing: No such file or directory'
bad_text 'text in a missing folder' missing/text 'cannot open missing/text: No such file or directory'
bad_text 'text is a folder' folder 'cannot read folder: Is a directory'
bad_text 'text below a file' a.txt/text 'cannot open a.txt/text: Not a directory'
bad_text 'an empty path' '' 'cannot open : No such file or directory'
if [ -r /proc/self/mem ]; then
    bad_text 'text with a read error' /proc/self/mem 'cannot read /proc/self/mem: Input/output error'
else
    skip 'read errors: there is no /proc/self/mem'
fi
expect 'a plan as the text' 2 '' "desk: line 1: expected a command, found '\\x01\\x01\\x02\\x03\\x02\\x06\\x00\\x01\\x02\\x06\\x01\\x01\\x02\\x02\\x01\\x04\\x00\\x01\\x05\\x01\\x00\\x07'; $names" \
    "$desk" write a.plan plans/new
verdict 'the plan is untouched after trouble with texts' cmp -s zero.plan plans/new
verdict 'nothing is left after trouble with texts' holds plans new

# Places that cannot be written to.
# Tests one: bad_place NAME PATH MESSAGE
bad_place() {
    expect "write to $1" 2 '' "desk: $3" "$desk" write a.txt "$2"
}
bad_place 'a folder' plans 'cannot write plans: It is not a regular file'
bad_place 'a path that ends in a slash' plans/ 'cannot write plans/: The path ends without the name of a file'
bad_place 'an empty path' '' 'cannot write the plan: The path ends without the name of a file'
bad_place 'a missing folder' missing/new 'cannot open the directory of missing/new: No such file or directory'
bad_place 'a file as the folder' a.plan/new 'cannot open the directory of a.plan/new: Not a directory'
bad_place 'a device' /dev/full 'cannot write /dev/full: It is not a regular file'
verdict 'the device is still there: write' test -c /dev/full
ln -s new plans/link
bad_place 'a symbolic link' plans/link 'cannot write plans/link: It is a symbolic link; name the file itself'
verdict 'the link is still there: write' test -L plans/link
rm plans/link
mkfifo plans/pipe
bad_place 'a pipe' plans/pipe 'cannot write plans/pipe: It is not a regular file'
rm plans/pipe
cp a.txt plans/text
ln plans/text plans/same
own='It is the text'\''s own file'
# The text is read and then named as the plan on purpose.
# shellcheck disable=SC2094
own_text() {
    "$desk" write - plans/text <plans/text
}
expect 'the text as the plan' 2 '' "desk: cannot write plans/text: $own" "$desk" write plans/text plans/text
expect 'the text as the plan by another path' 2 '' "desk: cannot write plans/../plans/text: $own" \
    "$desk" write plans/text plans/../plans/text
expect 'the text as the plan by another name' 2 '' "desk: cannot write plans/same: $own" "$desk" write plans/text plans/same
expect 'the text on standard input as the plan' 2 '' "desk: cannot write plans/text: $own" own_text
verdict 'the text is untouched' cmp -s a.txt plans/text
# Refusals and trouble with a line come before the place is looked at.
expect 'a refused text over itself' 1 'REFUSED 1 0
The plan is empty; command 1, at byte 0, has to be START (01).
The text has no commands.' '' "$desk" write empty empty
verdict 'the refused text is untouched' test ! -s empty
rm plans/text plans/same
verdict 'the plan is untouched after trouble with places' cmp -s zero.plan plans/new
verdict 'nothing is left after trouble with places' holds plans new

# Full disks, as for sheets.
expect 'a new plan above the limit' 0 'desk: cannot write plans/limited: File too large
status 2' '' limited write a.txt plans/limited
expect 'a present plan above the limit' 0 'desk: cannot write plans/new: File too large
status 2' '' limited write a.txt plans/new
verdict 'the plan is untouched at the limit' cmp -s zero.plan plans/new
verdict 'no plan is left at the limit' holds plans new

full_disk plans zero.plan write a.txt

# Many at once: one of them wins, whole.
quiet 'eight writes at once' eight write a.txt plans/many
verdict 'their plan is right' cmp -s a.plan plans/many
rm plans/many

# Results that cannot be written; write has none unless it refuses.
for way in to_full to_closed to_broken_pipe; do
    missed=$(missed_result $way)
    expect "show $way" 2 '' "$missed" $way show a.plan
    expect "show of the longest text $way" 2 '' "$missed" $way show full.plan
    expect "refused show $way" 2 '' "$missed" $way show empty
    expect "refused write $way" 2 '' "$missed" $way write empty plans/new
    verdict "the plan is untouched $way" cmp -s zero.plan plans/new
    quiet "write has no result $way" $way write a.txt plans/quiet
    verdict "its plan is right $way" cmp -s a.plan plans/quiet
done

# With all standard files closed no message gets into the plan.
quiet 'write with closed files' all_closed write zero.txt plans/quiet
verdict 'its plan is right' cmp -s zero.plan plans/quiet
expect 'trouble with closed files: write' 2 '' '' all_closed write a.plan plans/quiet
expect 'trouble with a closed text' 2 '' '' all_closed write - plans/quiet
verdict 'the plan is untouched with closed files' cmp -s zero.plan plans/quiet
rm plans/quiet
verdict 'nothing is left at the end: write' holds plans new
