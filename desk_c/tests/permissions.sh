# Files and folders without permission. Root may do all, so for root another user runs the program.
# shellcheck shell=sh

mkdir closed
cp a.plan a.sheet closed
"$desk" show a.plan >a.txt
cp a.txt closed
cp "$desk" closed/desk
chmod 000 closed/a.plan closed/a.sheet closed/a.txt
chmod 755 closed/desk
chmod 555 closed

# Runs the program as a user without rights: as it is, or from its copy by another user.
plain() {
    if [ "$(id -u)" -eq 0 ]; then
        setpriv --reuid=65534 --regid=65534 --clear-groups closed/desk "$@"
    else
        "$desk" "$@"
    fi
}

if plain --help >/dev/null 2>&1; then
    expect 'unreadable plan: build' 2 '' 'desk: cannot open closed/a.plan: Permission denied' plain build closed/a.plan new
    expect 'unreadable plan: explain' 2 '' 'desk: cannot open closed/a.plan: Permission denied' plain explain closed/a.plan
    expect 'unreadable sheet: check' 2 '' 'desk: cannot open closed/a.sheet: Permission denied' \
        plain check a.plan closed/a.sheet
    expect 'unreadable sheet: page' 2 '' 'desk: cannot open closed/a.sheet: Permission denied' \
        plain page a.plan closed/a.sheet 0
    expect 'folder without permission' 2 '' \
        'desk: cannot create a temporary file beside closed/new: Permission denied' plain build a.plan closed/new
    expect 'sheet without permission' 2 '' 'desk: cannot write closed/a.sheet: Permission denied' \
        plain build a.plan closed/a.sheet
    expect 'unreadable plan: show' 2 '' 'desk: cannot open closed/a.plan: Permission denied' plain show closed/a.plan
    expect 'unreadable text: write' 2 '' 'desk: cannot open closed/a.txt: Permission denied' plain write closed/a.txt new
    expect 'folder without permission: write' 2 '' \
        'desk: cannot create a temporary file beside closed/new: Permission denied' plain write a.txt closed/new
    expect 'plan without permission: write' 2 '' 'desk: cannot write closed/a.plan: Permission denied' \
        plain write a.txt closed/a.plan
    chmod 644 closed/a.plan closed/a.sheet
    verdict 'the sheet without permission is untouched' cmp -s a.sheet closed/a.sheet
    verdict 'the plan without permission is untouched' cmp -s a.plan closed/a.plan
    verdict 'nothing is left in the folder' holds closed a.plan a.sheet a.txt desk
else
    skip 'permissions: no other user can be used here'
fi
chmod 755 closed
