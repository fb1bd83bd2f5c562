# Texts: the bytes that write makes of them, each trouble with a line, and each refusal with its line of the text.
# shellcheck shell=sh

mkdir texts
cp zero.plan texts/plan

# Tells whether the present plan is as it was, and alone in its folder.
kept() {
    cmp -s zero.plan texts/plan && holds texts plan
}

# Tests the plan that write makes of the file one.txt: gives_bytes NAME BYTE...
gives_bytes() {
    gives_name=$1
    shift
    hex right.plan "$@"
    quiet "write: $gives_name" "$desk" write one.txt new.plan
    verdict "the plan of the text: $gives_name" cmp -s right.plan new.plan
    rm -f new.plan
}

# Tests the plan that write makes of a text, which is given with escapes: gives NAME TEXT BYTE...
gives() {
    gives_name=$1
    printf '%b' "$2" >one.txt
    shift 2
    gives_bytes "$gives_name" "$@"
}

# Tests that the file one.txt is trouble, and that nothing is written: wrong_file NAME MESSAGE
wrong_file() {
    expect "write: $1" 2 '' "desk: $2" "$desk" write one.txt texts/plan
    verdict "nothing is written: $1" kept
}

# Tests that a text, which is given with escapes, is trouble: wrong NAME TEXT MESSAGE
wrong() {
    printf '%b' "$2" >one.txt
    wrong_file "$1" "$3"
}

# Every command, and the form of lines.
# The bytes are split into words on purpose.
# shellcheck disable=SC2086
gives_a() {
    gives "$1" "$2" $plan_a
}
gives_a 'plan A' \
    'START 1 2\nLOOPS 2\nSPAN 0 1 2\nSPAN 1 1 2\nCAPS 1\nCLASS 0 1\nPUT 1 0\nEND\n'
gives_a 'no line feed at the end' \
    'START 1 2\nLOOPS 2\nSPAN 0 1 2\nSPAN 1 1 2\nCAPS 1\nCLASS 0 1\nPUT 1 0\nEND'
gives_a 'lines that end with CR LF' \
    'START 1 2\r\nLOOPS 2\r\nSPAN 0 1 2\r\nSPAN 1 1 2\r\nCAPS 1\r\nCLASS 0 1\r\nPUT 1 0\r\nEND\r\n'
gives_a 'a CR at the end' \
    'START 1 2\nLOOPS 2\nSPAN 0 1 2\nSPAN 1 1 2\nCAPS 1\nCLASS 0 1\nPUT 1 0\nEND\r'
gives_a 'spaces, tabs and CRs between, before and after words' \
    '  START\t1  2 \n\tLOOPS \t 2\t\nSPAN\r0\r1\r2\n SPAN 1 1 2\n\r\rCAPS 1\nCLASS  0  1\nPUT 1 \r\t 0\n\t \tEND \t\n'
gives_a 'blank lines' \
    '\n\n  \n\t\nSTART 1 2\n\nLOOPS 2\nSPAN 0 1 2\n\r\n\nSPAN 1 1 2\nCAPS 1\n \t\r\nCLASS 0 1\nPUT 1 0\nEND\n\n\n \n'
gives_a 'comments' \
    '# A plan\n#\n\t # another\nSTART 1 2 # START 1 3\nLOOPS 2# two\nSPAN 0 1 2##\nSPAN 1 1 2 #\nCAPS 1#2\nCLASS 0 1 # \0351 \n# FOO\nPUT 1 0\nEND#'
gives_a 'a comment with null bytes and bytes above 7F' \
    'START 1 2 # \0000\0200\0377\0013\nLOOPS 2\nSPAN 0 1 2\nSPAN 1 1 2\nCAPS 1\nCLASS 0 1\nPUT 1 0\nEND\n#\0000'
gives_a 'leading zeros' \
    "START 01 002\nLOOPS 0002\nSPAN 00 0001 2\nSPAN 1 1 00000000000000000000000000000000000000002\nCAPS 1\nCLASS $(repeat 0 400) 1\nPUT 1 0\nEND\n"
gives 'SHELF, DAYS and GLUE' \
    'START 1 2\nSHELF 1 7 65535\nCAPS 255\nCLASS 15 255\nPUT 0 15\nPUT 1 15\nDAYS 258 772\nGLUE 0\nEND\n' \
    01 01 02 0A 01 07 00 FF FF 02 FF 04 0F FF 05 00 0F 05 01 0F 0B 02 01 04 03 0C 00 07
gives 'masks' 'START 1 6\nMOUNTS 9\nFIT 0\nFIT 1 0\nFIT 2 31\nFIT 3 0 4 31\nFIT 4 31 16 8 0 24\nFIT 5 007 15\nEND\n' \
    01 01 06 08 09 09 00 00 00 00 00 09 01 01 00 00 00 09 02 00 00 00 80 09 03 11 00 00 80 09 04 01 01 01 81 \
    09 05 80 80 00 00 07
gives 'the mask of all mounts, falling' \
    'START 1 1\nMOUNTS 1\nFIT 0 31 30 29 28 27 26 25 24 23 22 21 20 19 18 17 16 15 14 13 12 11 10 9 8 7 6 5 4 3 2 1 0\nEND' \
    01 01 01 08 01 09 00 FF FF FF FF 07
gives 'a comment in a mask' 'START 1 1\nMOUNTS 1\nFIT 0 1 2#3 4\nEND' 01 01 01 08 01 09 00 06 00 00 00 07
gives 'no instruments' 'START 1 0\nCAPS 0\nEND' 01 01 00 02 00 07

# A word that is no command. The names are those of the papers, exactly.
names='commands are START, CAPS, LOOPS, CLASS, PUT, SPAN, END, MOUNTS, FIT, SHELF, DAYS and GLUE'
# Tests a first word, given with escapes, and what is printed of it: no_command WORD [PRINTED]
no_command() {
    wrong "no command: $1" "START 1 2\n$1 1\n" "line 2: expected a command, found '${2:-$1}'; $names"
}
for word in FOO start Start STARTS STAR S 1 0 -1 START,1 PUTT PU GLUE. START: "'" '"' ENDEND REFUSED; do
    no_command "$word"
done
no_command 'END\\END' 'END\END'
no_command 'START\0000' 'START\x00'
no_command '\0000START' '\x00START'
no_command 'START\0001\0037\0177\0200\0377' 'START\x01\x1F\x7F\x80\xFF'
no_command '\0357\0273\0277START' '\xEF\xBB\xBFSTART'
no_command 'START\0013' 'START\x0B'
no_command 'START\0302\0240' 'START\xC2\xA0'
no_command 12345678901234567890123456789012
no_command 123456789012345678901234567890123 '12345678901234567890123456789012...'
no_command '1234567890123456789012345678901\0000\0000' '1234567890123456789012345678901\x00...'
no_command "$(repeat A 5000)" "$(repeat A 32)..."
wrong 'the first line' 'FOO' "line 1: expected a command, found 'FOO'; $names"
wrong 'blank lines and comments are counted' '# one\n\n \r\nSTART 1 2\n#\n\n  FOO#\n' \
    "line 7: expected a command, found 'FOO'; $names"
wrong 'the first of two faulty lines' 'START 1 2\nCAPS x\nFOO\n' "line 2: CAPS takes 1 number, found 'x'"
wrong 'two commands on a line' 'START 1 2 CAPS 1\n' "line 1: START takes 2 numbers, found 'CAPS'"

# An operand that is no number comes before the count of the operands.
wrong 'CLASS with a word' 'CLASS 1 x' "line 1: CLASS takes 2 numbers, found 'x'"
wrong 'CLASS with two words' 'CLASS y x' "line 1: CLASS takes 2 numbers, found 'y'"
wrong 'CLASS with a word and no more' 'CLASS x' "line 1: CLASS takes 2 numbers, found 'x'"
wrong 'CLASS with a word after too many numbers' 'CLASS 1 2 3 x' "line 1: CLASS takes 2 numbers, found 'x'"
wrong 'CLASS with a word after a number too great' 'CLASS 256 x' "line 1: CLASS takes 2 numbers, found 'x'"
wrong 'END with a word' 'END x' "line 1: END takes no numbers, found 'x'"
wrong 'FIT with a word' 'FIT x' "line 1: FIT takes 1 number or more, found 'x'"
wrong 'FIT with a word in its mask' 'FIT 1 0 0 99 x' "line 1: FIT takes 1 number or more, found 'x'"
# Tests a word, given with escapes, and what is printed of it: no_number WORD [PRINTED]
no_number() {
    wrong "CAPS with $1" "CAPS $1" "line 1: CAPS takes 1 number, found '${2:-$1}'"
}
for word in +1 -1 1.0 '1,' 0x1 1e3 1_ ,1 A "'" CAPS; do
    no_number "$word"
done
no_number '1\0000' '1\x00'
no_number '\00001' '\x001'
no_number '1\0013' '1\x0B'
no_number '\0331\0243' '\xD9\xA3'
no_number '\0302\0275' '\xC2\xBD'
wrong 'a word of 32 bytes' "CAPS $(repeat 0 31)x" "line 1: CAPS takes 1 number, found '$(repeat 0 31)x'"
wrong 'a word of 33 bytes' "CAPS $(repeat 0 32)x" "line 1: CAPS takes 1 number, found '$(repeat 0 32)...'"

# Tests what a command says of too few and too many operands: counts NAME PHRASE FEW FOUND MANY FOUND
counts() {
    wrong "$1 with too few" "$3" "line 1: $1 takes $2, found $4"
    wrong "$1 with too many" "$5" "line 1: $1 takes $2, found $6"
}
counts START '2 numbers' 'START 1' 1 'START 1 2 3' 3
counts CAPS '1 number' 'CAPS' 0 'CAPS 1 2 3' 3
counts LOOPS '1 number' 'LOOPS # 1' 0 'LOOPS 1 2' 2
counts CLASS '2 numbers' 'CLASS 1' 1 'CLASS 1 2 256' 3
counts PUT '2 numbers' 'PUT' 0 'PUT 1 2 3 4' 4
counts SPAN '3 numbers' 'SPAN 1 2' 2 'SPAN 1 2 3 4' 4
counts MOUNTS '1 number' 'MOUNTS' 0 'MOUNTS 1 2' 2
counts SHELF '3 numbers' 'SHELF 1 2' 2 'SHELF 1 2 3 4' 4
counts DAYS '2 numbers' 'DAYS 65536' 1 'DAYS 1 2 3' 3
counts GLUE '1 number' 'GLUE' 0 'GLUE 1 1' 2
wrong 'FIT with too few' 'FIT' 'line 1: FIT takes 1 number or more, found 0'
wrong 'END with a number' 'END 1' 'line 1: END takes no numbers, found 1'
wrong 'END with three numbers' 'END 0 0 0' 'line 1: END takes no numbers, found 3'

# Numbers that the operands' bytes cannot hold: the first of them is named.
# Tests an operand with the least number that its bytes cannot hold, and with great ones: beyond RANGE COMMAND BEFORE AFTER LEAST
beyond() {
    for number in "$5" "0$5" 4294967296 18446744073709551615 18446744073709551616 99999999999999999999999999 \
        340282366920938463463374607431; do
        wrong "$2 with $number as ${1#* as }" "$2$3 $number$4" "line 1: $2 takes $1, found $number"
    done
}
beyond '1 as version' START '' ' 2' 256
beyond '0 to 64 as instruments' START ' 1' '' 256
beyond '0 to 255 as channels' CAPS '' '' 256
beyond '0 to 255 as channels' LOOPS '' '' 256
beyond '0 to 255 as channels' MOUNTS '' '' 256
beyond '0 to 15 as class' CLASS '' ' 1' 256
beyond '0 to 255 as cap' CLASS ' 1' '' 256
beyond '0 to 63 as instrument' PUT '' ' 1' 256
beyond '0 to 15 as class' PUT ' 1' '' 256
beyond '0 to 63 as instrument' SPAN '' ' 1 2' 256
beyond '0 to 39 as joint' SPAN ' 1' ' 2' 256
beyond '0 to 39 as joint' SPAN ' 1 2' '' 256
beyond '0 to 63 as instrument' FIT '' ' 1 2' 256
beyond '0 to 31 as mounts' FIT ' 1' ' 2' 32
beyond '0 to 31 as mounts' FIT ' 1 0' '' 32
beyond '0 to 63 as instrument' SHELF '' ' 1 2' 256
beyond '0 to 65535 as from' SHELF ' 1' ' 2' 65536
beyond '0 to 65535 as to' SHELF ' 1 2' '' 65536
beyond '0 to 65535 as from' DAYS '' ' 2' 65536
beyond '0 to 65535 as to' DAYS ' 2' '' 65536
beyond '0 to 63 as instrument' GLUE '' '' 256
wrong 'two numbers too great' 'SHELF 256 65536 65536' 'line 1: SHELF takes 0 to 63 as instrument, found 256'
wrong 'a number of 100 digits' "CAPS $(repeat 0 97)256" "line 1: CAPS takes 0 to 255 as channels, found $(repeat 0 32)..."

# Members of a mask: each once; range and repetition in the order of the list, after the fixed operands.
wrong 'a member twice' 'FIT 3 4 0 4' 'line 1: FIT takes each of its mounts once, found 4 again'
wrong 'a member twice, the second time with a zero' 'FIT 3 4 04' 'line 1: FIT takes each of its mounts once, found 04 again'
wrong 'a member twice, the first time with a zero' 'FIT 3 00 1 0' 'line 1: FIT takes each of its mounts once, found 0 again'
wrong 'a member three times' 'FIT 3 31 31 31' 'line 1: FIT takes each of its mounts once, found 31 again'
wrong 'a member twice, then one too great' 'FIT 3 4 4 32' 'line 1: FIT takes each of its mounts once, found 4 again'
wrong 'a member too great, then one twice' 'FIT 3 4 32 4' 'line 1: FIT takes 0 to 31 as mounts, found 32'
wrong 'an instrument too great and a member twice' 'FIT 256 4 4' 'line 1: FIT takes 0 to 63 as instrument, found 256'
wrong 'a member too great twice' 'FIT 3 33 33' 'line 1: FIT takes 0 to 31 as mounts, found 33'
wrong 'a member of 100 digits twice' "FIT 3 0 $(repeat 0 100)" \
    "line 1: FIT takes each of its mounts once, found $(repeat 0 32)... again"
gives 'an instrument among its mounts' 'START 1 5\nMOUNTS 1\nFIT 4 4\nEND' 01 01 05 08 01 09 04 10 00 00 00 07

# Refusals: the two lines that explain prints of the bytes, then the line of the text.
# Tests them of a text with escapes: refused_text NAME FIRST THIRD TEXT BYTE...
refused_text() {
    text_name=$1 text_first=$2 text_third=$3
    printf '%b' "$4" >one.txt
    shift 4
    hex bad.plan "$@"
    "$desk" explain bad.plan >bad.words
    expect "write: $text_name" 1 "$text_first
$(sed 1d bad.words)
$text_third" '' "$desk" write one.txt texts/plan
    verdict "explain says the same: $text_name" test "$(sed -n 1p bad.words)" = "$text_first"
    verdict "nothing is written: $text_name" kept
}
refused_text 'the empty text' 'REFUSED 1 0' 'The text has no commands.' ''
refused_text 'a text of blank lines and comments' 'REFUSED 1 0' 'The text has no commands.' '\n # START 1 2\n\r\n'
refused_text 'no START' 'REFUSED 1 0' 'Line 3 of the text: CAPS 1' '#\n\n CAPS  01\nEND\n' 02 01 07
refused_text 'a mask first' 'REFUSED 1 0' 'Line 1 of the text: FIT 3 0 4 31' 'FIT 3 31 4 0' 09 03 11 00 00 80
refused_text 'an empty mask first' 'REFUSED 1 0' 'Line 1 of the text: FIT 3' 'FIT 003' 09 03 00 00 00 00
refused_text 'no END' 'REFUSED 2 8' 'Line 7 of the text, the last command: PUT 2 0' \
    'START 1 3\n\n# team\nCAPS 1\n\n\nPUT 2  0 # here\n\n#\n' 01 01 03 02 01 05 02 00
refused_text 'START alone' 'REFUSED 2 3' 'Line 1 of the text, the last command: START 1 2' 'START 1 2' 01 01 02
refused_text 'a second START' 'REFUSED 4 5' 'Line 3 of the text: START 1 2' 'START 1 2\nCAPS 1\nSTART 1 2\nEND' \
    01 01 02 02 01 01 01 02 07
refused_text 'END without teams' 'REFUSED 4 3' 'Line 2 of the text: END' 'START 1 2\nEND\n' 01 01 02 07
refused_text 'PUT in a LOOPS team' 'REFUSED 4 5' 'Line 4 of the text: PUT 1 0' '\nSTART 1 2\nLOOPS 1\nPUT 1 0\nEND\n' \
    01 01 02 03 01 05 01 00 07
refused_text 'SHELF after a team' 'REFUSED 4 5' 'Line 3 of the text: SHELF 0 0 7' 'START 1 2\nCAPS 1\nSHELF 0 0 7\nEND\n' \
    01 01 02 02 01 0A 00 00 00 07 00 07
refused_text 'GLUE before the teams' 'REFUSED 4 3' 'Line 2 of the text: GLUE 0' 'START 1 2\nGLUE 0\nCAPS 1\nEND\n' \
    01 01 02 0C 00 02 01 07
refused_text 'version 255' 'REFUSED 5 0' 'Line 1 of the text: START 255 2' 'START 255 2\nCAPS 1\nEND\n' 01 FF 02 02 01 07
refused_text 'instruments 65' 'REFUSED 5 0' 'Line 1 of the text: START 1 65' 'START 1 65\nCAPS 1\nEND\n' 01 01 41 02 01 07
refused_text 'class 16' 'REFUSED 5 5' 'Line 3 of the text: CLASS 16 2' 'START 1 2\nCAPS 1\nCLASS 16 2\nEND\n' \
    01 01 02 02 01 04 10 02 07
refused_text 'instrument 2 of 2' 'REFUSED 5 5' 'Line 4 of the text: PUT 2 0' 'START 1 2\nCAPS 1\n\nPUT 2 0\nEND\n' \
    01 01 02 02 01 05 02 00 07
refused_text 'instrument 255' 'REFUSED 5 5' 'Line 3 of the text: GLUE 255' 'START 1 2\nCAPS 1\nGLUE 255\nEND\n' \
    01 01 02 02 01 0C FF 07
refused_text 'joint 40' 'REFUSED 5 5' 'Line 3 of the text: SPAN 0 40 255' 'START 1 2\nLOOPS 1\nSPAN 0 40 255\nEND\n' \
    01 01 02 03 01 06 00 28 FF 07
refused_text 'a class twice' 'REFUSED 6 8' 'Line 5 of the text: CLASS 3 2' 'START 1 2\nCAPS 1\nCLASS 3 1\n#\nCLASS 3 2\nEND\n' \
    01 01 02 02 01 04 03 01 04 03 02 07
refused_text 'a GLUE twice' 'REFUSED 6 9' 'Line 5 of the text: GLUE 0' 'START 1 2\nCAPS 1\nGLUE 0\nLOOPS 1\nGLUE 0\nEND\n' \
    01 01 02 02 01 0C 00 03 01 0C 00 07
refused_text 'a thirteenth team' 'REFUSED 7 27' 'Line 14 of the text: LOOPS 5' \
    'START 1 2\nCAPS 1\nCAPS 1\nCAPS 1\nCAPS 1\nCAPS 1\nCAPS 1\nCAPS 1\nCAPS 1\nCAPS 1\nCAPS 1\nCAPS 1\nCAPS 1\nLOOPS 5\nEND' \
    01 01 02 02 01 02 01 02 01 02 01 02 01 02 01 02 01 02 01 02 01 02 01 02 01 02 01 03 05 07
refused_text 'equal joints' 'REFUSED 8 5' 'Line 3 of the text: SPAN 1 9 9' 'START 1 2\nLOOPS 1\nSPAN 1 9 9\nEND\n' \
    01 01 02 03 01 06 01 09 09 07
refused_text 'a command after END' 'REFUSED 9 6' 'Line 5 of the text: END' 'START 1 2\nCAPS 1\nEND\n\nEND\n' \
    01 01 02 02 01 07 07
refused_text 'SHELF with from above to' 'REFUSED 17 3' 'Line 2 of the text: SHELF 1 512 511' \
    'START 1 2\nSHELF 1 512 511\nCAPS 1\nEND\n' 01 01 02 0A 01 00 02 FF 01 02 01 07
refused_text 'DAYS with from equal to to' 'REFUSED 17 5' 'Line 3 of the text: DAYS 65535 65535' \
    'START 1 2\nMOUNTS 1\nDAYS 65535 65535\nEND\n' 01 01 02 08 01 0B FF FF FF FF 07
refused_text 'a glued instrument without PUT' 'REFUSED 18 7' 'Line 6 of the text: END' \
    'START 1 2\nCAPS 1\nGLUE 0\n\n\nEND\n# after\n' 01 01 02 02 01 0C 00 07

# Trouble with a line comes before a refusal, wherever they stand.
wrong 'a refusal before a faulty line' 'CAPS 1\nEND\nEND\nFOO\n' "line 4: expected a command, found 'FOO'; $names"
wrong 'a faulty line before a refusal' 'FOO\nCAPS 1\n' "line 1: expected a command, found 'FOO'; $names"

# Texts up to the limit of 1,048,576 bytes, and beyond.
"$desk" show a.plan >a.txt
# Writes a text of this many bytes: that of plan A, and a comment: long_text COUNT
long_text() {
    { cat a.txt && printf '#' && repeat x $(($1 - $(wc -c <a.txt) - 1)); } >one.txt
    [ "$(wc -c <one.txt)" -eq "$1" ]
}
too_long='It has more than 1048576 bytes'
# The bytes are split into words on purpose.
# shellcheck disable=SC2086
{
    verdict 'a text of 1,048,576 bytes' long_text 1048576
    gives_bytes 'a text of 1,048,576 bytes' $plan_a
}
verdict 'a text of 1,048,577 bytes' long_text 1048577
wrong_file 'a text of 1,048,577 bytes' "cannot read one.txt: $too_long"
cat one.txt one.txt one.txt >three.txt
expect 'a text of three megabytes' 2 '' "desk: cannot read three.txt: $too_long" "$desk" write three.txt texts/plan
verdict 'nothing is written of a text of three megabytes' kept
expect 'a text without an end' 2 '' "desk: cannot read /dev/zero: $too_long" "$desk" write /dev/zero texts/plan
verdict 'nothing is written of a text without an end' kept
long_input() {
    "$desk" write - texts/plan <one.txt
}
endless_input() {
    "$desk" write - texts/plan </dev/zero
}
expect 'a long text from standard input' 2 '' "desk: cannot read standard input: $too_long" long_input
expect 'standard input without an end' 2 '' "desk: cannot read standard input: $too_long" endless_input
verdict 'nothing is written of long input' kept
tr '\n' ' ' <three.txt | head -c 1048576 >one.txt
wrong_file 'a line of 1,048,576 bytes' "line 1: START takes 2 numbers, found 'LOOPS'"
{ printf 'CAPS ' && repeat x 1048571; } >one.txt
wrong_file 'a word of 1,048,571 bytes' "line 1: CAPS takes 1 number, found '$(repeat x 32)...'"
{ printf 'CAPS ' && repeat 9 1048571; } >one.txt
wrong_file 'a number of 1,048,571 digits' "line 1: CAPS takes 0 to 255 as channels, found $(repeat 9 32)..."
{ printf 'START 1 2\nFIT 1' && yes ' 2' | tr -d '\n' | head -c 200000; } >one.txt
wrong_file 'a mask of 100,000 members' 'line 2: FIT takes each of its mounts once, found 2 again'
{ printf 'START' && yes ' 2' | tr -d '\n' | head -c 200000; } >one.txt
wrong_file '100,000 operands' 'line 1: START takes 2 numbers, found 100000'
{ repeat '\n' 1048573 && printf 'END'; } >one.txt
expect 'a million blank lines' 1 'REFUSED 1 0
Command 1 of the plan, at byte 0, is 07; it has to be START (01).
Line 1048574 of the text: END' '' "$desk" write one.txt texts/plan

# Plans longer than what is kept of them: the refusal is that of the whole plan, and trouble after it is trouble.
"$desk" show longest.plan >longest.txt
cat longest.txt longest.txt longest.txt longest.txt >one.txt
expect 'a plan of 20,832 bytes' 1 'REFUSED 9 5208
The plan goes on at byte 5208 after command 922, END at byte 5207; nothing may follow END.
Line 923 of the text: START 1 64' '' "$desk" write one.txt texts/plan
verdict 'nothing is written of a plan of 20,832 bytes' kept
echo 'PUT 1' >>one.txt
wrong_file 'a faulty line after 20,832 bytes' 'line 3689: PUT takes 2 numbers, found 1'
{ sed '$d' longest.txt && yes 'SHELF 0 0 7' | sed 900q; } >one.txt
expect 'a long plan without END' 1 'REFUSED 4 5207
Command 922 of the plan, SHELF at byte 5207 (0A 00 00 00 07 00), is in the wrong place; it belongs before the first team, and team 11 is open.
Line 922 of the text: SHELF 0 0 7' '' "$desk" write one.txt texts/plan
{ cat longest.txt && yes 'FIT 0 1' | sed 100000q; } >one.txt
expect 'a plan of 605,208 bytes' 1 'REFUSED 9 5208
The plan goes on at byte 5208 after command 922, END at byte 5207; nothing may follow END.
Line 923 of the text: FIT 0 1' '' "$desk" write one.txt texts/plan
verdict 'nothing is written of long plans' kept
rm one.txt three.txt bad.words
