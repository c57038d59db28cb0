#!/usr/bin/env bash
# Runs the desk on the examples, on sheets made from them and on typed rows, and prints each command, what it wrote and its status;
# `bash desk/try.sh | diff desk/try.txt -` compares. UNDER='valgrind -q' puts these words before each command.
set -u
top=$(cd "$(dirname "$0")/.." && pwd)
for program in desk null; do
    if [ ! -x "$top/desk/$program" ]; then
        echo "desk/try.sh: desk/$program is not built; make -C desk builds it" >&2
        exit 2
    fi
done

# Sheets are made in a folder that has the examples beside them, so that no name which is printed depends on the machine.
folder=$(mktemp -d) || exit 2
trap 'rm -rf "$folder"' EXIT
ln -s "$top/examples" "$folder/examples"
cd "$folder" || exit 2

# try PROGRAM WORD..
try() {
    echo "\$ $*"
    ${UNDER:-} "$top/desk/$1" "${@:2}" 2>&1
    echo "status $?"
}

# The same, with nowhere to write.
try_full() {
    echo "\$ $* > /dev/full"
    ${UNDER:-} "$top/desk/$1" "${@:2}" 2>&1 >/dev/full
    echo "status $?"
}

# The same, with no room for over 1,024 bytes in a file. What it prints goes through a pipe, which has room.
try_short() {
    local printed
    echo "\$ $*"
    printed=$(
        trap '' XFSZ
        ulimit -f 1
        ${UNDER:-} "$top/desk/$1" "${@:2}" 2>&1
        echo "status $?"
    )
    echo "$printed"
}

# try_type VARIABLES TEXT: the text in quotes, and bytes that do not print in octal
try_type() {
    local LC_ALL=C
    echo "\$ desk --type $1 ${2@Q}"
    ${UNDER:-} "$top/desk/desk" --type "$1" "$2" 2>&1
    echo "status $?"
}

# type_again VARIABLES O H MODEL SECOND: a row that is shown, typed as it is shown; the line before the last has its bytes
type_again() {
    local shown typed
    shown=$(${UNDER:-} "$top/desk/desk" --row "${@:2}" 2>&1)
    typed=$(try_type "$1" "$(tail -n 1 <<<"$shown")")
    echo "$typed"
    if [ "$(tail -n 2 <<<"$shown" | head -n 1)" = "$(tail -n 3 <<<"$typed" | head -n 1)" ]; then
        echo 'the bytes that were shown'
    else
        echo 'OTHER BYTES than were shown'
    fi
}

# edit FROM TO OFFSET BYTE..: a copy of a sheet with other bytes, in hexadecimal, from an offset on
edit() {
    cp "$1" "$2"
    printf "$(printf '\\x%s' "${@:4}")" | dd of="$2" bs=1 seek="$3" conv=notrunc status=none
}

# sheet NAME BYTE..: a sheet of these bytes, in hexadecimal, after the two that say how many follow
sheet() {
    printf "$(printf '\\x%s' $(printf '%02x %02x' $(($# - 1 >> 8)) $(($# - 1 & 255))) "${@:2}")" >"$1"
}

# numbers NUMBER..: each in four bytes
numbers() {
    local number
    for number; do printf '%02x ' $((number >> 24 & 255)) $((number >> 16 & 255)) $((number >> 8 & 255)) $((number & 255)); done
}

# condition WIDTH NUMBER..: a condition whose rows have so many numbers each, the bound last
condition() {
    printf '%02x ' $((($# - 1) / $1))
    numbers "${@:2}"
}

# rows NUMBER..: a condition on one variable, of rows by their coefficient and bound
rows() {
    condition 2 "$@"
}

# tank NAME INITIAL INVARIANT FLOW UNSAFE: the tank of the examples with these rows, the numbers of each condition in one word
tank() {
    sheet "$1" 01 01 01 01 01 00 00 00 01 00 01 $(rows $2) $(rows $3) $(rows $4) 00 $(rows $5)
}

# blanks NAME VERSION UNSAFE: two components with a variable, a mode and a switch each, and this unsafe row. Component 0 says how a may
# change: its flow row is a + b <= 2, its jump row a' <= 0. Component 1 does not say it of b: its flow row is a <= 3, its jump row b <= 4.
# At the start a <= 0 and b <= 5.
blanks() {
    sheet "$1" "$2" 01 02 02 01 00 01 \
        00 00 01 01 01 $(condition 3 1 0 0) 00 $(condition 3 1 1 2) 00 00 00 $(condition 5 0 0 1 0 0) \
        00 00 01 01 01 $(condition 3 0 1 5) 00 $(condition 3 1 0 3) 00 00 00 $(condition 5 0 1 0 0 4) \
        ff ff $(condition 3 $3)
}

# proof K HYPOTHESIS..: a proof whose multipliers are 1
proof() {
    local hypothesis
    numbers "$1"
    printf '%02x ' $(($# - 1))
    for hypothesis in "${@:2}"; do printf '%02x 00 00 00 01 ' "$hypothesis"; done
}

# numbered FROM TO NUMBER: a sheet as one of version 3 with this paper number; its kind and the rest of its body stay
numbered() {
    sheet "$2" 03 $(od -A n -t x1 -v -j 3 -N 1 "$1") $(numbers "$3") $(od -A n -t x1 -v -j 4 "$1")
}

# bytes FILE: what it holds
bytes() {
    echo "$1:"
    od -A d -t x1 -v "$1"
}

# found FILE OTHER: whether it has the bytes of another, or is not there
found() {
    if [ ! -e "$1" ]; then
        echo "no $1"
    elif cmp -s "$1" "$2"; then
        echo "$1 is as $2"
    else
        echo "$1 is OTHER than $2"
    fi
}

# times COUNT BYTE..: the bytes so often
times() {
    local i
    for ((i = 0; i < $1; i++)); do printf '%s ' "${@:2}"; done
}

echo '# Accepted, and refused'
try desk examples/tank.model examples/tank.certificate
try desk examples/unsafe-tank.model examples/tank.certificate
try desk examples/tank.model examples/tank.run
try desk examples/unsafe-tank.model examples/unsafe-tank.run
try desk examples/plant.model examples/plant.certificate
try desk examples/unsafe-plant.model examples/unsafe-plant.run
try desk examples/tank.certificate examples/tank.certificate

echo '# Proofs refused: from the start, after a flow, against an unsafe condition, after a jump, in a field; and a byte left'
edit examples/plant.certificate start.certificate 539 00 00 00 02
try desk examples/plant.model start.certificate
edit examples/plant.certificate flow.certificate 823 00 00 00 01
try desk examples/plant.model flow.certificate
edit examples/plant.certificate unsafe.certificate 973 03
try desk examples/plant.model unsafe.certificate
edit examples/plant.certificate jump.certificate 387 00 00 00 09
try desk examples/plant.model jump.certificate
edit examples/plant.certificate alone.certificate 1759 00 00 00 03
try desk examples/plant.model alone.certificate
edit examples/plant.certificate field.certificate 608 00 00 00 01
try desk examples/plant.model field.certificate
edit examples/plant.certificate longer.certificate 2108 00
edit longer.certificate left.certificate 0 08 3b
try desk examples/plant.model left.certificate

echo '# Runs refused: the start, a flow, a jump, the end'
edit examples/tank.run start.run 14 06
try desk examples/tank.model start.run
edit examples/unsafe-plant.run other-start.run 10 05
try desk examples/unsafe-plant.model other-start.run
edit examples/unsafe-plant.run flow.run 71 00 00 00 08
try desk examples/unsafe-plant.model flow.run
edit examples/unsafe-plant.run jump.run 58 ff ff ff fe
try desk examples/unsafe-plant.model jump.run
edit examples/unsafe-plant.run event.run 49 02
try desk examples/unsafe-plant.model event.run
edit examples/unsafe-plant.run end.run 170 00 00 00 05
try desk examples/unsafe-plant.model end.run

echo '# Rows: initial, region, invariant, the same on the new values, flow, time, unsafe, jump, two variables that stay; no such row'
try desk --row 0 3 examples/plant.model examples/plant.certificate
try desk --row 87 3 examples/plant.model examples/plant.certificate
try desk --row 87 4 examples/plant.model examples/plant.certificate
try desk --row 87 9 examples/plant.model examples/plant.certificate
try desk --row 3 14 examples/plant.model examples/plant.certificate
try desk --row 3 17 examples/plant.model examples/plant.certificate
try desk --row 30 9 examples/plant.model examples/plant.certificate
try desk --row 49 12 examples/plant.model examples/plant.certificate
try desk --row 49 14 examples/plant.model examples/plant.certificate
try desk --row 49 16 examples/plant.model examples/plant.certificate
try desk --row 49 19 examples/plant.model examples/plant.certificate
try desk --row 49 20 examples/plant.model examples/plant.certificate
try desk --row 115 0 examples/plant.model examples/plant.certificate

echo '# Rows with the least and the greatest numbers, and without coefficients'
edit examples/tank.model least.model 14 80 00 00 00 80 00 00 00
try desk --row 0 0 least.model examples/tank.certificate
edit examples/tank.model greatest.model 14 7f ff ff ff 7f ff ff ff
try desk --row 0 0 greatest.model examples/tank.certificate
edit examples/tank.model without.model 14 00 00 00 00 00 00 00 05
try desk --row 0 0 without.model examples/tank.certificate

echo '# Rows typed: accepted'
try_type 1 'a<=1'
try_type 4 '  2*d - 11 <= a - 2*(7 + 4)  '
try_type 2 '--a - -3*(b - 1) <= 0*a'
try_type 2 '(a - a)*b <= 007'
try_type 3 'a<=-2147483647-1'
try_type 2 '2147483647 - b <= 2147483647*a'
try_type 8 'a + b + c + d + e + f + g <= 1 - h'

echo '# Rows typed: refused for the variables, for the text, for what it gives'
try_type 0 'a <= 1'
try_type 9 ''
try_type 4294967295 'a <= 1'
try_type 2 ''
try_type 2 'a <= (b + 1'
try_type 2 '2a <= 1'
try_type 2 'a < = 1'
try_type 2 'a <= 1 <= b'
try_type 2 $'a\t<= 1'
try_type 2 'a ≤ 1'
try_type 2 "$(printf '%0256d' 1)"
try_type 2 "$(printf '%0255d' 1)"
try_type 2 'a <= c'
try_type 2 'a*(b - 1) <= 2147483648'
try_type 2 'a <= -2147483648'
try_type 2 'a <= 1 + 2147483647 - 1'
try_type 2 '-(-2147483647 - 1) <= a'
try_type 2 '2147483647*a <= -a'

echo '# Rows that are shown, typed again: initial, region, flow, unsafe; with the least and the greatest numbers, and without coefficients'
type_again 4 0 3 examples/plant.model examples/plant.certificate
type_again 4 87 3 examples/plant.model examples/plant.certificate
type_again 4 3 14 examples/plant.model examples/plant.certificate
type_again 4 30 9 examples/plant.model examples/plant.certificate
type_again 1 0 0 least.model examples/tank.certificate
type_again 1 0 0 greatest.model examples/tank.certificate
type_again 1 0 0 without.model examples/tank.certificate

echo '# Joint switches'
try desk --joints examples/tank.model
try desk --joints examples/plant.model

echo '# Fair copies: of the tank, of another spelling of it, of rows that stay or are at the edges of their range, of a copy'
tank other.model '3 15 -1 -5 1 5 0 7' '2 20' '-4 0 6 12' '-3 -33'
tank odd.model '1 5 -1 -5' '2 21' '-1 0 1 2' '-1 -11 0 -3'
tank edges.model '-2147483648 -2147483648 2147483647 2147483647 -2147483648 2147483647 -2147483648 2' '0 -2147483648 0 -6 0 0' '' ''
try desk --fair examples/tank.model tank.copy
bytes tank.copy
try desk --fair other.model other.copy
found other.copy tank.copy
try desk --fair odd.model odd.copy
bytes odd.copy
try desk --fair edges.model edges.copy
bytes edges.copy
try desk --fair examples/plant.model plant.copy
try desk --fair plant.copy copy.copy
found copy.copy plant.copy

echo '# A copy in place of another file; a refused model leaves that as it is, and makes no new one'
cp plant.copy old.copy
try desk --fair other.model old.copy
found old.copy tank.copy
try desk --fair examples/tank.certificate old.copy
found old.copy tank.copy
try desk --fair examples/tank.certificate new.copy
found new.copy tank.copy

echo '# Runs of a model are runs of its copy; a certificate, which belongs to the sheet that it was drawn for, need not fit the copy'
try desk --fair examples/unsafe-plant.model unsafe-plant.copy
try desk unsafe-plant.copy examples/unsafe-plant.run
try desk tank.copy examples/tank.run
try desk tank.copy examples/tank.certificate
try desk plant.copy examples/plant.certificate

echo '# The same fair copy, or different ones; models refused'
try desk --same examples/tank.model other.model
try desk --same other.model tank.copy
try desk --same examples/plant.model plant.copy
try desk --same examples/tank.model examples/tank.model
try desk --same examples/tank.model examples/unsafe-tank.model
try desk --same odd.model examples/tank.model
try desk --same examples/tank.model examples/plant.model
try desk --same examples/tank.certificate examples/tank.model
try desk --same examples/tank.model examples/tank.run
try desk --same examples/tank.run examples/tank.certificate

echo '# Version 2: accepted and refused, a certificate and runs; the same bytes but for version 1'
blanks blanks.model 02 '0 -1 -6'
blanks free.model 01 '0 -1 -6'
blanks unsafe-blanks.model 02 '-1 0 -2'
sheet blanks.certificate 01 02 01 $(condition 3 0 1 5) $(proof 1 1) $(proof 1 0 4) $(proof 0 0 1) $(proof 1 0 2) $(proof 1 0 4)
sheet blanks.run 01 03 $(numbers 1) 00 02 00 $(numbers 0 4) 00 $(numbers 1 2 4) 01 00 ff 00 $(numbers 2 4)
sheet blank-flow.run 01 03 $(numbers 1) 00 01 00 $(numbers 0 5) 00 $(numbers 1 0 6)
sheet blank-jump.run 01 03 $(numbers 1) 00 01 00 $(numbers 0 4) 01 00 ff 00 $(numbers 0 6)
try desk examples/still.model examples/still.certificate
try desk blanks.model blanks.certificate
try desk free.model blanks.certificate
edit blanks.certificate blank-flow.certificate 38 05
try desk blanks.model blank-flow.certificate
try desk unsafe-blanks.model blanks.run
try desk blanks.model blanks.run
try desk blanks.model blank-flow.run
try desk free.model blank-flow.run
try desk blanks.model blank-jump.run
try desk free.model blank-jump.run
try desk --practice blanks.model blanks.certificate

echo '# Rows in version 2: of a blank in a flow, of a component that stays in a jump, of a blank in a jump, of a sheet; in version 1'
try desk --row 1 2 examples/still.model examples/still.certificate
try desk --row 1 4 blanks.model blanks.certificate
try desk --row 1 5 blanks.model blanks.certificate
try desk --row 1 6 blanks.model blanks.certificate
try desk --row 3 2 blanks.model blanks.certificate
try desk --row 4 3 blanks.model blanks.certificate
try desk --row 4 4 blanks.model blanks.certificate
try desk --row 4 5 blanks.model blanks.certificate
try desk --row 4 1 blanks.model blanks.certificate
try desk --row 1 4 free.model blanks.certificate
try desk --row 3 2 free.model blanks.certificate
try desk --row 4 4 free.model blanks.certificate

echo '# Reasons with other modes and switches than 0'
sheet modes.model 02 01 01 02 00 01 $(times 2 00 00 04 00 $(times 4 01 00 00 00))
sheet modes.certificate 01 02 10 $(times 14 00) $(rows 1 1) 00
try desk --row 1 2 modes.model modes.certificate
edit examples/plant.model blank-plant.model 2 02
try desk --row 87 18 blank-plant.model examples/plant.certificate

echo '# The most hypotheses: 129, in a flow of version 2'
sheet most.model 02 01 08 04 00 00 00 01 01 02 02 03 03 $(times 4 00 00 01 00 00 00 $(times 2 08 $(times 288 00)))
sheet most.certificate 01 02 01 10 $(times 576 00)
try desk --row 0 128 most.model most.certificate
try desk --row 0 129 most.model most.certificate

echo '# Versions that no model or no second sheet has; a model of version 2 that is refused for other things'
edit blanks.model none.model 2 00
try desk none.model blanks.certificate
edit blanks.model later.model 2 04
try desk later.model blanks.run
try desk --joints later.model
edit blanks.certificate later.certificate 2 02
try desk blanks.model later.certificate
try desk --row 0 0 blanks.model later.certificate
edit blanks.run later.run 2 02
try desk free.model later.run
try desk later.certificate blanks.certificate
edit blanks.model length.model 0 00 00
try desk length.model blanks.certificate
edit blanks.model longer.model 136 00
edit longer.model left.model 0 00 87
try desk left.model blanks.certificate
try desk --limits 64 1 blanks.model blanks.certificate
try desk --limits 64 0 blanks.model blanks.certificate

echo '# A fair copy has the version of its model'
try desk --fair blanks.model blanks.copy
found blanks.copy blanks.model
try desk --same blanks.model blanks.copy
try desk --same blanks.model free.model
try desk --same free.model later.model

# Sheets of the examples and of this script as sheets of version 3 with the paper number 7, by the same names in another folder.
head -c 65 examples/tank.model >cut-end.model
edit blanks.certificate left-over.certificate 88 00
mkdir seven
for name in {tank,unsafe-tank,still,plant,unsafe-plant}.model {tank,still,plant}.certificate {tank,unsafe-plant}.run; do
    numbered "examples/$name" "seven/$name" 7
done
for name in {blanks,unsafe-blanks,modes,other,cut-end}.model {blanks,modes,jump,left-over}.certificate \
    {blanks,blank-flow,blank-jump,start,other-start}.run tank.copy; do
    numbered "$name" "seven/$name" 7
done
sheet seven/half.run 03 03 $(numbers 7 2) 00 02 00 $(numbers 0 8) 00 $(numbers 2 4 8) 01 00 ff 00 $(numbers 4 8)
edit seven/half.run seven/late.run 44 00 00 00 09

echo '# Version 3: accepted, with one paper number in both sheets; the least and the greatest number'
try desk seven/tank.model seven/tank.certificate
try desk seven/still.model seven/still.certificate
try desk seven/blanks.model seven/blanks.certificate
try desk seven/unsafe-blanks.model seven/blanks.run
try desk seven/unsafe-blanks.model seven/half.run
try desk --practice seven/tank.model seven/tank.certificate
for number in 0 4294967295; do
    numbered examples/tank.model number.model $number
    numbered examples/tank.certificate number.certificate $number
    try desk number.model number.certificate
done

echo '# Version 3: a model cut, proofs refused, against an unsafe condition and after jumps, and a byte left'
try desk seven/cut-end.model seven/tank.certificate
try desk seven/unsafe-tank.model seven/tank.certificate
try desk seven/plant.model seven/jump.certificate
try desk seven/plant.model seven/plant.certificate
try desk seven/blanks.model seven/left-over.certificate

echo '# Version 3: runs refused, the start, flows and jumps, the end with and without steps'
try desk seven/tank.model seven/start.run
try desk seven/unsafe-plant.model seven/other-start.run
try desk seven/unsafe-plant.model seven/unsafe-plant.run
try desk seven/blanks.model seven/blank-flow.run
try desk seven/blanks.model seven/blank-jump.run
try desk seven/blanks.model seven/late.run
try desk seven/blanks.model seven/half.run
try desk seven/tank.model seven/tank.run

echo '# Rows in version 3: initial, region, flow, unsafe, jump, of a component that stays, of blanks; no such row'
try desk --row 0 3 seven/plant.model seven/plant.certificate
try desk --row 87 3 seven/plant.model seven/plant.certificate
try desk --row 3 14 seven/plant.model seven/plant.certificate
try desk --row 30 9 seven/plant.model seven/plant.certificate
try desk --row 4 1 seven/blanks.model seven/blanks.certificate
try desk --row 4 3 seven/blanks.model seven/blanks.certificate
try desk --row 4 4 seven/blanks.model seven/blanks.certificate
try desk --row 87 18 seven/plant.model seven/plant.certificate
try desk --row 1 2 seven/modes.model seven/modes.certificate
try desk --row 5 0 seven/blanks.model seven/blanks.certificate

echo '# Paper numbers that differ, in each of their bytes; before all that follows them'
for number in 8 263 65543 16777223; do
    numbered examples/tank.certificate number.certificate $number
    try desk seven/tank.model number.certificate
done
numbered examples/tank.run number.run 4294967295
try desk seven/tank.model number.run
try desk number.model seven/tank.run
try desk --row 0 0 seven/tank.model number.certificate
sheet short.certificate 03 02 $(numbers 8)
try desk seven/tank.model short.certificate
try desk --practice seven/tank.model short.certificate
try desk --row 9 9 seven/tank.model short.certificate

echo '# Versions that do not go together, before all of the body; a version that no second sheet has, and another kind, come first'
try desk examples/tank.model seven/tank.certificate
try desk examples/still.model seven/tank.certificate
try desk seven/tank.model examples/tank.certificate
try desk examples/tank.model seven/tank.run
try desk blanks.model seven/blanks.run
try desk seven/blanks.model blanks.run
try desk --row 0 0 examples/tank.model seven/tank.certificate
try desk --row 9 9 seven/tank.model examples/tank.certificate
sheet bare.certificate 03 02
try desk examples/tank.model bare.certificate
sheet old.certificate 01 02
try desk seven/tank.model old.certificate
try desk seven/blanks.model later.certificate
edit seven/tank.certificate latest.certificate 2 04
try desk seven/tank.model latest.certificate
try desk examples/tank.model latest.certificate
try desk seven/tank.model examples/tank.model
try desk examples/tank.model seven/tank.model

echo '# Paper numbers that are cut, and a body that ends with its paper number'
sheet bare.model 03 01
try desk bare.model seven/tank.certificate
sheet cut.model 03 01 00 00 07
try desk cut.model seven/tank.run
try desk --row 0 0 cut.model seven/tank.certificate
try desk --joints cut.model
try desk --fair cut.model new.copy
found new.copy tank.copy
try desk --same seven/tank.model cut.model
try desk seven/tank.model bare.certificate
sheet cut.run 03 03 00 00 08
try desk seven/tank.model cut.run
sheet short.model 03 01 $(numbers 7)
try desk short.model seven/tank.certificate
sheet short.certificate 03 02 $(numbers 7)
try desk seven/tank.model short.certificate
sheet short.run 03 03 $(numbers 7)
try desk seven/tank.model short.run

echo '# The first field after the paper number: n out of its range, and of models over a limit; the count of regions; q'
edit seven/tank.model none.model 8 00
try desk none.model seven/tank.certificate
try desk --limits 7 22 seven/plant.model seven/plant.certificate
try desk --limits 8 21 seven/plant.model seven/plant.certificate
try desk --limits 8 22 seven/plant.model seven/plant.certificate
try desk --limits 7 22 --joints seven/plant.model
try desk --limits 8 21 --fair seven/plant.model new.copy
found new.copy tank.copy
try desk --limits 8 21 --row 0 3 seven/plant.model seven/plant.certificate
edit seven/tank.certificate two.certificate 8 02
try desk seven/tank.model two.certificate
edit seven/tank.run zero.run 8 00 00 00 00
try desk seven/tank.model zero.run

echo '# Joint switches in version 3; a fair copy has the paper number of its model, so that runs of the model are runs of it'
try desk --joints seven/plant.model
try desk --fair seven/tank.model copy-of-seven
bytes copy-of-seven
found copy-of-seven seven/tank.copy
try desk --fair seven/other.model other-copy-of-seven
found other-copy-of-seven seven/tank.copy
try desk --fair seven/unsafe-blanks.model blanks-copy-of-seven
try desk blanks-copy-of-seven seven/blanks.run
try desk blanks-copy-of-seven blanks.run
try desk --same seven/tank.model seven/other.model
numbered other.model number.model 8
try desk --same seven/tank.model number.model
try desk --same seven/tank.model seven/unsafe-tank.model
try desk --same seven/tank.model examples/tank.model

echo '# Sheets of any length'
head -c 32768 /dev/zero >zeros
edit zeros longest.model 0 7f fe 01 01
try desk longest.model examples/tank.certificate
edit zeros longest.model 0 7f fe 03 01
try desk longest.model seven/tank.certificate
edit zeros longest.run 0 7f fe 03 03 00 00 00 07
try desk seven/tank.model longest.run
head -c 40000 /dev/zero >zeros
edit zeros overlong.model 0 9c 3e 01 01
try desk overlong.model examples/tank.certificate
try desk --joints overlong.model
try desk --fair overlong.model new.copy
found new.copy tank.copy
edit zeros overlong.run 0 9c 3e 01 03
try desk examples/tank.model overlong.run
head -c 3000000 /dev/zero >huge.certificate
try desk examples/tank.model huge.certificate
: >empty
try desk empty empty
try desk examples/tank.model empty
try desk --row 0 0 examples/tank.model empty
try desk --joints empty
try desk --fair empty new.copy
found new.copy tank.copy
try desk --same empty empty

echo '# Null pointers in place of each sheet, of the table, of the buffer and of a typed text'
try null examples/plant.model examples/plant.certificate examples/unsafe-plant.run examples/tank.model
try null seven/plant.model seven/plant.certificate seven/unsafe-plant.run seven/tank.model

# Models without rows: a component of each of the numbers of modes, and no switches; or one mode in each of four components, with so many
# switches each that move together, and in the last component as many that move alone as the second number says. Certificates without
# regions and proofs.
modes() {
    local count components=
    for count in "${@:2}"; do components+=" 00 00 0$count 00 $(times "$count" 01 00 00 00)"; done
    sheet "$1" 01 01 01 "0$(($# - 1))" 00 00 $components
}
switches() {
    local first
    first=$(times 3 00 02 01 "0$2" 01 00 00 00 $(times "$2" 00 00 01 00))
    sheet "$1" 01 01 01 04 00 00 $first 00 02 01 "0$(($2 + $3))" 01 00 00 00 $(times "$2" 00 00 01 00) $(times "$3" 00 00 00 00)
}
regions() {
    sheet "$1" 01 02 "$(printf '%02x' "$2")" $(times "$2" 00)
}
modes 16.model 4 4
regions 16.certificate 16
modes 18.model 3 6
regions 18.certificate 18
modes 64.model 8 8
regions 64.certificate 64
modes 72.model 8 3 3
switches 256.model 4 0
switches 257.model 4 1
switches 4096.model 8 0
switches 4097.model 8 1
regions 1.certificate 1

echo '# The exam desk on both sides of its limits'
try desk 64.model 64.certificate
try desk 72.model 64.certificate
try desk 4096.model 1.certificate
try desk 4097.model 1.certificate
try desk --joints 4097.model
for name in {64,72,4096,4097}.model {64,1}.certificate; do numbered $name seven/$name 7; done
try desk seven/64.model seven/64.certificate
try desk seven/72.model seven/64.certificate
try desk seven/4096.model seven/1.certificate
try desk seven/4097.model seven/1.certificate

echo '# The practice desk: on both sides of its limits, accepted, refused, rows, joint switches and fair copies'
try desk --practice 16.model 16.certificate
try desk --practice 18.model 18.certificate
try desk --practice 64.model empty
try desk --practice 256.model 1.certificate
try desk --practice 257.model 1.certificate
try desk --practice --joints 18.model
try desk --practice --joints 257.model
try desk --practice --row 0 0 257.model 1.certificate
try desk --practice --row 0 0 18.model 18.certificate
try desk --practice examples/tank.model examples/tank.certificate
try desk --practice examples/plant.model examples/plant.certificate
try desk --practice examples/unsafe-plant.model examples/unsafe-plant.run
try desk --practice examples/plant.model jump.certificate
try desk --practice examples/unsafe-plant.model flow.run
try desk --practice empty empty
try desk --practice --row 49 19 examples/plant.model examples/plant.certificate
try desk --practice --row 115 0 examples/plant.model examples/plant.certificate
try desk --practice --joints examples/tank.model
try desk --practice --fair 16.model new.copy
found new.copy 16.model
try desk --practice --fair 18.model old.copy
found old.copy tank.copy
try desk --practice --fair 257.model old.copy
try desk --practice --same 16.model new.copy
try desk --practice --same 16.model 18.model
try desk --practice --same 257.model 16.model
rm new.copy

echo '# Other limits: as many as the plant has, one more, one less of each, one less of both, one'
try desk --limits 8 22 examples/plant.model examples/plant.certificate
try desk --limits 9 23 examples/plant.model examples/plant.certificate
try desk --limits 7 22 examples/plant.model examples/plant.certificate
try desk --limits 8 21 examples/plant.model examples/plant.certificate
try desk --limits 7 21 examples/plant.model examples/plant.certificate
try desk --limits 1 1 examples/plant.model examples/plant.certificate
try desk --limits 64 1 examples/plant.model examples/plant.certificate
try desk --limits 1 1 examples/tank.model examples/tank.certificate
try desk --limits 8 22 examples/unsafe-plant.model examples/unsafe-plant.run
try desk --limits 7 22 examples/unsafe-plant.model examples/unsafe-plant.run
try desk --limits 8 21 --row 3 17 examples/plant.model examples/plant.certificate
try desk --limits 8 22 --row 3 17 examples/plant.model examples/plant.certificate
try desk --limits 7 4096 --joints examples/plant.model
try desk --limits 8 21 --fair examples/plant.model new.copy
found new.copy plant.copy
try desk --limits 8 22 --fair examples/plant.model new.copy
found new.copy plant.copy
try desk --limits 8 22 --same examples/plant.model new.copy
try desk --limits 7 22 --same examples/tank.model new.copy
rm new.copy
try desk --limits 64 4096 64.model 64.certificate
try desk --limits 64 4095 4096.model 1.certificate
try desk --limits 1 4096 4096.model 1.certificate

echo '# Limits out of their ranges: refused before any sheet, and before the number of an obligation'
try desk --limits 0 4096 examples/tank.model examples/tank.certificate
try desk --limits 64 0 examples/tank.model examples/tank.certificate
try desk --limits 65 4096 examples/tank.model examples/tank.certificate
try desk --limits 64 4097 examples/tank.model examples/tank.run
try desk --limits 4294967295 1 examples/tank.model examples/tank.certificate
try desk --limits 1 4294967295 examples/tank.model examples/tank.certificate
try desk --limits 0 0 empty empty
try desk --limits 65 4097 72.model empty
try desk --limits 0 1 --joints empty
try desk --limits 64 4097 --joints examples/plant.model
try desk --limits 65 1 --row 115 0 examples/plant.model examples/plant.certificate
try desk --limits 0 4097 --fair examples/tank.model new.copy
found new.copy tank.copy
try desk --limits 65 1 --same examples/tank.model empty

echo '# Copies that are not written: over the model, by its name, another one, links and a folder; over what is no file; half; over a part'
cp examples/plant.model own.model
ln own.model hard.model
ln -s own.model link.model
ln -s . folder.link
try desk --fair own.model own.model
try desk --fair own.model ./own.model
try desk --fair own.model hard.model
try desk --fair own.model link.model
try desk --fair link.model own.model
try desk --fair own.model folder.link/own.model
try desk --practice --fair own.model own.model
ln -s old.copy link.copy
ln -s new.copy lost.copy
try desk --fair own.model link.copy
try desk --fair own.model lost.copy
try desk --fair own.model folder.link
try desk --fair own.model no-folder/new.copy
try desk --fair own.model old.copy/new.copy
try_short desk --fair own.model new.copy
try_short desk --fair own.model old.copy
found new.copy.part plant.copy
found old.copy.part plant.copy
cp own.model old.copy.part
try desk --fair old.copy.part old.copy
found old.copy.part examples/plant.model
found own.model examples/plant.model
found old.copy tank.copy
found new.copy plant.copy

echo '# What the desk cannot do'
try_full desk examples/tank.model examples/tank.certificate
try_full desk --joints examples/plant.model
try_full desk --help
try desk examples/tank.model examples/no-such-file
try desk examples examples/tank.certificate
try desk --row 0 x examples/tank.model examples/tank.certificate
try desk --row 0 4294967296 examples/tank.model examples/tank.certificate
try_type x 'a <= 1'
try_type 4294967296 'a <= 1'
try desk --type 2
try_full desk --type 1 'a<=1'
try desk --limits 4294967296 4096 examples/tank.model examples/tank.certificate
try desk --limits 64 4294967296 examples/tank.model examples/tank.certificate
try desk --limits x 4096 examples/tank.model examples/tank.certificate
try desk --limits 64 '' examples/tank.model examples/tank.certificate
try desk --limits -1 4096 --joints examples/tank.model
try desk --limits 64 +1 --row 0 0 examples/tank.model examples/tank.certificate
try desk --practice --limits 16 256 examples/tank.model examples/tank.certificate
try desk --limits 16 256 --practice examples/tank.model examples/tank.certificate
try desk --practice --practice examples/tank.model examples/tank.certificate
try desk --limits 16 256 --limits 64 4096 --joints examples/tank.model
try desk --practice --type 1 'a<=1'
try desk --limits 64 4096 --type 1 'a<=1'
try desk --fair examples/no-such-file new.copy
try desk --fair no-such-file no-such-file
found new.copy plant.copy
try desk --same examples/no-such-file examples/tank.model
try desk --same examples/tank.model examples/no-such-file
try_full desk --same examples/tank.model examples/tank.model
try_full desk --fair examples/plant.model new.copy
found new.copy plant.copy
try desk --fair
try desk --same examples/tank.model
try desk --practice examples/tank.model examples/no-such-file
try_full desk --practice examples/tank.model examples/tank.certificate
try desk --limits 16 256
try desk examples/tank.model
try desk --help
