# cases/calls.sh: calls of the library for C and what cases/calls.c prints for them; read by cases/run, whose call and times are used here.

# Book A of document 01, and its table.
book_a='20 02 21 00 01 22 00 22 01 00'
table_a=(30 02 00 03
    31 00 33 00 01 33 00 00 34 01
    31 01 32 00 33 00 01 34 00 33 00 02 34 01 34 01
    31 00 33 00 02 34 00 33 00 02 34 01 00)
# The table as numbers: K, then a row of six for each state.
loaded_a=(2
    0 0 7 0 1 257
    1 0 7 1 4294967295 65794
    0 0 4294967295 1 4294967295 257)

# ---- Runs ----

# run_a NAME SENTENCE RESULT: A's table, the loaded table, and A itself, with an output slice of seven bytes.
run_a() {
    call "table A, $1" "run_table 7 ${table_a[*]} / $2" "$3"
    call "loaded table A, $1" "run_loaded 7 ${loaded_a[*]} / $2" "$3"
    call "loaded table A with numbers behind it, $1" "run_loaded 7 ${loaded_a[*]} 4294967295 0 7 / $2" "$3"
    call "book A, $1" "run_book 7 $book_a / $2" "$3"
}

run_a 'no tags' '' '0 changed, output 7 7 7 7 7 7 7'
run_a '0' '00' '0 changed, output 0 7 7 7 7 7 7'
run_a '0 0 1 0 1' '00 00 01 00 01' '1 changed, output 0 1 1 0 1 7 7'
run_a '1 1 0 0' '01 01 00 00' '0 changed, output 1 1 0 0 7 7 7'
run_a 'a tag not below K' '00 02 01' 'refused 4, output 7 7 7 7 7 7 7'
run_a 'more tags than room' '00 01 01 01 01 01 01 01' 'refused 11, output 7 7 7 7 7 7 7'
run_a 'more tags than room and a tag not below K' '00 01 01 01 01 01 01 02' 'refused 4, output 7 7 7 7 7 7 7'
run_a 'the longest sentence, no room' "$(times 65535 ' 00')" 'refused 11, output 7 7 7 7 7 7 7'
longer=$(times 65536 ' 03')
run_a 'a longer sentence with a tag not below K' "$longer" 'refused 13, output 7 7 7 7 7 7 7'
call 'no table, a longer sentence' "run_table 2 30 / $longer" 'refused 12, output 7 7'
call 'K 49, a longer sentence' "run_loaded 2 49 / $longer" 'refused 12, output 7 7'

# ---- Books read ----

# book_read NAME BOOK RESULT
book_read() { call "$1, read" "read_book $2" "$3"; }

book_read 'book A' "$book_a" 'tags 2, rules 1'
book_read 'no rules, most tags' '20 30 00' 'tags 48, rules 0'
book_read '16 rules' "20 02$(times 16 ' 21 00 01 22 00') 00" 'tags 2, rules 16'
book_read 'no bytes' '' 'refused 1'
book_read 'another command' '23 02 00' 'refused 1'
book_read 'the first byte alone' '20' 'refused 1 at byte 1'
book_read 'book A without its end' "${book_a% *}" 'refused 1 at byte 9'
book_read 'book A and 00' "$book_a 00" 'refused 1 at byte 10'
book_read 'a tag before a rule' '20 02 22 00 00' 'refused 1 at byte 2'
book_read 'K 1' '20 01 00' 'refused 2 at byte 1'
book_read 'K 49' '20 31' 'refused 2 at byte 1'
book_read 'an empty pattern' '20 02 21 00 01 00' 'refused 3 at byte 5'
book_read 'a seventh tag' "20 02 21 00 01$(times 7 ' 22 00') 00" 'refused 3 at byte 17'
book_read 'a new tag not below K' '20 02 21 00 02 22 00 00' 'refused 4 at byte 4'
book_read 'a tag not below K' '20 02 21 00 01 22 02 00' 'refused 4 at byte 6'
book_read 'a place outside the pattern' '20 02 21 01 01 22 00 00' 'refused 5 at byte 7'
book_read 'the same tag' '20 02 21 00 00 22 00 21' 'refused 6 at byte 7'
book_read 'a seventeenth rule' "20 02$(times 16 ' 21 00 01 22 00') 21" 'refused 7 at byte 82'

# ---- Tables ----

# well_formed NAME TABLE, malformed NAME TABLE: the table is read, by a run over no tags and by the calls that read and load it.
well_formed() {
    local size
    read -ra size <<<"$2"
    call "$1" "run_table 2 $2 /" '0 changed, output 7 7'
    call "$1, read" "read_table $2" "tags $((0x${size[1]})), states $((0x${size[2]} * 256 + 0x${size[3]}))"
    call "$1, no numbers" "load_table 0 $2" 'refused 11, loaded'
}
malformed() {
    call "$1" "run_table 2 $2 /" 'refused 12, output 7 7'
    call "$1, read" "read_table $2" 'refused 12'
    call "$1, no numbers" "load_table 0 $2" 'refused 12, loaded'
}

# identity K: the identity of one state.
identity() {
    printf '30 %02x 00 01 31 00' "$1"
    printf ' 33 00 00 34 %02x' $(seq 0 $(($1 - 1)))
    printf ' 00'
}

# row S STATES: states over two tags that put out what they read; each goes to the next one, the last to itself. The head says S.
row() {
    local q next step
    printf '30 02 %02x %02x' $(($1 / 256)) $(($1 % 256))
    for ((q = 1; q <= $2; q++)); do
        next=$((q < $2 ? q : q - 1))
        printf -v step '33 %02x %02x 34' $((next / 256)) $((next % 256))
        printf ' 31 00 %s 00 %s 01' "$step" "$step"
    done
    printf ' 00'
}

# ladder TOP: the identity over two tags, with states that hold 0, 1, .. TOP zeros. A 0 leads to the state that holds one more, in the last
# to itself; a 1 leads to state 0.
ladder() {
    local q held= put=
    printf '30 02 00 %02x' $(($1 + 1))
    for ((q = 0; q < $1; q++)); do
        printf ' 31 %02x%s 33 00 %02x 33 00 00%s 34 01' "$q" "$held" $((q + 1)) "$put"
        held+=' 32 00' put+=' 34 00'
    done
    printf ' 31 %02x%s 33 00 %02x 34 00 33 00 00%s 34 01 00' "$1" "$held" "$1" "$put"
}

# K
well_formed 'identity, K 2' "$(identity 2)"
call 'identity, K 2, 1 0 1' "run_table 4 $(identity 2) / 01 00 01" '0 changed, output 1 0 1 7'
well_formed 'identity, most tags' "$(identity 48)"
call 'identity, most tags, 47 0 31' "run_table 4 $(identity 48) / 2f 00 1f" '0 changed, output 47 0 31 7'
malformed 'identity, one tag more' "$(identity 49)"
malformed 'identity, K 1' "$(identity 1)"
# Held tags
table=$(ladder 80)
well_formed 'most held tags' "$table"
call 'most held tags, 84 times 0' "run_table 85 $table /$(times 84 ' 00')" "0 changed, output$(times 84 ' 0') 7"
malformed 'one held tag more' "$(ladder 81)"
# S
table=$(row 256 256)
well_formed 'most states' "$table"
call 'most states, 1 0 1' "run_table 4 $table / 01 00 01" '0 changed, output 1 0 1 7'
malformed 'one state more' "$(row 257 257)"
malformed 'no states' "$(row 0 0)"
malformed 'S 2 with 1 state' "$(row 2 1)"
malformed 'S 1 with 2 states' "$(row 1 2)"

# a_with AT BYTE: A's table with another byte at a place.
a_with() {
    local table=("${table_a[@]}")
    table[$1]=$2
    echo "${table[*]}"
}

# An unknown command in place of each; each front
well_formed 'table A' "${table_a[*]}"
for at in 0 4 6 9 12 14 16 18 21 23 26 28 30 32 35 37 40 42; do
    malformed "table A, unknown command at $at" "$(a_with "$at" 35)"
done
for n in {0..42}; do
    malformed "table A, the first $n bytes" "${table_a[*]:0:n}"
done
malformed 'table A and 00' "${table_a[*]} 00"
# Commands out of place, sizes and numbers of held tags that are not those that follow
malformed 'table A, 31 for 33' "$(a_with 6 31)"
malformed 'table A, 00 for 31' "$(a_with 14 00)"
malformed 'table A, K 1' "$(a_with 1 01)"
malformed 'table A, K 3' "$(a_with 1 03)"
malformed 'table A, S 2' "$(a_with 3 02)"
malformed 'table A, S 4' "$(a_with 3 04)"
malformed 'table A, one held tag too many' "$(a_with 15 00)"
malformed 'table A, one held tag too few' "$(a_with 15 02)"
# Tags and states out of range; other tags are a table too
malformed 'table A, a held tag not below K' "$(a_with 17 02)"
malformed 'table A, a tag put out not below K' "$(a_with 13 02)"
malformed 'table A, a next state not below S' "$(a_with 8 03)"
malformed 'table A, a next state of two bytes' "$(a_with 7 01)"
malformed 'table A, a next state that holds too little' "$(a_with 8 00)"
malformed 'table A, a next state that holds too much' "$(a_with 11 01)"
well_formed 'table A, other output' "$(a_with 13 00)"
well_formed 'table A, other held tag' "$(a_with 17 01)"
# Tables of one state
malformed 'no bytes' ''
malformed 'state 0 holds a tag' '30 02 00 01 31 01 32 00 33 00 00 34 00 33 00 00 34 01 00'
malformed 'two tags put out for one' '30 02 00 01 31 00 33 00 00 34 00 34 00 33 00 00 34 01 00'
malformed 'no tag put out for one' '30 02 00 01 31 00 33 00 00 33 00 00 34 01 00'
malformed 'a step too few' '30 02 00 01 31 00 33 00 00 34 00 00'
malformed 'a step too many' '30 02 00 01 31 00 33 00 00 34 00 33 00 00 34 01 33 00 00 34 01 00'

# ---- Loaded tables ----

# load NAME ROOM TABLE RESULT
load() { call "$1, loaded" "load_table $2 $3" "$4"; }

load 'table A' 19 "${table_a[*]}" "19 numbers, loaded ${loaded_a[*]}"
load 'table A, a longer slice' 22 "${table_a[*]}" "19 numbers, loaded ${loaded_a[*]} 7 7 7"
load 'table A, one number short' 18 "${table_a[*]}" "refused 11, loaded$(times 18 ' 7')"
load 'table A, no numbers' 0 "${table_a[*]}" 'refused 11, loaded'
load 'table A, one step unbalanced' 19 "$(a_with 8 00)" "refused 12, loaded$(times 19 ' 7')"
load 'table A, one step unbalanced, one number short' 18 "$(a_with 8 00)" "refused 12, loaded$(times 18 ' 7')"
load 'identity, K 2' 8 "$(identity 2)" '7 numbers, loaded 2 0 0 4294967295 1 4294967295 257 7'
load 'a state that puts out what it reads and holds a tag' 13 \
    '30 02 00 02 31 00 33 00 01 33 00 01 31 01 32 00 33 00 01 34 00 33 00 01 34 01 00' '13 numbers, loaded 2 0 0 7 0 7 0 1 0 7 1 7 257'
# States that hold 0 to 4 zeros: three tags stand in a word's number, four and five behind the rows, at 31, 35 and 39
load 'ladder' 45 "$(ladder 4)" "44 numbers, loaded 2 0 0 7 0 1 257 1 0 13 0 1 65538 2 0 19 0 1 16777219 3 0 25 0 1 7940 \
8964 0 25 1 1 9989 0 0 0 1 0 0 0 0 0 0 0 0 1 7"

# with AT NUMBER [AT NUMBER]: the loaded table A with other numbers at one or two places.
with() {
    local loaded=("${loaded_a[@]}")
    loaded[$1]=$2
    [ $# -eq 2 ] || loaded[$3]=$4
    echo "${loaded[*]}"
}

# run NAME NUMBERS SENTENCE RESULT: with an output slice of four bytes.
run() { call "loaded table A, $1" "run_loaded 4 $2 / $3" "$4"; }
none='refused 12, output 7 7 7 7'

# The head, before the sentence
run 'no numbers' '' '00' "$none"
for k in 0 1 49 258 4294967295; do
    run "K $k and a tag not below any K" "$(with 0 "$k")" 'ff' "$none"
done
run 'K 3, 0' "$(with 0 3)" '00' '0 changed, output 0 7 7 7'
run 'K 3, 2' "$(with 0 3)" '02' "$none"
run 'K 48' "$(with 0 48)" '30' 'refused 4, output 7 7 7 7'
run 'K 48, no row' "$(with 0 48)" '' "$none"
run 'K alone' '2' '' "$none"
run 'K alone, no room' '2' '00 00 00 00 00' 'refused 11, output 7 7 7 7'
# Rows: cut off, moved, to a row that is whole and to one that is not
run 'the first row, one number short' "${loaded_a[*]:0:6}" '' "$none"
run 'the first row, no tags' "${loaded_a[*]:0:7}" '' '0 changed, output 7 7 7 7'
run 'the first row, 1 1' "${loaded_a[*]:0:7}" '01 01' '0 changed, output 1 1 7 7'
run 'the first row, 0' "${loaded_a[*]:0:7}" '00' "$none"
run 'without the last row, 0 0 1 0' "${loaded_a[*]:0:13}" '00 00 01 00' '1 changed, output 0 1 1 0'
run 'a next row at 14, 0' "$(with 3 14)" '00' "$none"
run 'a next row at 14, 1' "$(with 3 14)" '01' '0 changed, output 1 7 7 7'
run 'a next row at 13, 0' "$(with 3 13)" '00' "$none"
moved=$(with 3 13 4 257)
run 'a next row at 13 and a word, 0 1' "$moved" '00 01' '1 changed, output 1 1 7 7'
run 'a next row at 13 and a word, 0 0' "$moved" '00 00' '1 changed, output 1 0 7 7'
run 'a next row at 13 and a word, one number short, 0 0' "${moved% *}" '00 00' "$none"
for place in 4294967294 4294967293 4294967292 4294967291; do
    run "a next row at $place, 0 0" "$(with 3 $place)" '00 00' "$none"
done
run 'resting too soon, 0 0' "$(with 3 4294967295)" '00 00' "$none"
run 'resting too soon, with its tag, 0 1' "$(with 3 4294967295 4 257)" '00 01' '1 changed, output 1 1 7 7'
# Words: too long, too short, with tags not below K, behind the slice
run 'a word of two, 1' "$(with 6 65794)" '01' "$none"
run 'no word, 1' "$(with 6 0)" '01' "$none"
run 'no final word, 0' "$(with 7 0)" '00' "$none"
run 'a final word of two, 0' "$(with 7 2)" '00' "$none"
run 'a final word of two, 0 1' "$(with 7 2)" '00 01' '1 changed, output 1 1 7 7'
run 'a word of the tag 2, 1' "$(with 6 513)" '01' "$none"
run 'a final word of the tag 2, 0' "$(with 7 513)" '00' "$none"
run 'a word of the tag 2, not met, 0' "$(with 6 513)" '00' '0 changed, output 0 7 7 7'
run 'a long word beyond the end, 0' "$(with 7 $((16 * 256 + 4)))" '00' "$none"
# One row over 8 tags that puts out nothing until the end, and then the four tags behind it, which are the lowest bytes of their numbers
hoard="8 $((19 * 256 + 4)) 0$(times 8 ' 1 0') 256 513 1"
run_hoard() { call "a row that hoards, $1" "run_loaded 4 $hoard $2 / $3" "$4"; }
run_hoard 'four tags' '256' '00 00 00 00' '2 changed, output 0 1 1 0'
run_hoard 'four tags with numbers behind' '263 9' '01 01 01 01' '2 changed, output 0 1 1 7'
run_hoard 'one number short' '' '00 00 00 00' "$none"
run_hoard 'a tag not below K' '264' '00 00 00 00' "$none"
run_hoard 'three tags' '256' '00 00 00' "$none"

# ---- Compiling ----

# compile NAME CEILING BOOK RESULT: with the longest slices of cases/calls.c.
compile() { call "$1" "compile $2 1081344 65536 $3" "$4"; }
agree='agree on 400 of 400 sentences'

# Ceilings
ababb='20 02 21 02 01 22 00 22 01 22 00 22 01 22 01 00'
compile 'ababb to abbbb' 256 "$ababb" "states 6, bytes 87, $agree"
compile 'ababb to abbbb, ceiling 6' 6 "$ababb" "states 6, bytes 87, $agree"
compile 'ababb to abbbb, ceiling 5' 5 "$ababb" 'refused 10 at rule 1'
compile 'no rules, K 2, ceiling 1' 1 '20 02 00' "states 1, bytes 17, $agree"
compile 'no rules, K 48, ceiling 172' 172 '20 30 00' "states 1, bytes 247, $agree"
compile 'no rules, K 48, ceiling 173' 173 '20 30 00' 'refused 9'
compile 'book A, ceiling 0' 0 "$book_a" 'refused 8'
compile 'book A, ceiling 257' 257 "$book_a" 'refused 8'
compile 'no book, ceiling 0' 0 '' 'refused 8'
compile 'no book, ceiling 257' 257 '' 'refused 8'
compile 'no book' 256 '' 'refused 1'
# Rules and patterns
rules="20 02$(times 8 ' 21 00 01 22 00 21 00 00 22 01')"
compile '16 rules' 256 "$rules 00" "states 3, bytes 41, $agree"
compile '17 rules' 256 "$rules 21 00 01 22 00 00" 'refused 7'
pattern='20 02 21 03 01 22 00 22 00 22 01 22 00 22 00 22 01'
compile 'a pattern of 6' 256 "$pattern 00" "states 7, bytes 101, $agree"
compile 'a pattern of 7' 256 "$pattern 22 00 00" 'refused 3'

# slices NAME CEILING ENTRIES ROOM RESULT: book A needs 1,872 entries at ceiling 3, 1,248 at ceiling 2, and its table has 43 bytes.
slices() { call "book A, $1" "slices $2 $3 $4 $book_a" "$5 other than before"; }

slices 'exactly what is needed' 3 1872 43 'states 3, bytes 43; 1872 entries and 43 bytes'
slices 'more than is needed' 3 4096 64 'states 3, bytes 43; 1872 entries and 43 bytes'
slices 'one entry short' 3 1871 43 'refused 9; 0 entries and 0 bytes'
slices 'one byte short' 3 1872 42 'refused 11; 1872 entries and 0 bytes'
slices 'no bytes' 3 1872 0 'refused 11; 1872 entries and 0 bytes'
slices 'one entry and one byte short' 3 1871 42 'refused 9; 0 entries and 0 bytes'
slices 'too low a ceiling' 2 1248 43 'refused 10 at rule 1; 1248 entries and 0 bytes'
slices 'too low a ceiling and no bytes' 2 4096 0 'refused 10 at rule 1; 1248 entries and 0 bytes'
slices 'too low a ceiling and one entry short' 2 1247 43 'refused 9; 0 entries and 0 bytes'

# book NAME STATES BYTES BOOK: at the greatest ceiling the table has so many states and bytes, and does what the book does.
book() { compile "book $1" 256 "$4" "states $2, bytes $3, $agree"; }

# Document 01's three books, and forty more
book A 3 43 "$book_a"
book B 3 41 '20 02 21 00 01 22 00 21 00 00 22 01 00'
book C 8 233 '20 05 21 01 02 22 00 22 01 21 00 01 22 02 22 03 00'
book 1 7 89 '20 02 21 04 01 22 00 22 00 22 00 22 01 22 00 21 00 01 22 00 00'
book 2 5 67 '20 02 21 00 00 22 01 22 00 21 00 00 22 01 00'
book 3 23 313 '20 02 21 00 00 22 01 22 01 21 01 01 22 00 22 00 22 00 21 01 01 22 00 22 00 00'
book 4 10 295 '20 05 21 01 01 22 04 22 03 22 02 21 01 04 22 01 22 00 00'
book 5 184 3223 "20 02 21 01 01 22 01 22 00 22 00 22 01 22 00 22 01 21 04 00 22 00 22 00 22 01 22 01 22 01 \
21 05 01 22 00 22 00 22 01 22 01 22 00 22 00 21 01 00 22 01 22 01 22 01 22 00 22 01 22 01 00"
book 6 4 87 '20 03 21 00 02 22 01 22 00 22 02 00'
book 7 28 593 '20 03 21 01 02 22 00 22 01 21 01 01 22 01 22 02 21 00 00 22 02 22 01 22 00 22 00 00'
book 8 5 69 '20 02 21 01 00 22 00 22 01 22 00 21 00 01 22 00 00'
book 9 42 873 '20 03 21 00 02 22 00 22 02 22 02 22 02 21 03 01 22 01 22 01 22 01 22 00 22 01 21 00 01 22 00 22 00 22 01 00'
book 10 7 123 '20 02 21 00 01 22 00 21 00 00 22 01 22 00 21 00 01 22 00 22 01 22 01 22 01 22 01 00'
book 11 17 572 '20 05 21 00 01 22 03 22 03 22 02 21 00 04 22 02 21 00 02 22 04 22 00 00'
book 12 36 477 '20 02 21 00 00 22 01 21 01 00 22 00 22 01 22 00 22 01 21 02 01 22 01 22 00 22 00 21 02 00 22 00 22 00 22 01 22 01 00'
book 13 20 465 '20 04 21 01 00 22 03 22 02 21 01 00 22 00 22 01 21 00 02 22 01 22 03 00'
book 14 6 137 '20 04 21 00 03 22 00 21 01 03 22 03 22 01 00'
book 15 6 99 '20 02 21 01 00 22 01 22 01 22 00 22 00 22 00 00'
book 16 36 671 '20 02 21 00 01 22 00 22 01 22 01 22 00 22 00 22 00 21 00 00 22 01 22 00 21 02 01 22 00 22 01 22 00 00'
book 17 16 203 '20 02 21 04 00 22 00 22 00 22 01 22 01 22 01 21 00 01 22 00 22 01 21 01 01 22 00 22 00 00'
book 18 5 90 '20 03 21 03 00 22 02 22 02 22 02 22 02 00'
book 19 4 89 '20 03 21 00 02 22 00 22 01 22 00 00'
book 20 3 62 '20 03 21 00 02 22 01 22 01 00'
book 21 44 1075 '20 03 21 01 02 22 02 22 00 22 02 22 02 22 01 22 02 21 01 02 22 01 22 00 21 00 01 22 00 22 02 22 00 22 01 00'
book 22 4 99 '20 04 21 00 00 22 01 21 00 03 22 01 22 03 00'
book 23 57 921 "20 02 21 03 00 22 00 22 00 22 00 22 01 22 01 22 01 21 02 00 22 01 22 00 22 01 22 00 \
21 01 00 22 00 22 01 22 01 22 01 22 00 22 00 00"
book 24 11 165 '20 02 21 00 01 22 00 22 00 22 01 21 02 00 22 01 22 00 22 01 00'
book 25 5 73 '20 02 21 00 01 22 00 21 00 01 22 00 22 00 22 01 00'
book 26 10 149 '20 02 21 01 01 22 01 22 00 21 00 01 22 00 22 00 22 00 00'
book 27 3 41 '20 02 21 01 00 22 00 22 01 00'
book 28 11 145 '20 02 21 00 00 22 01 22 01 21 00 01 22 00 21 04 00 22 00 22 01 22 00 22 01 22 01 22 01 00'
book 29 9 237 '20 04 21 00 01 22 02 22 01 21 00 01 22 00 22 01 00'
book 30 56 1587 '20 04 21 00 00 22 03 22 01 21 00 01 22 02 22 01 22 02 21 01 00 22 01 22 02 21 01 00 22 02 22 02 00'
book 31 6 91 '20 02 21 01 01 22 01 22 00 22 00 21 00 00 22 01 22 01 00'
book 32 3 60 '20 03 21 00 02 22 01 22 00 00'
book 33 6 161 '20 03 21 00 01 22 00 22 01 22 01 22 02 22 00 00'
book 34 27 665 '20 04 21 01 02 22 02 22 03 22 01 21 00 03 22 00 22 03 21 00 00 22 01 21 00 00 22 01 00'
book 35 20 357 '20 03 21 00 00 22 02 21 04 00 22 01 22 00 22 01 22 00 22 02 22 02 21 01 01 22 02 22 02 00'
book 36 3 96 '20 05 21 00 04 22 01 22 01 00'
book 37 28 553 '20 03 21 01 00 22 01 22 02 21 01 01 22 00 22 02 22 00 21 00 01 22 02 22 02 22 00 00'
book 38 23 335 '20 02 21 01 01 22 00 22 00 22 01 21 03 01 22 01 22 01 22 00 22 00 22 01 22 00 21 01 01 22 01 22 00 22 01 00'
book 39 7 89 '20 02 21 01 01 22 00 22 00 21 01 01 22 01 22 00 00'
book 40 42 787 '20 03 21 03 02 22 00 22 00 22 00 22 01 22 02 21 01 02 22 02 22 00 22 01 21 02 02 22 00 22 01 22 00 22 01 00'

# ---- End tags ----

# Over four tags, with 3 for the full stop: 0 1 to 0 2, 0 3 to 1 3, which ends with it, 3 1 to 3 2, which begins with it, and 1 to 3, which
# makes it.
noun='20 04 21 01 02 22 00 22 01 00'
closing='20 04 21 00 01 22 00 22 03 00'
opening='20 04 21 01 02 22 03 22 01 00'
making='20 04 21 00 03 22 01 00'

# ends NAME END BOOK SENTENCE RESULT: with an output slice of 13 bytes.
ends() { call "$1, end tag $2" "ending $2 run_book 13 $3 / $4" "$5"; }

ends 'three sentences' 3 "$noun" '00 01 00 01 03 00 01 03 01 00 01 03' '3 changed, output 0 2 0 1 3 0 2 3 1 0 2 3 7'
ends 'three sentences, the last without its end' 3 "$noun" '00 01 00 01 03 00 01 03 01 00 01' '3 changed, output 0 2 0 1 3 0 2 3 1 0 2 7 7'
ends 'three sentences as one' 255 "$noun" '00 01 00 01 03 00 01 03 01 00 01' '1 changed, output 0 2 0 1 3 0 1 3 1 0 1 7 7'
ends 'one sentence without its end' 3 "$noun" '00 01 00 01' '1 changed, output 0 2 0 1 7 7 7 7 7 7 7 7 7'
ends 'empty sentences' 3 "$noun" '03 03 00 01 03 03' '1 changed, output 3 3 0 2 3 3 7 7 7 7 7 7 7'
ends 'no match across the end' 3 "$noun" '00 03 01' '0 changed, output 0 3 1 7 7 7 7 7 7 7 7 7 7'
ends 'no tags' 3 "$noun" '' "0 changed, output$(times 13 ' 7')"
ends 'a pattern that ends with it' 3 "$closing" '00 00 03 00 03 01 00' '2 changed, output 0 1 3 1 3 1 0 7 7 7 7 7 7'
ends 'the lowest tag' 0 "$opening" '03 01 03 01 00 03 01' '2 changed, output 3 2 3 1 0 3 2 7 7 7 7 7 7'

# gives_14 NAME END BOOK: from the runs, before 4 and 11, and from compile, before 9, with all slices as they were; 8 comes before it.
gives_14() {
    call "$1, end tag $2, run" "ending $2 run_book 2 $3 / ff ff ff" 'refused 14, output 7 7'
    call "$1, end tag $2, run with rules" "ending $2 run_rules 2 2 $3 / ff ff ff" 'refused 14, output 7 7, rules 7 7'
    call "$1, end tag $2" "ending $2 slices 3 3120 99 $3" 'refused 14; 0 entries and 0 bytes other than before'
    call "$1, end tag $2, no entries" "ending $2 slices 3 0 0 $3" 'refused 14; 0 entries and 0 bytes other than before'
    call "$1, end tag $2, ceiling 0" "ending $2 slices 0 0 0 $3" 'refused 8; 0 entries and 0 bytes other than before'
}

gives_14 'K' 4 "$noun"
gives_14 'no tag' 254 "$noun"
gives_14 'before the last place' 3 "$opening"
gives_14 'changed' 1 "$noun"
gives_14 'made' 3 "$making"
gives_14 'no rules, K' 2 '20 02 00'
call 'a book without its end, end tag 4' "ending 4 slices 3 3120 99 ${noun% *}" 'refused 1; 0 entries and 0 bytes other than before'

# compile_ending NAME END CEILING BOOK RESULT: with the longest slices.
compile_ending() { call "$1, end tag $2" "ending $2 compile $3 1081344 65536 $4" "$5"; }

# One state more than the pattern has tags; as many where it ends with the end tag.
compile_ending '0 1 to 0 2' 3 3 "$noun" "states 3, bytes 71, $agree"
compile_ending '0 1 to 0 2' 255 3 "$noun" "states 3, bytes 71, $agree"
compile_ending '0 1 to 0 2' 3 2 "$noun" 'refused 10 at rule 1'
compile_ending '0 3 to 1 3' 3 2 "$closing" "states 2, bytes 55, $agree"
compile_ending '0 3 to 1 3' 3 1 "$closing" 'refused 10 at rule 1'
compile_ending '0 3 to 1 3' 2 3 "$closing" "states 3, bytes 77, $agree"
compile_ending '0 3 to 1 3' 255 2 "$closing" 'refused 10 at rule 1'
compile_ending 'no rules' 0 1 '20 04 00' "states 1, bytes 27, $agree"

# ---- Typed sentences ----

# typing NAME TABLE STEP RESULT [STEP RESULT ..]: over one table and with one sentence; a step is a call and what is done before it.
typing() {
    local name=$1 line="type $2 /" result=
    shift 2
    while [ $# -gt 0 ]; do
        line+=" $1"
        result+="${result:+; }$2"
        shift 2
    done
    call "$name" "$line" "$result"
}
typing_a() { typing "table A, $1" "${table_a[*]}" "${@:2}"; }

# Document 01's sentences, tag by tag, with a look after each.
typing_a 'no tags' open '0 put, sentence 0 0 0' 'look 2' '0 put, output 7 7, sentence 0 0 0' 'close 2' '0 put, output 7 7, sentence 0 0 1'
typing_a 'typed 0' open '0 put, sentence 0 0 0' \
    'give 0 2' '0 put, output 7 7, sentence 1 1 0' 'look 2' '1 put, output 0 7, sentence 1 1 0' \
    'close 2' '1 put, output 0 7, sentence 1 1 1'
typing_a 'typed 0 0 1 0 1' open '0 put, sentence 0 0 0' \
    'give 0 3' '0 put, output 7 7 7, sentence 1 1 0' 'look 2' '1 put, output 0 7, sentence 1 1 0' \
    'give 0 3' '1 put, output 0 7 7, sentence 1 2 0' 'look 2' '1 put, output 0 7, sentence 1 2 0' \
    'give 1 3' '2 put, output 1 1 7, sentence 2 3 0' 'look 2' '0 put, output 7 7, sentence 2 3 0' \
    'give 0 3' '1 put, output 0 7 7, sentence 2 4 0' 'look 2' '0 put, output 7 7, sentence 2 4 0' \
    'give 1 3' '1 put, output 1 7 7, sentence 2 5 0' 'look 2' '0 put, output 7 7, sentence 2 5 0' \
    'close 2' '0 put, output 7 7, sentence 2 5 1'
# Book C's table
table_c='30 05 00 08
31 00 33 00 01 34 00 33 00 00 34 01 33 00 02 33 00 00 34 03 33 00 00 34 04
31 00 33 00 01 34 00 33 00 03 33 00 02 33 00 00 34 03 33 00 00 34 04
31 01 32 02 33 00 01 34 02 34 00 33 00 00 34 02 34 01 33 00 02 34 02 33 00 04 34 01 34 03 33 00 00 34 02 34 04
31 01 32 02 33 00 05 34 02 34 00 33 00 05 34 02 34 01 33 00 03 34 02 33 00 06 34 01 34 03 33 00 05 34 02 34 04
31 00 33 00 07 34 00 33 00 04 34 01 33 00 04 34 02 33 00 04 34 03 33 00 04 34 04
31 00 33 00 05 34 00 33 00 05 34 01 33 00 03 33 00 05 34 03 33 00 05 34 04
31 00 33 00 06 34 00 33 00 06 34 01 33 00 06 34 02 33 00 06 34 03 33 00 06 34 04
31 00 33 00 07 34 00 33 00 06 34 02 33 00 04 34 02 33 00 04 34 03 33 00 04 34 04 00'
table_c=${table_c//$'\n'/ }
typing 'table C, typed 0 1 0 0' "$table_c" open '0 put, sentence 0 0 0' \
    'give 0 3' '1 put, output 0 7 7, sentence 1 1 0' 'look 2' '0 put, output 7 7, sentence 1 1 0' \
    'give 1 3' '0 put, output 7 7 7, sentence 3 2 0' 'look 2' '1 put, output 2 7, sentence 3 2 0' \
    'give 0 3' '2 put, output 2 0 7, sentence 5 3 0' 'look 2' '0 put, output 7 7, sentence 5 3 0' \
    'give 0 3' '1 put, output 0 7 7, sentence 5 4 0' 'close 2' '0 put, output 7 7, sentence 5 4 1'
typing 'table C, typed 0 0 2 2 3 0' "$table_c" open '0 put, sentence 0 0 0' \
    'give 0 3' '1 put, output 0 7 7, sentence 1 1 0' 'give 0 3' '1 put, output 0 7 7, sentence 1 2 0' \
    'give 2 3' '0 put, output 7 7 7, sentence 2 3 0' 'look 2' '1 put, output 2 7, sentence 2 3 0' \
    'give 2 3' '1 put, output 2 7 7, sentence 2 4 0' 'look 2' '1 put, output 2 7, sentence 2 4 0' \
    'give 3 3' '2 put, output 1 3 7, sentence 4 5 0' 'look 2' '0 put, output 7 7, sentence 4 5 0' \
    'give 0 3' '1 put, output 0 7 7, sentence 7 6 0' 'close 2' '0 put, output 7 7, sentence 7 6 1'
typing 'table C, typed 4 2 0 1 3 0' "$table_c" open '0 put, sentence 0 0 0' \
    'give 4 3' '1 put, output 4 7 7, sentence 0 1 0' \
    'give 2 3' '0 put, output 7 7 7, sentence 2 2 0' 'look 2' '1 put, output 2 7, sentence 2 2 0' \
    'give 0 3' '2 put, output 2 0 7, sentence 1 3 0' \
    'give 1 3' '0 put, output 7 7 7, sentence 3 4 0' 'look 2' '1 put, output 2 7, sentence 3 4 0' \
    'give 3 3' '2 put, output 1 3 7, sentence 6 5 0' \
    'give 0 3' '1 put, output 0 7 7, sentence 6 6 0' 'close 2' '0 put, output 7 7, sentence 6 6 1'

# Rooms: none where nothing is put out, one short, and exactly enough.
typing_a 'rooms' open '0 put, sentence 0 0 0' 'look 0' '0 put, output, sentence 0 0 0' \
    'give 0 0' '0 put, output, sentence 1 1 0' \
    'look 0' 'refused 11, output, sentence 1 1 0' 'look 1' '1 put, output 0, sentence 1 1 0' \
    'give 0 0' 'refused 11, output, sentence 1 1 0' 'give 0 1' '1 put, output 0, sentence 1 2 0' \
    'give 1 1' 'refused 11, output 7, sentence 1 2 0' 'close 0' 'refused 11, output, sentence 1 2 0' \
    'give 1 2' '2 put, output 1 1, sentence 2 3 0' 'close 0' '0 put, output, sentence 2 3 1'
typing 'most held tags, typed' "$(ladder 80)" \
    'set 80 90 0 give 1 80' "refused 11, output$(times 80 ' 7'), sentence 80 90 0" \
    'give 1 81' "81 put, output$(times 80 ' 0') 1, sentence 0 91 0" \
    'set 80 90 0 look 79' "refused 11, output$(times 79 ' 7'), sentence 80 90 0" \
    'look 80' "80 put, output$(times 80 ' 0'), sentence 80 90 0" \
    'close 79' "refused 11, output$(times 79 ' 7'), sentence 80 90 0" \
    'close 82' "80 put, output$(times 80 ' 0') 7 7, sentence 80 90 1"

# Tags
typing_a 'tags not below K' open '0 put, sentence 0 0 0' 'give 0 2' '0 put, output 7 7, sentence 1 1 0' \
    'give 2 2' 'refused 4, output 7 7, sentence 1 1 0' 'give 255 2' 'refused 4, output 7 7, sentence 1 1 0' \
    'give 1 2' '2 put, output 1 1, sentence 2 2 0'
typing 'identity, most tags, typed' "$(identity 48)" open '0 put, sentence 0 0 0' 'give 47 1' '1 put, output 47, sentence 0 1 0' \
    'give 48 1' 'refused 4, output 7, sentence 0 1 0'

# Closed: with any number but 0. A sentence may be opened again.
typing_a 'closed' open '0 put, sentence 0 0 0' 'give 0 1' '0 put, output 7, sentence 1 1 0' 'close 1' '1 put, output 0, sentence 1 1 1' \
    'close 1' 'refused 15, output 7, sentence 1 1 1' 'give 1 2' 'refused 15, output 7 7, sentence 1 1 1' \
    'look 1' 'refused 15, output 7, sentence 1 1 1' open '0 put, sentence 0 0 0' 'give 1 1' '1 put, output 1, sentence 0 1 0'
for closed in 2 7 256 4294967296 18446744073709551615; do
    typing_a "closed $closed" "set 1 1 $closed give 1 2" "refused 15, output 7 7, sentence 1 1 $closed" \
        'look 1' "refused 15, output 7, sentence 1 1 $closed" 'close 1' "refused 15, output 7, sentence 1 1 $closed" \
        open '0 put, sentence 0 0 0'
done

# States: the last one, and numbers that are none
typing_a 'the last state' 'set 2 9 0 give 0 1' '1 put, output 0, sentence 2 10 0' 'look 0' '0 put, output, sentence 2 10 0' \
    'close 0' '0 put, output, sentence 2 10 1'
typing 'most states, the last one' "$(row 256 256)" 'set 255 0 0 give 1 1' '1 put, output 1, sentence 255 1 0'
typing 'most states, one more' "$(row 256 256)" 'set 256 0 0 give 1 1' 'refused 16, output 7, sentence 256 0 0'
for state in 3 256 65535 65536 4294967297 18446744073709551615; do
    typing_a "state $state" "set $state 9 0 give 0 2" "refused 16, output 7 7, sentence $state 9 0" \
        'look 2' "refused 16, output 7 7, sentence $state 9 0" 'close 2' "refused 16, output 7 7, sentence $state 9 0"
done

# Given: 65,534 are one fewer than the most; looks and closes don't ask.
typing_a '65,534 given' 'set 1 65534 0 give 1 2' '2 put, output 1 1, sentence 2 65535 0' \
    'give 1 2' 'refused 13, output 7 7, sentence 2 65535 0' 'close 2' '0 put, output 7 7, sentence 2 65535 1'
for given in 65535 65536 4294967296 18446744073709551615; do
    typing_a "$given given" "set 1 $given 0 give 0 2" "refused 13, output 7 7, sentence 1 $given 0" \
        'look 2' "1 put, output 0 7, sentence 1 $given 0" 'close 2' "1 put, output 0 7, sentence 1 $given 1"
done

# The order of refusals
typing_a 'refusals in order' 'set 3 65535 1 give 2 0' 'refused 15, output, sentence 3 65535 1' \
    'set 3 65535 0 give 2 0' 'refused 16, output, sentence 3 65535 0' 'set 1 65535 0 give 2 0' 'refused 13, output, sentence 1 65535 0' \
    'set 1 65534 0 give 2 0' 'refused 4, output, sentence 1 65534 0' 'give 1 0' 'refused 11, output, sentence 1 65534 0' \
    'set 3 65535 1 look 0' 'refused 15, output, sentence 3 65535 1' 'close 0' 'refused 15, output, sentence 3 65535 1' \
    'set 3 65535 0 look 0' 'refused 16, output, sentence 3 65535 0' 'close 0' 'refused 16, output, sentence 3 65535 0' \
    'set 1 65535 0 look 0' 'refused 11, output, sentence 1 65535 0' 'close 0' 'refused 11, output, sentence 1 65535 0'
typing 'table A, one step unbalanced, typed' "$(a_with 8 00)" open 'refused 12, sentence 7 7 7' \
    'set 3 65535 1 give 2 0' 'refused 12, output, sentence 3 65535 1' 'look 0' 'refused 12, output, sentence 3 65535 1' \
    'close 0' 'refused 12, output, sentence 3 65535 1'
typing 'no table, typed' '' open 'refused 12, sentence 7 7 7' 'give 2 0' 'refused 12, output, sentence 7 7 7' \
    'look 0' 'refused 12, output, sentence 7 7 7' 'close 0' 'refused 12, output, sentence 7 7 7'

# The table is damaged between two calls, far from the sentence's state, and repaired; and it becomes another table.
typing_a 'damaged and repaired' open '0 put, sentence 0 0 0' 'give 0 2' '0 put, output 7 7, sentence 1 1 0' \
    'byte 42 01 give 1 2' 'refused 12, output 7 7, sentence 1 1 0' 'look 2' 'refused 12, output 7 7, sentence 1 1 0' \
    'close 2' 'refused 12, output 7 7, sentence 1 1 0' open 'refused 12, sentence 1 1 0' \
    'byte 42 00 look 2' '1 put, output 0 7, sentence 1 1 0' 'give 1 2' '2 put, output 1 1, sentence 2 2 0'
typing_a 'with another held tag' open '0 put, sentence 0 0 0' 'give 0 2' '0 put, output 7 7, sentence 1 1 0' \
    'byte 17 01 look 2' '1 put, output 1 7, sentence 1 1 0' 'byte 17 00 close 2' '1 put, output 0 7, sentence 1 1 1'

# ---- Rules that fire everywhere ----

# 0 0 to 1 0 everywhere, and once; 0 1 0 to 0 2 0 everywhere, over three tags.
pair='20 02 24 00 01 22 00 22 00 00'
pair_once='20 02 21 00 01 22 00 22 00 00'
bordered='20 03 24 01 02 22 00 22 01 22 00 00'

# both NAME BOOK SENTENCE RESULT [END]: by the book and by its table, with an output slice of eight bytes.
both() {
    local ending=${5:+ending $5 } name=$1${5:+, end tag $5}
    call "$name" "${ending}run_book 8 $2 / $3" "$4"
    call "$name, by its table" "${ending}run_compiled 8 $2 / $3" "$4"
}

# No tag of an old match counts for the next.
both '0 0 to 1 0 everywhere, 3 times 0' "$pair" '00 00 00' '1 changed, output 1 0 0 7 7 7 7 7'
both '0 0 to 1 0 everywhere, 4 times 0' "$pair" '00 00 00 00' '2 changed, output 1 0 1 0 7 7 7 7'
both '0 0 to 1 0 everywhere, 5 times 0' "$pair" '00 00 00 00 00' '2 changed, output 1 0 1 0 0 7 7 7'
both '0 0 to 1 0 once, 4 times 0' "$pair_once" '00 00 00 00' '1 changed, output 1 0 0 0 7 7 7 7'
both '0 1 0 to 0 2 0 everywhere, overlapping' "$bordered" '00 01 00 01 00' '1 changed, output 0 2 0 1 0 7 7 7'
both '0 1 0 to 0 2 0 everywhere, beside one another' "$bordered" '00 01 00 00 01 00' '2 changed, output 0 2 0 0 2 0 7 7'
both '0 1 0 to 0 2 0 everywhere, the first and the third' "$bordered" '00 01 00 01 00 01 00' '2 changed, output 0 2 0 1 0 2 0 7'
# Nor does the new tag: repeated use would make zeros of all.
both '0 1 to 0 0 everywhere' '20 02 24 01 00 22 00 22 01 00' '00 01 01 01' '1 changed, output 0 0 1 1 7 7 7 7'
# Before, between and behind matches
both '0 0 to 1 0 everywhere, a match that ends the sentence' "$pair" '01 00 01 01 00 00' '1 changed, output 1 0 1 1 1 0 7 7'
both '0 0 to 1 0 everywhere, two and a tag behind' "$pair" '00 00 01 00 00 01' '2 changed, output 1 0 1 1 0 1 7 7'
both '0 0 to 1 0 everywhere, shorter than the pattern' "$pair" '00' '0 changed, output 0 7 7 7 7 7 7 7'
both '0 0 to 1 0 everywhere, no tags' "$pair" '' '0 changed, output 7 7 7 7 7 7 7 7'
both '0 1 0 to 0 2 0 everywhere, one tag short' "$bordered" '00 01' '0 changed, output 0 1 7 7 7 7 7 7'
both '0 to 1 everywhere' '20 02 24 00 01 22 00 00' '00 01 00 00' '3 changed, output 1 1 1 1 7 7 7 7'
# The longest sentence: every second tag changes, but for the last one
longest=$(times 65535 ' 00')
longest_made="32767 changed, output$(times 32767 ' 1 0') 0"
call '0 0 to 1 0 everywhere, the longest sentence' "run_book 65535 $pair /$longest" "$longest_made"
call '0 0 to 1 0 everywhere, the longest sentence, by its table' "run_compiled 65535 $pair /$longest" "$longest_made"
call '0 0 to 1 0 everywhere, one tag more' "run_book 2 $pair /$longest 00" 'refused 13, output 7 7'

# Both kinds in one book: 0 to 1 everywhere and 1 to 0 once; 0 0 to 1 0 and 1 0 to 1 1, everywhere and once
all_then_once='20 02 24 00 01 22 00 21 00 00 22 01 00'
once_then_all='20 02 21 00 00 22 01 24 00 01 22 00 00'
both 'everywhere, then once' "$all_then_once" '00 01 00' '1 changed, output 0 1 1 7 7 7 7 7'
both 'once, then everywhere' "$once_then_all" '00 01 00' '2 changed, output 1 1 1 7 7 7 7 7'
pairs=('00 01 22 00 22 00' '01 01 22 01 22 00')
both 'pairs, once and everywhere' "20 02 21 ${pairs[0]} 24 ${pairs[1]} 00" '00 00 00 00' '2 changed, output 1 1 0 0 7 7 7 7'
both 'pairs, everywhere and once' "20 02 24 ${pairs[0]} 21 ${pairs[1]} 00" '00 00 00 00' '3 changed, output 1 1 1 0 7 7 7 7'
both 'pairs, everywhere' "20 02 24 ${pairs[0]} 24 ${pairs[1]} 00" '00 00 00 00' '4 changed, output 1 1 1 1 7 7 7 7'
both 'pairs the other way, everywhere and once' "20 02 24 ${pairs[1]} 21 ${pairs[0]} 00" '00 00 00 00' '1 changed, output 1 0 0 0 7 7 7 7'

# Read: 24 opens a rule and closes the one before as 21 does
book_read 'a rule by 24' "$pair" 'tags 2, rules 1'
book_read 'rules by 21 and 24' "$once_then_all" 'tags 2, rules 2'
book_read '16 rules by 24' "20 02$(times 16 ' 24 00 01 22 00') 00" 'tags 2, rules 16'
book_read 'K 24' '20 24 00' 'tags 36, rules 0'
book_read 'a tag 24' '20 30 24 00 01 22 24 00' 'tags 48, rules 1'
book_read '24 before 20' '24 00 01 22 00 00' 'refused 1'
book_read '24 behind the end' '20 02 00 24' 'refused 1 at byte 3'
book_read '25' '20 02 25 00 01 22 00 00' 'refused 1 at byte 2'
book_read '24, the last byte' '20 02 24' 'refused 1 at byte 3'
book_read '24, the last byte, behind a rule' '20 02 21 00 01 22 00 24' 'refused 1 at byte 8'
book_read '24 with one operand' '20 02 24 00' 'refused 1 at byte 4'
book_read '24 with both operands' '20 02 24 00 01' 'refused 1 at byte 5'
book_read '24, a new tag not below K' '20 02 24 00 02 22 00 00' 'refused 4 at byte 4'
book_read '24, a tag not below K' '20 02 24 00 01 22 02 00' 'refused 4 at byte 6'
book_read '24, a seventh tag' "20 02 24 00 01$(times 7 ' 22 00') 00" 'refused 3 at byte 17'
# The faults of a rule opened by one of 21 and 24, and closed by any of 21, 24 and 00
for opened in 21 24; do
    for closed in 21 24 00; do
        book_read "$opened, an empty pattern, $closed" "20 02 $opened 00 01 $closed" 'refused 3 at byte 5'
        book_read "$opened, a place outside the pattern, $closed" "20 02 $opened 01 00 22 00 $closed" 'refused 5 at byte 7'
        book_read "$opened, the same tag, $closed" "20 02 $opened 00 00 22 00 $closed" 'refused 6 at byte 7'
    done
done
# A seventeenth rule, after the faults of the sixteenth
for sixteen in "$(times 16 ' 21 00 01 22 00')" "$(times 16 ' 24 00 01 22 00')" "$(times 8 ' 24 00 01 22 00 21 00 01 22 00')"; do
    for opened in 21 24; do
        book_read "${sixteen:1:2} and a seventeenth rule by $opened" "20 02$sixteen $opened" 'refused 7 at byte 82'
        compile "${sixteen:1:2} and a whole seventeenth rule by $opened" 256 "20 02$sixteen $opened 00 01 22 00 00" 'refused 7'
    done
done
fifteen="20 02$(times 15 ' 24 00 01 22 00')"
book_read 'a seventeenth rule by 24 behind an empty pattern' "$fifteen 24 00 01 24" 'refused 3 at byte 80'
book_read 'a seventeenth rule by 24 behind a place outside' "$fifteen 24 01 01 22 00 24" 'refused 5 at byte 82'
book_read 'a seventeenth rule by 24 behind the same tag' "$fifteen 24 00 00 22 00 24" 'refused 6 at byte 82'

# With 2 for the full stop: 0 0 to 1 0; 0 2 to 1 2, which ends with it; and 0 0 to 1 0 once and 1 0 to 1 1 everywhere.
both '0 0 to 1 0 everywhere' "20 03 24 ${pairs[0]} 00" '00 02 00 00 00 02 00 00' '2 changed, output 0 2 1 0 0 2 1 0' 2
both '0 0 to 1 0 everywhere' "20 03 24 ${pairs[0]} 00" '00 00 00 00 02 00 00 00' '3 changed, output 1 0 1 0 2 1 0 0' 2
both '0 2 to 1 2 everywhere' '20 03 24 00 01 22 00 22 02 00' '00 02 00 02 00' '2 changed, output 1 2 1 2 0 7 7 7' 2
both '0 2 to 1 2 everywhere' '20 03 24 00 01 22 00 22 02 00' '00 02 00 02 00' '2 changed, output 1 2 1 2 0 7 7 7' 255
both 'pairs, once and everywhere' "20 03 21 ${pairs[0]} 24 ${pairs[1]} 00" '00 00 00 02 00 00 00' '4 changed, output 1 1 0 2 1 1 0 7' 2
both 'pairs, once and everywhere' "20 03 21 ${pairs[0]} 24 ${pairs[1]} 00" '00 00 00 02 00 00 00' '2 changed, output 1 1 0 2 0 0 0 7' 255
gives_14 '24, before the last place' 2 '20 03 24 01 01 22 02 22 00 00'
gives_14 '24, changed' 2 '20 03 24 01 01 22 00 22 02 00'
gives_14 '24, made' 2 '20 03 24 00 02 22 00 00'
gives_14 '24, made by the second rule' 2 '20 03 21 00 01 22 00 24 00 02 22 01 00'

# one_rules NAME MORE LINE [END]: all rules of LINE, for cases/calls.c, have tables with MORE states than their patterns have tags. With n of 0
# and 1 in a pattern there are n times 2^n; one state can't be one too many.
one_rules() {
    local n length states line result=
    read -ra line <<<"$3"
    for ((n = 1; n <= line[2]; n++)); do
        length=$((n + ${#line[@]} - 3)) states=$((n + ${#line[@]} - 3 + $2))
        result+="${result:+; }$((n << n)) of length $length, states $states, $((states == 1 ? 0 : n << n)) refused below"
    done
    call "$1" "${4:+ending $4 }one_rules $3" "$result"
}

one_rules 'one rule everywhere' 0 '24 02 6'
one_rules 'one rule once' 1 '21 02 6'
one_rules 'one rule everywhere, end tag 2' 0 '24 03 6' 2
one_rules 'one rule once, end tag 2' 1 '21 03 6' 2
one_rules 'one rule everywhere with the end tag 2 behind' 0 '24 03 5 02' 2
one_rules 'one rule once with the end tag 2 behind' 0 '21 03 5 02' 2
one_rules 'one rule everywhere with 2 behind' 0 '24 03 5 02'
one_rules 'one rule once with 2 behind' 1 '21 03 5 02'

compile '0 0 to 1 0 everywhere' 256 "$pair" "states 2, bytes 33, $agree"
compile '0 0 to 1 0 everywhere, ceiling 2' 2 "$pair" "states 2, bytes 33, $agree"
compile '0 0 to 1 0 everywhere, ceiling 1' 1 "$pair" 'refused 10 at rule 1'
compile '0 0 to 1 0 once, ceiling 3' 3 "$pair_once" "states 3, bytes 45, $agree"
compile '0 0 to 1 0 once, ceiling 2' 2 "$pair_once" 'refused 10 at rule 1'
# With both kinds: as many states as the whole needs, and the first leading part that needs more than the ceiling.
compile 'everywhere, then once, ceiling 2' 2 "$all_then_once" "states 2, bytes 29, $agree"
compile 'everywhere, then once, ceiling 1' 1 "$all_then_once" 'refused 10 at rule 2'
compile 'once, then everywhere, ceiling 2' 2 "$once_then_all" "states 1, bytes 17, $agree"
compile 'once, then everywhere, ceiling 1' 1 "$once_then_all" 'refused 10 at rule 1'

# The table of 0 0 to 1 0 everywhere, loaded and typed over
table='30 02 00 02 31 00 33 00 01 33 00 00 34 01 31 01 32 00 33 00 00 34 01 34 00 33 00 00 34 00 34 01 00'
load '0 0 to 1 0 everywhere' 13 "$table" '13 numbers, loaded 2 0 0 7 0 1 257 1 0 1 258 1 65538'
typing '0 0 to 1 0 everywhere, typed' "$table" open '0 put, sentence 0 0 0' \
    'give 0 3' '0 put, output 7 7 7, sentence 1 1 0' 'look 2' '1 put, output 0 7, sentence 1 1 0' \
    'give 0 3' '2 put, output 1 0 7, sentence 0 2 0' 'look 2' '0 put, output 7 7, sentence 0 2 0' \
    'give 0 3' '0 put, output 7 7 7, sentence 1 3 0' 'give 1 3' '2 put, output 0 1 7, sentence 0 4 0' \
    'give 0 3' '0 put, output 7 7 7, sentence 1 5 0' 'close 2' '1 put, output 0 7, sentence 1 5 1'

# ---- Each tag with its rule ----

# numbered NAME BOOK SENTENCE RESULT [END]: with slices of eight bytes.
numbered() { call "$1, rules${5:+, end tag $5}" "${5:+ending $5 }run_rules 8 8 $2 / $3" "$4"; }

# Document 01's sentences. In C's third one the second rule takes back what the first one did, and its number stays.
book_c='20 05 21 01 02 22 00 22 01 21 00 01 22 02 22 03 00'
numbered 'book A, 0 0 1 0 1' "$book_a" '00 00 01 00 01' '1 changed, output 0 1 1 0 1 7 7 7, rules 0 1 0 0 0 7 7 7'
numbered 'book B, 0 0' '20 02 21 00 01 22 00 21 00 00 22 01 00' '00 00' '0 changed, output 0 0 7 7 7 7 7 7, rules 2 0 7 7 7 7 7 7'
numbered 'book B, 1 0 0' '20 02 21 00 01 22 00 21 00 00 22 01 00' '01 00 00' '2 changed, output 0 1 0 7 7 7 7 7, rules 2 1 0 7 7 7 7 7'
numbered 'book C, 0 1 0 0' "$book_c" '00 01 00 00' '1 changed, output 0 2 0 0 7 7 7 7, rules 0 1 0 0 7 7 7 7'
numbered 'book C, 0 0 2 2 3 0' "$book_c" '00 00 02 02 03 00' '1 changed, output 0 0 2 1 3 0 7 7, rules 0 0 0 2 0 0 7 7'
numbered 'book C, 4 2 0 1 3 0' "$book_c" '04 02 00 01 03 00' '0 changed, output 4 2 0 1 3 0 7 7, rules 0 0 0 2 0 0 7 7'
numbered 'no rules' '20 02 00' '01 00' '0 changed, output 1 0 7 7 7 7 7 7, rules 0 0 7 7 7 7 7 7'

# Several rules: 0 to 1 and 1 to 2, at one place; 0 1 to 0 2 and 0 2 to 1 2, the second on what the first made; 0 to 1, 1 to 0 and 0 to 1
# again; 1 1 to 0 1, which does not fire but counts, and 0 to 1
numbered 'two rules at one place' '20 03 21 00 01 22 00 21 00 02 22 01 00' '02 00 00' \
    '1 changed, output 2 2 0 7 7 7 7 7, rules 0 2 0 7 7 7 7 7'
numbered 'on what another made' '20 03 21 01 02 22 00 22 01 21 00 01 22 00 22 02 00' '00 00 01' \
    '2 changed, output 0 1 2 7 7 7 7 7, rules 0 2 1 7 7 7 7 7'
numbered 'made, taken back and made again' '20 02 21 00 01 22 00 21 00 00 22 01 21 00 01 22 00 00' '00 01' \
    '1 changed, output 1 1 7 7 7 7 7 7, rules 3 0 7 7 7 7 7 7'
numbered 'behind a rule that does not fire' '20 02 21 00 00 22 01 22 01 21 00 01 22 00 00' '01 00 01' \
    '1 changed, output 1 1 1 7 7 7 7 7, rules 0 2 0 7 7 7 7 7'
numbered 'the sixteenth alone' "20 02$(times 15 ' 21 00 00 22 01') 21 00 01 22 00 00" '00 00' \
    '1 changed, output 1 0 7 7 7 7 7 7, rules 16 0 7 7 7 7 7 7'
numbered 'sixteen at one place' "20 02$(times 8 ' 21 00 01 22 00 21 00 00 22 01') 00" '00 01' \
    '0 changed, output 0 1 7 7 7 7 7 7, rules 16 0 7 7 7 7 7 7'

# Everywhere: at the place of each match, and at none of a match that begins within another
numbered '0 0 to 1 0 everywhere, 5 times 0' "$pair" '00 00 00 00 00' '2 changed, output 1 0 1 0 0 7 7 7, rules 1 0 1 0 0 7 7 7'
numbered '0 0 to 1 0 once, 4 times 0' "$pair_once" '00 00 00 00' '1 changed, output 1 0 0 0 7 7 7 7, rules 1 0 0 0 7 7 7 7'
numbered '0 1 0 to 0 2 0 everywhere, overlapping' "$bordered" '00 01 00 01 00' '1 changed, output 0 2 0 1 0 7 7 7, rules 0 1 0 0 0 7 7 7'
numbered '0 1 0 to 0 2 0 everywhere, the first and the third' "$bordered" '00 01 00 01 00 01 00' \
    '2 changed, output 0 2 0 1 0 2 0 7, rules 0 1 0 0 0 1 0 7'
numbered 'everywhere, then once' "$all_then_once" '00 01 00' '1 changed, output 0 1 1 7 7 7 7 7, rules 2 0 1 7 7 7 7 7'
numbered 'once, then everywhere' "$once_then_all" '00 01 00' '2 changed, output 1 1 1 7 7 7 7 7, rules 2 2 2 7 7 7 7 7'
numbered 'pairs, everywhere' "20 02 24 ${pairs[0]} 24 ${pairs[1]} 00" '00 00 00 00' '4 changed, output 1 1 1 1 7 7 7 7, rules 1 2 1 2 7 7 7 7'
numbered 'pairs, once and everywhere' "20 02 21 ${pairs[0]} 24 ${pairs[1]} 00" '00 00 00 00' \
    '2 changed, output 1 1 0 0 7 7 7 7, rules 1 2 0 0 7 7 7 7'
call '0 0 to 1 0 everywhere, the longest sentence, rules' "run_rules 65535 65535 $pair /$longest" \
    "$longest_made, rules$(times 32767 ' 1 0') 0"

# End tags: piece by piece. The last book has 0 1 to 0 2 and 2 0 to 1 0.
numbered '0 1 to 0 2' "$noun" '00 01 00 01 03 00 01 03' '2 changed, output 0 2 0 1 3 0 2 3, rules 0 1 0 0 0 0 1 0' 3
numbered '0 1 to 0 2' "$noun" '00 01 00 01 03 00 01 03' '1 changed, output 0 2 0 1 3 0 1 3, rules 0 1 0 0 0 0 0 0' 255
numbered '0 1 to 0 2' "$noun" '00 01 00 01 03 00 01 03' '1 changed, output 0 2 0 1 3 0 1 3, rules 0 1 0 0 0 0 0 0'
numbered '0 3 to 1 3' "$closing" '00 00 03 00 03 01 00' '2 changed, output 0 1 3 1 3 1 0 7, rules 0 1 0 1 0 0 0 7' 3
numbered '0 0 to 1 0 everywhere' "20 03 24 ${pairs[0]} 00" '00 00 00 00 02 00 00 00' \
    '3 changed, output 1 0 1 0 2 1 0 0, rules 1 0 1 0 0 1 0 0' 2
numbered 'pairs, once and everywhere' "20 03 21 ${pairs[0]} 24 ${pairs[1]} 00" '00 00 00 02 00 00 00' \
    '4 changed, output 1 1 0 2 1 1 0 7, rules 1 2 0 0 1 2 0 7' 2
taken_back='20 04 21 01 02 22 00 22 01 21 00 01 22 02 22 00 00'
numbered 'taken back in the first piece' "$taken_back" '00 01 00 03 02 00 03 00' '1 changed, output 0 1 0 3 1 0 3 0, rules 0 2 0 0 2 0 0 0' 3
numbered 'taken back in the only piece' "$taken_back" '00 01 00 03 02 00 03 00' '0 changed, output 0 1 0 3 2 0 3 0, rules 0 2 0 0 0 0 0 0' 255

# rooms NAME ROOM ROOM SENTENCE RESULT: book A with slices of other lengths.
rooms() { call "book A, rules, $1" "run_rules $2 $3 $book_a / $4" "$5"; }
tags='00 00 01 00 01'

rooms 'both slices exact' 5 5 "$tags" '1 changed, output 0 1 1 0 1, rules 0 1 0 0 0'
rooms 'both slices longer' 6 9 "$tags" '1 changed, output 0 1 1 0 1 7, rules 0 1 0 0 0 7 7 7 7'
rooms 'output one short' 4 5 "$tags" 'refused 11, output 7 7 7 7, rules 7 7 7 7 7'
rooms 'rules one short' 5 4 "$tags" 'refused 11, output 7 7 7 7 7, rules 7 7 7 7'
rooms 'output one short, rules longer' 4 9 "$tags" 'refused 11, output 7 7 7 7, rules 7 7 7 7 7 7 7 7 7'
rooms 'rules one short, output longer' 9 4 "$tags" 'refused 11, output 7 7 7 7 7 7 7 7 7, rules 7 7 7 7'
rooms 'both one short' 4 4 "$tags" 'refused 11, output 7 7 7 7, rules 7 7 7 7'
rooms 'output of no bytes' 0 5 "$tags" 'refused 11, output, rules 7 7 7 7 7'
rooms 'rules of no bytes' 5 0 "$tags" 'refused 11, output 7 7 7 7 7, rules'
rooms 'no tags, both slices empty' 0 0 '' '0 changed, output, rules'
rooms 'no tags, both slices longer' 2 3 '' '0 changed, output 7 7, rules 7 7 7'
rooms 'the longest sentence, rules one short' 65535 65534 "$longest" "refused 11, output$(times 65535 ' 7'), rules$(times 65534 ' 7')"

# Refusals in their order, each with what would give the next ones; 14 is with those of the other calls, 11 above.
refused_book() { call "$2, rules" "ending 254 run_rules 2 2 $3 / $longer" "refused $1, output 7 7, rules 7 7"; }
refused_book 1 'a book without its end' "${book_a% *}"
refused_book 2 'K 1' '20 01 00'
refused_book 3 'an empty pattern' '20 02 21 00 01 00'
refused_book 4 'a new tag not below K' '20 02 21 00 02 22 00 00'
refused_book 5 'a place outside the pattern' '20 02 24 01 01 22 00 00'
refused_book 6 'the same tag' '20 02 24 00 00 22 00 00'
refused_book 7 'a seventeenth rule' "20 02$(times 16 ' 21 00 01 22 00') 24 00 01 22 00 00"
refused_book 14 'an end tag that is no tag' "$book_a"
rooms 'a longer sentence with a tag not below K' 2 2 "$longer" 'refused 13, output 7 7, rules 7 7'
rooms 'a tag not below K' 2 2 '00 02 01' 'refused 4, output 7 7, rules 7 7'

# ---- The starter table ----

# 0 1 to 0 2 over 48 tags, worked out by hand: in the first state 0 leads to the second; there 0 stays, 1 is put out as 2 and leads to the
# third, which rests; all else is put out as it is and leads to the first.
starter_book='20 30 21 01 02 22 00 22 01 00'
starter_table=$(
    printf '30 30 00 03'
    for state in 0 1 2; do
        printf ' 31 00'
        for tag in {0..47}; do
            case $state:$tag in
            0:0 | 1:0) printf ' 33 00 01 34 00' ;;
            1:1) printf ' 33 00 02 34 02' ;;
            2:*) printf ' 33 00 02 34 %02x' "$tag" ;;
            *) printf ' 33 00 00 34 %02x' "$tag" ;;
            esac
        done
    done
    printf ' 00'
)
starter_bytes=$(printf ' %d' $(printf '0x%s ' $starter_table))

call 'starter table' 'starter 731' "731 bytes, output$starter_bytes"
call 'starter table, longer slice' 'starter 734' "731 bytes, output$starter_bytes 7 7 7"
call 'starter table, one byte short' 'starter 730' "refused 11, output$(times 730 ' 7')"
call 'starter table, no bytes' 'starter 0' 'refused 11, output'
call 'starter table, read' "read_table $starter_table" 'tags 48, states 3'
for ceiling in 3 4 47 106; do
    call "starter book, ceiling $ceiling" "compile $ceiling $((16 * ceiling * 49 * 13)) 731 $starter_book" "states 3, bytes 731, $agree"
done
call 'starter book, ceiling 2' "compile 2 20384 731 $starter_book" 'refused 10 at rule 1'
call 'starter book, ceiling 3, one byte short' "compile 3 30576 730 $starter_book" 'refused 11'

# run_starter NAME SENTENCE RESULT: by the table and by the book.
run_starter() {
    call "starter table, $1" "run_table 7 $starter_table / $2" "$3"
    call "starter book, $1" "run_book 7 $starter_book / $2" "$3"
}
run_starter 'no tags' '' '0 changed, output 7 7 7 7 7 7 7'
run_starter '0 1 0 1' '00 01 00 01' '1 changed, output 0 2 0 1 7 7 7'
run_starter '0 0 1 47 0 1' '00 00 01 2f 00 01' '1 changed, output 0 0 2 47 0 1 7'
run_starter '1 0 2 0 47 1' '01 00 02 00 2f 01' '0 changed, output 1 0 2 0 47 1 7'
run_starter 'a tag not below K' '00 01 30' 'refused 4, output 7 7 7 7 7 7 7'

# ---- Limits ----

# pattern N: a rule over two tags whose pattern is N - 1 zeros and a one, and which makes its first tag 1.
pattern() { echo "20 02 21 00 01$(times $(($1 - 1)) ' 22 00') 22 01 00"; }

# within NAME LIMITS CEILING BOOK RESULT: compiled with the longest slices.
within() { call "$1, limits $2" "within $2 compile $3 1081344 65536 $4" "$5"; }

# Tags in a pattern: seven and eight pass where eight are allowed; beyond the limit is 3. The rule of N tags has N states that hold 0 to N - 1
# zeros, of 10 + 4 × held bytes each and 2 more in the last, and one of 12 behind the match.
for length in 7 8; do
    bytes=$((4 + 10 * length + 2 * length * (length - 1) + 2 + 12 + 1))
    within "a pattern of $length" '8 16 48' $((length + 1)) "$(pattern $length)" "states $((length + 1)), bytes $bytes, $agree"
    within "a pattern of $length" '8 16 48' $length "$(pattern $length)" 'refused 10 at rule 1'
    within "a pattern of $length" '6 16 48' 256 "$(pattern $length)" 'refused 3'
done
within 'a pattern of 8' '7 16 48' 256 "$(pattern 8)" 'refused 3'
within 'a pattern of 9' '8 16 48' 256 "$(pattern 9)" 'refused 3'
within 'book A' '2 1 2' 3 "$book_a" "states 3, bytes 43, $agree"
within 'book A' '1 1 2' 3 "$book_a" 'refused 3'
within '0 to 1' '1 1 2' 2 '20 02 21 00 01 22 00 00' "states 2, bytes 29, $agree"
# Rules and K
within 'two rules' '1 2 2' 256 '20 02 21 00 01 22 00 21 00 00 22 01 00' "states 3, bytes 41, $agree"
within 'two rules' '1 1 2' 256 '20 02 21 00 01 22 00 21 00 00 22 01 00' 'refused 7'
within '16 rules' '6 16 48' 256 "$rules 00" "states 3, bytes 41, $agree"
within '16 rules' '6 15 48' 256 "$rules 00" 'refused 7'
within 'K 2' '6 16 2' 1 '20 02 00' "states 1, bytes 17, $agree"
within 'K 3' '6 16 2' 1 '20 03 00' 'refused 2'
within 'K 48' '6 16 48' 1 '20 30 00' "states 1, bytes 247, $agree"
within 'K 48' '6 16 47' 1 '20 30 00' 'refused 2'

# gives_17 LIMITS: before 8, the book's refusals, 14, 9 and 11, and from the runs before 12, 13, 4 and 11, with all slices as they were.
gives_17() {
    call "limits $1" "within $1 slices 3 1872 43 $book_a" 'refused 17; 0 entries and 0 bytes other than before'
    call "limits $1, ceiling 0, end tag 77, no book, no slices" "within $1 ending 77 slices 0 0 0 " 'refused 17; 0 entries and 0 bytes other than before'
    call "limits $1, run of book A" "within $1 run_book 3 $book_a / 00 01" 'refused 17, output 7 7 7'
    call "limits $1, run of no book" "within $1 ending 77 run_book 1 / ff ff" 'refused 17, output 7'
    call "limits $1, run of table A" "within $1 run_table 3 ${table_a[*]} / 00 01" 'refused 17, output 7 7 7'
    call "limits $1, run of no table" "within $1 run_table 1 / $longer" 'refused 17, output 7'
}
for limits in '0 16 48' '9 16 48' '6 0 48' '6 17 48' '6 16 1' '6 16 49' '0 0 0' '4294967302 16 48' '6 18446744073709551615 48' '262 16 48'; do
    gives_17 "$limits"
done

# The work slice: 2 × (2 + 2) × 3 × 3 × (1 + 8) entries for book A with L 2, and 2 × (8 + 2) × 3 × 3 × (7 + 8) with L 8.
call 'book A, L 2, exactly what is needed' "within 2 1 2 slices 3 648 43 $book_a" 'states 3, bytes 43; 648 entries and 43 bytes other than before'
call 'book A, L 2, one entry short' "within 2 1 2 slices 3 647 43 $book_a" 'refused 9; 0 entries and 0 bytes other than before'
call 'book A, L 8, exactly what is needed' "within 8 1 2 slices 3 2700 43 $book_a" 'states 3, bytes 43; 2700 entries and 43 bytes other than before'
call 'book A, L 8, the entries of L 6' "within 8 1 2 slices 3 1872 43 $book_a" 'refused 9; 0 entries and 0 bytes other than before'
call 'book A, L 8, too low a ceiling' "within 8 1 2 slices 2 1800 43 $book_a" 'refused 10 at rule 1; 1800 entries and 0 bytes other than before'

# Held tags: at most (L - 1) × 16.
for limit in '1 0' '2 16' '6 80' '7 96' '8 112'; do
    most=${limit#* }
    [ "$most" -eq 0 ] || call "$most held tags, L ${limit% *}" "within ${limit% *} 1 2 run_table 2 $(ladder "$most") /" '0 changed, output 7 7'
    call "$((most + 1)) held tags, L ${limit% *}" "within ${limit% *} 1 2 run_table 2 $(ladder $((most + 1))) /" 'refused 12, output 7 7'
done
for held in 81 96 112; do
    call "$held held tags, L 8" "within 8 16 48 run_table 120 $(ladder $held) /$(times 118 ' 00')" "0 changed, output$(times 118 ' 0') 7 7"
    call "$held held tags, L 6" "within 6 16 48 run_table 120 $(ladder $held) /$(times 118 ' 00')" "refused 12, output$(times 120 ' 7')"
done
call 'table A, K 2 allowed' "within 2 1 2 run_table 3 ${table_a[*]} / 00 01" '1 changed, output 1 1 7'
call 'identity of K 3, K 2 allowed' "within 2 1 2 run_table 3 $(identity 3) / 00 01" 'refused 12, output 7 7 7'

# Runs of a book, and of its table with the same limits
call 'a pattern of 8, run' "within 8 1 2 run_book 10 $(pattern 8) / 00 00 00 00 00 00 00 00 01" '1 changed, output 0 1 0 0 0 0 0 0 1 7'
call 'a pattern of 8, compiled and run' "within 8 1 2 run_compiled 10 $(pattern 8) / 00 00 00 00 00 00 00 00 01" '1 changed, output 0 1 0 0 0 0 0 0 1 7'
call 'a pattern of 8, run with L 7' "within 7 1 2 run_book 3 $(pattern 8) / 00" 'refused 3, output 7 7 7'
call 'three sentences, limits 2 1 4, end tag 3' "within 2 1 4 ending 3 run_book 13 $noun / 00 01 00 01 03 00 01 03 01 00 01 03" \
    '3 changed, output 0 2 0 1 3 0 2 3 1 0 2 3 7'
call 'limits 2 1 4, end tag 4' "within 2 1 4 ending 4 run_book 2 $noun / ff" 'refused 14, output 7 7'

# ababb has the same table with all limits that allow it.
for limits in '5 1 2' '5 16 48' '6 16 48' '7 3 9' '8 1 2' '8 16 48'; do
    within 'ababb to abbbb' "$limits" 6 "$ababb" "states 6, bytes 87, $agree"
done
within 'ababb to abbbb' '4 16 48' 6 "$ababb" 'refused 3'

# ---- Sets ----

# Any of the nouns 0 and 1 before the verb 2, which becomes 3, once and everywhere: 23 with the bits of 0 and 1.
set_01='23 00 00 00 00 00 03'
noun="20 04 21 01 03 $set_01 22 02 00"
nouns="20 04 24 01 03 $set_01 22 02 00"
# Any tag and 0 behind it, which becomes 1.
any="20 02 21 01 01 $set_01 22 00 00"
# {0, 1} {0, 2} 0, and the 0 becomes 1: after 0 0 two matches are alive, after 1 2 one.
several="20 03 21 02 01 $set_01 23 00 00 00 00 00 05 22 00 00"
# 3 {0, 1, 2, 3} {0, 2, 3} {0, 2, 3} {0, 1, 2, 3} 1, and the 1 becomes 2: all 32 sets of matched lengths are reached.
set_0123='23 00 00 00 00 00 0f' set_023='23 00 00 00 00 00 0d'
all_alive="20 04 21 05 02 22 03 $set_0123 $set_023 $set_023 $set_0123 22 01 00"

# made NAME BOOK SENTENCE RESULT: by the book, with an output slice of six bytes.
made() { call "$1" "run_book 6 $2 / $3" "$4"; }
made 'a noun before a verb' "$noun" '02 00 02 01 02' '1 changed, output 2 0 3 1 2 7'
made 'the other noun' "$noun" '02 03 02 01 02' '1 changed, output 2 3 2 1 3 7'
made 'no noun before a verb' "$noun" '02 03 02 02 01' '0 changed, output 2 3 2 2 1 7'
made 'a noun before each verb' "$nouns" '00 02 01 02 02' '2 changed, output 0 3 1 3 2 7'
made 'any tag and 0' "$any" '00 00 00' '1 changed, output 0 1 0 7 7 7'
made 'any tag and 0, behind 1' "$any" '01 01 00 00' '1 changed, output 1 1 1 0 7 7'
made 'any tag and 0, no tag in front' "$any" '00' '0 changed, output 0 7 7 7 7 7'
made 'two matches alive' "$several" '00 00 02 00' '1 changed, output 0 0 2 1 7 7'
made 'one match alive' "$several" '01 02 02 00' '0 changed, output 1 2 2 0 7 7'
made 'the first of two matches' "$several" '00 00 00 00' '1 changed, output 0 0 1 0 7 7'

# with_set NAME CEILING STATES BYTES BOOK: as many states as there are, and not with one less.
with_set() {
    call "$1, compiled" "compile $2 1081344 65536 $5" "states $3, bytes $4, $agree"
    call "$1, one state less" "compile $(($3 - 1)) 1081344 65536 $5" 'refused 10 at rule 1'
}
with_set 'a noun before a verb' 3 3 71 "$noun"
with_set 'a noun before each verb' 2 2 49 "$nouns"
with_set 'any tag and 0' 3 3 41 "$any"
call 'all sets of lengths, compiled' "compile 33 1081344 65536 $all_alive" "states 33, bytes 731, $agree"
call 'all sets of lengths, one state less' "compile 32 1081344 65536 $all_alive" 'refused 10 at rule 1'

# The work slice: 68 × 3 × 5 × 13 entries, and with L 2 as with no set, 2 × (2 + 2) × 3 × 5 × 9.
call 'a set, exactly what is needed' "slices 3 13260 71 $noun" 'states 3, bytes 71; 13260 entries and 71 bytes other than before'
call 'a set, one entry short' "slices 3 13259 71 $noun" 'refused 9; 0 entries and 0 bytes other than before'
call 'a set, too low a ceiling' "slices 2 8840 71 $noun" 'refused 10 at rule 1; 8840 entries and 0 bytes other than before'
call 'a set, one byte short' "slices 3 13260 70 $noun" 'refused 11; 13260 entries and 0 bytes other than before'
call 'a set, L 2' "within 2 1 4 slices 3 1080 71 $noun" 'states 3, bytes 71; 1080 entries and 71 bytes other than before'
call 'a set, L 1' "within 1 1 4 slices 3 9999 71 $noun" 'refused 3; 0 entries and 0 bytes other than before'

# Refusals with their bytes
book_read 'a noun before a verb' "$noun" 'tags 4, rules 1'
book_read 'a set of one tag' '20 03 21 01 00 23 00 00 00 00 00 04 22 02 00' 'refused 18 at byte 11'
book_read 'a set of no tag' '20 03 21 01 00 23 00 00 00 00 00 00 22 02 00' 'refused 18 at byte 11'
book_read 'a set with tag K' '20 03 21 01 00 23 00 00 00 00 00 0b 22 02 00' 'refused 4 at byte 11'
book_read 'a set of tag K alone' '20 03 21 01 00 23 00 00 00 00 00 08 22 02 00' 'refused 4 at byte 11'
book_read 'a set of high tags' '20 03 21 01 00 23 03 00 00 00 00 00 22 02 00' 'refused 4 at byte 11'
book_read 'a set of the highest tags' '20 30 21 01 00 23 c0 00 00 00 00 00 22 02 00' 'tags 48, rules 1'
book_read 'a set at the place' "20 03 21 00 02 $set_01 22 02 00" 'refused 19 at byte 14'
book_read 'a set behind the place' "20 03 21 00 02 22 01 $set_01 00" 'refused 19 at byte 14'
book_read 'a set behind the place, the same tag' "20 03 21 00 01 22 01 $set_01 24" 'refused 19 at byte 14'
book_read 'a set and a place outside the pattern' "20 03 21 02 00 22 01 $set_01 00" 'refused 5 at byte 14'
book_read 'a seventh place' "20 03 21 06 00$(times 7 " $set_01")" 'refused 3 at byte 47'
book_read 'a set before a rule' "20 03 $set_01 00" 'refused 1 at byte 2'
for missing in 0 1 2 3 4 5; do
    book_read "a set of $missing bytes" "20 03 21 01 00 23$(times $missing ' 00' | head -c $((3 * missing)))" "refused 1 at byte $((6 + missing))"
done

# An end tag in a set is 14; one that ends the pattern cuts.
call 'the end tag in a set' "ending 1 compile 3 1081344 65536 $noun" 'refused 14'
call 'the end tag behind a set' "ending 2 run_book 6 20 04 21 01 03 $set_01 22 00 22 02 00 / 00 00 02 01 00 02" '2 changed, output 0 3 2 1 3 2'

# ---- Tables that another has built ----

# checks NAME BOOK TABLE RESULT ENTRIES [END]: the table beside the book, with 1,024 tags of room; so many entries of the work slice are 0.
checks() {
    call "$1, checked${6:+, end tag $6}" "${6:+ending $6 }check 4595712 1024 $2 / $3" "$4; $5 entries and 0 bytes other than before"
}
# checks_book NAME BOOK END OTHER OTHER_END RESULT ENTRIES: the table of another book or with another end tag.
checks_book() {
    call "$1, checked, end tags $3 and $5" "ending $3 check_book 4595712 1024 $5 $2 / $4" "$6; $7 entries and 0 bytes other than before"
}

# Book A needs 16 × 256 × 3 × 13 entries. Its own table; and one of seven states, two of which do what the second does, and behind the
# match there are three that may hold the last tag back; the last one is never reached.
unshrunk_a='30 02 00 07
31 00 33 00 01 33 00 00 34 01
31 01 32 00 33 00 03 34 00 33 00 05 34 01
31 00 33 00 04 33 00 05
31 01 32 00 33 00 01 34 00 33 00 02 34 01 34 01
31 01 32 00 33 00 04 34 00 33 00 05 34 00
31 01 32 01 33 00 04 34 01 33 00 02 34 01 34 01
31 02 32 01 32 00 33 00 06 34 01 33 00 00 34 01 34 01 34 01 00'
unshrunk_a=${unshrunk_a//$'\n'/ }
well_formed 'table A, unshrunk and late' "$unshrunk_a"
checks 'book A, its own table' "$book_a" "${table_a[*]}" same 159744
checks 'book A, unshrunk and late' "$book_a" "$unshrunk_a" same 159744
checks 'book A, unshrunk and late, another tag put out' "$book_a" "${unshrunk_a/33 00 02 34 01 34 01 31 01/33 00 02 34 01 34 00 31 01}" differs 159744
checks 'book A, unshrunk and late, another tag put out where no sentence leads' "$book_a" "${unshrunk_a/34 01 34 01 34 01/34 01 34 00 34 01}" same 159744
# The same states in another order: the second and the third change numbers.
checks 'book A, numbered otherwise' "$book_a" \
    '30 02 00 03 31 00 33 00 02 33 00 00 34 01 31 00 33 00 01 34 00 33 00 01 34 01 31 01 32 00 33 00 02 34 00 33 00 01 34 01 34 01 00' \
    same 159744

# One tag in one step or in a final word; one next state that holds as many tags. The step of the match to the first state again is the
# rule everywhere, whose smallest table has two states.
for at in 13 22 27 29 36 41; do
    checks "book A, another tag at $at" "$book_a" "$(a_with "$at" "$(printf '%02x' $((1 - table_a[at])))")" differs 159744
done
checks 'book A, another held tag' "$book_a" "$(a_with 17 01)" differs 159744
checks 'book A, another next state behind the match' "$book_a" "$(a_with 25 00)" differs 159744
checks 'book A, another next state of the last' "$book_a" "$(a_with 34 00)" differs 159744
checks 'book A everywhere, three states' '20 02 24 00 01 22 00 22 01 00' "$(a_with 25 00)" same 159744

# Late: no rules beside states that hold up to 80 zeros, and with a one among them.
checks 'no rules, most held tags' '20 02 00' "$(ladder 80)" same 98304
checks 'no rules, most held tags, one of them another' '20 02 00' "$(ladder 80 | sed 's/32 00 33/32 01 33/80')" differs 98304
checks 'no rules, one held tag too many' '20 02 00' "$(ladder 81)" 'refused 12' 0

# All 256 states: no rules, and a change that only the last of them makes; eight rules of one tag each, whose smallest table has as many.
checks 'no rules, most states' '20 02 00' "$(row 256 256)" same 98304
checks 'no rules, most states, another tag in the last' '20 02 00' "$(row 256 256 | sed 's/34 01 00$/34 00 00/')" 'differs on 256 tags' 98304
# doubling N: over 18 tags N rules, 0 to 1, 2 to 3 and so on, once each.
doubling() {
    local i
    printf '20 12'
    for ((i = 0; i < $1; i++)); do
        printf ' 21 00 %02x 22 %02x' $((2 * i + 1)) $((2 * i))
    done
    printf ' 00'
}
checks_book 'eight rules, 256 states' "$(doubling 8)" 255 "$(doubling 8)" 255 same 3735552
checks_book 'eight rules and seven' "$(doubling 8)" 255 "$(doubling 7)" 255 differs 3735552
checks_book 'seven rules and eight' "$(doubling 7)" 255 "$(doubling 8)" 255 differs 3346432
checks_book 'eight rules, sentences that end' "$(doubling 8)" 17 "$(doubling 8)" 17 same 3735552
checks_book 'nine rules' "$(doubling 9)" 255 "$(doubling 8)" 255 'refused 10 at rule 9' 4124672

# A table that differs on long sentences only. Over two tags, 1 to 0 everywhere first, so that all sentences are zeros. Then every fifth tag is
# marked, and every sixth that is not yet marked: two marks stand behind four zeros at 5 and 6, 30 and 31, and so on, 25 apart. Nine rules, once
# each, take one such pair away; the tenth pair becomes three marks, and two rules take away the first mark of each group. So tag 231 becomes 1, and
# no other. The table, 256 states in a row, begins again behind the last: the first other result is that of 256 + 231 tags.
all_01='23 00 00 00 00 00 03' marks='22 00 22 00 22 00 22 00 22 01 22 01'
long_book="20 02 24 00 00 22 01 24 04 01$(times 5 ' 22 00') 24 05 01$(times 5 " $all_01") 22 00$(times 9 " 21 05 00 $marks") \
21 03 01 $marks$(times 2 ' 24 01 00 22 00 22 01') 00"
# counting BACK: the row; its last state leads to the state BACK.
counting() {
    local q next step
    printf '30 02 01 00'
    for ((q = 0; q < 256; q++)); do
        next=$((q < 255 ? q + 1 : $1))
        printf -v step '33 00 %02x 34 %02x' "$next" $((q == 230))
        printf ' 31 00 %s %s' "$step" "$step"
    done
    printf ' 00'
}
call 'tag 231 alone' "run_book 231 $long_book /$(times 231 ' 01')" "230 changed, output$(times 230 ' 0') 1"
call 'tag 231 alone, by the row' "run_table 231 $(counting 0) /$(times 231 ' 01')" "230 changed, output$(times 230 ' 0') 1"
checks 'tag 231 alone, and again at 487' "$long_book" "$(counting 0)" 'differs on 487 tags' 4334592
checks 'tag 231 alone, in a row' "$long_book" "$(counting 255)" same 4334592

# End tags: a book's table for one and for another, or none.
changing='20 04 21 01 02 22 00 22 01 00'
checks_book '0 1 to 0 2' "$changing" 3 "$changing" 3 same 266240
checks_book '0 1 to 0 2' "$changing" 3 "$changing" 255 differs 266240
checks_book '0 1 to 0 2' "$changing" 255 "$changing" 3 differs 266240
checks_book '0 3 to 1 3' "$closing" 3 "$closing" 2 differs 266240
checks_book 'no rules' '20 04 00' 3 '20 04 00' 255 same 163840
# Sets, and rules that do the same; other books
checks_book '0 or 1 before 2, once and everywhere' "$noun" 255 "$nouns" 255 differs 1131520
checks_book '0 or 1 before 2' "$noun" 255 "$noun" 255 same 1131520
checks_book 'once, then everywhere, and everywhere alone' "$once_then_all" 255 '20 02 24 00 01 22 00 00' 255 same 221184
checks_book 'everywhere alone, and once, then everywhere' '20 02 24 00 01 22 00 00' 255 "$once_then_all" 255 same 159744
checks_book 'everywhere, then once' "$all_then_once" 255 "$once_then_all" 255 differs 221184

# slices_of NAME ENTRIES ROOM TABLE RESULT: book A with slices of other lengths.
slices_of() { call "book A, checked, $1" "check $2 $3 $book_a / $4" "$5 other than before"; }
for at in '13 01 same' '13 00 differs'; do
    read -r place byte answer <<<"$at"
    slices_of "$answer, exactly what is needed" 159744 1024 "$(a_with "$place" "$byte")" "$answer; 159744 entries and 0 bytes"
    slices_of "$answer, more than is needed" 159750 1030 "$(a_with "$place" "$byte")" "$answer; 159744 entries and 0 bytes"
    slices_of "$answer, 1,023 tags" 159744 1023 "$(a_with "$place" "$byte")" 'refused 11; 159744 entries and 0 bytes'
    slices_of "$answer, no tags" 159750 0 "$(a_with "$place" "$byte")" 'refused 11; 159744 entries and 0 bytes'
    slices_of "$answer, one entry short" 159743 1024 "$(a_with "$place" "$byte")" 'refused 9; 0 entries and 0 bytes'
    slices_of "$answer, no entries and no tags" 0 0 "$(a_with "$place" "$byte")" 'refused 9; 0 entries and 0 bytes'
done

# Refusals in their order, each with what would give the later ones
refused_check() { call "$2, checked" "ending $3 check 0 0 $4 / $5" "refused $1; 0 entries and 0 bytes other than before"; }
refused_check 1 'a book without its end' 254 "${book_a% *}" '30'
refused_check 2 'K 1' 254 '20 01 00' '30'
refused_check 3 'an empty pattern' 254 '20 02 21 00 01 00' '30'
refused_check 4 'a new tag not below K' 254 '20 02 21 00 02 22 00 00' '30'
refused_check 5 'a place outside the pattern' 254 '20 02 24 01 01 22 00 00' '30'
refused_check 6 'the same tag' 254 '20 02 24 00 00 22 00 00' '30'
refused_check 7 'a seventeenth rule' 254 "20 02$(times 16 ' 21 00 01 22 00') 24 00 01 22 00 00" '30'
refused_check 18 'a set of one tag' 254 '20 03 21 01 00 23 00 00 00 00 00 04 22 02 00' '30'
refused_check 19 'a set at the place' 254 "20 03 21 00 02 $set_01 22 02 00" '30'
refused_check 14 'an end tag that is no tag' 2 "$book_a" '30'
refused_check 14 'an end tag that is changed' 0 "$book_a" '30'
refused_check 12 'no table' 255 "$book_a" ''
refused_check 12 'table A, one step unbalanced' 255 "$book_a" "$(a_with 8 00)"
refused_check 12 'a table of K 49' 255 "$book_a" "$(identity 49)"
refused_check 20 'a table of one tag more' 255 "$book_a" "$(identity 3)"
refused_check 20 'a table of one tag fewer' 3 "$changing" "$(identity 3)"
refused_check 9 'no entries' 255 "$book_a" "${table_a[*]}"
call 'nine rules, no tags, checked' "check_book 4595712 0 255 $(doubling 9) / $(doubling 1)" \
    'refused 10 at rule 9; 4124672 entries and 0 bytes other than before'
