#!/usr/bin/env bash
# Scripts of crates/replay/scripts against the answers beside them, a script by its name, and why a line is no call.
# shellcheck source=tests/programs/common.sh
. "$(dirname "$0")/../common.sh"

for script in crates/replay/scripts/*.in; do
    ./kiosk replay "$script" 2>"$work/.why" | cmp - "${script%.in}.out" || fail "$script"
    ./kiosk replay 2>/dev/null <"$script" | cmp - "${script%.in}.out" || fail "$script on standard input"
    # Each line that is no call has its reason.
    cmp <(sed -n 's/^\(line [0-9]*\): not a call$/replay: \1/p' "${script%.in}.out" | head -n 100) <(grep -o '^replay: line [0-9]*' "$work/.why") ||
        fail "$script: of which lines it is said why"
    passed 3
done

# The answers are the same on either engine, and where it changes from line to line. The lines that choose it are left out of what is compared, and
# those that are no call, which have other numbers with them.
answers() {
    grep -v '^engine$\|^line '
}
for script in crates/replay/scripts/*.in crates/replay/stdin; do
    ./kiosk replay "$script" 2>/dev/null | answers >"$work/.answers"
    [ "$(wc -l <"$work/.answers")" -gt 0 ] || fail "$script has no answers"
    for engines in 1 2 'NR % 2 + 1' '2 - NR % 2'; do
        awk "{ print \"engine \" $engines; print }" "$script" >"$work/script"
        ./kiosk replay "$work/script" >"$work/.all" 2>/dev/null
        answers <"$work/.all" | cmp - "$work/.answers" || fail "$script on the engines $engines"
        [ "$(grep -c '^engine$' "$work/.all")" -eq "$(wc -l <"$script")" ] || fail "$script: how often an engine is chosen"
        passed 2
    done
done
# A number may have leading zeros.
printf 'engine 1\nengine 2\nengine 002\nengine 01\n' >"$work/script"
expect_kiosk 0 $'engine\nengine\nengine\nengine\n' '' replay script

# The answer comes before the next line is sent.
coproc replay { ./kiosk replay; }
# shellcheck disable=SC2154 # coproc sets it
# The names that coproc sets are gone once the program has ended.
pid=$replay_PID from=${replay[0]} to=${replay[1]}
for n in 1 256 257; do
    printf 'open 32 %s\n' "$n" >&"$to"
    IFS= read -r -t 10 answer <&"$from" || fail 'replay does not answer before the next line'
    [[ $answer =~ ^open\ [02]$ ]] || fail "replay answers $answer"
done
exec {to}>&-
wait "$pid" || fail 'the status of replay'
passed 1

# A roll of 65536 bytes, which more bytes and a larger SIZE leave as it is.
most=$(zeros 131072 | tr 0 f)
printf 'rollset %s\nrollset %s00\nroll 65537\nshowroll\nroll 65536\nshowroll\n' "$most" "$most" >"$work/rolls"
expect_kiosk 0 $'rollset\nline 2: not a call\nline 3: not a call\nshowroll '"$most"$'\nroll\nshowroll '"$(zeros 131072)"$'\n' \
    $'replay: line 2: word 2: a roll has 65536 bytes at most\nreplay: line 3: word 2: a roll has 65536 bytes at most\n' replay rolls

# Why a line is no call.
spaces='there is a space too many: words have one between two of them, and no other'
chain=$(zeros 256) held=$(zeros 512)
while IFS='|' read -r line why; do
    printf '%b\nopen 32 256\n' "$line" >"$work/script"
    expect_kiosk 0 $'line 1: not a call\nopen 0\n' "replay: line 1: $why"$'\n' replay script
done <<TEXT
open 32 256\\r|it ends in a carriage return
append 00\\r|it ends in a carriage return
\\r|it ends in a carriage return
open  32 256|$spaces
 open 32 256|$spaces
open 32 256 |$spaces
 |$spaces
open\\t32 256|its first word is no call
opened 32 256|its first word is no call
Open 32 256|its first word is no call
10 32 256|its first word is no call
nn 32 256|its first word is no call
- 32 256|its first word is no call
\\0|its first word is no call
open 32|a line of this call has 3 words
open|a line of this call has 3 words
open 32 256 1|a line of this call has 3 words
abandon 1|a line of this call is one word
set 1|a line of this call has 10 words
open -1 256|word 2: a number has decimal digits only
open 32 0x10|word 3: a number has decimal digits only
open 32 2.5|word 3: a number has decimal digits only
open 32 18446744073709551616|word 3: the number is above 18446744073709551615
close 00 0 18446744073709551616|word 4: the number is above 18446744073709551615
close 00 0 4097|word 4: an output has 4096 bytes at most
roll 65537|word 2: a roll has 65536 bytes at most
append AB|word 2: there is an upper-case digit: hexadecimal digits are lower-case
append abcD|word 2: there is an upper-case digit: hexadecimal digits are lower-case
append abc|word 2: a byte has two digits, and here is one too few
append xy|word 2: bytes have hexadecimal digits only, and are a dash if there are none
append 0x12|word 2: bytes have hexadecimal digits only, and are a dash if there are none
rewind 0 --|word 3: bytes have hexadecimal digits only, and are a dash if there are none
close 0 0 76|word 2: a byte has two digits, and here is one too few
close 0000 0 76|word 2: LAST is one byte
close - 0 76|word 2: LAST is one byte
engine|a line of this call has 2 words
engine 1 2|a line of this call has 2 words
engine  1|$spaces
Engine 1|its first word is no call
engine 0|word 2: an engine is 1 or 2
engine 3|word 2: an engine is 1 or 2
engine 257|word 2: an engine is 1 or 2
engine 4294967298|word 2: an engine is 1 or 2
engine 18446744073709551615|word 2: an engine is 1 or 2
engine 18446744073709551617|word 2: the number is above 18446744073709551615
engine -|word 2: a number has decimal digits only
tag 32 256 0 0 a|word 4: a byte has two digits, and here is one too few
set 32 256 0 $chain $held 0 $chain 00 0|CHAIN and SECOND have 256 digits each, HELD and BACK 512
TEXT

# It is said of the first hundred lines.
for _ in {1..103}; do printf 'x\n'; done >"$work/script"
expect_kiosk 0 "$(for i in {1..103}; do printf 'line %d: not a call\n' "$i"; done)"$'\n' \
    "$(for i in {1..100}; do printf 'replay: line %d: its first word is no call\n' "$i"; done)"$'\nreplay: there are more lines that are no call; why is said of the first 100\n' \
    replay script

# Files, and what is wrong with the command line.
printf 'open 32 256' >"$work/script"
cp "$work/script" "$work/-script"
expect_kiosk 0 $'open 0\n' '' replay script
expect_kiosk 0 $'open 0\n' '' replay - <"$work/script"
expect_kiosk 0 $'open 0\n' '' replay -- -script
expect_kiosk 0 '' '' replay /dev/null
expect_kiosk 1 '' $'replay: none\\n: No such file or directory\n' replay $'none\n'
expect_kiosk 1 '' $'replay: .: Is a directory\n' replay .
expect_kiosk 1 '' $'replay: -: Is a directory\n' replay <"$work"
expect_kiosk 1 '' $'replay: the file\'s name is too long\n' replay "$(zeros 4097)"
expect_kiosk 2 '' "replay: -x: $no_such_option"$'\n' replay -x script
expect_kiosk 2 '' $'replay: script: one script is replayed, and this is a second\n' replay script script
expect_kiosk 2 '' $'replay: --help=1: this option takes no value\n' replay --help=1

finish
