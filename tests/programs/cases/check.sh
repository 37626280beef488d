#!/usr/bin/env bash
# Lists of receipts, digests and tags checked, damaged ones too.
# shellcheck source=tests/programs/common.sh
. "$(dirname "$0")/../common.sh"

receipt() { # ARGUMENT...
    (cd "$work" && "$root/kiosk" receipt "$@")
}
ok() { # NAME...
    printf '%s: OK\n' "$@"
}

# What was printed before is right now, for each kind of line and form of name, with lengths and without.
names=(abc empty sunset.ppm 'back\slash' $'new\nline' $'carriage\rreturn' ' two  spaces ' 12)
cp "$work/abc" "$work/ two  spaces "
cp "$work/empty" "$work/12"
all=$'abc: OK\nempty: OK\nsunset.ppm: OK\n\\back\\\\slash: OK\n\\new\\nline: OK\n\\carriage\\rreturn: OK\n two  spaces : OK\n12: OK\n'
for options in '' '--digest' '--digest -w 64 -n 509' '--key key' '--key key -w64 -n8' '--digest -n 1'; do
    for more in '' --length; do
        # shellcheck disable=SC2086 # the options are words
        receipt $options $more "${names[@]}" >"$work/list"
        # shellcheck disable=SC2086
        expect 0 "$all" '' --check $options list
        # shellcheck disable=SC2086
        expect 0 "$all" '' $options -c - <"$work/list"
    done
done

# Receipts have their own w and n, and each list may have several.
{ receipt -w 64 abc && receipt -n 7 abc && receipt -w 64 -n 300 --length empty; } >"$work/list"
expect 0 "$(ok abc abc empty)"$'\n' '' -w 32 -n 9 --check list
expect 0 "$(ok abc abc empty abc abc empty)"$'\n' '' --check list list

# Comments and empty lines are passed over; so is a carriage return at the end of a line; the last line may lack its newline.
printf '# receipts\rof today\r\n\n\r\n%s  abc\r\n%s  empty' "$receipt256" "$(model 'whole 32 256 - 00 0 76')" >"$work/list"
expect 0 "$(ok abc empty)"$'\n' '' --check list

# Standard input in a list is standard input.
printf '%s  -\n' "$receipt256" >"$work/list"
expect 0 $'-: OK\n' '' --check list <"$work/abc"
expect 1 $'-: FAILED open or read\n' $'receipt: -: standard input is read for the key or the list already\nreceipt: -: 1 file could not be read\n' --check - <"$work/list"
expect 1 '' $'receipt: -: standard input is read for the key or the list already\n' --check --key - - <"$work/key"

# What differs fails: the digest, the digest length, the word size, and the length alone.
no=': FAILED'$'\n'
failed='receipt: list: 1 file failed'$'\n'
other=$(model "whole 32 256 616264 00 0 76")
printf '%s  abc\n' "$other" >"$work/list"
expect 1 "abc$no" "$failed" --check list
printf '%s  abc\n' "${receipt256%18"$(zeros 14)"}20$(zeros 14)" >"$work/list"
expect 1 "abc$no" "$failed" --check list
printf '%s 32  abc\n' "$receipt256" >"$work/list"
expect 1 "abc$no" "$failed" --check list
printf '%s 32  abc\n' "$abc256" >"$work/list"
expect 1 "abc$no" "$failed" --digest --check list
printf '%s  abc\n' "$abc256" >"$work/list"
expect 1 "abc$no" "$failed" --digest -w 64 -n 256 --check list
expect 1 "abc$no" "$failed" --key key --check list
printf '%s  abc\n' "${abc256%?}0" >"$work/list"
expect 1 "abc$no" "$failed" --digest --check list
# Of a digest of 7 bits the eighth bit is zero.
receipt -n 7 --digest abc >"$work/list"
expect 0 $'abc: OK\n' '' -n 7 --digest --check list
printf '%02x  abc\n' $((0x$(cut -c 1-2 "$work/list") + 1)) >"$work/list"
expect 1 "abc$no" "$failed" -n 7 --digest --check list

# A file that cannot be read, and lines that are none: each is counted, and the others are checked.
no_line='line is not as it is printed without --check'
no_lines='lines are not as they are printed without --check'
printf '%s\n' "$receipt256  none" "$receipt256  abc" "$receipt256  empty" "$receipt256  ." 'a line' "$receipt256  sunset.ppm" >"$work/list"
expect 1 $'none: FAILED open or read\nabc: OK\nempty: FAILED\n.: FAILED open or read\nsunset.ppm: FAILED\n' \
    "receipt: none: No such file or directory"$'\n'"receipt: .: Is a directory"$'\n'"receipt: list: 2 files failed"$'\n'"receipt: list: 2 files could not be read"$'\n'"receipt: list: 1 $no_line"$'\n' \
    --check list
for line in "$receipt256" "$receipt256 " "$receipt256  " "$receipt256 abc" "$receipt256 24 abc" "$receipt256 24x  abc" "$receipt256  abc"$'\rx' \
    " $receipt256  abc" "${receipt256^^}  abc" "${receipt256%0}  abc" "${receipt256}00  abc" "$abc256  abc" '-  abc' "\\$receipt256  back\\slash" \
    "\\$receipt256  abc\\" "\\\\$receipt256  abc" "21${receipt256#20}  abc" "200100${receipt256#200000}  abc" "${receipt256%00}01  abc" \
    "$receipt256  $(zeros 4097)" "$receipt256  $(zeros 9000)" "\\$receipt256  $(printf '\\n%.0s' {1..4097})" 'firsts 1 reprints 0 blanks 0'; do
    printf '%s\n%s  abc\n' "$line" "$receipt256" >"$work/list"
    expect 1 $'abc: OK\n' "receipt: list: 1 $no_line"$'\n' --check list
    printf '%s\n%s\n' "$line" "$line" >"$work/list"
    expect 1 '' "receipt: list: 2 $no_lines"$'\n'$'receipt: list: there is no line to check in it\n' --check list
done
# A receipt is no digest, and the digest of another length is none.
printf '%s  abc\n' "$receipt256" >"$work/list"
expect 1 '' "receipt: list: 1 $no_line"$'\n'$'receipt: list: there is no line to check in it\n' --digest --check list
printf '%s  abc\n' "$abc256" >"$work/list"
expect 1 '' "receipt: list: 1 $no_line"$'\n'$'receipt: list: there is no line to check in it\n' --digest -n 224 --check list
# The longest names that can be.
printf '%s  %s\n' "$receipt256" "$(zeros 4096)" >"$work/list"
expect 1 "$(zeros 4096): FAILED open or read"$'\n' "receipt: $(zeros 4096): File name too long"$'\n'$'receipt: list: 1 file could not be read\n' --check list
newlines=$(printf '\\n%.0s' {1..4095})
printf '\\%s  %s\n' "$receipt256" "$newlines" >"$work/list"
expect 1 "\\$newlines: FAILED open or read"$'\n' "receipt: $newlines: File name too long"$'\n'$'receipt: list: 1 file could not be read\n' --check list

# Lists that cannot be read, or have nothing.
expect 1 '' $'receipt: none: No such file or directory\n' --check none
expect 1 '' $'receipt: .: Is a directory\n' --check .
expect 1 '' $'receipt: empty: there is no line to check in it\n' --check empty
printf '%s  abc\n' "$receipt256" >"$work/list"
expect 1 $'abc: OK\n' $'receipt: no\\nlist: No such file or directory\n' --check $'no\nlist' list
expect 2 '' $'receipt: --tally counts receipts, and with --check none are printed\n' --check --tally list
expect 2 '' $'receipt: --check=list: this option takes no value\n' --check=list
expect 2 '' $'receipt: no file is named; --help says what there is\n' --check

# A list of many lines, longer than a read.
for _ in {1..2000}; do printf '%s  abc\n' "$receipt256"; done >"$work/list"
sed -i '1000s/18/19/' "$work/list"
expect 1 "$(for i in {1..2000}; do if [ "$i" = 1000 ]; then printf 'abc: FAILED\n'; else printf 'abc: OK\n'; fi; done)"$'\n' "$failed" --check list

finish
