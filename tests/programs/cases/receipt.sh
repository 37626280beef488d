#!/usr/bin/env bash
# Receipts, digests and tags of files through ./kiosk, with good and bad arguments.
# shellcheck source=tests/programs/common.sh
. "$(dirname "$0")/../common.sh"

expect 0 "$receipt256  abc"$'\n' '' abc
expect 0 "$abc256  abc"$'\n' '' --digest abc
expect 0 "$abc256  -"$'\n' '' --digest - <"$work/abc"
expect 0 "40000001$abc512_256$(zeros 64)$abc_length  abc"$'\n' '' -w 64 -n 256 abc
expect 0 "$abc512_256  abc"$'\n' '' --digest -n 256 -w 64 abc
expect 0 "\\$abc256  back\\\\slash"$'\n' '' --digest 'back\slash'
expect 0 "\\$abc256  new\\nline"$'\n' '' --digest $'new\nline'
expect 0 "\\$abc256  carriage\\rreturn"$'\n' '' --digest $'carriage\rreturn'
expect 0 "$receipt256 24  abc"$'\n' '' --length abc
expect 0 "$abc256 24  abc"$'\n' '' --length --digest abc
expect 0 "\\$abc256 24  new\\nline"$'\n' '' --digest --length $'new\nline'
expect 0 "$abc256  abc"$'\n'"$abc256  abc"$'\nfirsts 1 reprints 1 blanks 0\n' '' --digest --tally abc abc
expect 1 "$abc256  abc"$'\n' $'receipt: none: No such file or directory\n' --digest none abc
expect 1 "$abc256  abc"$'\nfirsts 1 reprints 0 blanks 0\n' $'receipt: .: Is a directory\n' --tally --digest . abc
expect 1 '' $'receipt: not\\nthere\\\\: No such file or directory\n' $'not\nthere\\'
# A file is opened by a name that is UTF-8.
expect 1 '' $'receipt: a\xffb: Invalid or incomplete multibyte or wide character\n' $'a\xffb'

# Options anywhere before --, and values behind their options.
expect 0 "$abc512_256  abc"$'\n' '' abc -w64 --digest -n256
expect 0 "$abc512_256  abc"$'\n'"$abc512_256  abc"$'\n' '' abc -w 64 abc --digest -n 256
expect 0 "$abc256  abc"$'\n' '' -w64 -w32 --digest abc
expect 0 "$abc256  abc"$'\n' '' --digest -- abc
expect 1 '' $'receipt: --tally: No such file or directory\n' -- --tally
expect 1 "$abc256  abc"$'\n' $'receipt: --: No such file or directory\n' --digest abc -- --
expect 2 '' $'receipt: -w 33: the word size is 32 or 64\n' -w 33 abc
expect 2 '' $'receipt: -w 33: the word size is 32 or 64\n' abc -w33
expect 2 '' $'receipt: -w 4294967328: the word size is 32 or 64\n' -w 4294967328 abc
expect 2 '' $'receipt: -n 257: a digest has 1 bit at least and 8 times the word size at most\n' -n 257 abc
expect 2 '' $'receipt: -n 0: a digest has 1 bit at least\n' -n 0 abc
expect 2 '' $'receipt: -n many: this is no number, or is too large\n' -n many abc
expect 2 '' $'receipt: -n =3: this is no number, or is too large\n' -n=3 abc
expect 2 '' $'receipt: -n a\\nb: this is no number, or is too large\n' -n $'a\nb' abc
expect 2 '' $'receipt: -n : this is no number, or is too large\n' -n '' abc
expect 2 '' $'receipt: -n: a number is missing after it\n' abc -n
expect 2 '' "receipt: --sum: $no_such_option"$'\n' --sum abc
expect 2 '' "receipt: --digestx: $no_such_option"$'\n' abc --digestx
expect 2 '' "receipt: --su\\nm=3: $no_such_option"$'\n' $'--su\nm=3' abc
expect 2 '' "receipt: -x: $no_such_option"$'\n' -x abc
expect 2 '' $'receipt: --digest=yes: this option takes no value\n' --digest=yes abc
expect 2 '' $'receipt: -hc: this option takes no value\n' -hc abc
expect 2 '' $'receipt: no file is named; --help says what there is\n' --digest
expect 2 '' $'receipt: no file is named; --help says what there is\n'
# Of several faults the first is said.
expect 2 '' "receipt: -x: $no_such_option"$'\n' -x -y -w 33

# A file that is longer than one read.
for _ in {1..25}; do cat "$work/sunset.ppm"; done >"$work/long"
receipt_of() { # FILE
    model "whole 32 256 $(digits "$work/$1") 00 0 76"
}
expect 0 "$(receipt_of long)  long"$'\n' '' long

# The length that is printed is that of the file, also where it is empty, and where it does not fit in a byte or in two.
for file in empty abc long; do
    bits=$((8 * $(wc -c <"$work/$file")))
    expect 0 "$(receipt_of "$file") $bits  $file"$'\n' '' --length "$file"
done

# Tags with a key: short ones, and ones of a block, a byte more, and the most bytes.
zeros 128 >"$work/block_key"
zeros 129 >"$work/long_key"
zeros 65536 >"$work/longest_key"
zeros 65537 >"$work/huge_key"
tag_of() { # W N KEY_FILE FILE
    model "tag $1 $2 $(digits "$work/$3") $(digits "$work/$4") $(($2 / 8))"
}
tag=$(tag_of 32 256 key abc)
tags="$tag 24  abc"$'\n'"$(tag_of 32 256 key empty) 0  empty"$'\n'"$(tag_of 32 256 key long) 919000  long"$'\n'
expect 0 "$tag  abc"$'\n' '' --key key abc
expect 0 "$tag  abc"$'\n' '' --key=key abc
expect 0 "$tag  abc"$'\n' '' abc --key key
expect 0 "$tag  abc"$'\n' '' --key none --digest --key key abc
expect 0 "$tag  -"$'\n' '' --key key - <"$work/abc"
expect 0 "$tag  abc"$'\n' '' --key - abc <"$work/key"
expect 0 "$tag  abc"$'\n' '' --key=- abc <"$work/key"
expect 0 "$tag  abc"$'\n' '' --key - abc < <(printf 'the key of' && sleep 0.2 && printf ' the kiosk')
expect 0 "\\$tag 24  new\\nline"$'\n' '' --key key --length $'new\nline'
expect 0 "$tags" '' --length --key key abc empty long
expect 0 "$(tag_of 32 224 key sunset.ppm) 36760  sunset.ppm"$'\n' '' -n 224 --key key --length sunset.ppm
expect 0 "$(tag_of 64 512 key sunset.ppm) 36760  sunset.ppm"$'\n' '' -w 64 --key key --length sunset.ppm
expect 0 "$(tag_of 32 256 block_key abc)  abc"$'\n' '' --key block_key abc
expect 0 "$(tag_of 32 256 long_key abc)  abc"$'\n' '' --key long_key abc
expect 0 "$(tag_of 64 384 long_key abc)  abc"$'\n' '' -w 64 -n 384 --key long_key abc
expect 0 "$(tag_of 32 256 longest_key abc)  abc"$'\n' '' --key longest_key abc
expect 0 "$(tag_of 32 8 key abc)  abc"$'\n' '' -n 8 --key key abc
expect 1 "$tag  abc"$'\n' $'receipt: none: No such file or directory\n' --key key none abc
expect 1 '' $'receipt: none: No such file or directory\n' --key none abc
expect 1 '' $'receipt: : No such file or directory\n' --key= abc
expect 1 '' $'receipt: .: Is a directory\n' --key . abc
expect 1 '' $'receipt: --key: the file\'s name is too long\n' --key "$(zeros 4097)" abc
expect 1 '' $'receipt: empty: the key is empty\n' --key empty abc
expect 1 '' $'receipt: -: the key is empty\n' --key - abc </dev/null
expect 1 '' $'receipt: huge_key: the key has more than 65536 bytes\n' --key huge_key abc
expect 1 '' $'receipt: -: standard input is read for the key or the list already\n' --key - - <"$work/key"
expect 2 '' $'receipt: -n 250: with --key a digest has a multiple of 8 bits\n' -n 250 --key key abc
expect 2 '' $'receipt: --tally counts receipts, and with --key none are made\n' --tally --key key abc
expect 2 '' $'receipt: --key: a file is missing after it\n' abc --key
expect 2 '' $'receipt: no file is named; --help says what there is\n' --key key
expect 1 "$abc256  abc"$'\n' $'receipt: a file\'s name is too long\n' --digest "$(zeros 4097)" abc

# An empty file is a blank each time, and one of a zero byte is none.
printf '\0' >"$work/zero"
try_tally() { # COUNTS FILE...
    local w last
    for w in 32 64; do
        last=$(cd "$work" && "$root/kiosk" receipt -w "$w" --tally "${@:2}" | tail -n 1)
        [ "$last" = "$1" ] || fail "the tally of ${*:2} at word size $w: $last"
        passed 1
    done
}
try_tally 'firsts 0 reprints 0 blanks 1' empty
try_tally 'firsts 1 reprints 1 blanks 0' zero zero
try_tally 'firsts 2 reprints 1 blanks 3' empty abc empty zero abc empty

# 960 receipts make a tally, and 961 files are told before one is read.
names=$(printf 'abc %.0s' {1..960})
lines=$(printf "$abc256  abc\n%.0s" {1..960})
# shellcheck disable=SC2086 # the names are words
expect 0 "$lines"$'\nfirsts 1 reprints 959 blanks 0\n' '' --tally --digest $names
# shellcheck disable=SC2086
expect 2 '' $'receipt: --tally takes 960 files at most\n' --tally --digest $names none

finish
