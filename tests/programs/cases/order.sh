#!/usr/bin/env bash
# The example order: what it prints against what receipt prints of the same files, and what it says of bad arguments.
# shellcheck source=tests/programs/common.sh
. "$(dirname "$0")/../common.sh"

# The receipt that `receipt` gives of files as one, with its length, and once more where the order has a checkpoint, at whose middle one it is taken up.
# The order has none if it is too long for a roll before its last picture is dropped.
expected_order() { # WORD_SIZE NAME FILE...
    local w=$1 name=$2 bytes checkpoints
    shift 2
    cat /dev/null "$@" | ./kiosk receipt -w "$w" --length - >"$work/.of_order"
    sed "s/  -$/  $name/" "$work/.of_order"
    bytes=$(cat /dev/null "$@" | wc -c)
    checkpoints=$((bytes / (4 * w) / 64))
    if [ "$checkpoints" -gt 0 ] && [ "$has_roll" -eq 1 ]; then
        sed "s/  -$/  $name, taken up at byte $((64 * 4 * w * ((checkpoints + 1) / 2)))/" "$work/.of_order"
    fi
}

# The receipts that `receipt` gives, with their lengths: of each file, of all of them as one, and of all but the last as one.
expected() { # WORD_SIZE FILE...
    local w=$1 has_roll
    shift
    has_roll=$(($(cat "$@" | wc -c) / (4 * w) / 64 <= 255))
    ./kiosk receipt -w "$w" --length --tally "$@" >"$work/.pictures"
    sed '$d' "$work/.pictures"
    expected_order "$w" 'the order' "$@"
    tail -n 1 "$work/.pictures"
    expected_order "$w" 'the order without its last picture' "${@:1:$#-1}"
    if [ $# -gt 1 ]; then
        ./kiosk receipt -w "$w" --tally "${@:1:$#-1}" | tail -n 1
    else
        printf 'firsts 0 reprints 0 blanks 0\n'
    fi
}

# Pictures are cut from this file: the sample picture, again and again.
cp crates/receipt/data/sunset.ppm "$work/.source"
while [ "$(wc -c <"$work/.source")" -lt 5000000 ]; do
    cat "$work/.source" "$work/.source" >"$work/.twice"
    mv "$work/.twice" "$work/.source"
done

# Orders with cuts inside of a block, at a block's end, in a block that several pictures share, after a picture of no bytes, and before and after a
# checkpoint; and orders for which the largest roll has just room, at one word size, and for which it has none.
try_order() { # LENGTH...
    local length w names=()
    for length; do
        head -c "$length" "$work/.source" >"$work/picture$length"
        names+=("$work/picture$length")
    done
    for w in 32 64; do
        expected "$w" "${names[@]}" >"$work/.expected"
        ./kiosk order -w "$w" "${names[@]}" | cmp - "$work/.expected" || fail "order at word size $w on pictures of $* bytes"
        passed 1
    done
}
try_order 300
try_order 0
try_order 0 0
try_order 128 1
try_order 256 256
try_order 300 0
try_order 100 20 7 1000
try_order 4000 300 4000 1 4000
try_order 3 5 3 5 600 40 3
try_order 20000 8192 9000
try_order 8192 16384
try_order 2097151
try_order 2097152 300
try_order 300 2097152
try_order 4194303 1

# With a key, the tags that receipt gives of the order and of all but its last picture. The key is shorter than a block, or longer.
try_tags() { # KEY_LENGTH LENGTH...
    local length names=()
    head -c "$1" "$work/.source" >"$work/cut_key"
    for length in "${@:2}"; do names+=("$work/picture$length"); done
    {
        cat "${names[@]}" | ./kiosk receipt --key "$work/cut_key" - | sed 's/  -$/  the tag of the order/'
        cat /dev/null "${names[@]:0:${#names[@]}-1}" | ./kiosk receipt --key "$work/cut_key" - | sed 's/  -$/  the tag of the order without its last picture/'
    } >"$work/.expected"
    ./kiosk order --key "$work/cut_key" "${names[@]}" | grep -F '  the tag of ' | cmp - "$work/.expected" || fail "the tags of pictures of ${*:2} bytes"
    passed 1
}
try_tags 32 300
try_tags 300 4000 300 4000 1

# Options and files. An order takes its files before it prints anything.
order() { # STATUS ERRORS ARGUMENT...
    expect_of "$1" '' "$2" "$root/kiosk" order "${@:3}"
}
printed=$(cd "$work" && "$root/kiosk" order -w 64 -n 256 --key key abc sunset.ppm)$'\n'
expect_kiosk 0 "$printed" '' order abc -w64 sunset.ppm -n256 --key=key
expect_kiosk 0 "$printed" '' order abc -w64 -n256 --key - -- sunset.ppm <"$work/key"
[[ $(./kiosk order "$work/"$'new\nline') == *"  $work/new\\nline"$'\n'* ]] || fail 'a name with a newline'
passed 1
order 1 $'order: none: No such file or directory\n' abc none
order 1 $'order: .: Is a directory\n' abc .
order 1 $'order: no\\nne: No such file or directory\n' abc $'no\nne'
order 1 $'order: none: No such file or directory\n' --key none abc
order 1 $'order: empty: the key is empty\n' --key empty abc
order 2 "order: -x: $no_such_option"$'\n' -x abc
order 2 $'order: -w 33: the word size is 32 or 64\n' -w 33 abc
order 2 $'order: -n 257: a digest has 1 bit at least and 8 times the word size at most\n' -n 257 abc
order 2 $'order: -n many: this is no number, or is too large\n' -nmany abc
order 2 $'order: -n: a number is missing after it\n' abc -n
order 2 $'order: --key: a file is missing after it\n' abc --key
order 2 $'order: no file is named; --help says what there is\n' -w 64
order 2 $'order: -n 250: with --key a digest has a multiple of 8 bits\n' -n 250 --key key abc
# shellcheck disable=SC2046 # the names are words
order 2 $'order: 961 files: an order\'s tally takes 960 at most\n' $(printf 'none %.0s' {1..961})

finish
