#!/usr/bin/env bash
# ./kiosk itself: help and version, statuses where descriptors are closed or the disk is full, signals, and what is shown while a program is built.
# shellcheck source=tests/programs/common.sh
. "$(dirname "$0")/../common.sh"

# Help and version of each program. A program in Rattle asks for them by a word, wherever the option stands.
kiosk_help=$(./kiosk --help)$'\n'
[[ $kiosk_help == 'usage: ./kiosk receipt '*'./kiosk package DIR'* ]] || fail 'kiosk --help does not begin with the usage'
for words in -h --help 'package -h' 'package --help'; do
    # shellcheck disable=SC2086 # the words are words
    expect_kiosk 0 "$kiosk_help" '' $words
done
version=$(sed -n 's/^#define LSH_VERSION "\(.*\)"$/\1/p' include/lsh_kiosk.h)
[ -n "$version" ] || fail 'the header has no version'
expect_kiosk 0 "kiosk $version"$'\n' '' --version
for program in receipt replay order; do
    help=$(./kiosk "$program" --help)$'\n'
    [[ $help == "usage: $program "* ]] || fail "$program --help does not begin with the usage"
    for words in -h --help 'abc -h' 'abc --help --nope'; do
        # shellcheck disable=SC2086
        expect_kiosk 0 "$help" '' "$program" $words
    done
    expect_kiosk 0 "$program $version"$'\n' '' "$program" --version
    expect_kiosk 0 "$program $version"$'\n' '' "$program" none --version --nope
done
for program in receipt replay; do
    expect_of 0 '' "$program: run it by kiosk, which has the help and the version"$'\n' "$root/target/bin/$program" --help
done
# The help names each option that the program has.
grep -o -- 'b"-[a-z-]*[a-z]"' crates/receipt/src/arguments.rt | sed 's/^b"//; s/"$//' >"$work/options"
[ "$(wc -l <"$work/options")" -eq 11 ] || fail 'the options of the program'
./kiosk receipt --help >"$work/help"
while read -r option; do
    grep -q -- "^  .*$option\>" "$work/help" || fail "receipt --help does not name $option"
done <"$work/options"
passed 1

expect_kiosk 2 '' $'kiosk: what is to be run is missing; --help says what there is\n'
expect_kiosk 2 '' $'kiosk: print is no program of the module; --help says what there is\n' print abc
expect_kiosk 2 '' $'kiosk: receipt replay is no program of the module; --help says what there is\n' 'receipt replay'
expect_kiosk 2 '' $'kiosk:  is no program of the module; --help says what there is\n' ''
expect_kiosk 2 '' $'kiosk: ../kiosk is no program of the module; --help says what there is\n' ../kiosk
expect_kiosk 2 '' $'kiosk: package takes one folder; --help says what there is\n' package
expect_kiosk 2 '' $'kiosk: package has no options; --help says what there is\n' package --here

# Statuses by what can be read and written.
printf 'open 32 256\nopen 32 256\n' >"$work/script"
try() { # STATUS ERRORS COMMAND
    expect_of "$1" '' "$2" bash -c "kiosk=$root/kiosk; $3"
}
full='the output cannot be written: No space left on device'$'\n'
closed='the output cannot be written: Bad file descriptor'$'\n'
for words in 'receipt abc abc' 'receipt --check list' 'replay script' 'order abc'; do
    program=${words%% *}
    printf '%s  abc\n%s  abc\n' "$receipt256" "$receipt256" >"$work/list"
    # shellcheck disable=SC2016 # $kiosk is for bash -c
    try 1 "$program: $full" '"$kiosk" '"$words"' >/dev/full'
    # shellcheck disable=SC2016
    try 1 "$program: $closed" '"$kiosk" '"$words"' >&-'
done
# shellcheck disable=SC2016
for words in --help --version 'receipt --help' 'receipt abc --help' 'replay --version' 'replay script --version'; do
    try 1 "kiosk: $full" '"$kiosk" '"$words"' >/dev/full'
    try 1 "kiosk: $closed" '"$kiosk" '"$words"' >&-'
done
# shellcheck disable=SC2016
{
    try 1 $'receipt: -: Bad file descriptor\n' '"$kiosk" receipt - <&-'
    try 1 $'replay: -: Bad file descriptor\n' '"$kiosk" replay <&-'
    try 1 $'order: -: Bad file descriptor\n' '"$kiosk" order - <&-'
    try 1 $'receipt: -: Is a directory\n' '"$kiosk" receipt - <.'
    try 1 '' '"$kiosk" receipt none 2>&-'
    try 0 '' '"$kiosk" receipt abc >/dev/null 2>&-'
}
# A file takes no place of standard input that is closed.
expect_of 1 "$abc256  abc"$'\n' $'receipt: -: Bad file descriptor\n' bash -c "$root/target/bin/receipt --digest abc - <&- 99>word; exit \$(cat word)"
# Other descriptors of the caller are the program's too.
expect_of 0 "$(cd "$work" && "$root/kiosk" receipt --key key abc)"$'\n' '' bash -c "$root/kiosk receipt --key /dev/fd/3 abc 3<key"
expect_of 0 "$abc256  "$'\n' '' bash -c "$root/kiosk receipt --digest <(printf abc) | sed 's/  .*/  /'"
# A program whose output nobody reads has failed.
for _ in {1..3000}; do printf '%s  abc\n' "$receipt256"; done >"$work/many"
for words in 'receipt --check many' 'replay many' 'order many many'; do
    expect_of 1 '' '' bash -c "(sleep 0.5; $root/kiosk $words 2>/dev/null; echo \$? >status) | :; exit \$(cat status)"
done
# A program in Rattle says nothing of it.
expect_of 1 '' '' bash -c "(sleep 0.5; $root/kiosk receipt --check many 2>said; echo \$? >status) | :; cat said >&2; exit \$(cat status)"

# What is said on standard error comes in its order with what is printed.
for _ in {1..10}; do
    expect_of 1 $'receipt: none: No such file or directory\n'"$abc256  abc"$'\nreceipt: .: Is a directory\n'"$abc256  abc"$'\n' '' \
        bash -c "$root/kiosk receipt --digest none abc . abc 2>&1"
done

# The number of the program that a process runs, which may have to be waited for.
child_of() { # PROCESS NAME
    local tries
    for tries in {1..200}; do
        ! pgrep -P "$1" -x "$2" || return 0
        sleep 0.05
    done
    fail "$2 is not run after $tries looks"
}

# A signal that ends ./kiosk ends the program too.
mkfifo "$work/fifo"
for words in 'TERM receipt -' 'INT receipt -' 'HUP receipt -' 'QUIT receipt -' 'TERM replay' 'INT order -'; do
    read -r signal name file <<<"$words"
    exec {hold}<>"$work/fifo"
    # A script starts its background programs without INT, which a program has at a terminal: env gives it back.
    # shellcheck disable=SC2086 # there may be no file
    env --default-signal="INT,QUIT" ./kiosk "$name" $file <"$work/fifo" >"$work/.output" 2>"$work/.errors" &
    pid=$!
    program=$(child_of "$pid" "$name")
    kill -s "$signal" "$pid"
    status=0
    { wait "$pid" || status=$?; } 2>/dev/null
    [ "$status" -eq $((128 + $(kill -l "$signal"))) ] || fail "$words: status $status"
    if kill -s 0 "$program" 2>/dev/null; then fail "$words: the program goes on"; fi
    [ ! -s "$work/.output" ] || fail "$words: something is printed"
    [ ! -s "$work/.errors" ] || fail "$words: $(cat "$work/.errors")"
    exec {hold}>&-
    passed 1
done
# A program that dies is no success.
exec {hold}<>"$work/fifo"
./kiosk receipt - <"$work/fifo" >"$work/.output" 2>"$work/.errors" &
pid=$!
program=$(child_of "$pid" receipt)
kill -s KILL "$program"
status=0
wait "$pid" || status=$?
[ "$status" -eq 1 ] || fail "a program that dies: status $status"
[ "$(cat "$work/.errors")" = 'kiosk: receipt died, with status 137' ] || fail "a program that dies: $(cat "$work/.errors")"
exec {hold}>&-
passed 1

# What is shown while a program is built, in a copy of the tree with a stand-in for rt that proves nothing.
tree=$work/tree
mkdir -p "$tree/crates/receipt" "$tree/crates/lsh_kiosk" "$tree/include" "$work/bin"
cp kiosk rt.sh "$tree"
cp include/lsh_kiosk.h "$tree/include"
printf '# crates\nlow:\nside: low\nreceipt: low side io # a program\nreplay: low\nlsh_kiosk staticlib: side\n' >"$tree/crates.txt"
stand_in() { # COMMANDS
    printf '#!/bin/sh\nproved() { echo "crate $1: modules loaded=3 checked=2"; echo "logic=proved functions=1"; }\n%s\n' "$1" >"$work/bin/rt"
    chmod +x "$work/bin/rt"
}
building=$'kiosk: building receipt: 3 crates are proved first, which takes some minutes the first time\n'
# The times are taken out, since they differ.
in_tree() { # ARGUMENTS...
    local status=0
    PATH=$work/bin:$PATH "$tree/kiosk" "$@" 2>"$work/.timed" || status=$?
    sed 's/ in [0-9]*:[0-9][0-9]/ in TIME/' "$work/.timed" >&2
    return "$status"
}
stand_in 'echo a fault; echo "crate side: modules loaded=3 checked=1"; echo logic=not-proved; exit 1'
expect_of 1 '' "$building"$'a fault\ncrate side: modules loaded=3 checked=1\nlogic=not-proved\nkiosk: receipt could not be built\n' in_tree receipt
# Nothing is built for the help and the version.
expect_of 0 "$(./kiosk receipt --help)"$'\n' '' in_tree receipt --help
expect_of 0 "replay $version"$'\n' '' in_tree replay --version
stand_in "[ \"\${PWD##*/} \$*\" = 'receipt run' ] || exit 1
proved side; printf 'crate rec'; sleep 2; echo 'eipt: modules loaded=3 checked=2'; echo 'logic=proved functions=1'; echo 'rt: running out/receipt'
mkdir -p out && printf '#!/bin/bash\necho a receipt of \$1; echo 0 >&99\n' >out/receipt && chmod +x out/receipt"
progress=$'kiosk: 2 of 3 crates proved in TIME, the last: side\nkiosk: 3 of 3 crates proved in TIME, the last: receipt\nkiosk: built in TIME\n'
expect_of 0 $'a receipt of abc\n' "$building$progress" in_tree receipt abc
expect_of 0 $'a receipt of abc\n' '' in_tree receipt abc
# A terminal has one line, which is rewritten: here a bar stands for the return to the line's front and its clearing.
touch "$tree/crates.txt"
screen=$(PATH=$work/bin:$PATH script -qec "$tree/kiosk receipt abc" /dev/null </dev/null | sed 's/\r\x1b\[K/|/g' | tr -d '\r\n')
line='\|kiosk: [23] of 3 crates proved in [0-9]+:[0-9]{2}, the last: '
[[ $screen =~ ${line}side.*${line}receipt'|kiosk: built in '[0-9:]+'a receipt of abc'$ ]] || fail "what a terminal shows: $screen"
passed 1
# A word that is no status, or none, is no success.
for word in 'echo 3 >&99' 'echo >&99' 'printf 3 >&99' ':' 'exit 7'; do
    printf '#!/bin/bash\n%s\n' "$word" >"$tree/target/bin/receipt"
    expect_of 1 '' "kiosk: receipt died, with status $([ "$word" = 'exit 7' ] && echo 7 || echo 0)"$'\n' in_tree receipt
done
for word in 0 1 2; do
    printf '#!/bin/bash\necho %s >&99\n' "$word" >"$tree/target/bin/receipt"
    expect_of "$word" '' '' in_tree receipt
done
# An example is built with the archive, and again when a source of it is newer.
mkdir -p "$tree/examples"
printf '#define WORDS "one"\n' >"$tree/examples/common.h"
printf '#include <stdio.h>\n#include "common.h"\nint main(int argc, char **argv)\n{\n    printf("%%s %%s\\n", WORDS, argv[argc - 1]);\n    return 2;\n}\n' >"$tree/examples/small.c"
stand_in "[ \"\${PWD##*/} \$*\" = 'lsh_kiosk lib' ] || exit 1
proved low; proved side; proved lsh_kiosk
mkdir -p out && ar rc out/liblsh_kiosk.a"
progress=$'kiosk: 1 of 3 crates proved in TIME, the last: low\nkiosk: 2 of 3 crates proved in TIME, the last: side\nkiosk: 3 of 3 crates proved in TIME, the last: lsh_kiosk\nkiosk: built in TIME\n'
expect_of 2 $'one abc\n' "${building/receipt/lsh_kiosk}$progress" in_tree small abc
expect_of 2 $'one abc\n' '' in_tree small abc
sleep 0.1
printf '#define WORDS "two"\n' >"$tree/examples/common.h"
expect_of 2 $'two abc\n' '' in_tree small abc
# What a build puts into memory is gone after it, also if it is stopped.
for end in 'exit 1' 'sleep 60'; do
    stand_in "printf '%s\n' \"\${TMPDIR-}\" >../../given; $end"
    rm -f "$tree/given"
    touch "$tree/crates.txt"
    env -u TMPDIR PATH="$work/bin:$PATH" "$tree/kiosk" receipt abc >/dev/null 2>&1 &
    until [ -s "$tree/given" ]; do sleep 0.1; done
    [ "$end" = 'exit 1' ] || kill $!
    wait $! || :
    given=$(<"$tree/given")
    [ -z "$given" ] || [ ! -e "$given" ] || fail "a build leaves $given"
    passed 1
done

finish
