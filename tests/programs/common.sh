# shellcheck shell=bash
# What the tests of the programs share. A file of cases/ reads it, tries something, and ends with `finish`. The programs have to be built.
set -euo pipefail
cd "$(dirname "${BASH_SOURCE[0]}")/../.."
root=$PWD
work=$(mktemp -d)
trap 'rm -rf "$work"' EXIT
checks=0

fail() { # WHAT
    # The line of the file of cases that led here.
    printf 'tests/programs: FAILED: %s, line %s: %s\n' "$(basename "$0")" "${BASH_LINENO[-2]}" "$1" >&2
    exit 1
}

passed() { # COUNT
    checks=$((checks + $1))
}

finish() {
    printf '%s: %d checks passed\n' "$(basename "$0" .sh)" "$checks"
}

# What a line of a script has to print behind its name and its number, by the model (tests/model).
model() { # LINE
    local answer
    answer=$("$root/target/cargo/release/model" <<<"$1")
    printf '%s' "${answer##* }"
}

# The bytes of a file, as a script has them.
digits() { # FILE
    local bytes
    bytes=$(od -An -v -tx1 "$1" | tr -d ' \n')
    printf '%s' "${bytes:--}"
}

zeros() { # COUNT
    printf '%0*d' "$1" 0
}

# Runs a command in the folder of the test's files and holds what it prints, what it says on standard error and its status to
# what is wanted.
expect_of() { # STATUS OUTPUT ERRORS COMMAND...
    local status=0 wanted=$1 output=$2 errors=$3
    shift 3
    (cd "$work" && "$@") >"$work/.output" 2>"$work/.errors" || status=$?
    [ "$status" -eq "$wanted" ] || fail "$*: status $status"
    printf '%s' "$output" | cmp - "$work/.output" || fail "$*: what it prints"
    printf '%s' "$errors" | cmp - "$work/.errors" || fail "$*: what it says on standard error: $(cat "$work/.errors")"
    passed 1
}

# The same for receipt.
expect() { # STATUS OUTPUT ERRORS ARGUMENTS...
    expect_of "${@:1:3}" "$root/kiosk" receipt "${@:4}"
}

# The same for any words of ./kiosk.
expect_kiosk() { # STATUS OUTPUT ERRORS ARGUMENTS...
    expect_of "${@:1:3}" "$root/kiosk" "${@:4}"
}

# shellcheck disable=SC2034 # for those who read this file, as those below
no_such_option='there is no such option; --help says what there is'
# The published digests of "abc".
abc256=5fbf365daea5446a7053c52b57404d77a07a5f48a1f7c1963a0898ba1b714741
# shellcheck disable=SC2034
abc512_256=cd892310532602332b613f1ec11a6962fca61ea09ecffcd4bcf75858d802edec
# Its length of 24 bits, low byte first.
abc_length=18$(zeros 14)
# shellcheck disable=SC2034
receipt256=20000001$abc256$(zeros 64)$abc_length
printf abc >"$work/abc"
: >"$work/empty"
cp crates/receipt/data/sunset.ppm "$work"
cp "$work/abc" "$work/back\\slash"
cp "$work/abc" "$work/new
line"
cp "$work/abc" "$work/carriage"$'\r'"return"
printf 'the key of the kiosk' >"$work/key"
