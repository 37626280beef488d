#!/usr/bin/env bash
# README shows what one sees.
# shellcheck source=tests/programs/common.sh
. "$(dirname "$0")/../common.sh"

shown() { # COMMAND...
    local line
    "$@" | while IFS= read -r line; do
        grep -qxF -- "    $line" README.md || fail "README does not show this line of $*: $line"
    done
    passed 1
}
data=crates/receipt/data
picture=$data/sunset.ppm
shown ./kiosk receipt "$picture"
shown ./kiosk receipt --digest --length --tally "$picture" $data/abc "$picture" $data/empty
printf 'the key of the shop' >"$work/shop_key"
shown ./kiosk receipt --key "$work/shop_key" "$picture" $data/abc
shown bash -c "cat $picture $data/abc | ./kiosk receipt - | cut -c 1-72,153-"
./kiosk receipt "$picture" $data/abc >"$work/list"
shown ./kiosk receipt --check "$work/list"
shown cut -c 1-80 crates/replay/scripts/order.out
shown bash -c "./kiosk order $picture $data/abc $picture | cut -c 1-72,153-"

finish
