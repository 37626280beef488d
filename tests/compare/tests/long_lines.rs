//! A line of 262144 bytes is taken, and one byte more is too long, whatever the line says. It counts as a line and changes nothing.

use compare::compare_text;

#[test]
fn longest_lines() {
    compare_text(
        "\
open 32 256
append [00*131068]0 => 2: not a call
append [00*131068] => 0 1023
append [00*131069] => 4: too long
roll 3
rollset [00*131070] => 6: too long
rollset [00*131068] => 7: not a call
#[0*262143]
#[0*262144] => 9: too long
tagcheck 32 256 - [00*131061] - => 0 no
no call of so many bytes [0*262119] => 11: not a call
no call of so many bytes [0*262120] => 12: too long
showroll => 000000
record
",
    );
}
