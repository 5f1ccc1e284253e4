//! The shift example of 01.

use inputs::writer::from_hex;

/// The case of the shift example.
pub fn shift_example() -> Vec<u8> {
    from_hex(
        "01 0005 0014 01 0400
         02 0001 01
         02 0001 01
         03 0003 00 01 01
         04 000C 01 01 00 0002 0003 01 0006 0007
         04 000C 01 01 00 0005 0008 01 000B 000C
         05 0005 01 00 3C 03 28",
    )
}
