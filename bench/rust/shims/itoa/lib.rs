//! In place of the kit's crate itoa: the digits of a number.

/// Writes the digits so that they end at `end`, and returns where they begin.
#[inline]
pub fn write_digits(mut number: u64, bytes: &mut [u8; 20], end: usize) -> usize {
    let mut at = end;
    loop {
        at -= 1;
        bytes[at] = b'0' + (number % 10) as u8;
        number /= 10;
        if number == 0 {
            return at;
        }
    }
}
