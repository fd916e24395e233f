//! Numbers in decimal: the digits of a number. The library's crate `decimal`.

/// The digits of a number: the bytes from `from` on.
pub struct Digits {
    pub bytes: [u8; 20],
    pub from: usize,
}

/// The digits of a number, found from the last one on; a word has at most twenty.
pub fn digits_of(n: u64) -> Digits {
    let mut bytes = [b'0'; 20];
    let mut from = 19;
    let mut rest = n;
    while rest > 9 {
        bytes[from] = b'0' + (rest % 10) as u8;
        from -= 1;
        rest /= 10;
    }
    bytes[from] = b'0' + rest as u8;
    Digits { bytes, from }
}
