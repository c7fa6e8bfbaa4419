//! What the tests share.

/// The bytes that hexadecimal digits spell; spaces and line ends are for the reader.
pub fn hex(text: &str) -> Vec<u8> {
    let digits: Vec<u8> = text.bytes().filter(|c| !c.is_ascii_whitespace()).collect();
    let pair = |two: &[u8]| u8::from_str_radix(std::str::from_utf8(two).unwrap(), 16).unwrap();
    digits.chunks(2).map(pair).collect()
}

/// A refusal as document 01 writes it: position, number.
pub fn no<T>(position: usize, number: u8) -> Result<T, millettie::Refusal> {
    Err(millettie::Refusal::new(number, position))
}
