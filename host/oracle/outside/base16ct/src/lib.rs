//! Stand-in for the crate of this name. The Rust's text calls it for checksums of sequences, which
//! the normalizer never asks for.

pub mod lower {
    /// Lower-case hexadecimal digits of `source`, laid into `digits`; none where they do not fit.
    pub fn encode_str<'a>(source: &[u8], digits: &'a mut [u8]) -> Option<&'a str> {
        let used = digits.get_mut(..source.len() * 2)?;
        for (pair, byte) in used.chunks_exact_mut(2).zip(source) {
            pair[0] = char::from_digit(u32::from(byte >> 4), 16)? as u8;
            pair[1] = char::from_digit(u32::from(byte & 15), 16)? as u8;
        }
        std::str::from_utf8(used).ok()
    }
}
