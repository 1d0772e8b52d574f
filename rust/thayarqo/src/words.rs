//! Little-endian words of a page.

pub fn get(bytes: &[u8], place: usize) -> u32 {
    let word = bytes[place..place + 4].try_into();
    u32::from_le_bytes(word.expect("four bytes"))
}

pub fn set(bytes: &mut [u8], place: usize, word: u32) {
    bytes[place..place + 4].copy_from_slice(&word.to_le_bytes());
}
