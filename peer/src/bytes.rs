//! Words as the C border has them: four bytes, lowest first.

use std::array;

/// The whole words of the bytes; a ragged end is left out.
pub fn words_of(bytes: &[u8]) -> Vec<u32> {
    let (words, _) = bytes.as_chunks();
    words.iter().map(|&word| u32::from_le_bytes(word)).collect()
}

/// Sixteen words, from a register buffer of the right length.
pub fn registers_of(bytes: &[u8]) -> [u32; 16] {
    let (words, _) = bytes.as_chunks();
    array::from_fn(|index| u32::from_le_bytes(words[index]))
}

pub fn bytes_of(words: &[u32]) -> Vec<u8> {
    words.iter().flat_map(|word| word.to_le_bytes()).collect()
}

/// Writes the words over as many bytes.
pub fn write_words(words: &[u32], bytes: &mut [u8]) {
    let (places, _) = bytes.as_chunks_mut();
    for (place, word) in places.iter_mut().zip(words) {
        *place = word.to_le_bytes();
    }
}
