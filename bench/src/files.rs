//! Recordings in a file: the count of words, then the words, each as four bytes.

use std::fs;
use std::path::Path;

pub fn write(file: &Path, recordings: &[Vec<u32>]) {
    let mut bytes = Vec::new();
    for words in recordings {
        bytes.extend((words.len() as u32).to_le_bytes());
        bytes.extend(words.iter().flat_map(|word| word.to_le_bytes()));
    }
    fs::write(file, bytes).expect("the file can be written");
}

pub fn read(file: &Path) -> Vec<Vec<u32>> {
    let bytes = fs::read(file).expect("the file can be read");
    let mut numbers = bytes
        .chunks_exact(4)
        .map(|four| u32::from_le_bytes([four[0], four[1], four[2], four[3]]));
    let mut recordings = Vec::new();
    while let Some(count) = numbers.next() {
        recordings.push(numbers.by_ref().take(count as usize).collect());
    }
    recordings
}
