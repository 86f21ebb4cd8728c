//! The answers that stand beside the recordings of examples/ and of
//! bench/recordings/, held against this program.

use std::fs;
use std::path::{Path, PathBuf};

use second::print::{print, print_card, print_spans};

#[test]
fn every_example_has_its_answer() {
    every_file_has_its_answer("../examples", "txt", print);
}

#[test]
fn every_card_has_its_answer() {
    every_file_has_its_answer("../examples", "days", print_card);
}

#[test]
fn every_hard_recording_has_its_answer() {
    every_file_has_its_answer("../bench/recordings", "txt", print);
}

/// Not every example has a page of spans.
#[test]
fn every_page_of_spans_is_printed() {
    for page in files("../examples", "spans") {
        compare(&page.with_extension("txt"), &page, print_spans);
    }
}

fn every_file_has_its_answer(folder: &str, kind: &str, print: fn(&[u8]) -> String) {
    for file in files(folder, kind) {
        compare(&file, &file.with_extension("out"), print);
    }
}

fn compare(file: &Path, page: &Path, print: fn(&[u8]) -> String) {
    let answer = fs::read_to_string(page).unwrap();
    let printed = print(&fs::read(file).unwrap());
    assert_eq!(printed, answer, "{}", page.display());
}

/// The files of this kind, of which there are some.
fn files(folder: &str, kind: &str) -> Vec<PathBuf> {
    let folder = Path::new(env!("CARGO_MANIFEST_DIR")).join(folder);
    let files: Vec<PathBuf> = fs::read_dir(folder)
        .unwrap()
        .map(|entry| entry.unwrap().path())
        .filter(|file| file.extension().is_some_and(|extension| extension == kind))
        .collect();
    assert!(!files.is_empty());
    files
}
