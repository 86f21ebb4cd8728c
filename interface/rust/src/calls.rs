//! The functions of the static library, each behind a function on slices.
//!
//! A slice is passed as its pointer and its count of elements. A Rust slice is
//! what the library asks for: its pointer is aligned and not null, also where
//! it is empty, and nothing else refers to a `&mut` one. No contract there has
//! a `requires`, so every call is fine.

use crate::{Span, Weeks};

mod library {
    use crate::{Span, Weeks};

    extern "C" {
        pub fn desk_weigh(words: *const u32, words_count: usize) -> u64;

        pub fn desk_list(
            words: *const u32,
            words_count: usize,
            list: *mut Span,
            list_count: usize,
        ) -> u64;

        pub fn desk_fixed_test(words: *const u32, words_count: usize, m: u32) -> u64;

        pub fn desk_article_test(words: *const u32, words_count: usize, m: u32) -> u64;

        pub fn desk_reading_test(
            words: *const u32,
            words_count: usize,
            reading: *const u8,
            reading_count: usize,
        ) -> u64;

        pub fn desk_entry(reading: *const u8, reading_count: usize, number: usize) -> u64;

        pub fn desk_entry_refusal(reading: *const u8, reading_count: usize, number: usize) -> u64;

        pub fn desk_read_text(
            text: *const u8,
            text_count: usize,
            words: *mut u32,
            words_count: usize,
        ) -> u64;

        pub fn desk_write_text(
            words: *const u32,
            words_count: usize,
            text: *mut u8,
            text_count: usize,
        ) -> u64;

        pub fn desk_read_card(
            bytes: *const u8,
            bytes_count: usize,
            words: *mut u32,
            words_count: usize,
        ) -> u64;

        pub fn desk_write_card(
            words: *const u32,
            words_count: usize,
            bytes: *mut u8,
            bytes_count: usize,
        ) -> u64;

        pub fn desk_verdict(words: *const u32, words_count: usize) -> u64;

        pub fn desk_first_reading(
            words: *const u32,
            words_count: usize,
            reading: *mut u8,
            reading_count: usize,
        ) -> u64;

        pub fn desk_widen_reading(
            old: *const u8,
            old_count: usize,
            wide: *mut u8,
            wide_count: usize,
        ) -> u64;

        pub fn desk_narrow_reading(
            wide: *const u8,
            wide_count: usize,
            old: *mut u8,
            old_count: usize,
        ) -> u64;

        pub fn desk_breach_spans(
            words: *const u32,
            words_count: usize,
            list: *mut Weeks,
            list_count: usize,
        ) -> u64;
    }
}

pub fn weigh(words: &[u32]) -> u64 {
    unsafe { library::desk_weigh(words.as_ptr(), words.len()) }
}

pub fn list_long_rests(words: &[u32], list: &mut [Span]) -> u64 {
    unsafe { library::desk_list(words.as_ptr(), words.len(), list.as_mut_ptr(), list.len()) }
}

pub fn fixed_test(words: &[u32], m: u32) -> u64 {
    unsafe { library::desk_fixed_test(words.as_ptr(), words.len(), m) }
}

pub fn article_test(words: &[u32], m: u32) -> u64 {
    unsafe { library::desk_article_test(words.as_ptr(), words.len(), m) }
}

pub fn reading_test(words: &[u32], reading: &[u8]) -> u64 {
    unsafe {
        library::desk_reading_test(words.as_ptr(), words.len(), reading.as_ptr(), reading.len())
    }
}

pub fn entry(reading: &[u8], number: usize) -> u64 {
    unsafe { library::desk_entry(reading.as_ptr(), reading.len(), number) }
}

pub fn entry_refusal(reading: &[u8], number: usize) -> u64 {
    unsafe { library::desk_entry_refusal(reading.as_ptr(), reading.len(), number) }
}

pub fn read_text(text: &[u8], words: &mut [u32]) -> u64 {
    unsafe { library::desk_read_text(text.as_ptr(), text.len(), words.as_mut_ptr(), words.len()) }
}

pub fn write_text(words: &[u32], text: &mut [u8]) -> u64 {
    unsafe { library::desk_write_text(words.as_ptr(), words.len(), text.as_mut_ptr(), text.len()) }
}

pub fn read_card(bytes: &[u8], words: &mut [u32]) -> u64 {
    unsafe { library::desk_read_card(bytes.as_ptr(), bytes.len(), words.as_mut_ptr(), words.len()) }
}

pub fn write_card(words: &[u32], bytes: &mut [u8]) -> u64 {
    unsafe {
        library::desk_write_card(words.as_ptr(), words.len(), bytes.as_mut_ptr(), bytes.len())
    }
}

pub fn verdict(words: &[u32]) -> u64 {
    unsafe { library::desk_verdict(words.as_ptr(), words.len()) }
}

pub fn first_reading(words: &[u32], reading: &mut [u8]) -> u64 {
    unsafe {
        library::desk_first_reading(
            words.as_ptr(),
            words.len(),
            reading.as_mut_ptr(),
            reading.len(),
        )
    }
}

pub fn widen_reading(old: &[u8], wide: &mut [u8]) -> u64 {
    unsafe { library::desk_widen_reading(old.as_ptr(), old.len(), wide.as_mut_ptr(), wide.len()) }
}

pub fn narrow_reading(wide: &[u8], old: &mut [u8]) -> u64 {
    unsafe { library::desk_narrow_reading(wide.as_ptr(), wide.len(), old.as_mut_ptr(), old.len()) }
}

pub fn breach_spans(words: &[u32], list: &mut [Weeks]) -> u64 {
    unsafe {
        library::desk_breach_spans(words.as_ptr(), words.len(), list.as_mut_ptr(), list.len())
    }
}
