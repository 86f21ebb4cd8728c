//! The header and the wrapper declare what the Rattle source exports: the same
//! functions with the same parameters and results, and the same records.

mod declared;

use declared::{exported, imported, laid_out, prototypes, Declared};
use std::fs::{read_dir, read_to_string};

const SOURCE: &str = "crates/interface_c/src";
const RECORDS: [&str; 2] = ["crates/recording/src/lib.rt", "crates/rules/src/lib.rt"];
const HEADER: &str = "interface/desk.h";
const CALLS: &str = "interface/rust/src/calls.rs";
const WRAPPER: &str = "interface/rust/src/lib.rs";

/// A number or a record in Rattle, in Rust and in C. A type without a row is
/// taken to be the same in each.
const TYPES: [[&str; 3]; 6] = [
    ["u8", "u8", "uint8_t"],
    ["u32", "u32", "uint32_t"],
    ["u64", "u64", "uint64_t"],
    ["usize", "usize", "size_t"],
    ["Span", "Span", "struct desk_span"],
    ["Weeks", "Weeks", "struct desk_weeks"],
];

/// A slice of T in Rattle, and its pointer in Rust and in C. After the pointer
/// `words` comes the count of elements, a `usize` of the name `words_count`.
const SLICES: [[&str; 3]; 2] = [
    ["&[T]", "*const T", "const T *"],
    ["&mut [T]", "*mut T", "T *"],
];

const RUST: usize = 1;
const C: usize = 2;

/// The text of a file, or of the Rattle files in a folder.
fn text(path: &str) -> String {
    let path = format!("{}/../../{path}", env!("CARGO_MANIFEST_DIR"));
    let Ok(folder) = read_dir(&path) else {
        return read_to_string(&path).expect(&path);
    };
    folder
        .map(|file| file.expect(&path).path())
        .filter(|file| file.extension().is_some_and(|kind| kind == "rt"))
        .map(|file| read_to_string(file).expect(&path))
        .collect()
}

/// Every difference from the source, a line each.
fn differences(text: impl Fn(&str) -> String) -> String {
    let functions = exported(&text(SOURCE));
    let records = laid_out(&RECORDS.map(&text).concat());
    let both = [&functions[..], &records].concat();
    let said = [
        compared(HEADER, C, &both, &prototypes(&text(HEADER))),
        compared(CALLS, RUST, &functions, &imported(&text(CALLS))),
        compared(WRAPPER, RUST, &records, &laid_out(&text(WRAPPER))),
    ];
    said.concat().join("\n")
}

fn compared(path: &str, column: usize, source: &[Declared], found: &[Declared]) -> Vec<String> {
    let source: Vec<_> = source.iter().map(|one| told(one, column)).collect();
    let mut said = Vec::new();
    for (name, _) in &source {
        if found.iter().all(|one| one.0 != *name) {
            said.push(format!("{path}: {name} is missing"));
        }
    }
    for (name, parts) in found {
        let Some((_, right)) = source.iter().find(|one| one.0 == *name) else {
            said.push(format!("{path}: {name} is not in the source"));
            continue;
        };
        let mut differ = |is: &str, right: &str| {
            if is != right {
                said.push(format!(
                    "{path}: {name} has `{is}`, by the source `{right}`"
                ));
            }
        };
        if parts.len() == right.len() {
            let pairs = parts.iter().zip(right);
            pairs.for_each(|(part, right)| differ(part, right));
        } else {
            differ(&parts.join(", "), &right.join(", "));
        }
    }
    said
}

/// A declaration of the source as another language has it.
fn told((name, parts): &Declared, column: usize) -> Declared {
    let parts = parts.iter().flat_map(|part| passed(part, column));
    (single(name, column).into(), parts.collect())
}

fn passed(part: &str, column: usize) -> Vec<String> {
    let (name, rattle) = part.split_once(": ").expect(part);
    let pointer = |row: &[&str; 3]| {
        let (before, after) = row[0].split_once('T')?;
        let element = rattle.strip_prefix(before)?.strip_suffix(after)?;
        Some(row[column].replace('T', single(element, column)))
    };
    let Some(pointer) = SLICES.iter().find_map(pointer) else {
        return vec![format!("{name}: {}", single(rattle, column))];
    };
    let count = single("usize", column);
    vec![
        format!("{name}: {pointer}"),
        format!("{name}_count: {count}"),
    ]
}

fn single(rattle: &str, column: usize) -> &str {
    let row = TYPES.iter().find(|row| row[0] == rattle);
    row.map_or(rattle, |row| row[column])
}

#[test]
fn the_same() {
    let said = differences(text);
    assert!(said.is_empty(), "\n{said}");
}

/// What is said with an edit in one file, whose own path is left out.
struct Said(String);

fn edit(file: &str, old: &str, new: &str) -> Said {
    let seen = |path: &str| text(path).replace(old, if path == file { new } else { old });
    assert!(seen(file) != text(file), "{file} has no {old}");
    Said(differences(seen).replace(&format!("{file}: "), ""))
}

impl Said {
    #[track_caller]
    fn says(&self, lines: &str) {
        assert_eq!(self.0, lines);
    }
}

#[test]
fn names() {
    edit(HEADER, "t desk_weigh(", "t desk_weight(")
        .says("desk_weigh is missing\ndesk_weight is not in the source");
    edit(CALLS, "fn desk_list(", "fn desk_lists(")
        .says("desk_list is missing\ndesk_lists is not in the source");
    edit(
        HEADER,
        "uint8_t *text, size_t text_count, uint32_t *words",
        "uint8_t *text, size_t text_count, uint32_t *word",
    )
    .says("desk_read_text has `word: uint32_t *`, by the source `words: uint32_t *`");
    edit(
        HEADER,
        "size_t old_count, uint8_t *wide",
        "size_t count, uint8_t *wide",
    )
    .says("desk_widen_reading has `count: size_t`, by the source `old_count: size_t`");
}

#[test]
fn missing() {
    edit(HEADER, "uint64_t desk_verdict(", "// (").says("desk_verdict is missing");
    edit(CALLS, "pub fn desk_weigh(", "// (").says("desk_weigh is missing");
}

#[test]
fn counts() {
    edit(HEADER, "weigh(const uint32_t *words, ", "weigh(").says(
        "desk_weigh has `words_count: size_t, result: uint64_t`, \
         by the source `words: const uint32_t *, words_count: size_t, result: uint64_t`",
    );
    edit(CALLS, "desk_entry(reading: *const u8, ", "desk_entry(").says(
        "desk_entry has `reading_count: usize, number: usize, result: u64`, \
         by the source `reading: *const u8, reading_count: usize, number: usize, result: u64`",
    );
}

#[test]
fn types() {
    edit(HEADER, "uint32_t m)", "uint64_t m)").says(
        "desk_fixed_test has `m: uint64_t`, by the source `m: uint32_t`\n\
         desk_article_test has `m: uint64_t`, by the source `m: uint32_t`",
    );
    edit(HEADER, "weigh(const uint32_t", "weigh(uint32_t")
        .says("desk_weigh has `words: uint32_t *`, by the source `words: const uint32_t *`");
    edit(
        HEADER,
        "text_count, uint32_t *words",
        "text_count, const uint32_t *words",
    )
    .says("desk_read_text has `words: const uint32_t *`, by the source `words: uint32_t *`");
    edit(HEADER, "desk_span *list", "desk_span list")
        .says("desk_list has `list: struct desk_span`, by the source `list: struct desk_span *`");
    edit(CALLS, "weigh(words: *const u32", "weigh(words: *const u8")
        .says("desk_weigh has `words: *const u8`, by the source `words: *const u32`");
    edit(CALLS, "list: *mut Span", "list: *const Span")
        .says("desk_list has `list: *const Span`, by the source `list: *mut Span`");
    edit(HEADER, "struct desk_weeks *list", "struct desk_span *list").says(
        "desk_breach_spans has `list: struct desk_span *`, \
         by the source `list: struct desk_weeks *`",
    );
    edit(CALLS, "list: *mut Weeks", "list: *mut Span")
        .says("desk_breach_spans has `list: *mut Span`, by the source `list: *mut Weeks`");
    edit(CALLS, "reading: *mut u8", "reading: *const u8")
        .says("desk_first_reading has `reading: *const u8`, by the source `reading: *mut u8`");
    edit(
        HEADER,
        "wide_count, uint8_t *old",
        "wide_count, const uint8_t *old",
    )
    .says("desk_narrow_reading has `old: const uint8_t *`, by the source `old: uint8_t *`");
    edit(CALLS, "wide: *mut u8", "wide: *const u8")
        .says("desk_widen_reading has `wide: *const u8`, by the source `wide: *mut u8`");
}

#[test]
fn results() {
    edit(HEADER, "uint64_t desk_verdict", "uint32_t desk_verdict")
        .says("desk_verdict has `result: uint32_t`, by the source `result: uint64_t`");
    edit(CALLS, "m: u32) -> u64", "m: u32) -> u32").says(
        "desk_fixed_test has `result: u32`, by the source `result: u64`\n\
         desk_article_test has `result: u32`, by the source `result: u64`",
    );
}

#[test]
fn records() {
    let (old, new) = ("start;\n    uint32_t end", "end;\n    uint32_t start");
    edit(HEADER, old, new).says(
        "struct desk_span has `end: uint32_t`, by the source `start: uint32_t`\n\
         struct desk_span has `start: uint32_t`, by the source `end: uint32_t`",
    );
    let (old, new) = ("start: u32,\n    pub end", "end: u32,\n    pub start");
    edit(WRAPPER, old, new).says(
        "Span has `end: u32`, by the source `start: u32`\n\
         Span has `start: u32`, by the source `end: u32`",
    );
    let (old, new) = ("first;\n    uint32_t last", "last;\n    uint32_t first");
    edit(HEADER, old, new).says(
        "struct desk_weeks has `last: uint32_t`, by the source `first: uint32_t`\n\
         struct desk_weeks has `first: uint32_t`, by the source `last: uint32_t`",
    );
    for record in ["Span", "Weeks"] {
        let named = format!("pub struct {record}");
        edit(WRAPPER, &format!("#[repr(C)]\n{named}"), &named)
            .says(&format!("{record} is missing"));
    }
}

#[test]
fn source() {
    edit(SOURCE, "list: &mut [Span]", "list: &[Span]").says(
        "interface/desk.h: desk_list has `list: struct desk_span *`, \
         by the source `list: const struct desk_span *`\n\
         interface/rust/src/calls.rs: desk_list has `list: *mut Span`, \
         by the source `list: *const Span`",
    );
    let weigh = "#[unsafe(no_mangle)]\npub extern \"C\" fn desk_weigh(";
    let more = "#[unsafe(no_mangle)]\npub extern \"C\" fn desk_more(m: u32) -> u64 {\n}\n";
    edit(SOURCE, weigh, &format!("{more}{weigh}")).says(
        "interface/desk.h: desk_more is missing\n\
         interface/rust/src/calls.rs: desk_more is missing",
    );
    edit(SOURCE, "extern \"C\" fn desk_list(", "fn desk_list(").says(
        "interface/desk.h: pub fn desk_list is missing\n\
         interface/desk.h: desk_list is not in the source\n\
         interface/rust/src/calls.rs: pub fn desk_list is missing\n\
         interface/rust/src/calls.rs: desk_list is not in the source",
    );
    edit(RECORDS[0], "pub end: u32", "pub end: u64").says(
        "interface/desk.h: struct desk_span has `end: uint32_t`, by the source `end: uint64_t`\n\
         interface/rust/src/lib.rs: Span has `end: u32`, by the source `end: u64`",
    );
    edit(RECORDS[1], "pub last: u32", "pub last: u64").says(
        "interface/desk.h: struct desk_weeks has `last: uint32_t`, by the source `last: uint64_t`\n\
         interface/rust/src/lib.rs: Weeks has `last: u32`, by the source `last: u64`",
    );
}

#[test]
fn comments() {
    let more = "uint64_t desk_more(size_t m);\n";
    edit(HEADER, "/* Weighing", &format!("//{more}/*{more}")).says("");
    edit(HEADER, "#define DESK_H", &format!("#define M \\\n{more}")).says("");
    edit(CALLS, "pub fn desk_w", "/// fn more();\npub fn desk_w").says("");
}
