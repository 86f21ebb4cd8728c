//! Functions and records as a text of Rattle, Rust or C declares them.

/// The name of a function or a record, and its parts, each as `name: type`: the
/// fields; or the parameters and, as `result: type`, the result.
pub type Declared = (String, Vec<String>);

/// How what is left out begins and ends; a directive only in C.
const COMMENTS: [(&str, &str); 2] = [("//", "\n"), ("/*", "*/")];
const DIRECTIVE: (&str, &str) = ("#", "\n");

/// The functions that Rattle exports.
pub fn exported(text: &str) -> Vec<Declared> {
    marked(
        "#[unsafe(no_mangle)]",
        "pub extern \"C\" fn ",
        &without(&COMMENTS, text),
    )
}

/// The records of Rattle or Rust with the layout of C.
pub fn laid_out(text: &str) -> Vec<Declared> {
    let text: String = text
        .split_inclusive('\n')
        .filter(|line| !line.starts_with("#[derive("))
        .collect();
    marked("#[repr(C)]", "pub struct ", &without(&COMMENTS, &text))
}

/// The functions of other languages that Rust calls.
pub fn imported(text: &str) -> Vec<Declared> {
    let code = without(&COMMENTS, text);
    let blocks = code.split("extern \"C\" {").skip(1);
    let blocks = blocks.filter_map(|block| block.split('}').next());
    blocks.flat_map(|block| marked("fn ", "", block)).collect()
}

/// The functions or records of Rattle or Rust, one after each mark. One that does
/// not begin so has all its beginning for a name, and so is noticed.
fn marked(mark: &str, begin: &str, code: &str) -> Vec<Declared> {
    let declared = |code| {
        let (head, inside, rest) = enclosed(code).expect(mark);
        let mut parts: Vec<_> = split(inside)
            .map(|part| part.trim_start_matches("pub ").to_string())
            .collect();
        if let Some(rest) = rest.strip_prefix(" -> ") {
            let result = rest.split([' ', ';']).next().unwrap_or(rest);
            parts.push(format!("result: {result}"));
        }
        (head.strip_prefix(begin).unwrap_or(head).into(), parts)
    };
    code.split(mark).skip(1).map(declared).collect()
}

/// The functions and records of a header. A record's parts end with semicolons.
pub fn prototypes(text: &str) -> Vec<Declared> {
    let text = text.replace("\\\n", " ").replace("extern \"C\" {", "");
    let code = without(&[COMMENTS[0], COMMENTS[1], DIRECTIVE], &text);
    let code = code.replace('*', " * ").replace("  ", " ");
    let turned = |part| {
        let (kind, name) = name_last(part);
        format!("{name}: {kind}")
    };
    let mut rest = code.as_str();
    let mut found = Vec::new();
    while let Some((head, inside, after)) = enclosed(rest) {
        let mut name = head.trim_matches([' ', ';', '}']);
        let mut parts: Vec<_> = split(inside).map(turned).collect();
        if !inside.contains(';') {
            let (result, last) = name_last(name);
            parts.push(format!("result: {result}"));
            name = last;
        }
        found.push((name.into(), parts));
        rest = after;
    }
    found
}

/// What stands before the first brackets, in them and after them.
fn enclosed(code: &str) -> Option<(&str, &str, &str)> {
    let (head, rest) = code.split_once(['(', '{'])?;
    let (inside, rest) = rest.split_once([')', '}'])?;
    Some((head.trim(), inside, rest))
}

fn split(inside: &str) -> impl Iterator<Item = &str> {
    let parts = inside.split([',', ';']).map(str::trim);
    parts.filter(|part| !part.is_empty())
}

fn name_last(code: &str) -> (&str, &str) {
    code.rsplit_once(' ').unwrap_or(("", code))
}

/// The text without what begins and ends so, and with single spaces.
fn without(skipped: &[(&str, &str)], text: &str) -> String {
    let (mut code, mut rest) = (String::new(), text);
    let first = |rest: &str| {
        let places = skipped.iter().map(|skip| Some((rest.find(skip.0)?, *skip)));
        places.flatten().min()
    };
    while let Some((place, (begin, end))) = first(rest) {
        code += &rest[..place];
        code.push(' ');
        let after = rest[place + begin.len()..].split_once(end);
        rest = after.map_or("", |(_, after)| after);
    }
    code += rest;
    let words: Vec<_> = code.split_whitespace().collect();
    words.join(" ")
}
