//! Wrong readings: parsed from list.txt, and written into the text beside what they change.

use std::ops::Range;

use crate::copy::Source;

/// One expression of one file, and what it is read as. The switch's number is the place in the list.
pub struct Reading {
    name: String,
    file: String,
    /// Text before the expression, where that alone does not tell it.
    after: String,
    old: String,
    new: New,
}

enum New {
    /// In place of the old expression.
    Instead(String),
    /// The whole text, with WRONG where the switch is asked.
    Whole(String),
}

pub fn parse(list: &str) -> Vec<Reading> {
    let blocks = list.split("\n\n").filter(|block| block.contains("old:"));
    blocks.map(reading).collect()
}

fn reading(block: &str) -> Reading {
    let field = |name: &str| {
        let mut lines = block.lines();
        let found = lines.find_map(|line| line.strip_prefix(name));
        found.map(|value| value.strip_prefix(' ').unwrap_or(value).to_string())
    };
    let needed = |name: &str| field(name).unwrap_or_else(|| panic!("no '{name}' in:\n{block}"));
    Reading {
        name: needed("#"),
        file: needed("in:"),
        after: field("after:").unwrap_or_default(),
        old: needed("old:"),
        new: match field("with:") {
            Some(whole) => New::Whole(whole),
            None => New::Instead(needed("new:")),
        },
    }
}

/// The text of `file` with its readings. Those of one expression share its place.
pub fn applied(text: &str, file: &str, readings: &[Reading]) -> String {
    let of_file = readings.iter().enumerate().filter(|(_, r)| r.file == file);
    let mut edits: Vec<(Range<usize>, String)> = vec![];
    for (number, reading) in of_file {
        let place = place(text, reading);
        let old = match edits.iter().position(|(other, _)| *other == place) {
            Some(i) => edits.remove(i).1,
            None => text[place.clone()].to_string(),
        };
        edits.push((place, switched(reading, number, &old)));
    }
    edits.sort_by_key(|(place, _)| place.start);
    let mut out = String::new();
    let mut at = 0;
    for (place, new) in edits {
        assert!(at <= place.start, "two readings overlap before: {new}");
        out += &text[at..place.start];
        out += &new;
        at = place.end;
    }
    out + &text[at..]
}

fn switched(reading: &Reading, number: usize, old: &str) -> String {
    let asked = format!("crate::reading::is({number})");
    match &reading.new {
        New::Instead(new) => format!("(if {asked} {{ {new} }} else {{ {old} }})"),
        New::Whole(whole) => whole.replace("WRONG", &asked),
    }
}

/// Where the expression stands: once, or the build stops. Any blanks of the list match any of the text.
fn place(text: &str, reading: &Reading) -> Range<usize> {
    let before: Vec<&str> = reading.after.split_whitespace().collect();
    let old: Vec<&str> = reading.old.split_whitespace().collect();
    let words: Vec<&str> = before.iter().chain(&old).copied().collect();
    let starts = text.match_indices(words[0]).map(|(at, _)| at);
    let found: Vec<usize> = starts
        .filter(|&at| matched(text, at, &words).is_some())
        .collect();
    let [start] = found[..] else {
        panic!("'{}' stands {} times, not once", reading.old, found.len());
    };
    let end = matched(text, start, &words).unwrap();
    match matched(text, start, &before) {
        Some(at) if !before.is_empty() => at + blanks(&text[at..])..end,
        _ => start..end,
    }
}

/// The end of the words that stand from `at` on, blanks between them.
fn matched(text: &str, mut at: usize, words: &[&str]) -> Option<usize> {
    for (i, word) in words.iter().enumerate() {
        if i > 0 {
            at += blanks(&text[at..]);
        }
        at += text[at..].starts_with(word).then_some(word.len())?;
    }
    Some(at)
}

fn blanks(text: &str) -> usize {
    text.len() - text.trim_start().len()
}

pub fn all_applied(readings: &[Reading], sources: &[Source]) {
    for reading in readings {
        let known = sources.iter().any(|source| source.name == reading.file);
        assert!(known, "no file {}", reading.file);
    }
}

pub fn names(readings: &[Reading]) -> String {
    let names: Vec<&str> = readings.iter().map(|r| r.name.as_str()).collect();
    format!("pub const NAMES: &[&str] = &{names:#?};\n")
}
