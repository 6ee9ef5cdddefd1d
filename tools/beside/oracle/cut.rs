//! Cuts the Rust's own items, unchanged, out of the source folder. Read by each build.rs that needs them.

use std::path::{Path, PathBuf};
use std::{env, fs};

/// The folder with text/layout.rs, tree/text.rs and tree/geom.rs.
const SOURCES: &str = "BESIDE_SOURCES";
/// From the top folder of the repository.
const DEFAULT_SOURCES: &str = "../usvg/src";

/// Each item by how its first line begins, visibility left off.
const LAYOUT: &[&str] = &[
    "struct PositionedGlyph ",
    "struct GlyphCluster ",
    "fn collect_decoration_spans(",
    "struct DecorationSpan ",
    "fn resolve_relative_shifts(",
    "fn resolve_clusters_positions_horizontal(",
    "fn resolve_baseline(",
    "fn resolve_baseline_shift(",
    "fn process_anchor(",
    "fn apply_length_adjust(",
    "fn apply_writing_mode(",
    "fn apply_letter_spacing(",
    "fn apply_word_spacing(",
    "fn form_glyph_clusters(",
    "struct GlyphClusters<",
    "impl<'a> GlyphClusters<",
    "impl Iterator for GlyphClusters<",
    "fn script_supports_letter_spacing(",
    "struct Glyph ",
    "struct ResolvedFont ",
    "impl ResolvedFont ",
    "fn chunk_span_at(",
    "fn span_contains(",
    "fn is_word_separator_characters(",
    "type FontsCache ",
    "struct ByteIndex(",
    "impl ByteIndex ",
];

/// Apart from the others, since its lists are of another type (src/rust/merge.rs).
const MERGE: &[&str] = &["fn process_chunk("];

/// What holds them together, and the transforms of a glyph and of a cluster. Only `composed` reads it.
const CALL: &[&str] = &[
    "impl PositionedGlyph ",
    "impl GlyphCluster ",
    "fn layout_text(",
    "fn resolve_clusters_positions(",
];

const TREE: &[&str] = &[
    "enum DominantBaseline ",
    "enum AlignmentBaseline ",
    "enum BaselineShift ",
    "enum LengthAdjust ",
    "enum FontOpticalSizing ",
    "struct TextDecorationStyle ",
    "struct TextDecoration ",
    "struct TextSpan ",
    "enum TextAnchor ",
    "enum TextFlow ",
    "struct TextChunk ",
    "enum WritingMode ",
];

const GEOM: &[&str] = &["trait IsValidLength ", "impl IsValidLength for f32 "];

/// Only `composed` reads it.
const ULPS: &[&str] = &["trait ApproxZeroUlps", "impl ApproxZeroUlps for f32 "];

/// A file of cut text: the name that src/rust includes it by.
pub struct Cut {
    pub name: &'static str,
    pub text: String,
}

/// All that is cut, from the folder that the environment names, or from the one beside the repository.
pub fn cuts() -> Vec<Cut> {
    println!("cargo:rerun-if-env-changed={SOURCES}");
    let sources = match env::var_os(SOURCES) {
        Some(folder) => PathBuf::from(folder),
        None => repository().join(DEFAULT_SOURCES),
    };
    vec![
        cut(&sources.join("text/layout.rs"), LAYOUT, "layout.rs"),
        cut(&sources.join("text/layout.rs"), MERGE, "merge.rs"),
        cut(&sources.join("text/layout.rs"), CALL, "call.rs"),
        cut(&sources.join("tree/text.rs"), TREE, "tree.rs"),
        cut(&sources.join("tree/geom.rs"), GEOM, "geom.rs"),
        cut(&sources.join("tree/geom.rs"), ULPS, "ulps.rs"),
    ]
}

pub fn out_dir() -> PathBuf {
    PathBuf::from(env::var_os("OUT_DIR").unwrap())
}

/// The repository's top folder, above tools/ of the package that is built.
fn repository() -> PathBuf {
    let package = PathBuf::from(env::var_os("CARGO_MANIFEST_DIR").unwrap());
    let tools = package.ancestors().find(|f| f.ends_with("tools"));
    tools
        .expect("a package in tools/")
        .parent()
        .unwrap()
        .to_path_buf()
}

fn cut(source: &Path, items: &[&str], name: &'static str) -> Cut {
    println!("cargo:rerun-if-changed={}", source.display());
    let text = fs::read_to_string(source)
        .unwrap_or_else(|e| panic!("{}: {e}; set {SOURCES}", source.display()));
    let cuts: Vec<&str> = items.iter().map(|item| item_text(&text, item)).collect();
    Cut {
        name,
        text: cuts.join("\n\n"),
    }
}

/// The whole item, with the attributes and comments that stand directly above it.
fn item_text<'a>(text: &'a str, begins: &str) -> &'a str {
    let mut start = None;
    let mut at = 0;
    for line in text.split_inclusive('\n') {
        let bare = line
            .trim_start_matches("pub(crate) ")
            .trim_start_matches("pub ");
        if bare.starts_with(begins) {
            let start = start.unwrap_or(at);
            return &text[start..at + item_length(&text[at..])];
        }
        let above = line.starts_with("//") || line.starts_with("#[");
        start = if above { start.or(Some(at)) } else { None };
        at += line.len();
    }
    panic!("no item that begins with '{begins}'");
}

/// Up to the brace that closes the item's first, or the semicolon of an item that has none.
fn item_length(text: &str) -> usize {
    let bytes = text.as_bytes();
    let mut depth = 0;
    let mut i = 0;
    while i < bytes.len() {
        match bytes[i] {
            b'/' if bytes[i + 1] == b'/' => i += text[i..].find('\n').unwrap(),
            b'"' => i = string_end(bytes, i),
            b'{' => depth += 1,
            b'}' if depth == 1 => return i + 1,
            b'}' => depth -= 1,
            b';' if depth == 0 => return i + 1,
            _ => {}
        }
        i += 1;
    }
    panic!("an item does not end");
}

fn string_end(bytes: &[u8], quote: usize) -> usize {
    let mut i = quote + 1;
    while bytes[i] != b'"' {
        i += if bytes[i] == b'\\' { 2 } else { 1 };
    }
    i
}
