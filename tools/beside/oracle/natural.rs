//! A text length as SVG has it, with letter and word spacing in the natural length. The Rust has no such case: document 02 asks for it.

use super::GlyphCluster;
use crate::job::{Chunk, Span};

/// Called right after `apply_length_adjust`, which is given no text length for these spans.
pub fn natural_length(chunk: &Chunk, clusters: &mut [GlyphCluster]) {
    for span in chunk.spans.iter().filter(|s| s.has_natural_length()) {
        let target = f32::from_bits(span.text_length);
        let indexes = cluster_indexes(span, clusters);
        let mut sum = 0.0;
        for &i in &indexes {
            sum += clusters[i].advance;
        }
        let amount = match indexes.len() {
            0 | 1 => 0.0,
            n => (target - sum) / (n - 1) as f32,
        };
        for i in indexes {
            clusters[i].advance += amount;
            clusters[i].text_length_spacing = amount;
        }
    }
}

/// The clusters that take part, in the list's order: of each byte index of the span the first.
fn cluster_indexes(span: &Span, clusters: &[GlyphCluster]) -> Vec<usize> {
    let byte = |i: usize| clusters[i].byte_idx.value();
    let of_span = |&i: &usize| (span.start..span.end).contains(&(byte(i) as u16));
    let first = |&i: &usize| (0..i).all(|earlier| byte(earlier) != byte(i));
    (0..clusters.len()).filter(of_span).filter(first).collect()
}
