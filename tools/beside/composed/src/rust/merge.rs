//! `process_chunk`, with the `Vec` of the standard library: an accepted job meets neither 7 nor 8.

use std::collections::HashSet;
use std::sync::Arc;

use super::shape::{fontdb, shape_text, FontResolver};
use super::{
    chunk_span_at, form_glyph_clusters, lookup, notes, span_contains, FontsCache, GlyphCluster,
    GlyphClusters, TextChunk,
};

include!(concat!(env!("OUT_DIR"), "/merge.rs"));

/// The next chunk's clusters. Shaper, lookups and notes are told of the chunk.
pub fn clusters_of(
    chunk: &TextChunk,
    fonts: &FontsCache,
    resolver: &FontResolver,
    fontdb: &mut Arc<fontdb::Database>,
) -> Vec<GlyphCluster> {
    resolver.begin_chunk();
    let clusters = process_chunk(chunk, fonts, resolver, fontdb);
    lookup::expect(&clusters);
    notes::chunk();
    clusters
}
