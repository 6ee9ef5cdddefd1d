//! `process_chunk`, with the `Vec` that refuses.

use std::collections::HashSet;
use std::panic::{catch_unwind, resume_unwind, AssertUnwindSafe};
use std::sync::Arc;

use super::bounded::Vec;
use super::shape::{fontdb, shape_text, FontResolver};
use super::{
    chunk_span_at, form_glyph_clusters, span_contains, FontsCache, GlyphCluster, GlyphClusters,
    TextChunk,
};
use crate::refusal::Refusal;

include!(concat!(env!("OUT_DIR"), "/merge.rs"));

pub fn clusters_of(
    chunk: &TextChunk,
    fonts: &FontsCache,
    resolver: &FontResolver,
) -> Result<std::vec::Vec<GlyphCluster>, Refusal> {
    let merge = || process_chunk(chunk, fonts, resolver, &mut Arc::new(fontdb::Database));
    match catch_unwind(AssertUnwindSafe(merge)) {
        Ok(clusters) => Ok(clusters.into_std()),
        Err(cause) => match cause.downcast::<Refusal>() {
            Ok(refusal) => Err(*refusal),
            Err(other) => resume_unwind(other),
        },
    }
}
