//! What the loop over a span's bytes calls: the byte indexes that it has to find, and a count of the bytes that it looks at.

use std::cell::Cell;
use std::collections::BTreeSet;
use std::ops::Range;

thread_local! {
    static LOOKED: Cell<usize> = const { Cell::new(0) };
}

/// Those of the clusters that are the span's.
pub fn of_span(span: Range<usize>, clusters: impl Iterator<Item = usize>) -> BTreeSet<usize> {
    clusters.filter(|i| span.contains(i)).collect()
}

pub fn look() {
    LOOKED.set(LOOKED.get() + 1);
}

/// The count since it was last taken.
pub fn take() -> usize {
    LOOKED.take()
}
