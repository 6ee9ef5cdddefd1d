//! The rules of a window, with what a wrong reading may have otherwise.

pub const WINDOW_WORDS: usize = 68;

#[derive(Clone, Copy)]
pub struct Rules {
    pub most_span: u32,
    pub most_labels: usize,
    /// In which order the refusals of a label are looked for.
    pub order: [u32; 4],
    pub extent_ok: fn(f32) -> bool,
    /// How many labels a width looks at, by the span.
    pub looked_at: fn(usize) -> usize,
    pub widest: fn(&[f32]) -> f32,
    /// A refused extent is one of the 65,535.
    pub refused_counts: bool,
    /// A refused extent is one of the last `span`.
    pub refused_stays: bool,
    /// A refusal has the last width.
    pub width_stays: bool,
}

pub const RIGHT: Rules = Rules {
    most_span: 64,
    most_labels: 65_535,
    order: [4, 3, 10, 19],
    extent_ok,
    looked_at: |span| span,
    widest,
    refused_counts: false,
    refused_stays: false,
    width_stays: false,
};

/// Finite and not below zero; minus zero passes.
pub fn extent_ok(extent: f32) -> bool {
    extent.is_finite() && extent >= 0.0
}

fn widest(extents: &[f32]) -> f32 {
    let mut widest = 0.0;
    for &extent in extents {
        if extent > widest {
            widest = extent;
        }
    }
    widest
}

/// What a refusal looks at in the words that are lent for a label.
pub struct Lent {
    pub words: usize,
    /// Word 1, or 0 where it is not lent.
    pub labels: usize,
    pub holds_window: bool,
}

impl Lent {
    /// Any words, such as no call left.
    pub fn of(words: &[u32]) -> Lent {
        let word = |at| words.get(at).copied().unwrap_or(0);
        Lent {
            words: words.len(),
            labels: word(1) as usize,
            holds_window: (1..=64).contains(&word(0)) && word(2) < word(0),
        }
    }
}

impl Rules {
    /// The number with which an opening is refused, or 0.
    pub fn refusal_of_open(&self, span: u32, words: usize) -> u32 {
        if span == 0 || span > self.most_span {
            return 19;
        }
        if words < WINDOW_WORDS {
            return 10;
        }
        0
    }

    /// The number with which a label is refused, or 0.
    pub fn refusal_of_label(&self, extent: f32, lent: &Lent) -> u32 {
        let refused = |number: &u32| match number {
            4 => !(self.extent_ok)(extent),
            3 => lent.labels >= self.most_labels,
            10 => lent.words < WINDOW_WORDS,
            _ => !lent.holds_window,
        };
        self.order.into_iter().find(refused).unwrap_or(0)
    }
}
