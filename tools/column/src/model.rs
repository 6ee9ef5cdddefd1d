//! A window by the rules: it keeps all accepted extents, and each width looks at the last of them again.

use crate::library::Width;
use crate::rules::{Lent, Rules};

pub struct Window {
    rules: Rules,
    span: usize,
    extents: Vec<f32>,
    labels: usize,
    width: f32,
}

impl Window {
    /// The window, or the number of the refusal.
    pub fn open(rules: Rules, span: u32, words: usize) -> Result<Window, u32> {
        let number = rules.refusal_of_open(span, words);
        if number != 0 {
            return Err(number);
        }
        Ok(Window {
            rules,
            span: span as usize,
            extents: vec![],
            labels: 0,
            width: 0.0,
        })
    }

    pub fn add(&mut self, extent: f32, words: usize) -> Width {
        let lent = Lent {
            words,
            labels: if words < 2 { 0 } else { self.labels },
            holds_window: true,
        };
        let number = self.rules.refusal_of_label(extent, &lent);
        if number != 0 {
            return self.refuse(number, extent);
        }
        self.extents.push(extent);
        self.labels += 1;
        self.width = (self.rules.widest)(self.last());
        Width {
            number: 0,
            width: self.width,
        }
    }

    pub fn labels(&self) -> usize {
        self.labels
    }

    pub fn is_full(&self) -> bool {
        self.labels >= self.rules.most_labels
    }

    fn last(&self) -> &[f32] {
        let looked_at = (self.rules.looked_at)(self.span);
        &self.extents[self.extents.len().saturating_sub(looked_at)..]
    }

    fn refuse(&mut self, number: u32, extent: f32) -> Width {
        if number == 4 && self.rules.refused_counts {
            self.labels += 1;
        }
        if number == 4 && self.rules.refused_stays {
            self.extents.push(extent);
        }
        let width = if self.rules.width_stays {
            self.width
        } else {
            0.0
        };
        Width { number, width }
    }
}
