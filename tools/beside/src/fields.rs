//! The fields of an answer, walked in order.

use std::ops::Range;

use oracle::answer;
use oracle::rows::{Kind, Sink};

/// A field: where it stands, in which row, and its name there.
pub struct Field<'a> {
    pub place: Range<usize>,
    pub row: &'a str,
    pub kind: Kind,
    pub name: &'static str,
}

/// The first byte in which an answer parts from the right one, which is as long, with the row and the name of its field.
pub fn first_difference(right: &[u8], got: &[u8]) -> Option<(usize, String)> {
    if right == got {
        return None;
    }
    let mut found = None;
    walk(right, &mut |field| {
        let mut place = field.place;
        let differs = place.find(|&at| right[at] != got[at]);
        if let (None, Some(at)) = (&found, differs) {
            found = Some((at, format!("{} {}", field.row, field.name)));
        }
    });
    found
}

/// Visits each field of an answer that the oracle gave.
pub fn walk(answer: &[u8], visit: &mut dyn FnMut(Field)) {
    let mut walk = Walk {
        next: 0,
        rows: vec![],
        visit,
    };
    answer::walk(answer, &mut walk);
}

struct Walk<'a> {
    next: usize,
    /// The row that the next field is in, and those that it stands in.
    rows: Vec<String>,
    visit: &'a mut dyn FnMut(Field),
}

impl Sink for Walk<'_> {
    fn field(&mut self, name: &'static str, kind: Kind, bytes: &[u8]) {
        let place = self.next..self.next + bytes.len();
        self.next = place.end;
        (self.visit)(Field {
            place,
            row: self.rows.last().map_or("answer", String::as_str),
            kind,
            name,
        });
    }

    fn enter(&mut self, row: &'static str, number: usize) {
        let row = match self.rows.last() {
            Some(outer) => format!("{outer} {row} {number}"),
            None => format!("{row} {number}"),
        };
        self.rows.push(row);
    }

    fn leave(&mut self) {
        self.rows.pop();
    }
}

#[cfg(test)]
mod tests {
    use super::*;
    use crate::cases;
    use crate::encode::encode;
    use oracle::label::label;

    fn label_answer() -> Vec<u8> {
        cases::of_job(encode(&label())).outcome.unwrap()
    }

    /// Every byte is in one field, in order, and one changed there is told by that field.
    #[test]
    fn each_byte_has_its_field() {
        let right = label_answer();
        let mut named = vec![];
        walk(&right, &mut |field| {
            assert_eq!(field.place.start, named.len());
            let name = format!("{} {}", field.row, field.name);
            named.extend(field.place.map(|_| name.clone()));
        });
        assert_eq!(named.len(), right.len());
        assert_eq!(first_difference(&right, &right), None);
        for (at, name) in named.into_iter().enumerate() {
            let mut wrong = right.clone();
            wrong[at] ^= 1;
            assert_eq!(first_difference(&right, &wrong), Some((at, name)));
        }
    }

    /// The places that document 01 gives some fields of the label's answer.
    #[test]
    fn places_of_the_label() {
        let right = label_answer();
        let name_at = |at: usize| {
            let mut wrong = right.clone();
            wrong[at] ^= 1;
            first_difference(&right, &wrong).unwrap().1
        };
        let cluster = 6 + 11 + 45 + 13;
        let span = 6 + 11 + 3 * (45 + 13);
        assert_eq!(name_at(4), "answer version");
        assert_eq!(name_at(5), "answer chunk count");
        assert_eq!(name_at(6 + 3), "chunk 0 pen x");
        assert_eq!(name_at(cluster + 2), "chunk 0 cluster 1 flags");
        assert_eq!(name_at(cluster + 31), "chunk 0 cluster 1 shift x");
        assert_eq!(
            name_at(cluster + 45 + 5),
            "chunk 0 cluster 1 glyph 0 glyph x"
        );
        assert_eq!(name_at(span + 29), "chunk 0 span row 0 run count");
        assert_eq!(name_at(span + 31 + 2), "chunk 0 span row 0 run 0 run width");
        assert_eq!(right.len(), span + 31 + 6);
    }
}
