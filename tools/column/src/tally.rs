//! What `beside` counts.

use std::collections::BTreeMap;

#[derive(Default)]
pub struct Tally {
    pub labels: u64,
    pub on_any_words: u64,
    pub windows: u64,
    pub whole_spans: u64,
    pub full: u64,
    pub opened: Numbers,
    pub added: Numbers,
    differences: u64,
    first: Option<String>,
}

/// How often each number came.
#[derive(Default)]
pub struct Numbers(BTreeMap<u32, u64>);

impl Numbers {
    pub fn note(&mut self, number: u32) {
        *self.0.entry(number).or_default() += 1;
    }

    fn of(&self, number: u32) -> u64 {
        self.0.get(&number).copied().unwrap_or(0)
    }

    fn shown(&self) -> String {
        let each = self.0.iter().map(|(number, n)| format!("{number}: {n}"));
        each.collect::<Vec<_>>().join(", ")
    }
}

impl Tally {
    pub fn differ(&mut self, what: impl FnOnce() -> String) {
        self.differences += 1;
        self.first.get_or_insert_with(what);
    }

    pub fn print(&self) {
        println!(
            "labels {}, of these on words that no call left {}",
            self.labels, self.on_any_words
        );
        println!("accepted {}", self.added.of(0));
        println!("numbers of labels  {}", self.added.shown());
        println!("numbers of openings  {}", self.opened.shown());
        println!(
            "windows {}, with a whole span {}, full {}",
            self.windows, self.whole_spans, self.full
        );
        println!("differences {}", self.differences);
        if let Some(first) = &self.first {
            println!("the first: {first}");
        }
    }

    pub fn verdict(&self) -> Result<(), String> {
        match self.differences {
            0 => Ok(()),
            _ => Err("the library differs from the rules".into()),
        }
    }
}
