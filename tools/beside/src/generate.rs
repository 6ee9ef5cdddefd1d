//! Small legal jobs that reach much.

use oracle::job::{Chunk, FontRow, Glyph, Job, Pattern, Shift, Span, NO_FONT, NUMBER};

use crate::random::Random;
use crate::tables::{LISTED, WORD_SEPARATORS};

pub fn job(random: &mut Random) -> Job {
    let mut maker = if random.one_in(4) {
        Maker::of_merges(random)
    } else {
        Maker::of_all(random)
    };
    let mut job = maker.job();
    if random.one_in(20) {
        stretch_by_a_thousandth(&mut job, random);
    }
    job
}

/// Text lengths that make the factor of SpacingAndGlyphs 0.001 or a neighbour of it.
fn stretch_by_a_thousandth(job: &mut Job, random: &mut Random) {
    job.fonts.iter_mut().for_each(|font| font.units_per_em = 16);
    for span in job.chunks.iter_mut().flat_map(|chunk| &mut chunk.spans) {
        let clusters = random.between(1, 4) as f32;
        span.size = 16f32.to_bits();
        span.length_flag = 1;
        span.adjust = 1;
        span.text_length = clusters.to_bits() - 1 + random.below(3) as u32;
        span.glyphs.iter_mut().for_each(|glyph| glyph.width = 1000);
    }
}

/// Cluster lengths as the text has them, any, or short ones, which keep the merge going longest.
#[derive(Clone, Copy)]
enum Lengths {
    OfText,
    Any,
    Short,
}

#[derive(Clone, Copy)]
enum Widths {
    Usual,
    NotPositive,
    Any,
}

/// One to four bytes of UTF-8, the first and last character of each length among them.
const LETTERS: &[char] = &[
    'A',
    'f',
    'i',
    '\0',
    '\u{7f}',
    '\u{80}',
    'é',
    'ש',
    '\u{7ff}',
    '\u{800}',
    '字',
    '\u{d7ff}',
    '\u{e000}',
    '\u{ffff}',
    '\u{10000}',
    '😀',
    '\u{10ffff}',
];
const UNLISTED: &[&[u8; 4]] = &[
    b"Latn",
    b"Hebr",
    b"Hani",
    b"Zyyy",
    b"arab",
    b"Arac",
    b"ModI",
    b"rohg",
    b"Rohh",
    b"\0\0\0\0",
    b"\xff\xff\xff\xff",
];

const WIDTHS: &[Widths] = &[
    Widths::Usual,
    Widths::Usual,
    Widths::Usual,
    Widths::NotPositive,
    Widths::Any,
];

/// What a job is made of. A count is picked from its list.
pub struct Maker<'a> {
    pub random: &'a mut Random,
    fonts: usize,
    chunks: usize,
    characters: &'static [usize],
    spans: &'static [usize],
    /// The spans divide the text among them.
    even: bool,
    /// One span in so many has no font.
    bare: usize,
    /// How many glyphs may still be made.
    budget: usize,
    lengths: Lengths,
    /// One cluster in so many joins two characters, and one in so many has two glyphs.
    odd: usize,
    widths: Widths,
}

impl<'a> Maker<'a> {
    pub fn of_all(random: &'a mut Random) -> Self {
        let no_fonts = random.one_in(20);
        let no_chunks = random.one_in(30);
        Maker {
            fonts: if no_fonts {
                0
            } else {
                random.pick(&[1, 1, 2, 2, 3])
            },
            chunks: if no_chunks {
                0
            } else {
                random.pick(&[1, 1, 1, 1, 2, 2, 3])
            },
            characters: &[0, 1, 2, 2, 3, 3, 3, 4, 4, 5, 6],
            spans: &[0, 1, 1, 1, 1, 2, 2, 2, 2, 2, 3, 3, 4],
            even: false,
            bare: 8,
            budget: random.between(1, 12).max(random.between(1, 12)) as usize,
            lengths: random.pick(&[Lengths::OfText, Lengths::OfText, Lengths::Any]),
            odd: 5,
            widths: random.pick(WIDTHS),
            random,
        }
    }

    /// One chunk whose spans overwrite each other's glyphs.
    fn of_merges(random: &'a mut Random) -> Self {
        Maker {
            fonts: 2,
            chunks: 1,
            characters: &[4, 5, 6],
            spans: &[2, 3, 3, 3],
            even: true,
            bare: 30,
            budget: 24,
            lengths: Lengths::Short,
            odd: 12,
            widths: random.pick(WIDTHS),
            random,
        }
    }

    fn job(&mut self) -> Job {
        Job {
            version: 1,
            mode: self.random.below(2) as u8,
            fonts: (0..self.fonts).map(|_| self.font()).collect(),
            dx: self.list(),
            dy: self.list(),
            rotate: self.list(),
            chunks: (0..self.chunks).map(|_| self.chunk()).collect(),
        }
    }

    pub fn float(&mut self) -> Pattern {
        let usual = [
            0.0, 0.5, 1.0, 1.0, 2.0, 3.0, 10.0, 0.1, 0.3, 7.7, 100.0, 1000.0,
        ];
        let size = match self.random.below(8) {
            0 => self
                .random
                .pick(&[0, 0x3580_0000, 0x4980_0000, 0x3580_0001, 0x497f_ffff]),
            1 => self.random.between(0x3580_0000, 0x4980_0000) as u32,
            2 => self.random.between(0x3f00_0000, 0x4300_0000) as u32,
            _ => f32::to_bits(self.random.pick(&usual)),
        };
        size | self.random.pick(&[0, 0, 0x8000_0000])
    }

    /// Most often nothing, so that most jobs show other things.
    fn spacing(&mut self) -> Pattern {
        let usual = [1.0, 2.0, -1.0, -4.0, -11.0, -100.0];
        match self.random.below(8) {
            0..=3 => 0,
            4 => 0x8000_0000,
            5 => self.float(),
            _ => f32::to_bits(self.random.pick(&usual)),
        }
    }

    fn size(&mut self) -> Pattern {
        match self.random.below(8) {
            0 => self
                .random
                .pick(&[0x3d80_0000, 0x4580_0000, 0x3d80_0001, 0x457f_ffff]),
            1 => self.random.between(0x3d80_0000, 0x4580_0000) as u32,
            _ => f32::to_bits(self.random.pick(&[16.0, 16.0, 12.0, 10.5, 0.7])),
        }
    }

    pub fn list(&mut self) -> Vec<Pattern> {
        let count = self.random.pick(&[0, 0, 0, 1, 2, 4, 9]);
        let mut item = || {
            if self.random.one_in(2) {
                0
            } else {
                self.float()
            }
        };
        (0..count).map(|_| item()).collect()
    }

    fn unsigned(&mut self, usual: u16) -> u16 {
        match self.random.below(8) {
            0 => self.random.pick(&[1, 65_535, 16_384]),
            1 => self.random.between(1, 65_535) as u16,
            _ => usual,
        }
    }

    fn signed(&mut self, usual: i16) -> i16 {
        match self.random.below(8) {
            0 => self.random.pick(&[0, 0, i16::MIN, i16::MAX, -1]),
            1 => self.random.word() as i16,
            _ => usual,
        }
    }

    pub fn font(&mut self) -> FontRow {
        let units = self.random.pick(&[2048, 1000, 2048, 300]);
        FontRow {
            units_per_em: self.unsigned(units),
            ascent: self.signed(1536),
            descent: self.signed(-512),
            x_height: self.unsigned(1024),
            underline_position: self.signed(-256),
            underline_thickness: self.unsigned(128),
            line_through: self.signed(300),
            subscript: self.signed(150),
            superscript: self.signed(640),
        }
    }

    fn chunk(&mut self) -> Chunk {
        let characters = self.random.pick(self.characters);
        let text: String = (0..characters).map(|_| self.character()).collect();
        let flags = self.random.below(4) as u8;
        let spans = self.spans(&text);
        Chunk {
            flags,
            x: if flags & 1 != 0 { self.float() } else { 0 },
            y: if flags & 2 != 0 { self.float() } else { 0 },
            anchor: self.random.below(3) as u8,
            flow: 0,
            text: text.into_bytes(),
            spans,
        }
    }

    fn character(&mut self) -> char {
        match self.random.below(5) {
            0 => self.random.pick(WORD_SEPARATORS),
            1 | 2 => self.random.pick(LETTERS),
            _ => self.random.pick(&['A', 'f', 'i', 'z']),
        }
    }

    fn spans(&mut self, text: &str) -> Vec<Span> {
        let count = self.random.pick(self.spans);
        let mut from = 0;
        let mut spans = vec![];
        for left in (0..count).rev() {
            let (start, end) = if self.even {
                (
                    from,
                    boundary(text, from + (text.len() - from) / (left + 1)),
                )
            } else {
                self.start_and_end(text, from, left)
            };
            spans.push(self.span(text, start, end));
            from = end;
        }
        spans
    }

    fn start_and_end(&mut self, text: &str, from: usize, left: usize) -> (usize, usize) {
        let gap = self.random.one_in(6);
        let start = if gap { self.place(text, from) } else { from };
        let end = match self.random.below(8) {
            0 => start,
            1..=5 if left == 0 => text.len(),
            _ => self.place(text, start),
        };
        (start, end)
    }

    /// A byte at or after `from`, most often where a character starts.
    fn place(&mut self, text: &str, from: usize) -> usize {
        let at = self.random.between(from as i64, text.len() as i64) as usize;
        if self.random.one_in(6) {
            at
        } else {
            boundary(text, at)
        }
    }

    fn font_byte(&mut self) -> u8 {
        self.random.below(self.fonts) as u8
    }

    fn span(&mut self, text: &str, start: usize, end: usize) -> Span {
        let bare = self.fonts == 0 || self.random.one_in(self.bare);
        let font = if bare { NO_FONT } else { self.font_byte() };
        let mut span = self.span_without_glyphs(start, end, font);
        if !bare {
            span.glyphs = self.glyphs(text, font);
        }
        span
    }

    pub fn span_without_glyphs(&mut self, start: usize, end: usize, font: u8) -> Span {
        let length_flag = self.random.pick(&[0, 0, 1]);
        let shifts = self.random.pick(&[0, 0, 1, 1, 2, 3, 8]);
        Span {
            start: start as u16,
            end: end as u16,
            font,
            size: self.size(),
            letter_spacing: self.spacing(),
            word_spacing: self.spacing(),
            length_flag,
            text_length: if length_flag == 1 {
                self.text_length()
            } else {
                0
            },
            adjust: self.random.below(3) as u8,
            dominant_baseline: self.random.below(12) as u8,
            alignment_baseline: self
                .random
                .pick(&[0, 1, 2, 3, 4, 5, 6, 7, 8, 9, 10, 11, 0, 1, 0, 1]),
            decorations: self.random.below(8) as u8,
            shifts: (0..shifts).map(|_| self.shift()).collect(),
            glyphs: vec![],
        }
    }

    fn text_length(&mut self) -> Pattern {
        let usual = [54.0, 48.0, 20.0, 10.0, 0.01, 0.001, -30.0, 0.0, -0.0];
        if self.random.one_in(3) {
            self.float()
        } else {
            f32::to_bits(self.random.pick(&usual))
        }
    }

    fn shift(&mut self) -> Shift {
        let kind = self.random.below(4) as u8;
        Shift {
            kind,
            number: if kind == NUMBER { self.float() } else { 0 },
        }
    }

    /// Glyphs for the characters of the text, as shaping gives them, within and outside the span.
    fn glyphs(&mut self, text: &str, font: u8) -> Vec<Glyph> {
        let mut glyphs = vec![];
        let mut characters = text.char_indices().map(|(i, c)| (i, c.len_utf8()));
        while let Some((index, mut length)) = characters.next() {
            let ligature = self.random.one_in(self.odd);
            if let Some((_, more)) = ligature.then(|| characters.next()).flatten() {
                length += more;
            }
            let parts = if self.random.one_in(self.odd) { 2 } else { 1 };
            (0..parts).for_each(|_| glyphs.push(self.glyph(index, length, font)));
            if self.random.one_in(10) {
                characters.next();
            }
        }
        self.reorder(&mut glyphs);
        glyphs.truncate(self.budget);
        self.budget -= glyphs.len();
        glyphs
    }

    fn reorder(&mut self, glyphs: &mut [Glyph]) {
        match self.random.below(6) {
            0 | 1 => glyphs.reverse(),
            2 => {
                let middle = self.random.below(glyphs.len() + 1);
                glyphs.rotate_left(middle);
            }
            3 => (1..glyphs.len()).for_each(|i| glyphs.swap(i, self.random.below(i + 1))),
            _ => {}
        }
    }

    fn glyph(&mut self, index: usize, length: usize, font: u8) -> Glyph {
        let cluster_length = match self.lengths {
            Lengths::OfText if !self.random.one_in(12) => length as u8,
            Lengths::Short => self.random.pick(&[1, 1, 1, 2, 2, 3]),
            _ => self.random.pick(&[1, 1, 1, 1, 1, 2, 2, 2, 3, 3, 4, 64]),
        };
        let tags = if self.random.one_in(4) {
            LISTED
        } else {
            UNLISTED
        };
        let id = self.random.pick(&[0, 1, u32::MAX]);
        Glyph {
            id: if self.random.one_in(4) {
                id
            } else {
                self.random.below(70_000) as u32
            },
            byte_index: index as u16,
            cluster_length,
            dx: self.offset(),
            dy: self.offset(),
            width: self.width(),
            font: if self.random.one_in(6) {
                self.font_byte()
            } else {
                font
            },
            tag: *self.random.pick(tags),
            orientation: self.random.below(2) as u8,
        }
    }

    pub fn offset(&mut self) -> i32 {
        match self.random.below(8) {
            0 => self.random.pick(&[65_535, -65_535, 1, -1]),
            1 => self.random.between(-65_535, 65_535) as i32,
            2 | 3 => self.random.between(-300, 300) as i32,
            _ => 0,
        }
    }

    fn width(&mut self) -> i32 {
        match self.widths {
            Widths::Usual => self.random.pick(&[1280, 512, 1280, 1024, 777, 0, 1, -200]),
            Widths::NotPositive => self.random.pick(&[0, 0, 0, 0, 0, -200]),
            Widths::Any => self.offset(),
        }
    }
}

/// The first byte from `at` on where a character starts or the text ends.
pub fn boundary(text: &str, at: usize) -> usize {
    (at..).find(|&i| text.is_char_boundary(i)).unwrap()
}
