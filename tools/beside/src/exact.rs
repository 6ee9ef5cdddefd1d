//! The exact layout of documents 01 and 02: steps 1, 2 and 4 to 7 in fractions. It takes nothing from the answer but which clusters
//! collapsed.
//!
//! All fractions of a chunk have one denominator: 2^149, which every float divides, times twice the least common multiples of the
//! fonts' units per em and of the numbers that step 6 divides by.

use oracle::job::{Chunk, Glyph, Job, Pattern, Span};

use crate::tables::{LISTED, WORD_SEPARATORS};
use crate::whole::Whole;

pub struct Exact {
    /// The offset of each cluster, in the chunk's units.
    pub offsets: Vec<Whole>,
    pub byte_indexes: Vec<u16>,
    /// The glyphs that stand in clusters, and what document 01 calls T.
    pub glyphs: usize,
    pub sizes: Whole,
    units: Units,
}

impl Exact {
    /// How far a float is from the offset of cluster `i`.
    pub fn distance(&self, i: usize, shift: f32) -> Whole {
        (self.units.float(shift) - self.offsets[i]).size()
    }
}

/// None where the chunk has no cluster.
pub fn exact(
    job: &Job,
    chunk: &Chunk,
    first_character: usize,
    collapsed: &[bool],
) -> Option<Exact> {
    let merged = merged(chunk);
    let groups = groups(&merged, chunk);
    if groups.is_empty() {
        return None;
    }
    let units = Units::of(job, chunk, &groups);
    let mut clusters: Vec<Cluster> = groups.iter().map(|g| cluster(g, job, &units)).collect();
    let shifts = shifts(job, chunk, &groups, first_character, &units);
    let sizes = sizes(chunk, &groups, &clusters, &shifts, &units);
    space_letters(chunk, &groups, &mut clusters, collapsed, &units);
    space_words(chunk, &groups, &mut clusters, &units);
    for span in chunk.spans.iter().filter(|span| spreads(span)) {
        adjust_length(span, &groups, &mut clusters, &units);
    }
    Some(Exact {
        offsets: positions(job.mode, chunk.anchor, &groups, &clusters, &shifts),
        byte_indexes: groups.iter().map(|g| g.byte_index()).collect(),
        glyphs: groups.iter().map(|g| g.glyphs.len()).sum(),
        sizes,
        units,
    })
}

/// Step 1, for chunks whose merge is accepted.
fn merged(chunk: &Chunk) -> Vec<&Glyph> {
    let mut list: Vec<&Glyph> = vec![];
    for span in &chunk.spans {
        if list.is_empty() {
            list = span.glyphs.iter().collect();
        } else {
            replace(&mut list, span);
        }
    }
    list
}

fn replace<'a>(list: &mut Vec<&'a Glyph>, span: &'a Span) {
    let mut replaced = vec![];
    let mut new = span.glyphs.iter();
    while let Some(glyph) = new.next() {
        let first = list.iter().position(|g| g.byte_index == glyph.byte_index);
        let Some(at) = first.filter(|at| covers(span, glyph) && !replaced.contains(at)) else {
            continue;
        };
        replaced.push(at);
        let (old, length) = (list[at].cluster_length, glyph.cluster_length);
        if old < length {
            list.drain(at + 1..at + length as usize);
        } else if old > length {
            let more = new.by_ref().take(old as usize - 1);
            more.enumerate()
                .for_each(|(i, g)| list.insert(at + 1 + i, g));
        }
        list[at] = glyph;
    }
}

fn covers(span: &Span, glyph: &Glyph) -> bool {
    (span.start..span.end).contains(&glyph.byte_index)
}

/// The glyphs of a cluster, and the span that covers them.
struct Group<'a> {
    glyphs: &'a [&'a Glyph],
    span: &'a Span,
}

impl Group<'_> {
    fn byte_index(&self) -> u16 {
        self.glyphs[0].byte_index
    }
}

fn groups<'a>(merged: &'a [&'a Glyph], chunk: &'a Chunk) -> Vec<Group<'a>> {
    let neighbours = merged.chunk_by(|a, b| a.byte_index == b.byte_index);
    let covered = neighbours.filter_map(|glyphs| {
        let span = chunk.spans.iter().find(|span| covers(span, glyphs[0]))?;
        Some(Group { glyphs, span })
    });
    covered.collect()
}

/// The span has a text length that changes advances; by SpacingAndGlyphs they stay.
fn spreads(span: &Span) -> bool {
    span.length_flag == 1 && span.adjust != 1
}

/// The places in the list of the clusters that take part in a span's text length: of each byte index the first.
fn taking_part(span: &Span, groups: &[Group]) -> Vec<usize> {
    let of_span = |i: &usize| (span.start..span.end).contains(&groups[*i].byte_index());
    let first = |i: &usize| {
        let index = groups[*i].byte_index();
        groups[..*i].iter().all(|g| g.byte_index() != index)
    };
    (0..groups.len()).filter(of_span).filter(first).collect()
}

/// One, as a multiple of the chunk's unit, less the 2^149.
struct Units {
    one: Whole,
}

impl Units {
    fn of(job: &Job, chunk: &Chunk, groups: &[Group]) -> Units {
        let glyphs = groups.iter().flat_map(|g| g.glyphs);
        let ems = glyphs.map(|g| job.fonts[g.font as usize].units_per_em as u64);
        let spread = chunk.spans.iter().filter(|span| spreads(span));
        let gaps = spread.map(|span| taking_part(span, groups).len().saturating_sub(1) as u64);
        let one = common_multiple(ems);
        let gaps = common_multiple(gaps.filter(|&gaps| gaps > 0));
        Units {
            one: product(one, gaps).times(2),
        }
    }

    fn float(&self, x: f32) -> Whole {
        let bits = x.to_bits();
        let (exponent, fraction) = (bits >> 23 & 0xff, bits & 0x7f_ffff);
        assert!(exponent < 0xff, "not finite");
        let (mantissa, shift) = match exponent {
            0 => (fraction, 0),
            _ => (fraction | 0x80_0000, exponent - 1),
        };
        let size = self.one.times(mantissa as i64).shifted(shift);
        if x.is_sign_negative() {
            -size
        } else {
            size
        }
    }

    fn pattern(&self, x: Pattern) -> Whole {
        self.float(f32::from_bits(x))
    }
}

/// As factors, so that two of them can be multiplied.
fn common_multiple(numbers: impl Iterator<Item = u64>) -> Vec<u64> {
    let mut numbers: Vec<u64> = numbers.collect();
    numbers.sort_unstable();
    numbers.dedup();
    let mut multiple = Whole::from(1);
    let mut factors = vec![];
    for n in numbers {
        let factor = n / common_divisor(multiple.rest(n), n);
        multiple = multiple.times(factor as i64);
        factors.push(factor);
    }
    factors
}

fn common_divisor(a: u64, b: u64) -> u64 {
    if a == 0 {
        b
    } else {
        common_divisor(b % a, a)
    }
}

fn product(one: Vec<u64>, other: Vec<u64>) -> Whole {
    let factors = one.into_iter().chain(other);
    factors.fold(Whole::from(1), |product, n| product.times(n as i64))
}

struct Cluster {
    width: Whole,
    advance: Whole,
    length_spacing: Whole,
    /// The sizes of its glyphs' advances.
    sizes: Whole,
}

/// Step 2.
fn cluster(group: &Group, job: &Job, units: &Units) -> Cluster {
    let size = units.pattern(group.span.size);
    let mut cluster = Cluster {
        width: Whole::ZERO,
        advance: Whole::ZERO,
        length_spacing: Whole::ZERO,
        sizes: Whole::ZERO,
    };
    for glyph in group.glyphs {
        let em = job.fonts[glyph.font as usize].units_per_em;
        let advance = size.divided(em as u64).times(glyph.width as i64);
        cluster.width = cluster.width.max(advance);
        cluster.advance += advance;
        cluster.sizes += advance.size();
    }
    cluster
}

/// Step 4.
fn space_letters(
    chunk: &Chunk,
    groups: &[Group],
    clusters: &mut [Cluster],
    collapsed: &[bool],
    units: &Units,
) {
    let last = clusters.len() - 1;
    let any = chunk.spans.iter().any(|s| s.letter_spacing << 1 != 0);
    for (i, cluster) in clusters.iter_mut().enumerate() {
        let tag = &groups[i].glyphs[0].tag;
        let listed = LISTED.contains(&tag);
        if any && !listed && i != last {
            cluster.advance += units.pattern(groups[i].span.letter_spacing);
        }
        if collapsed.get(i) == Some(&true) {
            (cluster.width, cluster.advance) = (Whole::ZERO, Whole::ZERO);
        }
    }
}

/// Step 5.
fn space_words(chunk: &Chunk, groups: &[Group], clusters: &mut [Cluster], units: &Units) {
    let text = std::str::from_utf8(&chunk.text).unwrap();
    for (group, cluster) in groups.iter().zip(clusters) {
        if text[group.byte_index() as usize..].starts_with(WORD_SEPARATORS) {
            cluster.advance += units.pattern(group.span.word_spacing);
        }
    }
}

/// Step 6.
fn adjust_length(span: &Span, groups: &[Group], clusters: &mut [Cluster], units: &Units) {
    let taken = |cluster: &Cluster| match span.has_natural_length() {
        true => cluster.advance,
        false => cluster.width,
    };
    let places = taking_part(span, groups);
    let sum = places
        .iter()
        .fold(Whole::ZERO, |sum, &i| sum + taken(&clusters[i]));
    let amount = match places.len() {
        0 | 1 => Whole::ZERO,
        n => (units.pattern(span.text_length) - sum).divided(n as u64 - 1),
    };
    for i in places {
        clusters[i].advance = taken(&clusters[i]) + amount;
        clusters[i].length_spacing = amount;
    }
}

/// What a cluster takes of dx and dy, and what it and those before it in text order have taken.
struct Shifts {
    own: (Whole, Whole),
    so_far: (Whole, Whole),
}

fn shifts(job: &Job, chunk: &Chunk, groups: &[Group], first: usize, units: &Units) -> Vec<Shifts> {
    let text = std::str::from_utf8(&chunk.text).unwrap();
    let number = |group: &Group| first + text[..group.byte_index() as usize].chars().count();
    let taken = |list: &[Pattern], n: usize| list.get(n).map_or(Whole::ZERO, |&x| units.pattern(x));
    let own = |group: &Group| (taken(&job.dx, number(group)), taken(&job.dy, number(group)));
    let zero = (Whole::ZERO, Whole::ZERO);
    let mut shifts: Vec<Shifts> = groups
        .iter()
        .map(|g| Shifts {
            own: own(g),
            so_far: zero,
        })
        .collect();
    let mut sum = zero;
    for i in text_order(groups) {
        sum = (sum.0 + shifts[i].own.0, sum.1 + shifts[i].own.1);
        shifts[i].so_far = sum;
    }
    shifts
}

fn text_order(groups: &[Group]) -> Vec<usize> {
    let mut order: Vec<usize> = (0..groups.len()).collect();
    order.sort_by_key(|&i| groups[i].byte_index());
    order
}

/// Step 7: the offset of each cluster along the line.
fn positions(
    mode: u8,
    anchor: u8,
    groups: &[Group],
    clusters: &[Cluster],
    shifts: &[Shifts],
) -> Vec<Whole> {
    let along = |i: usize| match mode {
        0 => shifts[i].so_far.0,
        _ => shifts[i].so_far.1,
    };
    let (mut left, mut right) = (along(0), along(0));
    let mut pen = Whole::ZERO;
    for (i, cluster) in clusters.iter().enumerate() {
        let start = pen + along(i);
        let end = start + cluster.advance - cluster.length_spacing;
        left = left.min(start).min(end);
        right = right.max(start).max(end);
        pen += cluster.advance;
    }
    let anchored = match anchor {
        0 => Whole::ZERO,
        1 => (left - right).divided(2),
        _ => left - right,
    };
    let mut x = along(text_order(groups)[0]) - left + anchored;
    let mut offsets = vec![];
    for (i, cluster) in clusters.iter().enumerate() {
        offsets.push(x + along(i));
        x += cluster.advance;
    }
    offsets
}

/// T.
fn sizes(
    chunk: &Chunk,
    groups: &[Group],
    clusters: &[Cluster],
    shifts: &[Shifts],
    units: &Units,
) -> Whole {
    let mut sizes = Whole::ZERO;
    for ((group, cluster), shift) in groups.iter().zip(clusters).zip(shifts) {
        let span = group.span;
        sizes += cluster.sizes + shift.own.0.size() + shift.own.1.size();
        sizes +=
            units.pattern(span.letter_spacing).size() + units.pattern(span.word_spacing).size();
    }
    let lengths = chunk.spans.iter().filter(|span| span.length_flag == 1);
    lengths.fold(sizes, |sum, span| {
        sum + units.pattern(span.text_length).size()
    })
}

/// The first three have the numbers of `crates/spec/proofs/Asked.antt`, which the prover computes from the definitions; the last were
/// reckoned by hand.
#[cfg(test)]
mod tests {
    use super::*;
    use oracle::label::{label, natural};

    fn asked(job: &Job, glyphs: usize, sizes: f32, offsets: [f32; 3]) {
        let exact = exact(job, &job.chunks[0], 0, &[false; 3]).unwrap();
        assert_eq!(exact.glyphs, glyphs);
        assert!(exact.sizes == exact.units.float(sizes));
        assert!(exact.offsets == offsets.map(|x| exact.units.float(x)));
    }

    #[test]
    fn the_label() {
        asked(&label(), 3, 33.0, [-28.0, -17.0, -10.0]);
    }

    #[test]
    fn all_that_is_counted() {
        let floats = |list: &[f32]| list.iter().map(|x| x.to_bits()).collect();
        let mut job = label();
        (job.mode, job.chunks[0].anchor) = (1, 1);
        (job.dx, job.dy) = (floats(&[3.0, -4.0]), floats(&[0.0, -5.0, 6.0]));
        let span = &mut job.chunks[0].spans[0];
        span.letter_spacing = (-1f32).to_bits();
        (span.length_flag, span.text_length) = (1, 54f32.to_bits());
        let mut second = span.glyphs[0].clone();
        second.width = -256;
        span.glyphs.insert(1, second);
        asked(&job, 4, 107.0, [-27.5, -7.5, 17.5]);
    }

    #[test]
    fn a_natural_length() {
        asked(&natural(54.0), 3, 87.0, [-54.0, -30.0, -10.0]);
    }

    /// Four clusters of 11, 7, 11 and 10 are brought to 55 by three gaps of 16 ÷ 3.
    #[test]
    fn a_natural_length_in_thirds() {
        let mut job = natural(55.0);
        let chunk = &mut job.chunks[0];
        chunk.text = b"A BB".to_vec();
        let mut fourth = chunk.spans[0].glyphs[2].clone();
        fourth.byte_index = 3;
        chunk.spans[0].glyphs.push(fourth);
        chunk.spans[0].end = 4;
        let exact = exact(&job, &job.chunks[0], 0, &[false; 4]).unwrap();
        let thirds = [-165.0, -116.0, -79.0, -30.0].map(|x| exact.units.float(x));
        assert!(exact.offsets.iter().map(|x| x.times(3)).eq(thirds));
    }
}
