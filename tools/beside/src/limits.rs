//! Jobs at a limit of document 01 or one past it, and jobs that are as large as a part may be.

use oracle::form::{
    GLYPH_BYTES, MOST_BYTES, MOST_CHUNKS, MOST_FONTS, MOST_GLYPHS, MOST_LIST, MOST_SHIFTS,
    MOST_SPANS, MOST_TEXT,
};
use oracle::job::{Chunk, Glyph, Job, Pattern, Span};

use crate::damage::fill;
use crate::encode::encode;
use crate::generate::Maker;
use crate::labels;
use crate::random::Random;

/// A label with one count at its limit or one past it, or one whose record is just as long as may be.
pub fn at_a_limit(random: &mut Random) -> Job {
    let mut job = labels::job(random);
    let past = random.below(2);
    match random.below(9) {
        0 => fill(&mut job.fonts, MOST_FONTS + past),
        1 => fill(&mut job.chunks, MOST_CHUNKS + past),
        2 => fill(&mut job.chunks[0].spans[0].shifts, MOST_SHIFTS + past),
        3 => fill_spans(&mut job.chunks[0], MOST_SPANS + past),
        4 => lengthen(&mut job.chunks[0].text, MOST_TEXT + past),
        5 => fill(&mut job.chunks[0].spans[0].glyphs, MOST_GLYPHS + past),
        6 | 7 => {
            let float = Maker::of_all(random).float();
            list(&mut job, random.below(3)).resize(MOST_LIST + past, float);
        }
        _ => return of_length(job, MOST_BYTES + past),
    }
    job
}

fn list(job: &mut Job, number: usize) -> &mut Vec<Pattern> {
    match number {
        0 => &mut job.dx,
        1 => &mut job.dy,
        _ => &mut job.rotate,
    }
}

/// Empty copies of the last span stand at its end.
fn fill_spans(chunk: &mut Chunk, count: usize) {
    let Some(mut last) = chunk.spans.last().cloned() else {
        return;
    };
    last.start = last.end;
    last.glyphs.clear();
    chunk.spans.resize(count, last);
}

fn lengthen(text: &mut Vec<u8>, length: usize) {
    text.resize(length, b'x');
}

/// Longer lists and a longer text, until the record has so many bytes.
fn of_length(mut job: Job, bytes: usize) -> Job {
    for number in 0..3 {
        let missing = bytes.saturating_sub(encode(&job).len() + MOST_TEXT);
        let list = list(&mut job, number);
        let count = (list.len() + missing.div_ceil(4)).min(MOST_LIST);
        list.resize(count, 0);
    }
    let missing = bytes.saturating_sub(encode(&job).len());
    fill_glyphs(
        &mut job.chunks[0],
        missing.saturating_sub(MOST_TEXT / 2) / GLYPH_BYTES,
    );
    let missing = bytes.saturating_sub(encode(&job).len());
    let text = &mut job.chunks[0].text;
    lengthen(text, (text.len() + missing).min(MOST_TEXT));
    job
}

fn fill_glyphs(chunk: &mut Chunk, more: usize) {
    if let Some(span) = chunk.spans.first_mut() {
        let count = (span.glyphs.len() + more).min(MOST_GLYPHS);
        fill(&mut span.glyphs, count);
    }
}

/// Many glyphs, a long text, many chunks or many spans.
pub fn large(random: &mut Random) -> Job {
    let model = model(random);
    let count = random.pick(&[300, 700, 1_023, 1_024]);
    let order = random.pick(&[Order::Forward, Order::Backward, Order::Shuffled]);
    match random.below(6) {
        0 => one_span(model, count, 1, order, random),
        1 => one_span(model, count, 4, order, random),
        2 => one_cluster(model, count, random),
        3 => many_chunks(model, random),
        4 => many_spans(model, count, order, random),
        _ => merge(model, count, order, random),
    }
}

#[derive(Clone, Copy)]
enum Order {
    Forward,
    Backward,
    Shuffled,
}

/// A job of one chunk with one span that has a font and a glyph, the rest as labels have it.
fn model(random: &mut Random) -> Job {
    loop {
        let mut job = labels::job(random);
        job.chunks.truncate(1);
        let chunk = &mut job.chunks[0];
        chunk.spans.retain(|span| !span.glyphs.is_empty());
        chunk.spans.truncate(1);
        if !chunk.spans.is_empty() {
            return job;
        }
    }
}

fn only_span(job: &mut Job) -> (&mut Chunk, Span) {
    let chunk = &mut job.chunks[0];
    let span = chunk.spans.remove(0);
    (chunk, span)
}

/// Glyphs of one cluster each, `step` bytes apart.
fn row(model: &Glyph, count: usize, step: usize, order: Order, random: &mut Random) -> Vec<Glyph> {
    let glyph = |i: usize, random: &mut Random| Glyph {
        byte_index: (i * step) as u16,
        cluster_length: step as u8,
        width: random.between(-100, 2_000) as i32,
        ..model.clone()
    };
    let mut glyphs: Vec<Glyph> = (0..count).map(|i| glyph(i, random)).collect();
    match order {
        Order::Forward => {}
        Order::Backward => glyphs.reverse(),
        Order::Shuffled => (1..count).for_each(|i| glyphs.swap(i, random.below(i + 1))),
    }
    glyphs
}

fn one_span(mut job: Job, count: usize, step: usize, order: Order, random: &mut Random) -> Job {
    let (chunk, mut span) = only_span(&mut job);
    span.glyphs = row(&span.glyphs[0], count, step, order, random);
    (span.start, span.end) = (0, (count * step) as u16);
    let texts: [&[u8]; 3] = if step == 4 {
        [b"entr", b"x   ", "𐎀".as_bytes()]
    } else {
        [b"x", b" ", b"\0"]
    };
    chunk.text = random.pick(&texts).repeat(count);
    chunk.spans.push(span);
    long_lists(&mut job, random);
    job
}

/// All glyphs at one byte, so wide that a sum in font units passes 2^24.
fn one_cluster(mut job: Job, count: usize, random: &mut Random) -> Job {
    let (chunk, mut span) = only_span(&mut job);
    let wide = |random: &mut Random| random.pick(&[65_535, 65_534, 60_001, -7]);
    let model = span.glyphs[0].clone();
    let glyph = |_| Glyph {
        byte_index: 0,
        width: wide(random),
        ..model.clone()
    };
    span.glyphs = (0..count).map(glyph).collect();
    (span.start, span.end) = (0, 1);
    chunk.text = b"x".to_vec();
    chunk.spans.push(span);
    job
}

fn many_chunks(mut job: Job, random: &mut Random) -> Job {
    job.chunks = (0..MOST_CHUNKS)
        .flat_map(|_| labels::job(random).chunks)
        .take(MOST_CHUNKS)
        .collect();
    for span in job.chunks.iter_mut().flat_map(|chunk| &mut chunk.spans) {
        let fonts = job.fonts.len() as u8;
        span.font = if span.font == 255 {
            255
        } else {
            span.font % fonts
        };
        span.glyphs.iter_mut().for_each(|glyph| glyph.font %= fonts);
    }
    long_lists(&mut job, random);
    job
}

/// 32 spans over one list; the later ones replace a few glyphs each.
fn many_spans(mut job: Job, count: usize, order: Order, random: &mut Random) -> Job {
    let (chunk, model) = only_span(&mut job);
    chunk.text = b"x y".repeat(count.div_ceil(3));
    chunk.text.truncate(count);
    let share = count / MOST_SPANS;
    for i in 0..MOST_SPANS {
        let mut span =
            Maker::of_all(random).span_without_glyphs(i * share, (i + 1) * share, model.font);
        let glyphs = row(&model.glyphs[0], count, 1, order, random);
        let within = |g: &Glyph| (span.start..span.end).contains(&g.byte_index);
        span.glyphs = if i == 0 {
            glyphs
        } else {
            glyphs.into_iter().filter(within).collect()
        };
        chunk.spans.push(span);
    }
    long_lists(&mut job, random);
    job
}

/// Two spans that shape the same text; the second replaces all, inserts or removes.
fn merge(mut job: Job, count: usize, order: Order, random: &mut Random) -> Job {
    let (chunk, first) = only_span(&mut job);
    chunk.text = b"x".repeat(count);
    let end = random.pick(&[0, count / 2]);
    let (mut first, mut second) = (first.clone(), first);
    first.glyphs = row(&second.glyphs[0], count, 1, order, random);
    second.glyphs = row(&second.glyphs[0], count, 1, order, random);
    (first.start, first.end) = (0, end as u16);
    (second.start, second.end) = (end as u16, count as u16);
    let at = random.below(count);
    first.glyphs[at].cluster_length = random.pick(&[1, 2, 3]);
    second.glyphs[at].cluster_length = random.pick(&[1, 1, 2]);
    chunk.spans = vec![first, second];
    job
}

fn long_lists(job: &mut Job, random: &mut Random) {
    for list in [&mut job.dx, &mut job.dy, &mut job.rotate] {
        let count = random.pick(&[0, 0, 100, 1_024]);
        let mut maker = Maker::of_all(random);
        let mut float = || {
            if maker.random.one_in(2) {
                0
            } else {
                maker.float()
            }
        };
        list.extend((0..count).map(|_| float()));
    }
}
