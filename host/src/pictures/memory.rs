//! docs/memory.svg: every field of the lent memory to scale, by the layout's table: lines of one byte a slot, the single numbers, planes of
//! one byte a cell, and the notes of how full the channels are.

use super::svg::{grouped, solid, Picture, GREY, GROUNDS, HEAD, LEFT, MIDDLE, RIGHT, WHITE};
use crate::layout::{Field, BYTES, CELLS, FIELDS, LENGTH, NOTHING};
use crate::scheduler::SLOTS;

/// A line of bytes: where it begins, how wide and how high it is, in every group.
const EDGE: f64 = 90.0;
const WIDE: f64 = 600.0;
const HIGH: f64 = 19.0;
/// A byte of the single numbers.
const BYTE: f64 = 12.0;

/// The file: the whole in one bar, then group by group.
pub fn picture() -> String {
    let (base, notes) = FIELDS.split_at(FIELDS.iter().position(|field| field.start == BYTES.start).unwrap_or(FIELDS.len()));
    let (slots, records) = (group(base, |lanes| lanes == SLOTS), group(base, |lanes| lanes == CELLS));
    let numbers = group(base, |lanes| lanes != SLOTS && lanes != CELLS);
    let (sums, list) = (group(notes, |lanes| lanes == SLOTS), group(notes, |lanes| lanes != SLOTS));
    let shows = format!(
        "Every field of the memory to scale, from its first byte to its last: {} lines of {SLOTS} bytes for the slots ({}), {} bytes of single numbers ({}), {} \
         planes of {} bytes for the records ({}), and {} bytes of notes, which say again how full the channels are: {} lines of {SLOTS} bytes ({}) and {} bytes of the \
         list of the fullest ({}).",
        count(&slots),
        names(&slots),
        length(&numbers),
        names(&numbers),
        count(&records),
        grouped(CELLS as u64),
        names(&records),
        length(notes),
        count(&sums),
        names(&sums),
        length(&list),
        names(&list)
    );
    let mut picture = Picture::new(&format!("The lent memory: {} bytes", grouped(LENGTH as u64)), &shows, 1_046.0);
    let subtitle = "Byte j of lane i of a field stands at start + lanes x j + i. The first bar has one scale, each group below its own.";
    picture.words(LEFT, (20.0, 50.0), subtitle);
    legend(&mut picture, 74.0);
    whole(&mut picture, 86.0, [("slots", &slots), ("single numbers", &numbers), ("records", &records), ("notes", notes)]);
    let head = format!("Slots: {} lines of {SLOTS} bytes, one lane a slot (of rows: one lane a row)", count(&slots));
    lines(&mut picture, 158.0, &head, &slots);
    single(&mut picture, 466.0, &format!("Single numbers: {} bytes", length(&numbers)), &numbers);
    let head = format!("Records: {} planes of {} bytes, one lane a cell of the run", count(&records), grouped(CELLS as u64));
    lines(&mut picture, 672.0, &head, &records);
    run(&mut picture, 836.0);
    let head =
        format!("Notes, which say again how full the channels are: {} lines of {SLOTS} bytes, one lane a slot, and the list", count(&sums));
    lines(&mut picture, 888.0, &head, &sums);
    single(&mut picture, 956.0, "", &list);
    picture.finish()
}

/// Those of the fields with so many lanes.
fn group(fields: &[&'static Field], lanes: impl Fn(usize) -> bool) -> Vec<&'static Field> {
    fields.iter().copied().filter(|field| lanes(field.lanes)).collect()
}

/// How many bytes a group has.
fn length(fields: &[&Field]) -> usize {
    let (start, end) = span(fields);
    end - start
}

/// How many lines of bytes a group has: one for each byte of its fields' numbers.
fn count(fields: &[&Field]) -> usize {
    fields.iter().map(|field| field.width).sum()
}

/// The fields of a group by name.
fn names(fields: &[&Field]) -> String {
    fields.iter().map(|field| field.name).collect::<Vec<_>>().join(", ")
}

/// Where a group begins and ends. Its fields follow each other.
fn span(fields: &[&Field]) -> (usize, usize) {
    let end = |field: &&Field| field.start + field.length();
    (fields.first().map_or(0, |field| field.start), fields.last().map_or(0, end))
}

/// Offset and length of a field: "at 192, 256 bytes".
fn extent(field: &Field) -> String {
    let length = field.length();
    format!("at {}, {} byte{}", grouped(field.start as u64), grouped(length as u64), if length == 1 { "" } else { "s" })
}

/// What the colours mean.
fn legend(picture: &mut Picture, top: f64) {
    let mut entry = |x: f64, fills: &[&str], means: &str| {
        for (number, fill) in fills.iter().enumerate() {
            picture.area((x + 16.0 * number as f64, top - 11.0), (14.0, 13.0), fill);
        }
        picture.words(LEFT, (x + 16.0 * fills.len() as f64 + 6.0, top), means);
    };
    entry(260.0, &GROUNDS, "in turn, only to tell each part from the next");
    entry(590.0, &[WHITE], "stands for nothing: always 0");
}

/// The whole memory in one bar, all at one scale.
fn whole(picture: &mut Picture, top: f64, groups: [(&str, &[&Field]); 4]) {
    let (left, scale) = (20.0, 860.0 / LENGTH as f64);
    for (number, (name, fields)) in groups.into_iter().enumerate() {
        let (start, end) = span(fields);
        let (x, width) = (left + scale * start as f64, scale * (end - start) as f64);
        picture.area((x, top), (width, 22.0), GROUNDS[number % 2]);
        // Two groups are too narrow for words: their names stand above them, and their places left of them.
        let narrow = number % 2 == 1;
        let name_at = if narrow { top - 6.0 } else { top + 15.0 };
        picture.words(MIDDLE, (x + width / 2.0, name_at), name);
        let (face, at) = if narrow { (RIGHT, x - 6.0) } else { (LEFT, x) };
        picture.words(face, (at, top + 37.0), &grouped(start as u64));
    }
    picture.words(RIGHT, (left + 860.0, top + 37.0), &grouped(LENGTH as u64));
}

/// Fields of many lanes: a line for each byte of their numbers, its place before it, the field's offset and length behind.
fn lines(picture: &mut Picture, top: f64, head: &str, fields: &[&Field]) {
    picture.words(HEAD, (20.0, top), head);
    let lanes = fields.first().map_or(1, |field| field.lanes);
    for lane in [0, lanes / 4, lanes / 2, 3 * lanes / 4, lanes - 1] {
        let x = EDGE + WIDE * (lane as f64 + 0.5) / lanes as f64;
        picture.line(solid(GREY, 1.0), &[(x, top + 26.0), (x, top + 30.0)]);
        picture.words(MIDDLE, (x, top + 22.0), &grouped(lane as u64));
    }
    picture.words(RIGHT, (EDGE - 18.0, top + 22.0), "lane");
    let mut y = top + 30.0;
    for (number, field) in fields.iter().enumerate() {
        let high = HIGH * field.width as f64;
        for byte in 0..field.width {
            let line = y + HIGH * byte as f64;
            picture.area((EDGE, line), (WIDE, HIGH), GROUNDS[number % 2]);
            picture.words(RIGHT, (EDGE - 8.0, line + 14.0), &grouped((field.start + field.lanes * byte) as u64));
            picture.words(MIDDLE, (EDGE + WIDE / 2.0, line + 14.0), &byte_name(field, byte));
        }
        let (x, middle) = (EDGE + WIDE + 8.0, y + high / 2.0 + 4.0);
        picture.line(solid(GREY, 1.0), &[(x - 4.0, y + 2.0), (x, y + 2.0), (x, y + high - 2.0), (x - 4.0, y + high - 2.0)]);
        picture.words(LEFT, (x + 8.0, middle), &extent(field));
        y += high;
    }
}

/// A line of a field by the byte that it holds of each number.
fn byte_name(field: &Field, byte: usize) -> String {
    match byte {
        _ if field.width == 1 => field.name.to_string(),
        0 => format!("{}, byte 0 (lowest)", field.name),
        _ => format!("{}, byte {byte}", field.name),
    }
}

/// The single numbers, byte by byte in one line; the leftmost has the longest leader, so that no leader crosses words.
fn single(picture: &mut Picture, top: f64, head: &str, fields: &[&Field]) {
    let (start, _) = span(fields);
    if !head.is_empty() {
        picture.words(HEAD, (20.0, top), head);
    }
    let bar = top + 14.0;
    for (number, field) in fields.iter().enumerate() {
        let x = EDGE + BYTE * (field.start - start) as f64;
        let spare = field.start == NOTHING.start;
        for byte in 0..field.length() {
            let fill = if spare { WHITE } else { GROUNDS[number % 2] };
            picture.area((x + BYTE * byte as f64, bar), (BYTE, HIGH), fill);
        }
        let (leader, y) = (x + BYTE / 2.0, bar + HIGH + 16.0 * (fields.len() - number) as f64);
        picture.line(solid(GREY, 1.0), &[(leader, bar + HIGH), (leader, y), (leader + 6.0, y)]);
        picture.words(LEFT, (leader + 10.0, y + 4.0), field.name);
        picture.words(LEFT, (EDGE + 280.0, y + 4.0), &extent(field));
    }
}

/// In which order the records stand in the lines above.
fn run(picture: &mut Picture, top: f64) {
    picture.words(RIGHT, (EDGE - 8.0, top + 14.0), "the run");
    let parts = [(170.0, "slot 0, oldest first"), (170.0, "slot 1, oldest first"), (40.0, ".."), (120.0, "slot 63"), (100.0, "zeros")];
    let mut x = EDGE;
    for (number, (width, words)) in parts.into_iter().enumerate() {
        let fill = if number + 1 == parts.len() { WHITE } else { GROUNDS[number % 2] };
        picture.area((x, top), (width, HIGH), fill);
        picture.words(MIDDLE, (x + width / 2.0, top + 14.0), words);
        x += width;
    }
    picture.words(LEFT, (x + 16.0, top + 14.0), "their order, not to scale");
}
