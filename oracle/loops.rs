//! Descriptor loops, straight from Request One's rules. The Rust has no walk of a loop, so these are the answers that the library is held
//! to; nothing of the library is used here.
use crate::answers::{answer, Answer, Answers, Record};

/// The kind of a loop in the list of cases.
pub const LOOP: usize = 6;
/// The columns of a row of table 13: tag, kind, offset, length.
const COLUMNS: usize = 4;
const LONGEST: usize = 1023;
/// H.222.0's extension descriptor, whose content begins with an extension tag.
const EXTENSION: u8 = 63;

/// So many bytes of the loop, or where they would end.
fn take(body: &[u8], at: usize, count: usize) -> Result<&[u8], usize> {
    body.get(at..at + count).ok_or(at + count)
}

/// The kind whose extension tag the content begins with, else 0.
fn kind(tags: &[u8; 5], tag: u8, content: &[u8]) -> u16 {
    if tag != EXTENSION || content.is_empty() {
        return 0;
    }
    let found = tags.iter().position(|t| *t == content[0]);
    found.map_or(0, |i| i as u16 + 1)
}

/// The row of the descriptor that begins here, or the need of its first read that is not there.
fn row(tags: &[u8; 5], body: &[u8], at: usize) -> Result<[u16; COLUMNS], usize> {
    let tag = take(body, at, 1)?[0];
    let length = take(body, at + 1, 1)?[0];
    let content = take(body, at + 2, length.into())?;
    let offset = at as u16 + 2;
    Ok([tag.into(), kind(tags, tag, content), offset, length.into()])
}

/// All rows of a loop, or the need.
fn rows(tags: &[u8; 5], body: &[u8]) -> Result<Vec<u16>, usize> {
    let mut rows = vec![];
    let mut at = 0;
    while at < body.len() {
        let row = row(tags, body, at)?;
        rows.extend(row);
        at += 2 + usize::from(row[3]);
    }
    Ok(rows)
}

/// What walking answers with so many columns lent, and the columns that it fills.
fn walk(tags: &[u8; 5], body: &[u8], lent: usize) -> (Answer, Vec<u16>) {
    let refused = |a: Answer| (a, vec![]);
    if (0..5).any(|i| tags[..i].contains(&tags[i])) {
        return refused(answer(12, 0));
    }
    if body.len() > LONGEST {
        return refused(answer(2, body.len()));
    }
    let rows = match rows(tags, body) {
        Err(need) => return refused(answer(1, need)),
        Ok(rows) => rows,
    };
    let count = rows.len() / COLUMNS;
    if lent / COLUMNS < count {
        let room = answer(3, 13);
        return refused(Answer {
            rows: count as u64,
            ..room
        });
    }
    (answer(0, count), rows)
}

/// The same as the answers of a body: there is no measuring and no tallying, and table 13 is the first table.
pub fn read(tags: &[u8; 5], body: &[u8], lent: usize) -> Answers {
    let (read, rows) = walk(tags, body, lent);
    Answers {
        read,
        measured: answer(0, 0),
        tallied: answer(0, 0),
        rows: vec![],
        record: Some(Record {
            top: vec![],
            tables: vec![rows],
            k: 0,
            tally: 0,
        }),
    }
}

/// A descriptor behind those before it, or its fault.
fn put(image: &mut Vec<u8>, row: &[u16], store: &[u8]) -> Result<(), Answer> {
    let (tag, offset, length) = (row[0], usize::from(row[2]), usize::from(row[3]));
    if offset + length > store.len() {
        return Err(answer(6, image.len()));
    }
    if tag > 255 {
        return Err(answer(5, image.len()));
    }
    if length > 255 {
        return Err(answer(13, image.len() + 1));
    }
    image.extend([tag as u8, length as u8]);
    image.extend(&store[offset..offset + length]);
    Ok(())
}

/// What writing every whole row answers, and the loop.
pub fn write(rows: &[u16], store: &[u8], out: usize) -> (Answer, Option<Vec<u8>>) {
    let mut image = vec![];
    for row in rows.chunks_exact(COLUMNS) {
        if let Err(fault) = put(&mut image, row, store) {
            return (fault, None);
        }
    }
    let n = image.len();
    if n > LONGEST {
        return (answer(10, n), None);
    }
    if n > out {
        return (answer(4, n), None);
    }
    (answer(0, n), Some(image))
}
