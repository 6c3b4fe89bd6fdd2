//! Compares the library with the Rust on random bodies and values: SEED COUNT, with COUNT bodies and a tenth as many values of each kind.
//! Prints how many cases had each number and the first differences; ends with 1 if there is any.
#![allow(dead_code, unexpected_cfgs)]
extern crate alloc;
mod answers;
mod bodies;
mod drc_loudness;
mod library;
mod rust;
mod scene;
use answers::{Answer, Kind, Record, Value, KINDS};
use bodies::{Random, Reserved, DRC_LOUDNESS_WIDTHS};
use library::Lent;
use rust::error;
use std::panic::{catch_unwind, AssertUnwindSafe};

/// More columns of the top record and the tables than any body needs.
const PLENTY: [usize; 6] = [16, 4096, 12288, 4096, 4096, 8192];

/// How many cases had each number, and the differences.
#[derive(Default)]
struct Counts {
    numbers: [usize; 12],
    differences: usize,
}

impl Counts {
    fn add(&mut self, number: u64, difference: Option<String>) {
        self.numbers[number as usize] += 1;
        if let Some(text) = difference {
            self.differences += 1;
            if self.differences <= 5 {
                println!("{text}");
            }
        }
    }

    fn show(&self, what: &str) {
        let all: usize = self.numbers.iter().sum();
        let each = self.numbers.iter().enumerate().filter(|(_, n)| **n > 0);
        let each: Vec<String> = each.map(|(i, n)| format!("{i}: {n}")).collect();
        let (each, differences) = (each.join(", "), self.differences);
        println!("{what}: {all} cases ({each}), {differences} differences");
    }
}

fn hex(bytes: &[u8]) -> String {
    let shown = &bytes[..bytes.len().min(200)];
    let text: String = shown.iter().map(|b| format!("{b:02X}")).collect();
    format!("{text} ({} bytes)", bytes.len())
}

// ---- reading

/// What measuring is lent may be too short for its rows: the library answers as for the top record.
fn measured(kind: &Kind, a: &answers::Answers, lent: usize) -> (Answer, Vec<u16>) {
    if a.measured.number == 0 && lent < kind.tables.len() {
        let no_room = Answer {
            number: 3,
            value: 0,
            rows: 1,
        };
        return (no_room, vec![]);
    }
    (a.measured, a.rows.clone())
}

/// Lent are the top record, the tables, and last what measuring is lent.
fn compare_read(kind: &Kind, body: &[u8], lent: &[usize]) -> (u64, Option<String>) {
    let read = || answers::read(kind, body, lent);
    let shown = || format!("kind {}, {}", kind.number, hex(body));
    let Ok(a) = catch_unwind(AssertUnwindSafe(read)) else {
        let text = format!("{}: the Rust's record does not fit the body", shown());
        return (0, Some(text));
    };
    let last = lent.len() - 1;
    let mut expected: Vec<_> = lent.iter().map(|n| Lent::new(*n, 43981u16)).collect();
    let mut after = expected.clone();
    let kept = body.to_vec();
    let found = library::read(kind, &kept, &mut after);
    let (measured, rows) = measured(kind, &a, lent[last]);
    if let Some(r) = &a.record {
        let read = std::iter::once(&r.top).chain(&r.tables);
        expected.iter_mut().zip(read).for_each(|(e, t)| e.put(t));
    }
    expected[last].put(&rows);
    let wanted = [a.read, measured, a.tallied];
    let columns = after == expected;
    let text = || {
        let (shown, more) = (shown(), if columns { "" } else { ", and other columns" });
        format!("{shown}, lent {lent:?}: the Rust {wanted:?}, the library {found:?}{more}")
    };
    let same = found == wanted && columns && kept == body;
    (a.read.number, (!same).then(text))
}

// ---- writing

fn compare_write(r: &mut Random, kind: &Kind, v: &Value) -> (u64, Option<String>) {
    let whole = answers::write(kind, v, usize::MAX).0;
    let length = whole.value as usize;
    let room = match r.to(8) {
        0 if whole.number == 0 => r.to(length + 1),
        1 if whole.number == 0 => length - 1,
        2 => 65535 + r.to(3),
        3 => r.to(40),
        _ => length.min(70000) + r.one_of(&[0, 0, 1, 9]),
    };
    let (wanted, image) = answers::write(kind, v, room);
    let mut out = Lent::new(room, 171u8);
    let mut expected = out.clone();
    expected.put(&image.unwrap_or_default());
    let tables: Vec<Vec<u16>> = v.tables.iter().map(|t| t.to_vec()).collect();
    let store = v.store.to_vec();
    let found = library::write(kind, v, &mut out);
    let same = found == wanted && out == expected && v.tables == tables && v.store == store;
    let text = || {
        let bytes = if out == expected {
            ""
        } else {
            ", and other bytes"
        };
        let (top, tables, store) = (v.top, &v.tables, hex(v.store));
        format!("kind {}, top {top:?}, tables {tables:?}, store {store}, output {room}: the Rust {wanted:?}, the library {found:?}{bytes}", kind.number)
    };
    (wanted.number, (!same).then(text))
}

// ---- random cases

fn counts_of(r: &mut Random) -> Vec<[usize; 3]> {
    let languages = r.one_of(&[0, 1, 1, 1, 2, 2, 3, 5, 15]);
    let most = r.one_of(&[1, 2, 4, 4, 9, 32]);
    let group = if r.to(50) == 0 { 128 } else { most };
    (0..languages)
        .map(|_| [r.to(group), r.to(most), r.to(most)])
        .collect()
}

fn any_reserved(r: &mut Random) -> Reserved {
    let (mixed, ones, zeros) = (Reserved::Mixed, Reserved::Ones, Reserved::Zeros);
    r.one_of(&[mixed, mixed, mixed, mixed, ones, zeros])
}

/// A whole body.
fn whole_body(r: &mut Random, kind: &Kind) -> Vec<u8> {
    let trailing = r.one_of(&[0, 0, 0, 1, 2, 7, 30]);
    match kind.number {
        1 => {
            let count = r.one_of(&[0, 1, 2, 3, 10, 255]);
            let sets = (r.to(3) > 0).then_some(count);
            bodies::base(r, sets, trailing)
        }
        2 => {
            let shape = bodies::scene_shape(r, trailing);
            let reserved = any_reserved(r);
            bodies::scene(r, &shape, reserved)
        }
        3 => {
            let counts = counts_of(r);
            let most = r.one_of(&[0, 1, 3, 3, 12, 255]);
            let b = bodies::text_label(r, &counts, most, trailing);
            if b.len() > 65535 {
                return bodies::text_label(r, &counts, 3, trailing);
            }
            b
        }
        4 => {
            let count = r.one_of(&[0, 1, 2, 3, 5, 9, 30, 126, 127]);
            let aux = r.to(4);
            bodies::multi_stream(r, count, aux, trailing)
        }
        _ => {
            let shape = bodies::drc_loudness_shape(r, trailing);
            let reserved = any_reserved(r);
            bodies::drc_loudness(r, &shape, reserved)
        }
    }
}

/// Any body: whole, cut, damaged, lengthened, random bytes, or about 65,535 bytes.
fn any_body(r: &mut Random, kind: &Kind) -> Vec<u8> {
    let mut b = whole_body(r, kind);
    match r.to(10) {
        0 | 1 => b.truncate(r.to(b.len() + 1)),
        2 | 3 => {
            for _ in 0..1 + r.to(4) {
                let at = r.to(b.len());
                b[at] = r.byte();
            }
        }
        4 => {
            let at = r.to(b.len().min(12));
            b[at] ^= 1 << r.to(8);
        }
        5 => {
            let n = r.to(40);
            b = r.bytes(n);
        }
        6 => {
            let at = r.to(b.len());
            b.remove(at);
        }
        7 if r.to(400) == 0 => b.resize(65530 + r.to(10), 0x81),
        _ => {}
    }
    b
}

/// The columns of the top record and the tables, at least two, which a body is read into.
fn columns_of(kind: &Kind, body: &[u8]) -> Option<Vec<Vec<u16>>> {
    let read = || answers::read(kind, body, &PLENTY).record;
    let record: Record = catch_unwind(AssertUnwindSafe(read)).ok()??;
    let mut columns = vec![record.top];
    columns.extend(record.tables);
    columns.resize(columns.len().max(3), vec![]);
    Some(columns)
}

/// Lent columns of the top record and one row of each table, and of the rows of measuring.
fn one_row(kind: &Kind) -> Vec<usize> {
    match kind.number {
        2 => vec![kind.top, 27, 9, 2, 7, 13, 6],
        5 => vec![kind.top, 24, 2, 7, 4, 5],
        _ => vec![kind.top, 12, 8, 3],
    }
}

/// Lent columns: as many as are needed, some more or fewer, or none.
fn lent_for(r: &mut Random, kind: &Kind, body: &[u8]) -> Vec<usize> {
    let mut lent = one_row(kind);
    if let Some(columns) = columns_of(kind, body) {
        let tables = columns.iter().map(Vec::len).enumerate().skip(1);
        tables.for_each(|(i, n)| lent[i] = n);
    }
    for n in &mut lent {
        *n = match r.to(16) {
            0 => n.saturating_sub(1),
            1 => r.to(*n + 1),
            2 => 0,
            3 | 4 => *n + 1 + r.to(14),
            _ => *n,
        };
    }
    lent
}

fn read_cases(r: &mut Random, kind: &Kind, count: usize, counts: &mut Counts) {
    let mut lent = one_row(kind);
    lent[0] = 16;
    for n in 0..=2u32 {
        for i in 0..256u32.pow(n) {
            let body = &[i as u8, (i >> 8) as u8][..n as usize];
            let (number, difference) = compare_read(kind, body, &lent);
            counts.add(number, difference);
        }
    }
    for _ in 0..count {
        let body = any_body(r, kind);
        let lent = lent_for(r, kind, &body);
        let (number, difference) = compare_read(kind, &body, &lent);
        counts.add(number, difference);
    }
}

/// Which columns of the top record are bytes, and which are flags.
fn top_limits(kind: &Kind) -> (&'static [usize], &'static [usize]) {
    match kind.number {
        1 => (&[0, 5, 6, 7], &[1, 2]),
        2 => (&[0, 1, 4, 7, 10], &[2, 5, 8]),
        3 => (&[0, 1], &[]),
        _ => (&[0, 2, 3, 4], &[1]),
    }
}

/// Columns that make lists share rows, flags of a row at 0, 1 or 2, and a trailing run that brings the image to about 65,535 bytes.
fn change_more(r: &mut Random, kind: &Kind, columns: &mut [Vec<u16>], store: &mut Vec<u8>) {
    match kind.number {
        2 => change_scene(r, columns),
        5 => change_drc_loudness(r, columns, store),
        _ => {}
    }
    let rows = columns[1].len() / 5;
    if kind.number == 4 && rows > 0 && r.to(2) == 0 {
        columns[1][5 * r.to(rows) + 1 + r.to(3)] = r.one_of(&[0, 1, 0, 1, 0, 1, 2]);
    }
    let (languages, entries) = (columns[1].len() / 12, columns[2].len() / 4);
    if kind.number == 3 && languages > 0 && r.to(3) == 0 {
        let at = 12 * r.to(languages) + 3 * r.to(3) + 4;
        let first = r.to(entries + 1);
        columns[1][at] = first as u16;
        columns[1][at + 1] = r.to(entries + 1 - first) as u16;
    }
    if r.to(100) == 0 {
        store.resize(65536, 9);
        let most = r.one_of(&[3, 30, 300]);
        let length = 65536 - r.to(most);
        let top = &mut columns[0];
        let end = top.len();
        top[end - 2] = r.to(65537 - length) as u16;
        top[end - 1] = length.min(65535) as u16;
    }
}

/// A flag of a scene's row at 0, 1 or 2, and a list of rows that others may have, or of none, or of too many.
fn change_scene(r: &mut Random, columns: &mut [Vec<u16>]) {
    let flags = [
        (1, 27, &[3, 4, 7, 18, 23][..]),
        (2, 9, &[2, 3]),
        (5, 13, &[1, 3, 4, 5, 7]),
    ];
    let (table, width, flags) = r.one_of(&flags);
    let rows = columns[table].len() / width;
    if rows > 0 && r.to(2) == 0 {
        columns[table][width * r.to(rows) + r.one_of(flags)] = r.one_of(&[0, 1, 0, 1, 0, 1, 2]);
    }
    let (table, width, child) = r.one_of(&[(2, 9, 2), (4, 7, 13)]);
    let (rows, children) = (
        columns[table].len() / width,
        columns[table + 1].len() / child,
    );
    if rows > 0 && r.to(3) == 0 {
        let at = width * r.to(rows) + 5;
        let first = r.to(children + 1);
        columns[table][at] = first as u16;
        columns[table][at + 1] = r.to(children + 1 - first) as u16;
    }
}

/// A flag of an instruction at 0, 1 or 2, additional IDs that others may have, a scope whose case or kind may no longer fit the other, a field
/// at its width or over it, a payload of about 255 bytes, and a list of about as many rows as its count can hold.
fn change_drc_loudness(r: &mut Random, columns: &mut [Vec<u16>], store: &mut Vec<u8>) {
    let (rows, ids) = (columns[1].len() / 24, columns[2].len() / 2);
    if rows > 0 && r.to(3) == 0 {
        columns[1][24 * r.to(rows) + r.one_of(&[13, 15, 18])] = r.one_of(&[0, 1, 0, 1, 0, 1, 2]);
    }
    if rows > 0 && r.to(3) == 0 {
        let at = 24 * r.to(rows) + 10;
        let first = r.to(ids + 1);
        columns[1][at] = first as u16;
        columns[1][at + 1] = r.to((ids - first).min(8) + 1) as u16;
    }
    let (table, width) = r.one_of(&[(1, 24), (3, 7)]);
    let rows = columns[table].len() / width;
    if rows > 0 && r.to(3) == 0 {
        let at = width * r.to(rows);
        if r.to(3) > 0 {
            columns[table][at + 1] = r.one_of(&[0, 1, 2, 0, 1, 2, 3]);
        }
        if r.to(3) > 0 {
            columns[table][at + 2] = r.one_of(&[0, 1, 2, 3, 0, 1, 2, 3, 4]);
        }
        if r.to(3) == 0 {
            columns[table][at + r.one_of(&[0, 3, 4])] = r.one_of(&[2, 8, 32, 64, 128]);
        }
    }
    let table = r.one_of(&[0, 0, 0, 1, 2, 3]);
    let widths = DRC_LOUDNESS_WIDTHS[table];
    let rows = columns[table + 1].len() / widths.len();
    let at = r.to(widths.len());
    if rows > 0 && (1..16).contains(&widths[at]) {
        let row = widths.len() * r.to(rows);
        columns[table + 1][row + at] = (1 << widths[at]) - r.to(2) as u16;
    }
    let rows = columns[3].len() / 7;
    if rows > 0 && r.to(10) == 0 {
        store.resize(store.len().max(300), 9);
        let at = 7 * r.to(rows) + 5;
        columns[3][at] = r.to(40) as u16;
        columns[3][at + 1] = 254 + r.to(4) as u16;
    }
    let (column, table, width, most) = r.one_of(&[(5, 1, 24, 63), (6, 3, 7, 63), (7, 4, 4, 31)]);
    if columns[table].len() >= width && r.to(10) == 0 {
        let count = most + r.to(3);
        let row = columns[table][..width].to_vec();
        columns[table] = row.repeat(count);
        columns[0][column] = count as u16;
    }
}

/// A value that was read from a body, changed.
fn write_case(r: &mut Random, kind: &Kind) -> (u64, Option<String>) {
    let mut body = whole_body(r, kind);
    if r.to(200) == 0 {
        body.resize(65400 + r.to(136), 7);
    }
    let Some(mut columns) = columns_of(kind, &body) else {
        let (kind, shown) = (kind.number, hex(&body));
        let text = format!("kind {kind}, {shown}: the Rust refuses a whole body");
        return (0, Some(text));
    };
    change(r, &mut columns, &mut body);
    change_more(r, kind, &mut columns, &mut body);
    let (bytes, flags) = top_limits(kind);
    bytes.iter().for_each(|&i| columns[0][i] %= 256);
    flags.iter().for_each(|&i| columns[0][i] %= 2);
    let value = Value {
        top: &columns[0],
        tables: columns[1..].iter().map(Vec::as_slice).collect(),
        store: &body,
    };
    let compared = catch_unwind(AssertUnwindSafe(|| compare_write(r, kind, &value)));
    compared.unwrap_or_else(|_| {
        let (kind, top) = (kind.number, &columns[0]);
        let text = format!("kind {kind}, top {top:?}: the Rust does not refuse what it has to");
        (0, Some(text))
    })
}

/// Some columns, and perhaps another store, and tables with a rest or a column fewer.
fn change(r: &mut Random, columns: &mut [Vec<u16>], store: &mut Vec<u8>) {
    for t in &mut columns[1..] {
        match r.to(12) {
            0 => drop(t.pop()),
            1 | 2 => t.extend(vec![r.next() as u16; r.to(9)]),
            _ => {}
        }
    }
    for _ in 0..r.one_of(&[0, 1, 1, 1, 2, 2, 3, 6]) {
        let table = r.to(columns.len());
        if !columns[table].is_empty() {
            let at = r.to(columns[table].len());
            columns[table][at] = r.edge(store.len()) as u16;
        }
    }
    match r.to(20) {
        0 => store.truncate(r.to(store.len() + 1)),
        1 => store.resize(r.one_of(&[0, 255, 256, 300, 65535, 65536]), 9),
        _ => {}
    }
}

fn main() {
    let arguments: Vec<u64> = std::env::args()
        .skip(1)
        .map(|a| a.parse().expect("a number"))
        .collect();
    let [seed, count] = arguments[..] else {
        panic!("compare SEED COUNT");
    };
    std::panic::set_hook(Box::new(|_| {}));
    // the scene came later, then DRC and loudness: with numbers of their own they leave the cases of the other kinds as they were
    let (others, scene) = (&mut Random(seed), &mut Random(!seed));
    let drc_loudness = &mut Random(seed.rotate_left(32));
    let mut differences = 0;
    for kind in &KINDS {
        let r = match kind.number {
            2 => &mut *scene,
            5 => &mut *drc_loudness,
            _ => &mut *others,
        };
        let (mut reads, mut writes) = (Counts::default(), Counts::default());
        read_cases(r, kind, count as usize, &mut reads);
        for _ in 0..count / 10 {
            let (number, difference) = write_case(r, kind);
            writes.add(number, difference);
        }
        reads.show(&format!("kind {}, bodies", kind.number));
        writes.show(&format!("kind {}, values", kind.number));
        differences += reads.differences + writes.differences;
    }
    std::process::exit(i32::from(differences > 0));
}
