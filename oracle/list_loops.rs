//! The cases of descriptor loops, kind 6. Table 13 is their first table.
use crate::bodies::Random;
use crate::{
    ask, body, cuts, every_value, line, output, outputs, run, say, set, unhex, write_with,
};

/// H.222.0's extension tags: base, scene, text label, multi-stream, DRC and loudness.
const TAGS: [u8; 5] = [0x08, 0x0A, 0x0B, 0x0C, 0x0D];
/// A body of each kind, of document 01's bench.
const BODIES: [&str; 5] = [
    "05C03F",
    "40000102008505",
    "07F1656E6780E0E1E2024869",
    "818082070885",
    "01000100018500",
];
/// Others that stand in loops: ISO 639 language, registration, stream identifier.
const LANGUAGE: &str = "0A04656E6700";
const REGISTRATION: &str = "050448444D56";
const STREAM: &str = "520111";

// ---- loops

fn descriptor(tag: u8, content: &[u8]) -> Vec<u8> {
    [&[tag, content.len() as u8], content].concat()
}

/// The descriptor of a kind.
fn ours(kind: usize) -> Vec<u8> {
    let content = [vec![TAGS[kind - 1]], unhex(BODIES[kind - 1])].concat();
    descriptor(63, &content)
}

/// All five kinds between other descriptors, as an elementary stream has them.
fn stream_loop() -> Vec<u8> {
    [
        unhex(LANGUAGE),
        ours(1),
        ours(2),
        unhex(REGISTRATION),
        ours(3),
        unhex(STREAM),
        ours(4),
        ours(5),
    ]
    .concat()
}

/// The kinds from the last to the first, one of them twice, and others whose bytes look like ours.
fn other_loop() -> Vec<u8> {
    let kinds = (1..6).rev().flat_map(ours);
    let others = unhex("3F003F01093F0207083E040805C03F4003080A0B000108");
    kinds.chain(others).chain(ours(1)).collect()
}

/// Of each descriptor of a sound loop where it begins and the length of its content.
fn descriptors(bytes: &[u8]) -> Vec<(usize, usize)> {
    let mut found = vec![];
    let mut at = 0;
    while at < bytes.len() {
        let length = usize::from(bytes[at + 1]);
        found.push((at, length));
        at += 2 + length;
    }
    found
}

/// The columns of its rows.
fn columns_of(bytes: &[u8]) -> usize {
    4 * descriptors(bytes).len()
}

/// A descriptor as loops have them: mostly of tag 63, mostly with a supplied tag.
fn any_descriptor(r: &mut Random, tags: &[u8; 5], most: usize) -> Vec<u8> {
    let n = r.to(most + 1);
    let mut content = r.bytes(n);
    if n > 0 && r.to(4) > 0 {
        content[0] = r.one_of(tags);
    }
    let tag = r.byte();
    descriptor(r.one_of(&[63, 63, 63, 62, tag]), &content)
}

/// Descriptors of so many bytes in all, at least 2: the last fills what is left.
fn long_loop(length: usize) -> Vec<u8> {
    let mut b = vec![];
    while length - b.len() >= 259 {
        b.extend(descriptor(63, &[0x0B; 255]));
    }
    let left = length - b.len();
    if left <= 257 {
        b.extend(descriptor(0x80, &vec![7; left - 2]));
    } else {
        b.extend(descriptor(63, &[0x08; 254]));
        b.extend(descriptor(63, &[]));
    }
    b
}

fn supply(tags: [u8; 5]) {
    line('e', &tags);
}

/// Lends so many columns of table 13.
fn lend(columns: usize) {
    line('l', &[0, columns]);
}

// ---- walking

fn small() {
    say("every loop of 0, 1 and 2 bytes, one digest for each length");
    lend(5);
    line('s', &[0, 1]);
    line('s', &[1, 256]);
    line('s', &[2, 65536]);
}

fn sound() {
    say("the empty loop; all five kinds between other descriptors, with their cuts");
    lend(64);
    for b in [vec![], stream_loop(), other_loop()] {
        body(&b);
        ask('c');
    }
    say("small loops: no content, an extension tag alone, other tags with a supplied tag as their first byte, and their cuts");
    let loops = "3F00 3F0108 3F010D 3F0107 3F0100 3F020808 3F0209080A 3E0108 40010A BF0108 3F003F00 3F013F 0001083F00 3F0300083F FF00";
    for text in loops.split(' ') {
        body(&unhex(text));
        ask('c');
    }
    say("every value of a tag, of an extension tag, and of a length, in a loop that is long enough and in one that is not");
    body(&ours(1));
    every_value(0);
    every_value(2);
    every_value(1);
    line('f', &[600, 0]);
    lend(2048);
    every_value(1);
}

fn damaged() {
    say("each bit of a loop with all five kinds");
    lend(64);
    let b = stream_loop();
    body(&b);
    for (at, byte) in b.iter().enumerate() {
        (0..8).for_each(|bit| line('d', &[at, usize::from(byte ^ 1 << bit)]));
    }
}

fn room() {
    say("tables: none, a column short, exact, longer; after a short loop; a rest shorter than a row counts for none");
    let b = stream_loop();
    let n = columns_of(&b);
    body(&b);
    for columns in [0, 1, 3, 4, 5, n - 4, n - 1, n, n + 1, n + 3, n + 4, 4096] {
        lend(columns);
        ask('r');
        line('n', &[b.len() - 1]);
        line('n', &[6]);
        line('n', &[0]);
    }
}

fn other_tags() {
    say("other supplied tags: exchanged, 0, 255, 63");
    lend(64);
    body(&stream_loop());
    for t in [
        [13, 12, 11, 10, 8],
        [10, 8, 12, 11, 13],
        [0, 255, 63, 8, 1],
        [1, 2, 3, 4, 5],
        [255, 254, 253, 252, 0],
    ] {
        supply(t);
        ask('r');
        line('d', &[8, 0]);
        line('d', &[8, 63]);
        line('d', &[8, 255]);
    }
    supply(TAGS);
}

fn equal_tags() {
    say("each pair of equal tags is 12, before a loop that is too long, that is short, and before no room");
    for second in 1..5 {
        for first in 0..second {
            same_tags(first, second);
        }
    }
    say("more than two equal tags");
    for t in [
        [8, 8, 8, 12, 13],
        [8, 10, 8, 10, 8],
        [9, 9, 9, 9, 9],
        [0, 0, 0, 0, 0],
        [255, 255, 1, 1, 1],
    ] {
        supply(t);
        body(&stream_loop());
        ask('r');
        line('n', &[0]);
    }
    supply(TAGS);
}

fn same_tags(first: usize, second: usize) {
    let mut t = TAGS;
    t[second] = t[first];
    supply(t);
    body(&stream_loop());
    lend(64);
    ask('r');
    line('n', &[7]);
    lend(0);
    ask('r');
    run(1024, 0);
    ask('r');
}

fn lengths() {
    say("1,023 bytes are judged, 1,024 are refused; of each a loop that is short");
    lend(2048);
    for n in [1020, 1021, 1022, 1023, 1024, 1025, 1026] {
        body(&long_loop(n));
        ask('r');
        line('n', &[n - 1]);
        line('f', &[1, 1]);
        ask('r');
    }
}

fn most_rows() {
    say("zeros: 511 empty descriptors, and a byte more, which is short; far too long");
    run(65536, 0);
    for n in [1021, 1022, 1023, 1024, 1025, 2048, 65535, 65536] {
        line('n', &[n]);
    }
    run(1022, 0);
    for columns in [2048, 2047, 2045, 2044, 2043, 2040, 4, 0] {
        lend(columns);
        ask('r');
    }
    say("63 without content, 511 times; an extension tag alone, 341 times");
    lend(2044);
    body(&[63, 0].repeat(511));
    ask('r');
    body(&[63, 1, 12].repeat(341));
    ask('r');
    line('n', &[1022]);
    lend(1363);
    ask('r');
}

fn contents() {
    say("contents that end at the loop's end, and past it by one");
    lend(64);
    for n in [0, 1, 2, 63, 127, 128, 254, 255] {
        let b = [unhex(STREAM), descriptor(63, &vec![0x0D; n])].concat();
        cuts(&b);
        line('d', &[4, (n + 1) % 256]);
    }
}

fn any(r: &mut Random) {
    say("random loops, their cuts, bytes replaced");
    for i in 0..24 {
        let tags = std::array::from_fn(|k| if i % 3 == 0 { r.byte() } else { TAGS[k] });
        supply(tags);
        let most = r.one_of(&[3, 12, 40, 255]);
        let count = r.to(1 + 600 / (most + 2)).min(12);
        let b: Vec<u8> = (0..count)
            .flat_map(|_| any_descriptor(r, &tags, most))
            .collect();
        lend((4 * count + r.to(9)).saturating_sub(r.one_of(&[0, 0, 4])));
        cuts(&b);
        for _ in 0..20.min(b.len()) {
            line('d', &[r.to(b.len()), r.to(256)]);
        }
    }
    supply(TAGS);
}

// ---- writing

/// A store for contents of any length.
fn store() {
    body(&[vec![9; 300], vec![8, 7, 6, 5, 4]].concat());
}

/// Three descriptors, from a store of 305 bytes.
const THREE: [usize; 12] = [63, 1, 300, 5, 10, 0, 0, 4, 82, 0, 304, 1];
const IMAGE: usize = 16;
const LENGTH: usize = 305;

fn three() {
    store();
    line('1', &THREE);
    output(IMAGE + 3);
}

fn columns() {
    say("three descriptors: every column at and over its width; the kind is not looked at");
    three();
    outputs(IMAGE);
    for at in 0..12 {
        let values: &[usize] = match at % 4 {
            0 => &[0, 1, 62, 63, 64, 255, 256, 257, 319, 65535],
            1 => &[0, 1, 2, 3, 4, 5, 6, 63, 255, 256, 65535],
            2 => &[0, 1, 299, 300, 301, 303, 304, 305, 306, 65535],
            _ => &[0, 1, 2, 4, 5, 6, 254, 255, 256, 304, 305, 306, 65535],
        };
        values.iter().for_each(|v| write_with(1, at, *v));
    }
    say("the same into an output that is too short: a fault before 4");
    output(IMAGE - 1);
    for at in 0..12 {
        [0, 255, 256, 305, 65535]
            .iter()
            .for_each(|v| write_with(1, at, *v));
    }
}

/// Writes this row alone, and behind another.
fn write_row(offset: usize, length: usize) {
    line('1', &[63, 0, offset, length]);
    ask('w');
    line('1', &[64, 0, 0, 0, 63, 0, offset, length]);
    ask('w');
}

fn ranges() {
    say("contents to the store's end and past it, in the first row and in the second; with an empty store too");
    output(1023);
    for store in [0, 1, 255, 256, LENGTH, 65535, 65536] {
        run(store, 3);
        for at in [
            0, 0, 0, 1, 1, 0, 0, 255, 0, 256, 1, 255, 65535, 0, 65535, 1, 65535, 65535,
        ]
        .chunks(2)
        {
            write_row(at[0], at[1]);
        }
        for length in [0, 1, 2, 255, 256] {
            let last = store.saturating_sub(length);
            write_row(last.min(65535), length);
            write_row((last + 1).min(65535), length);
        }
    }
}

/// The faults 6, 5 and 13 in any combination: 6 and 13 together are one length.
fn faulty(which: usize) -> [usize; 4] {
    let tag = if which & 2 > 0 { 256 } else { 63 };
    let (offset, length) = match (which & 1 > 0, which & 4 > 0) {
        (false, false) => (300, 5),
        (true, false) => (301, 5),
        (false, true) => (0, 256),
        (true, true) => (50, 256),
    };
    [tag, which, offset, length]
}

fn orders() {
    say("in a row 6, then 5, then 13; before them the rows above: every combination in two rows, into outputs long enough and not");
    store();
    for n in [64, 0] {
        output(n);
        for which in 0..64 {
            let rows = [faulty(0), faulty(which % 8), faulty(which / 8)].concat();
            line('1', &rows);
            ask('w');
        }
    }
}

fn whole_rows() {
    say("every whole row is written, and no other: no columns, a rest shorter than a row, which may hold anything");
    store();
    output(IMAGE);
    for n in 0..13 {
        line('1', &THREE[..n]);
        ask('w');
        let rest: Vec<usize> = (0..n)
            .map(|i| if i < n / 4 * 4 { THREE[i] } else { 65535 })
            .collect();
        line('1', &rest);
        ask('w');
    }
    say("rows that share bytes of the store, and rows that are equal");
    line(
        '1',
        &[63, 1, 300, 5, 63, 1, 300, 5, 5, 0, 298, 4, 63, 1, 300, 5],
    );
    outputs(27);
}

/// Rows whose loop has so many bytes.
fn rows_of(length: usize) -> Vec<usize> {
    let b = long_loop(length);
    let row = |(at, length): (usize, usize)| [b[at].into(), 0, at % 40, length];
    descriptors(&b).into_iter().flat_map(row).collect()
}

fn longest() {
    say("loops of 1,023 bytes and over: 10, then 4; a fault before both");
    store();
    for length in [1022, 1023, 1024, 1025, 1500] {
        let rows = rows_of(length);
        line('1', &rows);
        for n in [0, 1021, 1022, 1023, 1024, 1600] {
            output(n);
            ask('w');
        }
        for at in rows.len() - 4..rows.len() {
            write_with(1, at, 306);
        }
    }
}

fn most_written() {
    say("511 and 512 empty descriptors; 1,024 full ones, and faults far behind 1,023");
    output(1023);
    for count in [511, 512, 1024] {
        line('1', &[0, 9, 305, 0].repeat(count));
        ask('w');
    }
    line('1', &[63, 9, 0, 255].repeat(1024));
    ask('w');
    for at in 4092..4096 {
        [0, 254, 255, 256, 300, 65535]
            .iter()
            .for_each(|v| write_with(1, at, *v));
    }
    for row in [1, 2, 3, 4, 5, 254, 255, 256, 1000] {
        write_with(1, 4 * row, 256);
        write_with(1, 4 * row + 2, 51);
        write_with(1, 4 * row + 3, 256);
    }
    set(1, 4000, 256);
    write_with(1, 4092, 256);
    write_with(1, 3996, 256);
    write_with(1, 4003, 256);
    write_with(1, 4002, 51);
}

fn back(r: &mut Random) {
    say("walked and written back from exactly the rows, with a rest, and with a row of what stood there before");
    for b in [
        stream_loop(),
        other_loop(),
        long_loop(1023),
        long_loop(700),
        unhex("3F00"),
        vec![0; 1022],
    ] {
        body(&b);
        for more in [0, 3, 4] {
            lend(columns_of(&b) + more);
            ask('r');
            outputs(b.len());
        }
    }
    say("the empty loop");
    body(&[]);
    lend(0);
    ask('r');
    for n in [0, 1] {
        output(n);
        ask('w');
    }
    changed(r);
}

/// A column of a walked loop is replaced, and then another.
fn changed(r: &mut Random) {
    say("walked, and written with columns at and over their widths");
    for b in [stream_loop(), other_loop()] {
        body(&b);
        let columns = columns_of(&b);
        lend(columns);
        ask('r');
        output(b.len() + 20);
        for _ in 0..120 {
            write_with(1, r.to(columns), r.edge(b.len()));
        }
        for _ in 0..40 {
            ask('r');
            set(1, r.to(columns), r.edge(b.len()));
            write_with(1, r.to(columns), r.edge(b.len()));
            write_with(1, r.to(columns), r.edge(b.len()));
        }
    }
}

pub fn cases(r: &mut Random) {
    supply(TAGS);
    small();
    sound();
    damaged();
    room();
    other_tags();
    equal_tags();
    lengths();
    most_rows();
    contents();
    any(r);
    columns();
    ranges();
    orders();
    whole_rows();
    longest();
    most_written();
    back(r);
}
