//! The cases of the DRC and loudness body, kind 5.
use crate::bodies::{
    self, DrcLoudness, Instruction, Loudness, Random, Reserved, DRC_LOUDNESS_WIDTHS,
};
use crate::{
    ask, body, cut_each, cuts, damage, every_value, hex, line, long, output, outputs, run, say,
    set, unhex, write_tops, write_with,
};

/// The columns of a row of tables 9 to 12.
const COLUMNS: [usize; 4] = [24, 2, 7, 4];
/// The rows that no body exceeds.
const FULL: [usize; 4] = [63, 441, 63, 31];
/// The parts of an instruction, in every combination: a lower value is in a target loudness.
const PARTS: [u8; 6] = [0, 1, 2, 3, 5, 7];
const ALL_RESERVED: [Reserved; 3] = [Reserved::Mixed, Reserved::Ones, Reserved::Zeros];

/// Lends so many columns for the top record and tables 9 to 12.
fn lend(lent: [usize; 5]) {
    line('l', &lent);
}

/// The columns of so many rows and of a top record.
fn exactly(rows: [usize; 4]) -> [usize; 5] {
    std::array::from_fn(|i| {
        if i == 0 {
            10
        } else {
            rows[i - 1] * COLUMNS[i - 1]
        }
    })
}

/// Lends for a shape, and up to so many columns more.
fn lend_for(r: &mut Random, s: &DrcLoudness, more: usize) {
    lend(exactly(s.rows()).map(|n| n + r.to(more + 1)));
}

/// Lends a row and a column of each table.
fn lend_one() {
    lend([11, 25, 3, 8, 5]);
}

fn instruction(kind: usize, ids: usize, parts: u8) -> Instruction {
    let kind = kind as u8;
    Instruction { kind, ids, parts }
}

fn loudness(kind: usize, length: usize) -> Loudness {
    let kind = kind as u8;
    Loudness { kind, length }
}

/// A body with info.
fn with(instructions: &[Instruction], loudness: &[Loudness], definitions: usize) -> DrcLoudness {
    DrcLoudness {
        info: true,
        instructions: instructions.to_vec(),
        loudness: loudness.to_vec(),
        definitions,
        trailing: 0,
    }
}

fn trailed(s: DrcLoudness, trailing: usize) -> DrcLoudness {
    DrcLoudness { trailing, ..s }
}

/// As many rows as there can be, with all their parts, all types, and payloads of 0, 1 and 255 bytes.
fn full() -> DrcLoudness {
    let instructions: Vec<Instruction> = (0..63).map(|i| instruction(i % 4, 7, 7)).collect();
    let payload = |i: usize| loudness(i % 4, [0, 1, 255][i % 3]);
    with(
        &instructions,
        &(0..63).map(payload).collect::<Vec<Loudness>>(),
        31,
    )
}

fn mixed(r: &mut Random, s: &DrcLoudness) -> Vec<u8> {
    bodies::drc_loudness(r, s, Reserved::Mixed)
}

/// Reads a body of this shape and all its cuts.
fn cut_all(r: &mut Random, s: &DrcLoudness) {
    body(&mixed(r, s));
    ask('c');
}

// ---- reading

fn small() {
    say("every body of 0, 1 and 2 bytes, one digest for each length");
    lend_one();
    line('s', &[0, 1]);
    line('s', &[1, 256]);
    line('s', &[2, 65536]);
}

fn scopes(r: &mut Random) {
    say("the bench bodies of document 01, and small ones, with their cuts; a row and a column are lent in each table");
    cut_each("01010000010000000000 01000100018500 00 FE FF00 01000000 01C0C0E0 0100000102 010000010283AB 00FFFF");
    say("each type of a scope in both lists, with all cuts");
    for kind in 0..4 {
        for parts in [0, 7] {
            cut_all(r, &with(&[instruction(kind, 1, parts)], &[], 0));
        }
        for length in [0, 1, 3] {
            cut_all(r, &with(&[], &[loudness(kind, length)], 0));
        }
    }
    say("each pair of types in both lists");
    for i in 0..16 {
        let (a, b) = (i / 4, i % 4);
        let s = with(
            &[instruction(a, 0, 0), instruction(b, 0, 0)],
            &[loudness(a, 1), loudness(b, 0)],
            1,
        );
        lend(exactly(s.rows()));
        cut_all(r, &s);
    }
}

fn instructions(r: &mut Random) {
    say("instructions with 0 to 7 additional IDs and every combination of limiter, target loudness and lower value, with all cuts");
    for ids in 0..8 {
        for (i, parts) in PARTS.into_iter().enumerate() {
            let rows = [instruction(ids + i, ids, parts), instruction(i + 1, 0, 0)];
            let rows = rows.map(|row| Instruction {
                kind: row.kind % 4,
                ..row
            });
            let s = trailed(with(&rows, &[], 0), i % 3);
            lend_for(r, &s, 3);
            cut_all(r, &s);
        }
    }
    say("all of them of one type, reserved bits mixed, all 1, all 0");
    for kind in 0..4 {
        let some = |i: usize| instruction(kind, i / 6, PARTS[i % 6]);
        let rows: Vec<Instruction> = (0..48).map(some).collect();
        let s = trailed(with(&rows, &[], 1), 1);
        lend(exactly(s.rows()));
        for reserved in ALL_RESERVED {
            body(&bodies::drc_loudness(r, &s, reserved));
            ask('r');
            [3, 4, 100, 300].iter().for_each(|n| line('n', &[n]));
        }
    }
}

fn payloads(r: &mut Random) {
    say("payloads of 0 to 255 bytes of each type, cut behind each of their parts");
    for kind in 0..4 {
        for length in [0, 1, 2, 127, 128, 254, 255] {
            let s = with(&[], &[loudness(kind, length), loudness(3 - kind, 0)], 1);
            lend_for(r, &s, 3);
            let b = mixed(r, &s);
            body(&b);
            let n = b.len();
            [n, n - 1, n - 3, n - 5, n / 2]
                .iter()
                .for_each(|n| line('n', &[n]));
        }
    }
}

fn lists(r: &mut Random) {
    say("each list empty, of one row and of two, with all cuts, and with a trailing run");
    for i in 0..27 {
        let (a, b, definitions) = (i / 9, i / 3 % 3, i % 3);
        let rows = [instruction(2, 1, 7), instruction(1, 0, 1)];
        let some = [loudness(1, 2), loudness(0, 1)];
        let s = with(&rows[..a], &some[..b], definitions);
        lend_for(r, &s, 1);
        cut_all(r, &s);
        body(&mixed(r, &trailed(s, 3)));
        ask('r');
    }
    say("lists from empty to full");
    for n in [0, 1, 2, 3, 15, 16, 30, 31, 32, 33, 62, 63] {
        let rows: Vec<Instruction> = (0..n)
            .map(|i| instruction(i % 4, i % 8, PARTS[i % 6]))
            .collect();
        let some: Vec<Loudness> = (0..n).map(|i| loudness(i % 4, i % 3)).collect();
        let shapes = [with(&rows, &[], 0), with(&[], &some, 0), with(&[], &[], n)];
        for s in shapes.into_iter().filter(|s| s.definitions < 32) {
            lend_for(r, &s, 2);
            let b = mixed(r, &trailed(s, 2));
            body(&b);
            ask('r');
            let n = b.len();
            [n - 2, n - 3, n / 2].iter().for_each(|n| line('n', &[n]));
        }
    }
}

fn steering(r: &mut Random) {
    say("every bit of a body with all there is, which has a trailing run to take bytes from, all of them below 8");
    let s = with(
        &[instruction(2, 3, 7), instruction(3, 0, 1)],
        &[loudness(1, 3), loudness(0, 2), loudness(3, 2)],
        2,
    );
    lend(exactly(FULL));
    let mut b = mixed(r, &s);
    let k = b.len();
    b.extend(r.bytes(800).iter().map(|byte| byte & 7));
    body(&b);
    (0..k).for_each(|at| damage(r, &b, at, 0));
    say("every value of the bytes that steer: types, count and flags of an instruction; every count of each list, and some lengths");
    // the instructions begin at 4, the loudness entries at 27
    [4, 8, 27].into_iter().for_each(every_value);
    for (at, width) in [(1, 6), (2, 6), (3, 5)] {
        // with some of the reserved bits above the count
        let with_reserved = |count: usize| count | count << width & 0xFF;
        (0..1 << width).for_each(|count| line('d', &[at, with_reserved(count)]));
    }
    (0..256).step_by(7).for_each(|v| line('d', &[29, v]));
}

fn no_room(r: &mut Random) {
    say("no room: the top record, then the lowest table; a column short is a row short, and room is judged after the end");
    let s = trailed(
        with(
            &[instruction(1, 1, 0), instruction(2, 2, 7)],
            &[loudness(0, 1), loudness(3, 2)],
            3,
        ),
        2,
    );
    let exact = exactly(s.rows());
    let row = |i: usize| if i == 0 { 10 } else { COLUMNS[i - 1] };
    let b = mixed(r, &s);
    body(&b);
    for short in 0..32 {
        lend(std::array::from_fn(|i| exact[i] - (short >> i & 1)));
        ask('r');
        lend(std::array::from_fn(|i| {
            exact[i] - (short >> i & 1) * row(i)
        }));
        ask('r');
    }
    for i in 0..5 {
        let n = exact[i];
        for n in [n - row(i), n - 1, n + 1, n + row(i), 0] {
            let mut lent = exact;
            lent[i] = n;
            lend(lent);
            for cut in [b.len() - 3, b.len() - 2, b.len()] {
                line('n', &[cut]);
            }
        }
    }
}

fn full_body(r: &mut Random) {
    say(
        "all rows with all their parts: reserved bits mixed, all 1, all 0; read, cut, written back",
    );
    for reserved in ALL_RESERVED {
        let b = bodies::drc_loudness(r, &full(), reserved);
        body(&b);
        let exact = exactly(FULL);
        for short in 0..5 {
            lend(std::array::from_fn(|i| {
                exact[i] + 1 - 2 * usize::from(i == short)
            }));
            ask('r');
        }
        lend(exact);
        // cuts in each list, and at its start
        for cut in [500, 1105, 1106, 1107, 3000, 6654, 6655, 6656, 6700, 6716] {
            line('n', &[cut]);
        }
        ask('r');
        outputs(b.len());
        // faults in the last rows
        for (table, row) in FULL.iter().enumerate() {
            let last = (row - 1) * COLUMNS[table];
            for at in 0..COLUMNS[table] {
                write_with(table + 1, last + at, r.one_of(&[2, 3, 256]));
            }
        }
    }
}

/// 63 payloads of 255 bytes, behind all instructions with all their parts.
fn longest(r: &mut Random) {
    say("the longest body without a trailing run, of 17,454 bytes");
    let rows: Vec<Instruction> = (0..63).map(|i| instruction(2 + i % 2, 7, 7)).collect();
    let mut b = mixed(r, &with(&rows, &[], 0));
    // the counts of all three lists
    b[2] |= 63;
    b[3] |= 31;
    body(&b);
    for i in 0..63 {
        let id = [0xA0 + i, 0x40 | i][i as usize % 2];
        println!(
            "a {}\nf 255 {}",
            hex(&[4 * i + 1 + i % 3, id, 255]),
            i + 100
        );
    }
    println!("a {}", hex(&r.bytes(62)));
    lend(exactly(FULL));
    for n in [17454, 17453, 17392, 17391] {
        line('n', &[n]);
    }
    ask('r');
    outputs(17454);
    longest_and_trailing();
}

fn longest_and_trailing() {
    say("the same and a trailing run, to 65,535 bytes and over; the largest image, of 17,454 + 65,535 bytes, and faults in it");
    line('f', &[65536 - 17454, 0]);
    for n in [65536, 65534, 65535] {
        line('n', &[n]);
        ask('w');
    }
    set(0, 8, 0);
    set(0, 9, 65535);
    for n in [0, 65535, 65536] {
        output(n);
        ask('w');
        // the last definition, a payload's length, an instruction's scope and its last field
        let faults = [[4, 123, 64], [3, 440, 256], [1, 1489, 0], [1, 1511, 2]];
        faults.iter().for_each(|f| write_with(f[0], f[1], f[2]));
    }
}

fn any_shapes(r: &mut Random) {
    say("any shapes, their cuts, damaged copies");
    for _ in 0..16 {
        let trailing = r.one_of(&[0, 0, 1, 5, 40]);
        let s = bodies::drc_loudness_shape(r, trailing);
        let b = mixed(r, &s);
        lend_for(r, &s, 14);
        cuts(&b);
        for _ in 0..2 {
            let at = r.to(b.len());
            damage(r, &b, at, 1);
        }
    }
    lend(exactly(FULL));
    long("00 01000000 01FFFFFF 01000100018500 FF");
}

// ---- writing

/// A value with rows of each scope that have all their parts, none, and some. The last rows of tables 10 to 12 are in no list, and the last
/// instruction is past the count.
const TOP: [usize; 10] = [100, 1, 2, 1, 5, 4, 4, 2, 1, 2];
const INSTRUCTIONS: [[usize; 24]; 5] = [
    [
        63, 0, 1, 9, 999, 3, 5, 1, 100, 7, 0, 2, 4660, 1, 200, 1, 1, 40, 1, 3, 20, 1, 7, 1,
    ],
    [
        21, 0, 0, 9, 999, 2, 63, 0, 0, 5, 2, 0, 65535, 0, 999, 0, 9, 99, 9, 9, 99, 9, 99, 9,
    ],
    [
        63, 1, 2, 1, 127, 1, 9, 0, 3, 7, 2, 1, 513, 1, 255, 1, 0, 63, 1, 2, 63, 0, 0, 0,
    ],
    [
        42, 2, 99, 7, 31, 0, 8, 1, 4, 0, 3, 2, 0, 0, 999, 1, 1, 0, 0, 9, 99, 1, 63, 1,
    ],
    [999; 24],
];
const ADDITIONAL: [[usize; 2]; 6] = [[1, 5], [0, 127], [1, 0], [0, 6], [1, 7], [9, 999]];
const LOUDNESS: [[usize; 7]; 5] = [
    [63, 0, 0, 9, 999, 0, 2],
    [5, 1, 1, 1, 100, 1, 3],
    [63, 1, 2, 0, 127, 6, 0],
    [40, 2, 99, 5, 31, 0, 6],
    [999; 7],
];
const DEFINITIONS: [[usize; 4]; 3] = [[1, 5, 3, 19], [0, 127, 0, 63], [9, 999, 9, 99]];
/// The length of its image: head, instructions, loudness entries, definitions, trailing run.
const IMAGE: usize = 4 + (12 + 6 + 13 + 11) + (4 + 6 + 3 + 9) + 4 + 2;
/// The columns of its rows that are in lists.
const LISTED: [usize; 4] = [96, 10, 28, 8];

fn some_rows() -> [Vec<usize>; 4] {
    [
        INSTRUCTIONS.concat(),
        ADDITIONAL.concat(),
        LOUDNESS.concat(),
        DEFINITIONS.concat(),
    ]
}

/// The line that sets a table.
fn table(number: usize, columns: &[usize]) {
    line(['1', '2', '3', '4'][number - 1], columns);
}

fn some_table(number: usize) {
    table(number, &some_rows()[number - 1]);
}

fn some_of_each() {
    body(b"Hello!");
    line('t', &TOP);
    (1..5).for_each(some_table);
    output(IMAGE + 9);
}

/// Every column of the rows of `some_of_each` that are in lists: its table and its number.
fn all_columns() -> Vec<(usize, usize)> {
    let of = |t: usize| (0..LISTED[t]).map(move |i| (t + 1, i));
    (0..4).flat_map(of).collect()
}

/// Any column of `some_of_each` at an edge.
fn any_fault(r: &mut Random) -> [usize; 3] {
    let (table, at) = r.one_of(&all_columns());
    [table, at, r.edge(6)]
}

fn restore(f: &[usize; 3]) {
    set(f[0], f[1], some_rows()[f[0] - 1][f[1]]);
}

/// At and over the width of a column.
fn edges(table: usize, at: usize) -> Vec<usize> {
    match DRC_LOUDNESS_WIDTHS[table - 1][at % COLUMNS[table - 1]] {
        0 => vec![0, 1, 2, 3, 4, 5, 7, 8, 31, 32, 127, 128, 256, 65535],
        width => vec![0, (1 << width) - 1, (1 << width) % 65536, 256, 65535],
    }
}

fn values(r: &mut Random) {
    say("a value with some of each: every column of the tables at and over its width");
    some_of_each();
    outputs(IMAGE);
    for (table, at) in all_columns() {
        edges(table, at)
            .iter()
            .for_each(|v| write_with(table, at, *v));
    }
    say("rows that are in no list are not looked at");
    for (i, (all, listed)) in some_rows().iter().zip(LISTED).enumerate() {
        (listed..all.len()).for_each(|at| write_with(i + 1, at, 65535));
    }
    say("the same into an output that is too short");
    output(IMAGE - 1);
    for (table, at) in all_columns().into_iter().step_by(5) {
        [0, 8, 256].iter().for_each(|v| write_with(table, at, *v));
    }
    say("two faults, then three: the one first in image order is told");
    output(IMAGE);
    for i in 0..100 {
        let faults: Vec<[usize; 3]> = (0..1 + i / 50).map(|_| any_fault(r)).collect();
        faults.iter().for_each(|f| set(f[0], f[1], f[2]));
        for _ in 0..3 {
            line('y', &any_fault(r));
        }
        faults.iter().for_each(restore);
    }
}

fn tops() {
    say("the top record: 6 at place 0, before any field, then fields at their bytes");
    some_of_each();
    for column in 0..10 {
        // bytes stay below 256
        let values: &[usize] = match column {
            1 => &[0, 1],
            0 => &[0, 127, 128, 255],
            2 | 3 => &[0, 3, 4, 255],
            4 => &[0, 7, 8, 255],
            8 | 9 => &[0, 4, 5, 6, 7, 65535],
            _ => &[0, 1, 3, 4, 5, 6, 65535],
        };
        values.iter().for_each(|v| write_with(0, column, *v));
    }
    let changes = [5, 6, 6, 6, 7, 4, 9, 6, 0, 128, 2, 4, 3, 4, 4, 8, 8, 7, 1, 0];
    for c in changes.chunks(2) {
        line('t', &TOP);
        set(0, c[0], c[1]);
        ask('w');
        write_tops(&[0, 128, 2, 4, 3, 4, 4, 8, 5, 0, 5, 6, 6, 65535, 7, 4]);
        write_tops(&[8, 0, 8, 7, 9, 6, 9, 65535, 1, 0]);
    }
    say("no info: its columns are not looked at");
    line('t', &[127, 0, 200, 201, 202, 65535, 65535, 65535, 0, 6]);
    ask('w');
    write_tops(&[0, 0, 0, 128, 8, 1, 9, 0, 9, 7, 1, 1]);
}

fn written_scopes() {
    say("scopes: every case from 0 to 4 with every kind from 0 to 5, in both tables; 8 and 5 at the type byte");
    for (table, row) in [(1, 24), (3, 7)] {
        some_of_each();
        set(table, row + 3, 1);
        set(table, row + 4, 5);
        for case in 0..5 {
            set(table, row + 1, case);
            for kind in 0..6 {
                set(table, row + 2, kind);
                ask('w');
                let more = [[3, 2], [3, 8], [4, 32], [4, 128], [4, 256], [0, 64]];
                more.iter()
                    .for_each(|m| write_with(table, row + m[0], m[1]));
            }
        }
    }
}

/// Writes the rows with each combination of these faults, a column and its value each, and what `more` asks of them.
fn combine(number: usize, rows: &[usize], faults: &[[usize; 2]], mut more: impl FnMut()) {
    for which in 0..1 << faults.len() {
        let mut rows = rows.to_vec();
        for (i, f) in faults.iter().enumerate() {
            if which >> i & 1 == 1 {
                rows[f[0]] = f[1];
            }
        }
        table(number, &rows);
        ask('w');
        more();
    }
}

fn orders() {
    say("at an instruction: range (6), flags (5), scope (8, then 5), reserved_type, then fields at their bytes: every combination");
    some_of_each();
    line('t', &[100, 1, 2, 1, 5, 2, 0, 0, 0, 0]);
    let rows = [INSTRUCTIONS[1], INSTRUCTIONS[2]].concat();
    let faults = [
        [24, 64],
        [25, 3],
        [28, 128],
        [30, 64],
        [35, 9],
        [38, 256],
        [42, 2],
    ];
    combine(1, &rows, &faults, || ());
    say("its additional IDs, its limiter and what follows, each at its byte");
    let faults = [[32, 128], [33, 8], [38, 256], [41, 64], [47, 2]];
    combine(1, &rows, &faults, || {
        write_with(2, 4, 2);
    });
    say("at a loudness entry: range (6), scope (8, then 5), reserved_type, then its length");
    run(300, 9);
    line('t', &[100, 1, 2, 1, 5, 0, 2, 0, 0, 0]);
    let rows = [LOUDNESS[0], LOUDNESS[1]].concat();
    let faults = [[7, 64], [8, 4], [10, 2], [12, 65535], [13, 256]];
    combine(3, &rows, &faults, || {
        write_with(3, 9, 0);
        write_with(3, 9, 3);
    });
}

fn flags() {
    say("flags of an instruction: of a lower value only where the target loudness is there; parts that are not there may hold anything");
    some_of_each();
    line('t', &[100, 1, 2, 1, 5, 1, 0, 0, 0, 0]);
    for i in 0..27 {
        let mut row = INSTRUCTIONS[2];
        for (at, place) in [(13, 1), (15, 3), (18, 9)] {
            row[at] = i / place % 3;
        }
        table(1, &row);
        ask('w');
        for wide in [[14, 256], [17, 64], [19, 4], [20, 64], [22, 64], [23, 2]] {
            write_with(1, wide[0], wide[1]);
        }
    }
}

fn list_counts() {
    say("0 to 10 additional IDs: 5 at the count, 6 at the row's start");
    some_of_each();
    line('t', &[100, 1, 2, 1, 5, 1, 0, 0, 0, 0]);
    table(1, &INSTRUCTIONS[0]);
    table(2, &[1, 5].repeat(9));
    for count in (0..11).chain([65535]) {
        set(1, 11, count);
        ask('w');
        write_with(1, 10, 1);
        write_with(1, 10, 9);
        write_with(1, 9, 8);
        write_with(2, 0, 2);
        write_with(2, 13, 128);
    }
    say("counts: 63 instructions and loudness entries, 31 definitions, 5 at the count for more, 6 for more than the table has");
    output(1000);
    table(2, &ADDITIONAL.concat());
    table(1, &INSTRUCTIONS[1].repeat(66));
    table(3, &LOUDNESS[2].repeat(66));
    table(4, &DEFINITIONS[0].repeat(34));
    for (at, table, most) in [(5, 1, 63), (6, 3, 63), (7, 4, 31)] {
        line('t', &[100, 1, 2, 1, 5, 0, 0, 0, 0, 0]);
        let counts = [0, 1, most - 1, most, most + 1, most + 3, most + 4, 65535];
        for count in counts {
            set(0, at, count);
            ask('w');
            write_with(table, 0, 64);
            write_with(table, (most - 1) * COLUMNS[table - 1] + 1, 200);
            write_with(table, most * COLUMNS[table - 1] + 1, 200);
            write_with(0, at - 3, 8);
            write_with(0, 7, 32);
        }
    }
}

fn written_payloads() {
    say("payloads: 6 at the entry, 5 at the length for 256 bytes; the store's end, shared bytes");
    run(65536, 7);
    line('t', &[100, 1, 2, 1, 5, 0, 2, 0, 0, 0]);
    table(3, &LOUDNESS[..2].concat());
    output(600);
    let some = [
        0, 0, 0, 255, 0, 256, 0, 65535, 1, 65535, 2, 65535, 65535, 0, 65535, 1, 65535, 2, 65281,
        255, 65282, 255, 65535, 256, 65535, 65535,
    ];
    for c in some.chunks(2) {
        set(3, 12, c[0]);
        set(3, 13, c[1]);
        ask('w');
        write_with(3, 5, 65535);
        write_with(3, 8, 0);
    }
    body(&[]);
    for c in [0, 0, 1, 0, 0, 1].chunks(2) {
        set(3, 12, c[0]);
        set(3, 13, c[1]);
        ask('w');
        write_with(3, 6, 0);
    }
}

fn tables() {
    say("tables: rows that lack a column, no rows; instructions that share additional IDs");
    for (i, rows) in some_rows().iter().enumerate() {
        some_of_each();
        for n in [LISTED[i], LISTED[i] - 1, 0] {
            table(i + 1, &rows[..n]);
            ask('w');
            write_with(0, [5, 5, 6, 7][i], 1);
            write_with(0, 1, 0);
        }
    }
    some_of_each();
    for at in [10, 82] {
        for first in 0..6 {
            set(1, at, first);
            (0..6).for_each(|count| write_with(1, at + 1, count));
        }
        some_table(1);
    }
}

fn lengths() {
    say("results of 65,535 bytes and over: 10, then 4; a fault before both");
    some_of_each();
    run(65536, 7);
    let head = IMAGE - 2;
    for n in [0, IMAGE, 65534, 65535, 65536] {
        output(n);
        for trailing in [65535 - head, 65536 - head, 65535] {
            set(0, 8, 0);
            set(0, 9, trailing);
            ask('w');
            write_with(4, 7, 64);
            write_with(3, 22, 3);
            write_with(0, 8, 65535);
        }
    }
    say("nothing but a trailing run");
    line('t', &[100, 0, 0, 0, 0, 0, 0, 0, 0, 65534]);
    for n in [0, 65534, 65535, 65536] {
        output(n);
        ask('w');
        write_tops(&[9, 65535, 8, 2, 8, 3, 0, 128]);
    }
}

fn back(r: &mut Random) {
    say("read and written back, with columns at and over their widths, and outputs about the length");
    for _ in 0..16 {
        let trailing = r.one_of(&[0, 0, 3]);
        let s = bodies::drc_loudness_shape(r, trailing);
        let b = mixed(r, &s);
        body(&b);
        lend_for(r, &s, 6);
        ask('r');
        outputs(b.len());
        (0..16).for_each(|_| change(r, &s.rows(), b.len(), 'y'));
        for _ in 0..5 {
            change(r, &s.rows(), b.len(), 'x');
            change(r, &s.rows(), b.len(), 'x');
            change(r, &s.rows(), b.len(), 'y');
        }
    }
    for text in ["01010000010000000000", "01000100018500", "00", "01C0C0E0AB"] {
        let b = unhex(text);
        body(&b);
        lend_one();
        ask('r');
        outputs(b.len());
    }
}

/// A column at an edge; bytes and flags of the top record stay what they can be.
fn change(r: &mut Random, rows: &[usize; 4], store: usize, letter: char) {
    let (edge, small) = (r.edge(store), r.to(4));
    let v = r.one_of(&[edge, edge, small]);
    let table = r.to(5);
    if table > 0 && rows[table - 1] > 0 {
        let at = r.to(COLUMNS[table - 1] * rows[table - 1]);
        return line(letter, &[table, at, v]);
    }
    let column = r.to(10);
    let v = match column {
        1 => v % 2,
        0 | 2 | 3 | 4 => v % 256,
        _ => v,
    };
    line(letter, &[0, column, v]);
}

pub fn cases(r: &mut Random) {
    small();
    scopes(r);
    instructions(r);
    payloads(r);
    lists(r);
    steering(r);
    no_room(r);
    full_body(r);
    longest(r);
    any_shapes(r);
    values(r);
    tops();
    written_scopes();
    orders();
    flags();
    list_counts();
    written_payloads();
    tables();
    lengths();
    back(r);
}
