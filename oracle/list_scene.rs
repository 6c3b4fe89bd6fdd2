//! The cases of the scene body, kind 2.
use crate::bodies::{self, Random, Reserved, Scene};
use crate::{
    ask, body, cut_each, cuts, damage, every_value, line, long, output, outputs, run, say, set,
    unhex, write_with,
};

/// The columns of a row of tables 1 to 5.
const COLUMNS: [usize; 5] = [27, 9, 2, 7, 13];
/// The rows that no body exceeds.
const FULL: [usize; 5] = [127, 31, 992, 31, 496];
/// A condition without detail, and with it and gain or position or both.
const OPTIONS: [u8; 5] = [0, 1, 3, 5, 7];

/// Lends so many columns for the top record and tables 1 to 5.
fn lend(lent: [usize; 6]) {
    line('l', &lent);
}

/// The columns of so many rows and of a top record.
fn exactly(rows: [usize; 5]) -> [usize; 6] {
    std::array::from_fn(|i| {
        if i == 0 {
            13
        } else {
            rows[i - 1] * COLUMNS[i - 1]
        }
    })
}

/// Lends for a shape, and up to so many columns more.
fn lend_for(r: &mut Random, s: &Scene, more: usize) {
    lend(exactly(s.rows()).map(|n| n + r.to(more + 1)));
}

/// A shape in words: groups by their parts, switch groups by the number of their members (1 to 9, a for 10, to w for 32), presets by their
/// conditions. `-` is an absent section, `.` an empty one.
fn shape(text: &str) -> Scene {
    let words: Vec<&str> = text.split(' ').collect();
    let section = |i: usize| (words[i] != "-").then(|| words[i].trim_matches('.'));
    let digits = |s: &str| -> Vec<u8> {
        let digit = |c: char| c.to_digit(36).expect("a digit") as u8;
        s.chars().map(digit).collect()
    };
    let presets = |s: &str| {
        let some = s.split(',').filter(|p| !p.is_empty());
        some.map(digits).collect()
    };
    Scene {
        groups: section(0).map(digits),
        switch_groups: section(1).map(|s| digits(s).into_iter().map(usize::from).collect()),
        presets: section(2).map(presets),
        trailing: 0,
    }
}

/// The same with a trailing run.
fn trailed(text: &str, trailing: usize) -> Scene {
    Scene {
        trailing,
        ..shape(text)
    }
}

/// As many rows as there can be, with all their parts.
fn full() -> Scene {
    Scene {
        groups: Some(vec![7; 127]),
        switch_groups: Some(vec![32; 31]),
        presets: Some(vec![vec![7; 16]; 31]),
        trailing: 0,
    }
}

fn mixed(r: &mut Random, s: &Scene) -> Vec<u8> {
    bodies::scene(r, s, Reserved::Mixed)
}

// ---- reading

fn small() {
    say("every body of 0, 1 and 2 bytes, one digest for each length");
    lend([14, 28, 10, 3, 8, 14]);
    line('s', &[0, 1]);
    line('s', &[1, 256]);
    line('s', &[2, 65536]);
}

fn sections(r: &mut Random) {
    say("the bench bodies of document 01, and small ones, with their cuts; a row and a column are lent in each table");
    cut_each("1F07 800700 400001020085 40000102008505 4000010200850501 00FF FFFFFFFF 1F07AB");
    say("each section absent, empty or of one row, with their cuts, and with a trailing run");
    for text in ["-", ".", "7"] {
        for switch_groups in ["-", ".", "1"] {
            for presets in ["-", ".", "7"] {
                let text = format!("{text} {switch_groups} {presets}");
                let b = mixed(r, &shape(&text));
                body(&b);
                ask('c');
                body(&mixed(r, &trailed(&text, 3)));
                ask('r');
            }
        }
    }
}

fn rows(r: &mut Random) {
    say("groups with every combination of their parts, with all cuts; three characters are one read");
    for reserved in [Reserved::Mixed, Reserved::Ones, Reserved::Zeros] {
        let s = shape("01234567 - -");
        lend(exactly(s.rows()));
        body(&bodies::scene(r, &s, reserved));
        ask('c');
    }
    say("switch groups of 1 to 32 members");
    for members in 1..=32 {
        let mut s = trailed("- 1 -", 2);
        s.switch_groups = Some(vec![members, 33 - members]);
        lend_for(r, &s, 2);
        body(&mixed(r, &s));
        [44, 42, 41, members + 6, members + 5]
            .iter()
            .for_each(|n| line('n', &[n]));
    }
}

fn presets(r: &mut Random) {
    say("presets of 1 to 16 conditions, of every combination of detail, gain and position");
    for n in 1..=16 {
        for turn in 0..3 {
            let mut s = trailed("- - 0", turn);
            let option = |i: usize| OPTIONS[(i * 3 + n + turn) % 5];
            s.presets = Some(vec![(0..n).map(option).collect()]);
            lend_for(r, &s, 8);
            let b = mixed(r, &s);
            body(&b);
            [b.len(), b.len() - turn - 1]
                .iter()
                .for_each(|n| line('n', &[n]));
        }
    }
    let s = shape("- - 0,1,3,5,7,01357,75310");
    lend(exactly(s.rows()));
    body(&mixed(r, &s));
    ask('c');
    let mut s = shape("- - 0");
    let pair = |i: usize| vec![OPTIONS[i / 5], OPTIONS[i % 5]];
    s.presets = Some((0..25).map(pair).collect());
    lend(exactly(s.rows()));
    cuts(&mixed(r, &s));
}

fn steering(r: &mut Random) {
    say("every bit of a body with all there is, which has a trailing run to take bytes from");
    let s = trailed("72 2 75,01", 300);
    lend(exactly([40, 10, 100, 10, 40]));
    let b = mixed(r, &s);
    body(&b);
    (0..b.len() - 300).for_each(|at| damage(r, &b, at, 0));
    say("every value of the bytes that steer: flags, counts, parts, detail");
    // the groups begin at 3, the switch groups at 22, the presets at 28
    for at in [0, 2, 4, 21, 23, 27, 30, 31, 32] {
        every_value(at);
    }
}

fn no_room(r: &mut Random) {
    say("no room: the top record, then the lowest table; a column short is a row short, and room is judged after the end");
    let s = trailed("07 12 01,3", 2);
    let exact = exactly(s.rows());
    let b = mixed(r, &s);
    body(&b);
    for short in 0..64 {
        lend(std::array::from_fn(|i| exact[i] - (short >> i & 1)));
        ask('r');
    }
    for i in 0..6 {
        let row = if i == 0 { 13 } else { COLUMNS[i - 1] };
        let n = exact[i];
        for n in [n - row, n - 1, n + 1, n + row, 0] {
            let mut lent = exact;
            lent[i] = n;
            lend(lent);
            for cut in [b.len() - 3, b.len() - 2, b.len()] {
                line('n', &[cut]);
            }
        }
    }
}

fn full_sections(r: &mut Random) {
    say("full sections");
    let repeated = |word: &str, n: usize| vec![word; n].join("");
    let presets = |preset: &str| vec![preset; 31].join(",");
    let shapes = [
        format!("{} - -", repeated("0", 127)),
        format!("{} . .", repeated("7", 127)),
        format!("{} - .", repeated("01234567", 16).split_at(127).0),
        format!("- {} -", repeated("1", 31)),
        format!("- {} -", repeated("w", 31)),
        format!(". {} -", repeated("123w", 8).split_at(31).0),
        format!("- - {}", presets("0")),
        format!("- - {}", presets("7777777777777777")),
        format!("- . {}", presets("01357")),
    ];
    for text in &shapes {
        let s = trailed(text, 1);
        lend(exactly(s.rows()));
        let b = mixed(r, &s);
        cuts(&b);
        lend(exactly(s.rows()).map(|n| if n > 13 { n - 1 } else { n }));
        ask('r');
    }
}

fn full_body(r: &mut Random) {
    say("all groups, switch groups, members, presets and conditions with all their parts: reserved bits mixed, all 1, all 0; read, cut, written back");
    for reserved in [Reserved::Mixed, Reserved::Ones, Reserved::Zeros] {
        let b = bodies::scene(r, &full(), reserved);
        body(&b);
        let exact = exactly(FULL);
        for short in 0..6 {
            lend(std::array::from_fn(|i| {
                exact[i] + 1 - 2 * usize::from(i == short)
            }));
            ask('r');
        }
        lend(exact);
        // cuts in each section, and at its start
        for cut in [1000, 1653, 1654, 2000, 2739, 2740, 4000, 5807, 5808, 5809] {
            line('n', &[cut]);
        }
        ask('r');
        outputs(b.len());
        // faults in the last rows
        for (table, row) in FULL.iter().enumerate() {
            let last = (row - 1) * COLUMNS[table];
            for at in 0..COLUMNS[table] {
                write_with(table + 1, last + at, r.one_of(&[2, 256]));
            }
        }
    }
    full_and_trailing();
}

fn full_and_trailing() {
    say("the same and a trailing run, to 65,535 bytes and over; the largest image, of 5,810 + 65,535 bytes");
    line('f', &[65536 - 5810, 0]);
    for n in [65536, 65534, 65535] {
        line('n', &[n]);
        ask('w');
    }
    set(0, 11, 0);
    set(0, 12, 65535);
    for n in [0, 65535, 65536] {
        output(n);
        ask('w');
        write_with(5, 6447, 16);
        write_with(4, 216, 0);
        write_with(1, 3402, 256);
    }
}

fn any_shapes(r: &mut Random) {
    say("any shapes, their cuts, damaged copies");
    for _ in 0..36 {
        let trailing = r.one_of(&[0, 0, 1, 5, 40]);
        let s = bodies::scene_shape(r, trailing);
        let b = mixed(r, &s);
        lend_for(r, &s, 14);
        cuts(&b);
        [0, 2, 4].iter().for_each(|at| damage(r, &b, *at, 1));
        for _ in 0..3 {
            let at = r.to(b.len());
            damage(r, &b, at, 1);
        }
    }
    lend(exactly([1, 31, 31, 31, 31]));
    long("1F07 00 E000000000 40001F 20FF1F");
}

// ---- writing

/// A value with rows that have all their parts, none, and some. The last rows of tables 3 and 5 are in no list.
const TOP: [usize; 13] = [31, 7, 1, 3, 7, 1, 2, 7, 1, 2, 1, 1, 2];
const GROUPS: [[usize; 27]; 3] = [
    [
        1, 5, 7, 1, 0, 15, 3, 1, 1, 90, 0, 33, 7, 17, 5, 30, 9, 2, 1, 3, 40, 7, 20, 1, 101, 110,
        103,
    ],
    [
        1, 6, 7, 0, 0, 15, 4, 0, 9, 999, 9, 999, 9, 999, 9, 999, 99, 99, 0, 9, 99, 9, 99, 0, 999,
        999, 999,
    ],
    [
        0, 7, 5, 1, 1, 10, 5, 0, 0, 0, 0, 0, 0, 0, 0, 0, 0, 0, 0, 0, 0, 0, 0, 1, 100, 101, 117,
    ],
];
const SWITCH_GROUPS: [[usize; 9]; 2] = [[1, 3, 1, 0, 7, 0, 2, 1, 5], [0, 4, 0, 1, 5, 2, 1, 0, 6]];
const MEMBERS: [[usize; 2]; 4] = [[1, 5], [0, 6], [1, 7], [9, 999]];
const PRESETS: [[usize; 7]; 2] = [[7, 1, 7, 2, 15, 0, 2], [5, 2, 3, 4, 9, 2, 3]];
const CONDITIONS: [[usize; 13]; 6] = [
    [5, 0, 99, 9, 9, 9, 999, 9, 999, 9, 99, 99, 99],
    [6, 1, 15, 1, 0, 0, 999, 0, 999, 9, 99, 99, 99],
    [7, 1, 5, 0, 1, 1, 200, 0, 999, 9, 99, 99, 99],
    [5, 1, 15, 0, 0, 0, 999, 1, 201, 3, 60, 15, 9],
    [6, 1, 9, 1, 1, 1, 202, 1, 203, 2, 33, 10, 8],
    [999, 9, 99, 9, 9, 9, 999, 9, 999, 9, 99, 99, 99],
];
/// The length of its image: head, groups, switch groups, presets, trailing run.
const IMAGE: usize = 2 + (1 + 13 + 3 + 6) + (1 + 5 + 4) + (1 + 6 + 17) + 2;

fn some_rows() -> [Vec<usize>; 5] {
    [
        GROUPS.concat(),
        SWITCH_GROUPS.concat(),
        MEMBERS.concat(),
        PRESETS.concat(),
        CONDITIONS.concat(),
    ]
}

/// The line that sets a table.
fn table(number: usize, columns: &[usize]) {
    line(['1', '2', '3', '4', '5'][number - 1], columns);
}

fn some_of_each() {
    body(b"Hello!");
    line('t', &TOP);
    (1..6).for_each(some_table);
    output(IMAGE + 9);
}

fn some_table(number: usize) {
    table(number, &some_rows()[number - 1]);
}

/// Every column of every table of `some_of_each`: its table and its number.
fn all_columns() -> Vec<(usize, usize)> {
    let of = |t: usize| (0..some_rows()[t].len()).map(move |i| (t + 1, i));
    (0..5).flat_map(of).collect()
}

fn values(r: &mut Random) {
    say("a value with some of each: every column of the tables at and over the widths of fields");
    some_of_each();
    outputs(IMAGE);
    let edges = [
        0, 1, 2, 3, 4, 7, 8, 15, 16, 31, 32, 63, 64, 127, 128, 255, 256, 65535,
    ];
    for (table, at) in all_columns() {
        edges.iter().for_each(|v| write_with(table, at, *v));
    }
    say("the same into an output that is too short");
    output(IMAGE - 1);
    for (table, at) in all_columns().into_iter().step_by(3) {
        [0, 8, 256].iter().for_each(|v| write_with(table, at, *v));
    }
    say("two faults: the one first in image order is told");
    output(IMAGE);
    for _ in 0..150 {
        let (table, at) = r.one_of(&all_columns());
        set(table, at, r.edge(6));
        for _ in 0..2 {
            let (table, at) = r.one_of(&all_columns());
            write_with(table, at, r.edge(6));
        }
        set(table, at, some_rows()[table - 1][at]);
    }
}

/// Every number of a column of the top record that is asked for: bytes stay below 256.
fn top_edges() {
    for column in 0..13 {
        let values: &[usize] = match column {
            2 | 5 | 8 => &[0, 1],
            0 | 1 | 4 | 7 | 10 => &[0, 1, 2, 7, 8, 31, 32, 200, 255],
            11 | 12 => &[0, 3, 4, 5, 6, 7, 65535],
            _ => &[0, 1, 2, 3, 4, 65535],
        };
        values.iter().for_each(|v| write_with(0, column, *v));
    }
}

fn tops() {
    say("the top record: 6 at place 0, before any field, then fields at their bytes; an absent section is not looked at");
    some_of_each();
    top_edges();
    let changes = [
        3, 4, 3, 65535, 6, 3, 9, 3, 12, 6, 0, 32, 10, 2, 4, 8, 7, 8, 11, 7, 2, 0, 5, 0, 8, 0,
    ];
    for c in changes.chunks(2) {
        line('t', &TOP);
        set(0, c[0], c[1]);
        top_edges();
    }
    say("sections absent, with any reserved bits and counts");
    for absent in 0..8 {
        line('t', &TOP);
        for section in 0..3 {
            if absent >> section & 1 == 1 {
                set(0, 2 + 3 * section, 0);
                set(0, 3 + 3 * section, 65535);
                set(0, [10, 4, 7][section], 200);
            }
        }
        ask('w');
        [
            (0, 10, 200),
            (0, 4, 200),
            (0, 7, 200),
            (1, 3, 2),
            (2, 2, 2),
            (5, 1, 2),
        ]
        .iter()
        .for_each(|&(t, at, v)| write_with(t, at, v));
    }
    say("document 01: groups absent, reserved 200");
    line('t', &[31, 7, 0, 0, 7, 0, 0, 7, 0, 0, 200, 0, 0]);
    ask('w');
}

/// Sets each of these columns, where the bit of `which` is 1: table, column, value.
fn set_some(which: usize, faults: &[[usize; 3]]) {
    for (i, f) in faults.iter().enumerate() {
        if which >> i & 1 == 1 {
            set(f[0], f[1], f[2]);
        }
    }
}

fn orders() {
    say("at a row's start: ranges (6), flags (5), an empty list (7), then fields at their bytes: every combination, in each row");
    for row in [0, 9] {
        let faults = [
            [2, row, 2],
            [3, 0, 2],
            [2, row + 2, 2],
            [2, row + 6, 0],
            [2, row + 5, 5],
        ];
        for which in 0..32 {
            some_table(2);
            some_table(3);
            set_some(which, &faults);
            ask('w');
            write_with(2, row + 8, 128);
        }
    }
    some_table(2);
    some_table(3);
    for (row, condition) in [(0, 0), (7, 2)] {
        let faults = [
            [4, row, 8],
            [5, 13 * condition + 1, 2],
            [4, row + 6, 0],
            [4, row + 5, 7],
        ];
        for which in 0..16 {
            some_table(4);
            some_table(5);
            set_some(which, &faults);
            ask('w');
            write_with(4, row + 4, 16);
        }
    }
}

fn condition_flags() {
    say("flags of a condition: of its detail, of gain and position only where they are there");
    line('t', &[31, 7, 0, 0, 7, 0, 0, 7, 1, 1, 1, 0, 0]);
    table(4, &[7, 1, 7, 2, 15, 0, 1]);
    for i in 0..162 {
        let (detail, wide) = (i / 81, 200 + 56 * (i % 2));
        let mut row = [5, detail, 15, 0, 0, 0, wide, 0, 256, 3, 60, 15, 9];
        for (at, place) in [(3, 1), (4, 3), (5, 9), (7, 27)] {
            row[at] = i / place % 3;
        }
        table(5, &row);
        ask('w');
    }
}

/// A switch group and a preset of all rows of their tables.
fn list_counts() {
    say("document 01: a switch group without members; with 33; lists of all lengths");
    line('t', &[31, 7, 0, 0, 7, 1, 1, 7, 0, 0, 1, 0, 0]);
    table(2, &SWITCH_GROUPS[0]);
    table(3, &[1, 5].repeat(34));
    for count in [0, 1, 2, 31, 32, 33, 34, 35, 65535] {
        set(2, 6, count);
        ask('w');
        write_with(2, 5, 1);
        write_with(2, 5, 34);
        write_with(2, 4, 8);
        write_with(2, 8, 128);
        write_with(3, 0, 2);
        write_with(3, 65, 128);
    }
    say("presets without conditions, with 17, of all lengths");
    line('t', &[31, 7, 0, 0, 7, 0, 0, 7, 1, 1, 1, 0, 0]);
    table(4, &PRESETS[0]);
    table(5, &CONDITIONS[4].repeat(18));
    output(140);
    for count in [0, 1, 2, 15, 16, 17, 18, 19, 65535] {
        set(4, 6, count);
        ask('w');
        write_with(4, 5, 1);
        write_with(4, 5, 18);
        write_with(4, 4, 16);
        write_with(5, 1, 2);
        write_with(5, 6, 256);
        write_with(5, 13 * 16 + 7, 2);
    }
}

fn section_counts() {
    say("counts of sections: 127 groups, 31 switch groups and presets, 5 at the count for more, 6 for more than the table has");
    output(1000);
    line('t', &[31, 7, 1, 0, 7, 0, 0, 7, 0, 0, 1, 0, 0]);
    table(1, &GROUPS[1].repeat(130));
    for count in [0, 1, 126, 127, 128, 129, 130, 131, 65535] {
        set(0, 3, count);
        ask('w');
        write_with(1, 3, 2);
        write_with(1, 27 * 126 + 4, 2);
        write_with(1, 27 * 127 + 4, 2);
        write_with(0, 10, 2);
    }
    table(2, &SWITCH_GROUPS[0].repeat(34));
    table(4, &PRESETS[0].repeat(34));
    some_table(5);
    for (at, table) in [(6, 2), (9, 4)] {
        line('t', &[31, 7, 0, 0, 7, 0, 0, 7, 0, 0, 1, 0, 0]);
        set(0, at - 1, 1);
        for count in [0, 1, 30, 31, 32, 33, 34, 35, 65535] {
            set(0, at, count);
            ask('w');
            write_with(table, 0, 8);
            write_with(table, 30 * COLUMNS[table - 1] + 6, 0);
            write_with(table, 31 * COLUMNS[table - 1] + 6, 0);
            write_with(0, at - 2, 8);
        }
    }
}

fn tables() {
    say(
        "tables: rows that lack a column, no rows, rows that are in no list, rows that lists share",
    );
    for (i, rows) in some_rows().iter().enumerate() {
        some_of_each();
        // the rows that are in lists
        let n = [81, 18, 6, 14, 65][i];
        for n in [n, n - 1, 0] {
            table(i + 1, &rows[..n]);
            ask('w');
            write_with(0, [2, 5, 5, 8, 8][i], 0);
        }
    }
    some_of_each();
    for (table, at) in [(2, 5), (2, 14), (4, 5), (4, 12)] {
        for first in 0..6 {
            set(table, at, first);
            for count in 0..6 {
                write_with(table, at + 1, count);
            }
        }
        some_of_each();
    }
}

fn lengths() {
    say("results of 65,535 bytes and over: 10, then 4; a fault before both");
    some_of_each();
    run(65536, 7);
    let head = IMAGE - 2;
    for n in [0, IMAGE, 65534, 65535, 65536] {
        output(n);
        for trailing in [65535 - head, 65536 - head, 65535] {
            set(0, 11, 0);
            set(0, 12, trailing);
            ask('w');
            write_with(5, 64, 16);
            write_with(0, 11, 65535);
            write_with(0, 0, 32);
        }
    }
    say("nothing but a trailing run");
    line('t', &[31, 7, 0, 0, 7, 0, 0, 7, 0, 0, 1, 0, 65533]);
    for n in [0, 65534, 65535, 65536] {
        output(n);
        ask('w');
        write_with(0, 12, 65534);
        write_with(0, 11, 3);
        write_with(0, 11, 4);
    }
}

fn back(r: &mut Random) {
    say("read and written back, with columns at and over their widths, and outputs about the length");
    for _ in 0..24 {
        let trailing = r.one_of(&[0, 0, 3]);
        let s = bodies::scene_shape(r, trailing);
        let b = mixed(r, &s);
        body(&b);
        lend_for(r, &s, 6);
        ask('r');
        outputs(b.len());
        (0..24).for_each(|_| change(r, &s.rows(), b.len(), 'y'));
        for _ in 0..6 {
            change(r, &s.rows(), b.len(), 'x');
            change(r, &s.rows(), b.len(), 'x');
            change(r, &s.rows(), b.len(), 'y');
        }
    }
    for text in ["1F07", "800700", "40000102008505"] {
        let b = unhex(text);
        body(&b);
        lend([14, 28, 10, 3, 8, 14]);
        ask('r');
        outputs(b.len());
    }
}

/// A column at an edge; bytes and flags of the top record stay what they can be.
fn change(r: &mut Random, rows: &[usize; 5], store: usize, letter: char) {
    let (edge, flag) = (r.edge(store), r.to(3));
    let v = r.one_of(&[edge, edge, flag]);
    let table = r.to(6);
    if table > 0 && rows[table - 1] > 0 {
        let at = r.to(COLUMNS[table - 1] * rows[table - 1]);
        return line(letter, &[table, at, v]);
    }
    let column = r.to(13);
    let v = match column {
        2 | 5 | 8 => v % 2,
        0 | 1 | 4 | 7 | 10 => v % 256,
        _ => v,
    };
    line(letter, &[0, column, v]);
}

pub fn cases(r: &mut Random) {
    small();
    sections(r);
    rows(r);
    presets(r);
    steering(r);
    no_room(r);
    full_sections(r);
    full_body(r);
    any_shapes(r);
    values(r);
    tops();
    orders();
    condition_flags();
    list_counts();
    section_counts();
    tables();
    lengths();
    back(r);
}
