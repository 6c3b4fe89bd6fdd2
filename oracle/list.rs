//! Prints the list of cases that crates/vectors answers and oracle/judge judges: the same list every time. docs/ORACLE.md says what the
//! letters mean. Nothing of the Rust and nothing of the library is used here.
mod bodies;
mod list_drc_loudness;
mod list_scene;
use bodies::Random;
use std::fmt::Display;

// ---- lines

fn say(text: &str) {
    println!("# {text}");
}

fn line<T: Display>(letter: char, numbers: &[T]) {
    let words: Vec<String> = numbers.iter().map(|n| n.to_string()).collect();
    println!("{}", format!("{letter} {}", words.join(" ")).trim_end());
}

fn ask(letter: char) {
    println!("{letter}");
}

fn hex(bytes: &[u8]) -> String {
    bytes.iter().map(|b| format!("{b:02X}")).collect()
}

fn unhex(text: &str) -> Vec<u8> {
    let byte = |i| u8::from_str_radix(&text[i..i + 2], 16).unwrap();
    (0..text.len()).step_by(2).map(byte).collect()
}

/// A body, at most 1,000 bytes a line.
fn body(bytes: &[u8]) {
    println!(
        "{}",
        format!("b {}", hex(&bytes[..bytes.len().min(1000)])).trim_end()
    );
    for part in bytes.chunks(1000).skip(1) {
        println!("a {}", hex(part));
    }
}

/// A body of n equal bytes.
fn run(n: usize, byte: usize) {
    body(&[]);
    line('f', &[n, byte]);
}

/// Lends so many columns for the top record and the two tables.
fn lend(top: usize, one: usize, two: usize) {
    line('l', &[top, one, two]);
}

fn output(n: usize) {
    line('o', &[n]);
}

/// Replaces a column.
fn set(table: usize, at: usize, column: usize) {
    line('x', &[table, at, column]);
}

/// Writes with one column replaced.
fn write_with(table: usize, at: usize, column: usize) {
    line('y', &[table, at, column]);
}

/// The same for pairs of a column of the top record and what replaces it.
fn write_tops(pairs: &[usize]) {
    pairs.chunks(2).for_each(|p| write_with(0, p[0], p[1]));
}

/// Writes into outputs about the image's length, and into none.
fn outputs(image: usize) {
    for n in [image, image - 1, image + 7, 0] {
        output(n);
        ask('w');
    }
    output(image + 3);
}

// ---- reading, for every kind

/// Every body of 0, 1 and 2 bytes.
fn small(top: usize, one: usize, two: usize) {
    say("every body of 0, 1 and 2 bytes, one digest for each length");
    lend(top, one, two);
    line('s', &[0, 1]);
    line('s', &[1, 256]);
    line('s', &[2, 65536]);
}

/// Reads each of these bodies and all of its cuts.
fn cut_each(list: &str) {
    for text in list.split(' ') {
        body(&unhex(text));
        ask('c');
    }
}

/// Reads a body and all its cuts, or the cuts about its parts where it is long.
fn cuts(bytes: &[u8]) {
    body(bytes);
    let n = bytes.len();
    if n <= 48 {
        return ask('c');
    }
    for cut in (0..12).chain([n / 3, n / 2, n - 3, n - 2, n - 1, n]) {
        line('n', &[cut]);
    }
}

/// Reads with one byte replaced: each of its bits, and some values.
fn damage(r: &mut Random, bytes: &[u8], at: usize, values: usize) {
    if at < bytes.len() {
        (0..8).for_each(|bit| line('d', &[at, usize::from(bytes[at]) ^ (1 << bit)]));
        (0..values).for_each(|_| line('d', &[at, r.to(256)]));
    }
}

fn every_value(at: usize) {
    (0..256).for_each(|v| line('d', &[at, v]));
}

/// Bodies that begin so, about 65,535 bytes long.
fn long(starts: &str) {
    say("65,535 bytes are judged, 65,536 are refused");
    for start in starts.split(' ') {
        body(&unhex(start));
        line('f', &[65536 - start.len() / 2, 0]);
        [65534, 65535, 65536].iter().for_each(|n| line('n', &[n]));
    }
}

// ---- base, kind 1

fn base_reads(r: &mut Random) {
    say("bench bodies of document 01 and of the Rust's header, and small ones, with their cuts");
    lend(11, 2, 2);
    cut_each("05C03F 05803F 05BFC600 05BFC60211 05BFC6021112 05BFC602111213 107FC1");
    cut_each("0B3FC10110 00000000 004000 05FFFF 05BFFF00");
    say("every value of the first bytes, with a list and a trailing run");
    body(&unhex("05BFC60211121314"));
    (0..4).for_each(every_value);
    say("no room for the top record, after a short body");
    for top in [0, 1, 9, 10, 16] {
        lend(top, 0, 0);
        ask('c');
    }
    say("lists and trailing runs of all lengths, their cuts, damaged copies");
    lend(12, 1, 0);
    for sets in [0, 1, 2, 7, 100, 254, 255, 256] {
        for trailing in [0, 1, 5, 40] {
            let b = bodies::base(r, (sets < 256).then_some(sets), trailing);
            cuts(&b);
            (0..4).for_each(|at| damage(r, &b, at, 6));
        }
    }
    lend(10, 0, 0);
    long("00 40 004000 FF");
    run(65536, 255);
    ask('r');
}

fn base_writes(r: &mut Random) {
    say("fields: 5 at their own byte");
    run(65536, 0);
    output(4096);
    let fields = [
        63, 3, 63, 64, 3, 6, 63, 4, 6, 63, 3, 64, 64, 4, 64, 63, 4, 64, 0, 0, 0, 255, 255, 255,
    ];
    for f in fields.chunks(3) {
        line('t', &[5, 1, 0, 0, 0, f[0], f[1], f[2], 0, 0]);
        ask('w');
    }
    say("lists: 5 at the count, 6 at place 0; an absent list is not looked at");
    let lists = [
        1, 0, 255, 1, 0, 256, 1, 65535, 1, 1, 65535, 2, 1, 0, 0, 1, 65535, 0, 1, 0, 65535, 1, 1,
        65535, 1, 2, 65535, 0, 65535, 65535,
    ];
    for l in lists.chunks(3) {
        line('t', &[5, 1, l[0], l[1], l[2], 63, 3, 6, 0, 0]);
        ask('w');
        write_tops(&[6, 4, 9, 65535, 8, 65535]);
    }
    say("trailing runs to the end of the store and past it; an empty store");
    run(257, 9);
    line('t', &[5, 1, 1, 0, 255, 63, 3, 6, 0, 257]);
    ask('w');
    write_tops(&[9, 258, 8, 1]);
    body(&[]);
    line('t', &[5, 1, 1, 0, 0, 63, 3, 6, 0, 0]);
    ask('w');
    write_tops(&[3, 1, 8, 1]);
    say("results of 65,535 bytes and over: 10, then 4; a fault before both");
    run(65536, 7);
    line('t', &[5, 1, 1, 0, 255, 63, 3, 6, 0, 65276]);
    for n in [0, 4096, 65534, 65535, 65536] {
        output(n);
        ask('w');
        write_tops(&[9, 65277, 5, 64, 9, 65535]);
    }
    line('t', &[5, 1, 1, 0, 255, 63, 3, 6, 0, 3]);
    for n in [261, 262, 263] {
        output(n);
        ask('w');
    }
    base_back(r);
}

fn base_back(r: &mut Random) {
    say("read and written back, with columns at and over their widths, and outputs about the length");
    for sets in [0, 1, 17, 255, 256] {
        for trailing in [0, 1, 30] {
            let b = bodies::base(r, (sets < 256).then_some(sets), trailing);
            body(&b);
            lend(10, 0, 0);
            ask('r');
            outputs(b.len());
            write_tops(&[5, 63, 5, 64, 6, 3, 6, 4, 7, 63, 7, 64, 0, 0, 0, 255, 1, 0]);
            write_tops(&[
                1,
                1,
                2,
                0,
                2,
                1,
                3,
                b.len(),
                4,
                b.len(),
                8,
                b.len(),
                9,
                b.len(),
            ]);
            (0..70).for_each(|_| base_change(r, b.len(), 'y'));
            for _ in 0..20 {
                base_change(r, b.len(), 'x');
                base_change(r, b.len(), 'x');
                base_change(r, b.len(), 'y');
            }
        }
    }
    say("values of every field in turn");
    body(&bodies::base(r, Some(9), 4));
    ask('r');
    for column in [0, 5, 6, 7] {
        (0..256).step_by(3).for_each(|v| write_with(0, column, v));
    }
    for column in [3, 4, 8, 9] {
        (0..20).for_each(|v| write_with(0, column, v));
    }
}

/// A column of the top record at an edge; bytes and flags stay what they can be.
fn base_change(r: &mut Random, store: usize, letter: char) {
    let column = r.to(10);
    let v = r.edge(store);
    let v = match column {
        1 | 2 => v % 2,
        0 | 5 | 6 | 7 => v % 256,
        _ => v,
    };
    line(letter, &[0, column, v]);
}

// ---- text label, kind 3

const BENCH_LABELS: &str = "07F1656E6780E0E1E2024869";
/// Two languages with all lists, empty labels among them, and a trailing run of three bytes.
const LISTS: &str =
    "2AA2656E67828302486904004165036F6E65E2E1001F015A646575017F00A1A00121013E02C39FDEAD00";
const ZEROS: &str = "0001656E67010500010300010100";
const ONES: &str = "00F1656E67818500E1E300E1E100";

/// Counts of the three lists of each language: a digit each, or a letter for a full list (g: 127, s: 31).
fn counts(text: &str) -> Vec<[usize; 3]> {
    let count = |c: u8| match c {
        b'g' => 127,
        b's' => 31,
        _ => usize::from(c - b'0'),
    };
    let digits: Vec<usize> = text.bytes().map(count).collect();
    digits.chunks(3).map(|c| [c[0], c[1], c[2]]).collect()
}

fn entries_of(counts: &[[usize; 3]]) -> usize {
    counts.iter().flatten().sum()
}

/// All languages with all their labels, of 0 to 4 bytes that say where they stand.
fn full_labels(reserved: u8) -> Vec<u8> {
    let mut b = vec![0, reserved & 0xF0 | 15];
    for language in 0..15u8 {
        b.extend([97 + language, 98, 99]);
        for (mask, count) in [(0x80, 127), (0xE0, 31), (0xE0, 31)] {
            let reserved = reserved & mask;
            b.push(reserved | count);
            for i in 1..=count {
                let n = (i + language) % 5;
                b.extend([reserved | i, n]);
                (0..n).for_each(|_| b.push((b.len() % 251) as u8));
            }
        }
    }
    b
}

fn text_label_reads(r: &mut Random) {
    say("the bench body of document 01, and small ones, with their cuts; a row and a column are lent in each table");
    lend(5, 13, 5);
    cut_each(BENCH_LABELS);
    cut_each("00F00001 FFF1756E6480E0E0 00F2756E6480E0E0756E 07F0");
    cut_each(LISTS);
    say("two languages with all lists, with its cuts; the trailing run begins at 39");
    lend(6, 25, 35);
    cut_each(LISTS);
    say("no room: the top record, then the lower table first; room is judged after the end");
    let lent = [
        5, 23, 32, 5, 24, 31, 5, 23, 31, 5, 0, 32, 5, 24, 0, 5, 24, 32, 4, 24, 32, 0, 0, 0, 16, 36,
        36, 5, 12, 32, 5, 24, 28,
    ];
    for l in lent.chunks(3) {
        lend(l[0], l[1], l[2]);
        [38, 39, 42].iter().for_each(|n| line('n', &[n]));
    }
    say("all reserved bits 0, then 1, and damaged copies");
    lend(5, 25, 35);
    for text in [ZEROS, ONES] {
        cut_each(text);
        (0..14).for_each(|at| damage(r, &unhex(text), at, 2));
    }
    say("every value of the bytes that hold counts");
    lend(5, 180, 800);
    body(&bodies::text_label(r, &counts("211122"), 3, 0));
    [1, 5, 6].into_iter().for_each(every_value);
    say("all languages with all their labels: all reserved bits 1, 0, and some");
    for reserved in [0xFF, 0x00, 0xA5] {
        let b = full_labels(reserved);
        body(&b);
        let lent = [181, 11341, 179, 11340, 180, 11339, 179, 0, 180, 11340];
        for l in lent.chunks(2) {
            lend(5, l[0], l[1]);
            ask('r');
        }
        let n = b.len();
        [n - 1, n - 2, n - 3, n / 2, 1000]
            .iter()
            .for_each(|cut| line('n', &[cut]));
    }
    text_label_bodies(r);
}

fn text_label_bodies(r: &mut Random) {
    say("counts of languages and labels, trailing runs, their cuts, damaged copies");
    let lists = "|000|100|010|001|321|111111111111|020201|g00|0ss|543543";
    let fifteen = "000".repeat(15);
    for text in lists.split('|').chain([fifteen.as_str()]) {
        for (trailing, most) in [(0, 0), (4, 0), (0, 3), (4, 3)] {
            let counts = counts(text);
            let b = bodies::text_label(r, &counts, most, trailing);
            lend(
                5,
                12 * counts.len() + r.to(14),
                4 * entries_of(&counts) + r.to(6),
            );
            cuts(&b);
            (1..9).for_each(|at| damage(r, &b, at, 0));
            for _ in 0..2 {
                let at = r.to(b.len());
                damage(r, &b, at, 1);
            }
        }
    }
    say("labels of up to 255 bytes");
    let b = bodies::text_label(r, &counts("211"), 255, 3);
    lend(5, 12, 16);
    body(&b);
    (0..b.len()).step_by(3).for_each(|n| line('n', &[n]));
    long_labels();
    lend(5, 180, 0);
    long("0000 0010 00FF");
}

/// Two languages have 127 labels of 255 bytes; the last language's preset takes what is left.
fn long_labels() {
    say("65,535 bytes without a trailing run, one byte fewer, a row fewer, one byte more");
    body(&[0, 0xFF]);
    let mut length = 2;
    for language in 0..15 {
        let labels = if language < 2 { 127 } else { 0 };
        println!("a 616263{:02X}", 0x80 | labels);
        for label in 0..labels {
            println!("a {label:02X}FF\nf 255 {}", label + 100);
        }
        length += 4 + labels * 257 + 2;
        println!("a E0{}", if language < 14 { "E0" } else { "E1" });
    }
    let left = 65535 - length - 2;
    println!("a 1F{left:02X}\nf {left} 33");
    lend(5, 180, 1020);
    ask('r');
    line('n', &[65534]);
    lend(5, 180, 1019);
    ask('r');
    line('f', &[1, 0]);
    ask('r');
}

/// English has group 5 and switch group 3, German has switch group 4 and preset 1.
const LANGUAGES: [usize; 24] = [
    101, 110, 103, 1, 0, 1, 7, 1, 1, 7, 2, 0, 100, 101, 117, 1, 2, 0, 7, 2, 1, 7, 3, 1,
];
const ENTRIES: [usize; 16] = [1, 5, 0, 2, 7, 3, 2, 0, 7, 4, 2, 3, 7, 1, 5, 1];

fn two_languages() {
    body(b"Hello!");
    line('t', &[7, 15, 2, 0, 0]);
    line('1', &LANGUAGES);
    line('2', &ENTRIES);
    output(44);
}

fn text_label_values(r: &mut Random) {
    say("the top record: 6 at place 0, before any field: the languages, the trailing run; then 5 at the second byte");
    two_languages();
    ask('w');
    let tops = [
        2, 0, 2, 3, 2, 65535, 1, 16, 1, 0, 1, 255, 3, 1, 3, 6, 3, 7, 4, 6, 4, 7, 0, 255,
    ];
    write_tops(&tops);
    set(0, 2, 3);
    write_tops(&tops);
    set(0, 2, 2);
    set(0, 4, 6);
    write_tops(&tops);
    set(0, 4, 0);
    say("every column of both tables at its edges, into outputs that are long enough and not");
    for n in [44, 28, 27] {
        output(n);
        let all = [0, 1, 2, 3, 4, 5, 6, 7, 8, 31, 32, 127, 128, 255, 256, 65535];
        let values = if n == 44 { &all[..] } else { &[0, 2, 8, 256] };
        for at in 0..40 {
            let (table, at) = if at < 24 { (1, at) } else { (2, at - 24) };
            values.iter().for_each(|v| write_with(table, at, *v));
        }
    }
    say("two faults: the one first in image order is told");
    output(44);
    for _ in 0..150 {
        two_languages_change(r, 'x');
        two_languages_change(r, 'y');
        two_languages_change(r, 'y');
        line('1', &LANGUAGES);
        line('2', &ENTRIES);
    }
    say("tables: a row that lacks a column; sixteen languages; rows that are in no list are not looked at");
    line('1', &[0; 23]);
    write_tops(&[2, 2, 2, 1]);
    line('1', &[0; 204]);
    write_tops(&[2, 15, 2, 16, 2, 17, 2, 18]);
    line('2', &[9, 9, 9, 9]);
    write_tops(&[2, 0, 2, 15]);
    two_languages();
    line('2', &ENTRIES[..15]);
    ask('w');
    say("outputs: 4, after the faults");
    two_languages();
    for n in [31, 30, 29, 28, 27, 1, 0] {
        output(n);
        ask('w');
        set(0, 3, 2);
        write_tops(&[4, 3, 4, 4, 4, 5, 2, 3]);
        set(0, 3, 0);
    }
}

fn two_languages_change(r: &mut Random, letter: char) {
    let v = r.edge(6);
    let at = r.to(40);
    if at < 24 {
        line(letter, &[1, at, v]);
    } else {
        line(letter, &[2, at - 24, v]);
    }
}

fn text_label_counts() {
    say("counts: 6 for rows that the table has not, 5 at the count");
    run(65536, 0);
    line('t', &[7, 15, 1, 0, 0]);
    line('2', &[0; 512]);
    output(4096);
    let counts = [
        129, 0, 0, 128, 0, 0, 0, 32, 0, 0, 0, 32, 1, 32, 0, 1, 1, 32, 127, 31, 31, 3, 2, 1, 0, 0,
        129, 127, 128, 0, 65535, 0, 0, 128, 32, 32, 0, 32, 32,
    ];
    for c in counts.chunks(3) {
        line('1', &[117, 110, 100, 1, 0, c[0], 7, 0, c[1], 7, 0, c[2]]);
        ask('w');
        write_with(1, 0, 256);
        write_with(1, 3, 2);
        write_with(2, 0, 9);
        write_with(2, 3, 256);
    }
    say("labels: 6 at the entry, 5 at its first byte, 5 at its length");
    line('1', &[117, 110, 100, 1, 0, 0, 7, 0, 0, 7, 0, 1]);
    let labels = [
        31, 0, 255, 31, 0, 256, 32, 0, 256, 31, 65535, 1, 31, 65535, 2, 32, 65535, 256, 31, 0,
        65535, 31, 1, 65535, 31, 2, 65535, 0, 0, 0, 31, 65535, 0, 256, 0, 0, 65535, 65535, 65535,
    ];
    for l in labels.chunks(3) {
        line('2', &[7, l[0], l[1], l[2]]);
        ask('w');
    }
    say("languages that share rows, whose labels share bytes");
    body(b"Hello!");
    line('t', &[7, 15, 2, 0, 0]);
    let rows = [
        101, 110, 103, 1, 0, 2, 7, 2, 0, 7, 2, 0, 100, 101, 117, 1, 0, 2, 7, 0, 0, 7, 1, 1,
    ];
    line('1', &rows);
    line('2', &[1, 5, 1, 4, 1, 6, 1, 4]);
    ask('w');
    for at in 0..24 {
        (0..4).for_each(|v| write_with(1, at, v));
    }
    for at in 0..8 {
        [0, 2, 3, 8, 32, 128]
            .iter()
            .for_each(|v| write_with(2, at, *v));
    }
}

fn text_label_lengths() {
    say("results of 65,535 bytes and over: 10, then 4; a fault before both");
    run(65536, 7);
    line('t', &[7, 15, 0, 0, 65533]);
    line::<usize>('1', &[]);
    line::<usize>('2', &[]);
    for n in [0, 44, 65534, 65535, 65536] {
        output(n);
        ask('w');
        write_tops(&[4, 65534, 4, 65535, 1, 16, 3, 4, 2, 1]);
        set(0, 3, 1);
        write_tops(&[4, 65535, 1, 16]);
        set(0, 3, 0);
    }
    say("the largest image: fifteen languages that share all rows, labels of 255 bytes, a trailing run of 65,535");
    run(65535, 0);
    line('t', &[7, 15, 15, 0, 65535]);
    line('1', &[97, 98, 99, 1, 0, 127, 7, 0, 31, 7, 0, 31].repeat(15));
    line('2', &[1, 31, 0, 255].repeat(128));
    output(44);
    ask('w');
    say("faults far past 65,535: at a label's length, at a character, at a language, at an entry");
    for s in [2, 511, 256, 1, 178, 97, 1, 170, 256, 1, 178, 98].chunks(3) {
        set(s[0], s[1], s[2]);
        ask('w');
    }
    set(1, 178, 97);
    set(1, 170, 99);
    let faults = [
        1, 168, 256, 1, 171, 2, 1, 174, 8, 1, 177, 8, 2, 510, 65535, 2, 508, 8, 2, 509, 32,
    ];
    faults.chunks(3).for_each(|f| write_with(f[0], f[1], f[2]));
}

fn text_label_back(r: &mut Random) {
    say("read and written back, with columns at and over their widths, and outputs about the length");
    let lists = "|000|100|010|001|321|111111111111|020201|gss";
    let fifteen = "011".repeat(15);
    for text in lists.split('|').chain([fifteen.as_str()]) {
        for trailing in [0, 5] {
            let counts = counts(text);
            let (languages, entries) = (counts.len(), entries_of(&counts));
            let b = bodies::text_label(r, &counts, 4, trailing);
            body(&b);
            lend(5, 12 * languages + r.to(12), 4 * entries + r.to(4));
            ask('r');
            outputs(b.len());
            (0..30).for_each(|_| text_label_change(r, languages, entries, b.len(), 'y'));
            for _ in 0..8 {
                text_label_change(r, languages, entries, b.len(), 'x');
                text_label_change(r, languages, entries, b.len(), 'y');
            }
        }
    }
    say("all languages with all their labels, written back");
    let b = full_labels(0xA5);
    body(&b);
    lend(5, 181, 11341);
    ask('r');
    outputs(b.len());
    let changes = [
        1, 179, 32, 1, 179, 30, 1, 168, 256, 2, 11339, 256, 2, 11338, 65535, 2, 5669, 32, 2, 0, 2,
    ];
    changes.chunks(3).for_each(|c| write_with(c[0], c[1], c[2]));
    for text in [BENCH_LABELS, LISTS, ZEROS, "00F00001"] {
        let b = unhex(text);
        body(&b);
        lend(5, 25, 35);
        ask('r');
        outputs(b.len());
    }
}

fn text_label_change(r: &mut Random, languages: usize, entries: usize, store: usize, letter: char) {
    let v = r.edge(store);
    match r.to(5) {
        0 | 1 if languages > 0 => line(letter, &[1, r.to(12 * languages), v]),
        2 | 3 if entries > 0 => line(letter, &[2, r.to(4 * entries), v]),
        _ => {
            let column = r.to(5);
            line(letter, &[0, column, if column < 2 { v % 256 } else { v }]);
        }
    }
}

// ---- multi-stream, kind 4

/// 127 groups, every other one in the main stream.
fn full_groups(aux: u8, count: u8) -> Vec<u8> {
    let mut b = vec![0x81, aux, count];
    for i in 0..127u8 {
        if i & 1 == 1 {
            b.push(2 * i + 1);
        } else {
            b.extend([2 * i, 128 + i]);
        }
    }
    b
}

fn multi_stream_reads(r: &mut Random) {
    say("the bench body of document 01, and small ones, with their cuts; two rows and a column are lent");
    lend(8, 11, 0);
    cut_each("818082070885 818082070885FF 01FFFF 810000 8180830707 818083070707");
    cut_each("8100010101 8180810685 81808106 00 80FF80 FF7F7F 8100020001FF");
    say("every value of the first bytes");
    lend(9, 640, 1);
    body(&full_groups(0xFF, 0xFF)[..40]);
    (0..3).for_each(every_value);
    body(&unhex("818082070885"));
    every_value(3);
    every_value(4);
    say("no room: the top record, then the rows, after a short body; a rest shorter than a row counts for none");
    body(&unhex("818083070004850907"));
    let lent = [
        0, 0, 7, 15, 8, 0, 8, 4, 8, 5, 8, 10, 8, 14, 8, 15, 8, 16, 16, 20, 0, 20,
    ];
    for l in lent.chunks(2) {
        lend(l[0], l[1], 0);
        ask('c');
    }
    say("127 groups, with each reserved bit at 1 and at 0, 127 rows, one fewer, one more");
    for bits in [0xFF, 0xFF, 0x00, 0xFF, 0x80, 0x7F, 0x00, 0x7F].chunks(2) {
        let b = full_groups(bits[0], bits[1]);
        body(&b);
        for columns in [640, 635, 634, 630] {
            lend(8, columns, 3);
            ask('r');
        }
        cuts(&b);
    }
    say("counts, groups in and out of the main stream, trailing runs, their cuts, damaged copies");
    for count in [0, 1, 2, 3, 9, 64, 126, 127] {
        for (aux, trailing) in [(0, 0), (1, 0), (2, 0), (0, 6), (1, 6), (2, 6)] {
            let b = bodies::multi_stream(r, count, aux, trailing);
            lend(8, 5 * count + r.to(9), 0);
            cuts(&b);
            (0..5).for_each(|at| damage(r, &b, at, 1));
            let at = r.to(b.len());
            damage(r, &b, at, 1);
        }
    }
    say("no main part, with trailing runs");
    for trailing in [0, 1, 20] {
        let mut b = vec![r.byte() & 0x7F];
        b.extend(r.bytes(trailing));
        cuts(&b);
    }
    lend(8, 640, 0);
    long("00 FF00FF 818082070885");
}

fn multi_stream_writes(r: &mut Random) {
    say("flags: 5 at the row's start, isInTS only where the location is there; then 9; then 5 at the own byte");
    body(&[1, 2, 3, 4]);
    output(4096);
    line('t', &[1, 1, 1, 0, 1, 1, 0, 0]);
    let rows = [
        127, 1, 0, 0, 0, 4, 0, 1, 1, 127, 4, 2, 0, 0, 5, 4, 1, 2, 0, 5, 4, 0, 1, 2, 5, 4, 1, 0, 2,
        5, 4, 1, 1, 1, 5, 4, 0, 0, 1, 5, 128, 1, 0, 1, 5, 128, 0, 1, 1, 5, 128, 1, 1, 1, 5, 4, 0,
        1, 1, 128, 256, 1, 0, 0, 0, 65535, 1, 0, 0, 0, 4, 0, 1, 1, 256, 4, 0, 1, 65535, 128, 4,
        65535, 1, 1, 5, 4, 0, 65535, 1, 5, 128, 2, 0, 0, 0, 4, 1, 0, 9, 999, 4, 256, 256, 0, 0,
        128, 0, 1, 1, 128, 128, 0, 0, 0, 0, 65535, 1, 1, 0, 0, 256, 0, 0, 1, 128, 128, 1, 1, 2,
        128,
    ];
    for row in rows.chunks(5) {
        line('1', row);
        ask('w');
    }
    say("fields before the groups; ranges at place 0, before any field; an absent main part is not looked at");
    line('1', &[4, 0, 1, 1, 5]);
    let tops = [
        0, 127, 0, 128, 0, 255, 2, 0, 2, 2, 2, 255, 3, 127, 3, 128, 4, 0, 4, 2, 5, 0, 5, 2, 5,
        65535, 6, 1, 6, 4, 6, 5, 7, 4, 7, 5, 7, 65535, 1, 0,
    ];
    for s in [5, 1, 5, 2, 5, 9, 7, 4, 1, 0, 5, 1, 7, 0].chunks(2) {
        set(0, s[0], s[1]);
        write_tops(&tops);
    }
    say("tables: a row that lacks a column; 127 groups, 128 groups, more than the table has");
    line('1', &[4, 0, 1, 1]);
    line('t', &[1, 1, 1, 0, 1, 1, 0, 0]);
    ask('w');
    let numbers = [
        5, 0, 5, 1, 5, 126, 5, 127, 5, 128, 5, 129, 5, 131, 5, 132, 5, 65535,
    ];
    for row in [[0, 0, 0, 0, 0], [3, 1, 0, 0, 0]] {
        line('1', &row.repeat(131));
        write_tops(&numbers);
    }
    say("a fault in each of 127 rows, behind rows of both sizes");
    line('1', &[3, 1, 0, 0, 0, 5, 0, 1, 1, 6].repeat(64));
    set(0, 5, 127);
    for row in 0..127 {
        write_with(1, 5 * row + r.to(3), r.one_of(&[2, 128, 256, 65535]));
        write_with(1, 5 * row + 3, 2);
        write_with(1, 5 * row + 4, 128);
    }
    say("results of 65,535 bytes and over: 10, then 4; a fault before both");
    run(65536, 7);
    line('t', &[1, 0, 0, 0, 0, 0, 0, 65534]);
    for n in [0, 4096, 65534, 65535, 65536] {
        output(n);
        ask('w');
        write_tops(&[7, 65535, 7, 4096, 0, 128, 6, 3]);
    }
    multi_stream_back(r);
}

fn multi_stream_back(r: &mut Random) {
    say("read and written back, with columns at and over their widths, and outputs about the length");
    for count in [0, 1, 2, 3, 7, 20, 127] {
        for aux in [0, 1, 2] {
            let trailing = r.to(6);
            let b = bodies::multi_stream(r, count, aux, trailing);
            body(&b);
            lend(8, 5 * count + r.to(5), 0);
            ask('r');
            outputs(b.len());
            (0..56).for_each(|_| multi_stream_change(r, count, b.len(), 'y'));
            for _ in 0..16 {
                multi_stream_change(r, count, b.len(), 'x');
                multi_stream_change(r, count, b.len(), 'x');
                multi_stream_change(r, count, b.len(), 'y');
            }
        }
    }
}

fn multi_stream_change(r: &mut Random, count: usize, store: usize, letter: char) {
    let v = r.edge(store);
    if count > 0 && r.to(4) > 0 {
        let (row, column) = (r.to(count), r.to(5));
        let flag = r.one_of(&[0, 1, 0, 1, 2, v]);
        let v = if (1..4).contains(&column) { flag } else { v };
        return line(letter, &[1, 5 * row + column, v]);
    }
    let column = r.to(8);
    let v = match column {
        1 => v % 2,
        0 | 2 | 3 | 4 => v % 256,
        _ => v,
    };
    line(letter, &[0, column, v]);
}

fn main() {
    say("Cases for crates/vectors, printed by oracle/list; docs/ORACLE.md says what the letters mean.");
    let r = &mut Random(1);
    say("---- base");
    line('k', &[1]);
    small(11, 2, 2);
    base_reads(r);
    base_writes(r);
    say("---- text label");
    line('k', &[3]);
    small(6, 13, 5);
    text_label_reads(r);
    text_label_values(r);
    text_label_counts();
    text_label_lengths();
    text_label_back(r);
    say("---- multi-stream");
    line('k', &[4]);
    small(9, 11, 2);
    multi_stream_reads(r);
    multi_stream_writes(r);
    say("---- scene");
    line('k', &[2]);
    list_scene::cases(&mut Random(2));
    say("---- DRC and loudness");
    line('k', &[5]);
    list_drc_loudness::cases(&mut Random(5));
}
