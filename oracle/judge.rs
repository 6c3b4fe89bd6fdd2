//! Answers the list of cases on standard input by the Rust, a line of answers for each case. docs/ORACLE.md says what the letters mean.
#![allow(dead_code, unexpected_cfgs)]
extern crate alloc;
mod answers;
mod drc_loudness;
mod rust;
mod scene;
use answers::{kind, Answer, Answers, Value};
use rust::error;
use std::io::{BufWriter, Read, Write};

/// What lent columns and the output hold before each case.
const COLUMN: u16 = 43981;
const BYTE: u8 = 171;

/// The columns of the top record and of each table, at most.
const ROOM: [usize; 6] = [32, 4096, 12288, 4096, 4096, 8192];

/// What the lines before have set: of the top record and of the five tables, the columns and how many of them are lent.
struct State {
    kind: usize,
    body: Vec<u8>,
    tables: [Vec<u16>; 6],
    lent: [usize; 6],
    out: usize,
}

fn mix(digest: u64, x: u64) -> u64 {
    ((digest % 4294967291) * 65599 + x % 4294967291) % 4294967291
}

fn mix_columns(digest: u64, columns: &[u16]) -> u64 {
    columns.iter().fold(digest, |d, &c| mix(d, c.into()))
}

/// The answer as the one number that the library for hosts gives.
fn code(a: &Answer) -> u64 {
    if a.number == 3 {
        3 | a.value << 8 | a.rows << 32
    } else {
        a.number | a.value << 8
    }
}

fn show(a: &Answer) -> String {
    if a.number == 3 {
        format!("3 {} {}", a.value, a.rows)
    } else {
        format!("{} {}", a.number, a.value)
    }
}

impl State {
    /// Reads the first n bytes into tables that hold the pattern; what is answered, and the digest of what was lent.
    fn read(&mut self, n: usize) -> (Answers, u64) {
        let a = answers::read(kind(self.kind), &self.body[..n], &self.lent);
        for (t, n) in self.tables.iter_mut().zip(self.lent) {
            t[..n].fill(COLUMN);
        }
        if let Some(r) = &a.record {
            let read = std::iter::once(&r.top).chain(&r.tables);
            for (t, columns) in self.tables.iter_mut().zip(read) {
                t[..columns.len()].copy_from_slice(columns);
            }
        }
        // a column more than it needs, and three for the kinds with fewer tables
        let mut rows = vec![COLUMN; (kind(self.kind).tables.len() + 1).max(3)];
        rows[..a.rows.len()].copy_from_slice(&a.rows);
        let lent = self.tables.iter().zip(self.lent);
        let digest = lent.fold(0, |d, (t, n)| mix_columns(d, &t[..n]));
        (a, mix_columns(digest, &rows))
    }

    fn show_read(&mut self, n: usize, out: &mut impl Write) {
        let (a, digest) = self.read(n);
        let (r, m, t) = (show(&a.read), show(&a.measured), show(&a.tallied));
        writeln!(out, "{r} {m} {t} {digest}").unwrap();
    }

    /// Every body of n bytes, at most two, as one digest.
    fn show_every(&mut self, n: usize, count: usize, out: &mut impl Write) {
        let mut digest = 0;
        for i in 0..count {
            self.body = vec![i as u8, (i / 256) as u8];
            let (a, d) = self.read(n);
            for x in [code(&a.read), code(&a.measured), code(&a.tallied), d] {
                digest = mix(digest, x);
            }
        }
        writeln!(out, "{digest}").unwrap();
    }

    fn show_written(&self, out: &mut impl Write) {
        let mut top = self.tables[0].clone();
        // of the top record the entry points take bytes and flags
        let bytes: &[usize] = match self.kind {
            1 => &[0, 5, 6, 7],
            2 => &[0, 1, 4, 7, 10],
            3 => &[0, 1],
            _ => &[0, 2, 3, 4],
        };
        for &i in bytes {
            top[i] %= 256;
        }
        let tables = self.tables.iter().zip(self.lent).skip(1);
        let value = Value {
            top: &top,
            tables: tables.map(|(t, n)| &t[..n]).collect(),
            store: &self.body,
        };
        let (a, image) = answers::write(kind(self.kind), &value, self.out);
        let mut room = vec![BYTE; self.out];
        if let Some(image) = image {
            room[..image.len()].copy_from_slice(&image);
        }
        let digest = room.iter().fold(0, |d, &b| mix(d, b.into()));
        writeln!(out, "{} {digest}", show(&a)).unwrap();
    }

    fn put(&mut self, table: usize, columns: &[usize]) {
        self.lent[table] = columns.len();
        for (column, &x) in self.tables[table].iter_mut().zip(columns) {
            *column = x as u16;
        }
    }

    fn line(&mut self, letter: char, rest: &str, out: &mut impl Write) {
        let v = || -> Vec<usize> {
            let words = rest.split_whitespace();
            words.map(|w| w.parse().unwrap()).collect()
        };
        match letter {
            'k' => self.kind = v()[0],
            'l' => self.lent = std::array::from_fn(|i| v().get(i).copied().unwrap_or(0)),
            'o' => self.out = v()[0],
            'b' => self.body = hex(rest),
            'a' => self.body.extend(hex(rest)),
            'f' => self.body.resize(self.body.len() + v()[0], v()[1] as u8),
            't' => self.put(0, &v()),
            '1'..='5' => self.put(letter as usize - '0' as usize, &v()),
            'r' => self.show_read(self.body.len(), out),
            'n' => self.show_read(v()[0], out),
            'c' => (0..=self.body.len()).for_each(|n| self.show_read(n, out)),
            'd' => {
                let v = v();
                let old = std::mem::replace(&mut self.body[v[0]], v[1] as u8);
                self.show_read(self.body.len(), out);
                self.body[v[0]] = old;
            }
            's' => self.show_every(v()[0], v()[1], out),
            'w' => self.show_written(out),
            'x' => self.tables[v()[0]][v()[1]] = v()[2] as u16,
            'y' => {
                let v = v();
                let old = std::mem::replace(&mut self.tables[v[0]][v[1]], v[2] as u16);
                self.show_written(out);
                self.tables[v[0]][v[1]] = old;
            }
            _ => panic!("no letter of the list: {letter}"),
        }
    }
}

fn hex(text: &str) -> Vec<u8> {
    let digits: Vec<u8> = text.bytes().filter(|b| *b != b' ').collect();
    digits
        .chunks(2)
        .map(|d| u8::from_str_radix(std::str::from_utf8(d).unwrap(), 16).unwrap())
        .collect()
}

fn main() {
    let mut list = String::new();
    std::io::stdin().read_to_string(&mut list).expect("a list");
    let mut out = BufWriter::new(std::io::stdout());
    let mut s = State {
        kind: 0,
        body: vec![],
        tables: ROOM.map(|n| vec![0; n]),
        lent: [0; 6],
        out: 0,
    };
    for line in list.lines() {
        let mut chars = line.chars();
        match chars.next() {
            None | Some('#') => {}
            Some(letter) => s.line(letter, chars.as_str().trim(), &mut out),
        }
    }
}
