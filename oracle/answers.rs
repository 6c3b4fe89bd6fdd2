//! The Rust's answers in document 01's numbers, columns and places: what `parse` gives as columns, and what `write` makes of columns.
//! What the Rust has no word for is document 01's and stands in the modules `document_01`, here, in scene.rs, which has the scene, and in
//! drc_loudness.rs, which has DRC and loudness.
use crate::rust::error::{Error, Result};
use crate::rust::mpegh_3d_audio::*;
use crate::{drc_loudness, scene};

/// A number of document 01 and what it returns. Number 3 returns a table, `value`, and the rows that it needs.
#[derive(Debug, Clone, Copy, PartialEq, Eq)]
pub struct Answer {
    pub number: u64,
    pub value: u64,
    pub rows: u64,
}

pub fn answer(number: u64, value: usize) -> Answer {
    Answer {
        number,
        value: value as u64,
        rows: 0,
    }
}

/// A kind of body: the columns of its top record, and of each table its number and its columns.
pub struct Kind {
    pub number: usize,
    pub top: usize,
    pub tables: &'static [(u64, usize)],
}

pub const KINDS: [Kind; 5] = [
    Kind {
        number: 1,
        top: 10,
        tables: &[],
    },
    Kind {
        number: 2,
        top: 13,
        tables: &[(1, 27), (2, 9), (3, 2), (4, 7), (5, 13)],
    },
    Kind {
        number: 3,
        top: 5,
        tables: &[(6, 12), (7, 4)],
    },
    Kind {
        number: 4,
        top: 8,
        tables: &[(8, 5)],
    },
    Kind {
        number: 5,
        top: 10,
        tables: &[(9, 24), (10, 2), (11, 7), (12, 4)],
    },
];

pub fn kind(number: usize) -> &'static Kind {
    KINDS.iter().find(|k| k.number == number).expect("a kind")
}

/// What a body is read as: the top record, and the kind's tables.
pub struct Record {
    pub top: Vec<u16>,
    pub tables: Vec<Vec<u16>>,
    pub k: usize,
    pub tally: usize,
}

/// What the entry points answer of a body; the record, where reading is done.
pub struct Answers {
    pub read: Answer,
    pub measured: Answer,
    pub tallied: Answer,
    pub rows: Vec<u16>,
    pub record: Option<Record>,
}

// ---- reading

/// Goes along the body as the Rust's lengths say, and holds the Rust's bytes to the body's.
pub struct Along<'a> {
    pub body: &'a [u8],
    pub at: usize,
}

impl Along<'_> {
    /// Offset and length of a payload.
    pub fn payload(&mut self, bytes: &[u8]) -> [u16; 2] {
        let at = self.at;
        assert_eq!(&self.body[at..at + bytes.len()], bytes, "a payload");
        self.at += bytes.len();
        [at as u16, bytes.len() as u16]
    }
}

pub fn zeros(field: u8, width: u32) -> usize {
    (width - u32::from(field).count_ones()) as usize
}

/// Goes along a body of a kind with many rows, fills its tables, and counts the reserved bits at 0.
pub struct Walk<'a> {
    pub along: Along<'a>,
    pub tables: Vec<Vec<u16>>,
    pub tally: usize,
}

impl Walk<'_> {
    /// Behind the first bytes, `at` of them, with so many tables.
    pub fn new(body: &[u8], at: usize, tables: usize) -> Walk<'_> {
        Walk {
            along: Along { body, at },
            tables: vec![vec![]; tables],
            tally: 0,
        }
    }

    pub fn reserved(&mut self, field: u8, width: u32) -> u16 {
        self.tally += zeros(field, width);
        field.into()
    }

    /// The record of a body that ends with the trailing run: the top record's columns but for that run's, which are the last.
    pub fn record(mut self, mut top: Vec<u16>, trailing: &[u8]) -> Record {
        let k = self.along.at;
        top.extend(self.along.payload(trailing));
        assert_eq!(self.along.at, self.along.body.len(), "the end");
        Record {
            top,
            tables: self.tables,
            k,
            tally: self.tally,
        }
    }
}

fn base_record(m: &MpegH3dAudio, body: &[u8]) -> Record {
    let mut along = Along { body, at: 3 };
    let mut sets = [0, 0];
    if let Some(list) = &m.compatible_sets {
        along.at += 1;
        sets = along.payload(list);
    }
    let k = along.at;
    let trailing = along.payload(&m.trailing);
    assert_eq!(along.at, body.len(), "the end");
    let top = vec![
        m.profile_level_indication.into(),
        m.interactivity_enabled.into(),
        m.compatible_sets.is_some().into(),
        sets[0],
        sets[1],
        m.reserved_flags.into(),
        m.reserved_layout.into(),
        m.reference_channel_layout.into(),
        trailing[0],
        trailing[1],
    ];
    let tally = zeros(m.reserved_flags, 6) + zeros(m.reserved_layout, 2);
    Record {
        top,
        tables: vec![],
        k,
        tally,
    }
}

/// One of a language's lists: its three columns go to `row`, its rows to `entries`. Answers the zero bits.
fn list_columns(
    reserved: u8,
    list: &[TextLabelEntry],
    width: u32,
    along: &mut Along,
    row: &mut Vec<u16>,
    entries: &mut Vec<u16>,
) -> usize {
    row.extend([reserved.into(), entries.len() as u16 / 4, list.len() as u16]);
    along.at += 1;
    let mut tally = zeros(reserved, width);
    for e in list {
        along.at += 2;
        let data = along.payload(&e.data);
        entries.extend([e.reserved.into(), e.id.into(), data[0], data[1]]);
        tally += zeros(e.reserved, width);
    }
    tally
}

fn text_label_record(m: &MpegH3dAudioTextLabel, body: &[u8]) -> Record {
    let mut along = Along { body, at: 2 };
    let (mut languages, mut entries) = (vec![], vec![]);
    let mut tally = zeros(m.reserved, 4);
    for l in &m.languages {
        along.payload(&l.language);
        languages.extend(l.language.map(u16::from));
        for (reserved, list, width) in [
            (l.reserved_groups, &l.groups, 1),
            (l.reserved_switch_groups, &l.switch_groups, 3),
            (l.reserved_presets, &l.presets, 3),
        ] {
            tally += list_columns(
                reserved,
                list,
                width,
                &mut along,
                &mut languages,
                &mut entries,
            );
        }
    }
    let k = along.at;
    let trailing = along.payload(&m.trailing);
    assert_eq!(along.at, body.len(), "the end");
    let count = m.languages.len() as u16;
    Record {
        top: vec![
            m.scene_info_id.into(),
            m.reserved.into(),
            count,
            trailing[0],
            trailing[1],
        ],
        tables: vec![languages, entries],
        k,
        tally,
    }
}

fn multi_stream_record(m: &MpegH3dAudioMultiStream, body: &[u8]) -> Record {
    let mut along = Along { body, at: 1 };
    let mut top = vec![m.this_stream_id.into(), 0, 0, 0, 0, 0];
    let mut groups = vec![];
    let mut tally = 0;
    if let Some(p) = &m.main {
        along.at += 2;
        tally = zeros(p.reserved_aux, 1) + zeros(p.reserved_groups, 1);
        top.splice(
            1..,
            [
                1,
                p.reserved_aux.into(),
                p.num_auxiliary_streams.into(),
                p.reserved_groups.into(),
                p.groups.len() as u16,
            ],
        );
        for g in &p.groups {
            along.at += 1 + usize::from(g.auxiliary.is_some());
            groups.extend([g.group_id.into(), u16::from(g.is_in_main_stream)]);
            groups.extend(match &g.auxiliary {
                Some(a) => [1, a.is_in_ts.into(), a.auxiliary_stream_id.into()],
                None => [0, 0, 0],
            });
        }
    }
    let k = along.at;
    top.extend(along.payload(&m.trailing));
    assert_eq!(along.at, body.len(), "the end");
    Record {
        top,
        tables: vec![groups],
        k,
        tally,
    }
}

/// The Rust's `parse`: a record, or its need.
fn parse(kind: &Kind, body: &[u8]) -> std::result::Result<Record, usize> {
    let r = &mut Reader::new(body, "a body");
    let record = match kind.number {
        1 => MpegH3dAudio::parse(r).map(|m| base_record(&m, body)),
        2 => MpegH3dAudioScene::parse(r).map(|m| scene::record(&m, body)),
        3 => MpegH3dAudioTextLabel::parse(r).map(|m| text_label_record(&m, body)),
        4 => MpegH3dAudioMultiStream::parse(r).map(|m| multi_stream_record(&m, body)),
        _ => MpegH3dAudioDrcLoudness::parse(r).map(|m| drc_loudness::record(&m, body)),
    };
    record.map_err(|e| match e {
        Error::BufferTooShort { need, .. } => need,
        e => panic!("reading refuses by {e:?}"),
    })
}

/// What is answered of a body, with so many columns lent for the top record and for each table.
pub fn read(kind: &Kind, body: &[u8], lent: &[usize]) -> Answers {
    let refused = |a: Answer| Answers {
        read: a,
        measured: a,
        tallied: a,
        rows: vec![],
        record: None,
    };
    if let Some(a) = document_01::body_too_long(body) {
        return refused(a);
    }
    let record = match parse(kind, body) {
        Err(need) => return refused(answer(1, need)),
        Ok(r) => r,
    };
    let room = document_01::no_room(kind, &record, lent);
    Answers {
        read: room.unwrap_or(answer(0, 0)),
        measured: answer(0, record.k),
        tallied: answer(0, record.tally),
        rows: rows_of(kind, &record),
        record: if room.is_none() { Some(record) } else { None },
    }
}

/// The rows of each table, which measuring answers.
fn rows_of(kind: &Kind, record: &Record) -> Vec<u16> {
    let columns = kind.tables.iter().map(|t| t.1);
    let tables = record.tables.iter();
    columns
        .zip(tables)
        .map(|(c, t)| (t.len() / c) as u16)
        .collect()
}

// ---- writing

/// What is to be written: columns of the top record and the tables, and the store. Columns of the top record that are bytes or flags are
/// below 256 and below 2: the entry points take no others.
pub struct Value<'a> {
    pub top: &'a [u16],
    pub tables: Vec<&'a [u16]>,
    pub store: &'a [u8],
}

impl Value<'_> {
    /// A payload of the store, or one that is as much too long.
    pub fn payload(&self, offset: u16, length: u16) -> Vec<u8> {
        let (offset, length) = (usize::from(offset), usize::from(length).min(256));
        self.store[offset..offset + length].to_vec()
    }

    /// The trailing run, whatever its length.
    pub fn trailing(&self, column: usize) -> Vec<u8> {
        let offset = usize::from(self.top[column]);
        self.store[offset..offset + usize::from(self.top[column + 1])].to_vec()
    }
}

/// A column as the Rust's byte. One over 255 becomes 255, which is over the width of every field but a full byte.
pub fn byte(column: u16) -> u8 {
    column.min(255) as u8
}

/// What stands behind the row with a fault that the Rust has no word for: as many plain rows as there are, or nothing.
#[derive(Clone, Copy, PartialEq)]
pub enum Behind {
    Plain,
    Nothing,
}

fn base_value(v: &Value) -> MpegH3dAudio {
    let t = v.top;
    MpegH3dAudio {
        profile_level_indication: byte(t[0]),
        interactivity_enabled: t[1] != 0,
        compatible_sets: (t[2] != 0).then(|| v.payload(t[3], t[4])),
        reserved_flags: byte(t[5]),
        reserved_layout: byte(t[6]),
        reference_channel_layout: byte(t[7]),
        trailing: v.trailing(8),
    }
}

fn entry_value(v: &Value, row: usize) -> TextLabelEntry {
    let e = &v.tables[1][4 * row..4 * row + 4];
    TextLabelEntry {
        reserved: byte(e[0]),
        id: byte(e[1]),
        data: v.payload(e[2], e[3]),
    }
}

fn plain_entry() -> TextLabelEntry {
    TextLabelEntry {
        reserved: 0,
        id: 0,
        data: vec![],
    }
}

/// A list, with its first rows real and the others plain.
fn list_value(v: &Value, list: &[u16], real: usize) -> (u8, Vec<TextLabelEntry>) {
    let (first, count) = (usize::from(list[1]), usize::from(list[2]));
    let entries = (0..count).map(|i| {
        if i < real {
            entry_value(v, first + i)
        } else {
            plain_entry()
        }
    });
    (byte(list[0]), entries.collect())
}

fn plain_language() -> TextLabelLanguage {
    TextLabelLanguage {
        language: [0; 3],
        reserved_groups: 0,
        groups: vec![],
        reserved_switch_groups: 0,
        switch_groups: vec![],
        reserved_presets: 0,
        presets: vec![],
    }
}

/// A language, its lists before `lists` real, that list real up to the row `rows`, and what follows plain.
fn language_value(v: &Value, language: usize, lists: usize, rows: usize) -> TextLabelLanguage {
    let l = &v.tables[0][12 * language..12 * language + 12];
    let list = |i: usize| match i {
        i if i < lists => list_value(v, &l[3 * i + 3..3 * i + 6], usize::MAX),
        i if i == lists => list_value(v, &l[3 * i + 3..3 * i + 6], rows),
        _ => (0, vec![]),
    };
    let ((reserved_groups, groups), (reserved_switch_groups, switch_groups)) = (list(0), list(1));
    let (reserved_presets, presets) = list(2);
    TextLabelLanguage {
        language: [byte(l[0]), byte(l[1]), byte(l[2])],
        reserved_groups,
        groups,
        reserved_switch_groups,
        switch_groups,
        reserved_presets,
        presets,
    }
}

/// The value up to a fault that the Rust has no word for, and plain from there on; or the whole value.
fn text_label_value(v: &Value, fault: &Option<document_01::LabelFault>) -> MpegH3dAudioTextLabel {
    let t = v.top;
    let language = |i: usize| match fault {
        Some(f) if i > f.language => plain_language(),
        Some(f) if i == f.language => match f.entry {
            None => plain_language(),
            Some((list, row)) => language_value(v, i, list, row),
        },
        _ => language_value(v, i, 3, 0),
    };
    MpegH3dAudioTextLabel {
        scene_info_id: byte(t[0]),
        reserved: byte(t[1]),
        languages: (0..usize::from(t[2])).map(language).collect(),
        trailing: v.trailing(3),
    }
}

fn group_value(v: &Value, row: usize) -> MultiStreamGroup {
    let g = &v.tables[0][5 * row..5 * row + 5];
    MultiStreamGroup {
        group_id: byte(g[0]),
        is_in_main_stream: g[1] != 0,
        auxiliary: (g[2] != 0).then(|| AuxiliaryLocation {
            is_in_ts: g[3] != 0,
            auxiliary_stream_id: byte(g[4]),
        }),
    }
}

fn plain_group() -> MultiStreamGroup {
    MultiStreamGroup::in_main_stream(0)
}

/// As of the text label body: the groups from `fault` on are plain.
fn multi_stream_value(v: &Value, fault: Option<usize>) -> MpegH3dAudioMultiStream {
    let t = v.top;
    let group = |i: usize| match fault {
        Some(f) if i >= f => plain_group(),
        _ => group_value(v, i),
    };
    MpegH3dAudioMultiStream {
        this_stream_id: byte(t[0]),
        main: (t[1] != 0).then(|| MultiStreamMain {
            reserved_aux: byte(t[2]),
            num_auxiliary_streams: byte(t[3]),
            reserved_groups: byte(t[4]),
            groups: (0..usize::from(t[5])).map(group).collect(),
        }),
        trailing: v.trailing(6),
    }
}

/// The Rust's `write`: the image, or the fault, its place being the bytes that it had pushed by then.
pub fn image(
    write: impl Fn(&mut Vec<u8>) -> Result<()>,
) -> std::result::Result<Vec<u8>, (Answer, usize)> {
    let mut out = vec![];
    let number = match write(&mut out) {
        Ok(()) => return Ok(out),
        Err(Error::FieldOverflow(_)) => 5,
        Err(Error::InvalidDescriptor { reason, .. }) if reason.contains("needs at least one") => 7,
        Err(Error::InvalidDescriptor { reason, .. }) if reason.starts_with("DrcScope::") => 8,
        Err(Error::InvalidDescriptor { .. }) => 9,
        Err(e) => panic!("writing refuses by {e:?}"),
    };
    Err((answer(number, out.len()), out.len()))
}

fn place(write: impl Fn(&mut Vec<u8>) -> Result<()>) -> usize {
    image(write)
        .expect_err("a fault was put there for its place")
        .1
}

pub type Image = std::result::Result<Vec<u8>, Answer>;

fn write_text_label(v: &Value) -> Image {
    let fault = document_01::label_fault(v);
    let value = text_label_value(v, &fault);
    let written = image(|out| value.write(out)).map_err(|e| e.0)?;
    let Some(f) = fault else { return Ok(written) };
    // a field too wide is put where the fault is, and the Rust says the place: in a language, behind its three characters
    let mut marked = value.clone();
    let language = &mut marked.languages[f.language];
    match f.entry {
        None => language.reserved_groups = 255,
        Some((0, row)) => language.groups[row].reserved = 255,
        Some((1, row)) => language.switch_groups[row].reserved = 255,
        Some((_, row)) => language.presets[row].reserved = 255,
    }
    let place = place(|out| marked.write(out)) - if f.entry.is_none() { 3 } else { 0 };
    Err(answer(f.number, place + f.character))
}

fn write_multi_stream(v: &Value) -> Image {
    let fault = document_01::group_fault(v);
    let mut value = multi_stream_value(v, fault);
    let written = image(|out| value.write(out)).map_err(|e| e.0)?;
    let Some(row) = fault else { return Ok(written) };
    // the same with a row that the Rust refuses at its start
    let main = value.main.as_mut().expect("groups");
    main.groups[row].is_in_main_stream = false;
    Err(answer(5, place(|out| value.write(out))))
}

/// What writing into an output of `room` bytes answers, and the image where it is done.
pub fn write(kind: &Kind, v: &Value, room: usize) -> (Answer, Option<Vec<u8>>) {
    if let Some(a) = document_01::top_range(kind, v) {
        return (a, None);
    }
    let image = match kind.number {
        1 => {
            let value = base_value(v);
            image(|out| value.write(out)).map_err(|e| e.0)
        }
        2 => scene::write(v),
        3 => write_text_label(v),
        4 => write_multi_stream(v),
        _ => drc_loudness::write(v),
    };
    match image {
        Err(a) => (a, None),
        Ok(image) => match document_01::too_long_or_no_room(&image, room) {
            Some(a) => (a, None),
            None => (answer(0, image.len()), Some(image)),
        },
    }
}

/// What the Rust cannot express: bodies and results over 65,535 bytes, lent memory that is too small, ranges, and numbers that its types
/// cannot hold. Written from document 01, "Row tables" and "Numbers returned".
pub mod document_01 {
    use super::{answer, Answer, Kind, Record, Value};

    /// 2, before all else.
    pub fn body_too_long(body: &[u8]) -> Option<Answer> {
        (body.len() > 65535).then(|| answer(2, body.len()))
    }

    /// 3, after the whole body is known to be sound: the lowest table and the rows that it needs; the top record counts as table 0.
    pub fn no_room(kind: &Kind, record: &Record, lent: &[usize]) -> Option<Answer> {
        let three = |table: u64, rows: usize| Answer {
            number: 3,
            value: table,
            rows: rows as u64,
        };
        if lent[0] < kind.top {
            return Some(three(0, 1));
        }
        for (i, &(table, columns)) in kind.tables.iter().enumerate() {
            let rows = record.tables[i].len() / columns;
            if lent[i + 1] / columns < rows {
                return Some(three(table, rows));
            }
        }
        None
    }

    pub fn passes(first: u16, count: u16, end: usize) -> bool {
        usize::from(first) + usize::from(count) > end
    }

    /// 6 at place 0: the ranges of the top record, of parts that are there.
    pub fn top_range(kind: &Kind, v: &Value) -> Option<Answer> {
        let (t, store) = (v.top, v.store.len());
        let rows = |i: usize| v.tables[i].len() / kind.tables[i].1;
        let out = match kind.number {
            1 => (t[2] != 0 && passes(t[3], t[4], store)) || passes(t[8], t[9], store),
            2 => {
                (t[2] != 0 && passes(0, t[3], rows(0)))
                    || (t[5] != 0 && passes(0, t[6], rows(1)))
                    || (t[8] != 0 && passes(0, t[9], rows(3)))
                    || passes(t[11], t[12], store)
            }
            3 => passes(0, t[2], rows(0)) || passes(t[3], t[4], store),
            4 => (t[1] != 0 && passes(0, t[5], rows(0))) || passes(t[6], t[7], store),
            _ => {
                let counts = [(t[5], 0), (t[6], 2), (t[7], 3)];
                (t[1] != 0 && counts.iter().any(|&(n, i)| passes(0, n, rows(i))))
                    || passes(t[8], t[9], store)
            }
        };
        out.then(|| answer(6, 0))
    }

    /// A fault of a language's start (`character` 0 and number 6), of one of its characters, or of the start of an entry: list and row.
    pub struct LabelFault {
        pub number: u64,
        pub language: usize,
        pub character: usize,
        pub entry: Option<(usize, usize)>,
    }

    /// The first language or entry in image order with a range (6), or with a character over 255 (5 at its own byte).
    pub fn label_fault(v: &Value) -> Option<LabelFault> {
        (0..usize::from(v.top[2])).find_map(|i| language_fault(v, i))
    }

    fn language_fault(v: &Value, language: usize) -> Option<LabelFault> {
        let l = &v.tables[0][12 * language..12 * language + 12];
        let fault = |number, character, entry| LabelFault {
            number,
            language,
            character,
            entry,
        };
        let lists = [&l[3..6], &l[6..9], &l[9..12]];
        if (lists.iter()).any(|r| passes(r[1], r[2], v.tables[1].len() / 4)) {
            return Some(fault(6, 0, None));
        }
        if let Some(character) = (0..3).find(|&c| l[c] > 255) {
            return Some(fault(5, character, None));
        }
        for (list, r) in lists.iter().enumerate() {
            for row in 0..usize::from(r[2]) {
                let at = 4 * (usize::from(r[1]) + row);
                let e = &v.tables[1][at..at + 4];
                if passes(e[2], e[3], v.store.len()) {
                    return Some(fault(6, 0, Some((list, row))));
                }
            }
        }
        None
    }

    /// The first group with a flag other than 0 or 1 among parts present: 5 at the row's start.
    pub fn group_fault(v: &Value) -> Option<usize> {
        let count = if v.top[1] != 0 { v.top[5] } else { 0 };
        (0..usize::from(count)).find(|i| {
            let g = &v.tables[0][5 * i..5 * i + 5];
            g[1] > 1 || g[2] > 1 || (g[2] == 1 && g[3] > 1)
        })
    }

    /// 10, then 4, after every fault.
    pub fn too_long_or_no_room(image: &[u8], room: usize) -> Option<Answer> {
        if image.len() > 65535 {
            return Some(answer(10, image.len()));
        }
        (room < image.len()).then(|| answer(4, image.len()))
    }
}
