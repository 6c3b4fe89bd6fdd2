//! Bodies built from the syntax tables by a small random generator, for the list and for the comparison.

/// splitmix64, so that nothing else is needed.
pub struct Random(pub u64);

impl Random {
    pub fn next(&mut self) -> u64 {
        self.0 = self.0.wrapping_add(0x9E3779B97F4A7C15);
        let a = (self.0 ^ (self.0 >> 30)).wrapping_mul(0xBF58476D1CE4E5B9);
        let b = (a ^ (a >> 27)).wrapping_mul(0x94D049BB133111EB);
        b ^ (b >> 31)
    }

    /// Below n.
    pub fn to(&mut self, n: usize) -> usize {
        (self.next() % n as u64) as usize
    }

    pub fn byte(&mut self) -> u8 {
        self.next() as u8
    }

    pub fn one_of<T: Copy>(&mut self, list: &[T]) -> T {
        list[self.to(list.len())]
    }

    pub fn bytes(&mut self, n: usize) -> Vec<u8> {
        (0..n).map(|_| self.byte()).collect()
    }

    /// A column about the widths of fields, and about the end of the store.
    pub fn edge(&mut self, store: usize) -> usize {
        let near = store + 2 - self.to(5).min(store + 2);
        let small = self.to(300);
        self.one_of(&[
            0, 1, 2, 3, 4, 7, 8, 15, 16, 31, 32, 63, 64, 127, 128, 129, 254, 255, 256, 257, 65535,
            near, near, small, small,
        ])
    }
}

/// The base body: a list of so many sets, or none.
pub fn base(r: &mut Random, sets: Option<usize>, trailing: usize) -> Vec<u8> {
    let absent = if sets.is_none() { 0x40 } else { 0 };
    let mut b = vec![r.byte(), r.byte() & 0xBF | absent, r.byte()];
    if let Some(n) = sets {
        b.push(n as u8);
        b.extend(r.bytes(n));
    }
    b.extend(r.bytes(trailing));
    b
}

/// The multi-stream body with a main part: about one group in `aux` outside the main stream, none for 0.
pub fn multi_stream(r: &mut Random, count: usize, aux: usize, trailing: usize) -> Vec<u8> {
    let mut b = vec![r.byte() | 0x80, r.byte(), r.byte() & 0x80 | count as u8];
    for _ in 0..count {
        let e = r.byte();
        if aux > 0 && r.to(aux) == 0 {
            b.extend([e & 0xFE, r.byte()]);
        } else {
            b.push(e | 1);
        }
    }
    b.extend(r.bytes(trailing));
    b
}

/// The text label body: the counts of each language's lists, labels of at most `most` bytes.
pub fn text_label(r: &mut Random, counts: &[[usize; 3]], most: usize, trailing: usize) -> Vec<u8> {
    let mut b = vec![r.byte(), r.byte() & 0xF0 | counts.len() as u8];
    for c in counts {
        b.extend(r.bytes(3));
        for (&count, reserved) in c.iter().zip([0x80, 0xE0, 0xE0]) {
            b.push(r.byte() & reserved | count as u8);
            for _ in 0..count {
                let n = r.to(most + 1);
                b.extend([r.byte(), n as u8]);
                b.extend(r.bytes(n));
            }
        }
    }
    b.extend(r.bytes(trailing));
    b
}

/// How the reserved bits of a scene body or of a DRC and loudness body are set.
#[derive(Clone, Copy)]
pub enum Reserved {
    Mixed,
    Ones,
    Zeros,
}

/// A scene body's shape: the rows of each section that is present. A group is its parts (4 position, 2 gain, 1 language), a switch group
/// the number of its members, a preset its conditions, and a condition 0 or its detail (1) with gain (2) and position (4).
#[derive(Clone)]
pub struct Scene {
    pub groups: Option<Vec<u8>>,
    pub switch_groups: Option<Vec<usize>>,
    pub presets: Option<Vec<Vec<u8>>>,
    pub trailing: usize,
}

impl Scene {
    /// The rows of tables 1 to 5.
    pub fn rows(&self) -> [usize; 5] {
        let presets = self.presets.iter().flatten();
        [
            self.groups.iter().flatten().count(),
            self.switch_groups.iter().flatten().count(),
            self.switch_groups.iter().flatten().sum(),
            presets.clone().count(),
            presets.flatten().count(),
        ]
    }
}

/// The bytes of a body that are written so far.
struct Bytes<'a> {
    r: &'a mut Random,
    reserved: Reserved,
    bytes: Vec<u8>,
}

impl Bytes<'_> {
    fn put(&mut self, byte: u8, reserved_bits: u8) {
        self.bytes.push(match self.reserved {
            Reserved::Mixed => byte,
            Reserved::Ones => byte | reserved_bits,
            Reserved::Zeros => byte & !reserved_bits,
        });
    }

    /// A byte of any fields for each of these, which say its reserved bits.
    fn any(&mut self, reserved_bits: &[u8]) {
        for bits in reserved_bits {
            let byte = self.r.byte();
            self.put(byte, *bits);
        }
    }

    /// A byte that ends with a number below `bits`, behind bits that are all reserved.
    fn number(&mut self, number: usize, bits: u8) {
        let byte = self.r.byte() & !bits | number as u8;
        self.put(byte, !bits);
    }

    fn group(&mut self, parts: u8) {
        self.any(&[0x80]);
        let flags = self.r.byte() & 0xF8 | parts;
        self.put(flags, 0xE0);
        self.any(&[0xF0]);
        if parts & 4 != 0 {
            self.any(&[0x80, 0x80, 0xE0, 0xE0, 0]);
        }
        if parts & 2 != 0 {
            self.any(&[0xC0, 0xE0]);
        }
        if parts & 1 != 0 {
            self.any(&[0, 0, 0]);
        }
    }

    fn switch_group(&mut self, members: usize) {
        self.any(&[0x80]);
        self.number(members - 1, 0x1F);
        self.any(&vec![0x80; members + 1]);
    }

    fn preset(&mut self, conditions: &[u8]) {
        self.any(&[0xE0, 0xE0]);
        self.number(conditions.len() - 1, 0x0F);
        for c in conditions {
            let (detail, gain, position) = (c & 1, c >> 1 & 1, c >> 2);
            let first = self.r.byte() & 0xFE | detail;
            self.put(first, 0);
            if detail == 1 {
                let flags = self.r.byte() & 0xFA | gain << 2 | position;
                self.put(flags, 0xF0);
                self.any(&vec![0; usize::from(gain)]);
                self.any(&[0, 0xC0, 0xF0][..3 * usize::from(position)]);
            }
        }
    }
}

pub fn scene(r: &mut Random, s: &Scene, reserved: Reserved) -> Vec<u8> {
    let bytes = vec![];
    let mut b = Bytes { r, reserved, bytes };
    let flag = |present: bool, bit: u8| if present { bit } else { 0 };
    let flags = flag(s.groups.is_some(), 0x80)
        | flag(s.switch_groups.is_some(), 0x40)
        | flag(s.presets.is_some(), 0x20);
    let first = b.r.byte() & 0x1F | flags;
    b.put(first, 0x1F);
    b.any(&[0]);
    if let Some(groups) = &s.groups {
        b.number(groups.len(), 0x7F);
        groups.iter().for_each(|parts| b.group(*parts));
    }
    if let Some(switch_groups) = &s.switch_groups {
        b.number(switch_groups.len(), 0x1F);
        switch_groups.iter().for_each(|n| b.switch_group(*n));
    }
    if let Some(presets) = &s.presets {
        b.number(presets.len(), 0x1F);
        presets.iter().for_each(|conditions| b.preset(conditions));
    }
    b.any(&vec![0; s.trailing]);
    b.bytes
}

/// A shape with sections absent, empty, of a few rows and now and then full.
pub fn scene_shape(r: &mut Random, trailing: usize) -> Scene {
    let count = |r: &mut Random, full: usize| match r.to(40) {
        0 => full,
        n if n < 12 => 0,
        _ => 1 + r.to(4),
    };
    let (groups, switch_groups) = (count(r, 127), count(r, 31));
    let presets = count(r, 31);
    let most = r.one_of(&[1, 2, 3, 5, 16, 32]);
    let conditions = |r: &mut Random| {
        let n = 1 + r.to(most.min(16));
        (0..n).map(|_| r.one_of(&[0, 1, 3, 5, 7])).collect()
    };
    Scene {
        groups: (r.to(4) > 0).then(|| (0..groups).map(|_| r.byte() & 7).collect()),
        switch_groups: (r.to(4) > 0).then(|| (0..switch_groups).map(|_| 1 + r.to(most)).collect()),
        presets: (r.to(4) > 0).then(|| (0..presets).map(|_| conditions(r)).collect()),
        trailing,
    }
}

/// The widths of the fields in the rows of tables 9 to 12. A 0 stands for a flag, a column of a scope, or one of a range.
pub const DRC_LOUDNESS_WIDTHS: [&[u32]; 4] = [
    &[
        6, 0, 0, 0, 0, 2, 6, 1, 7, 3, 0, 0, 16, 0, 8, 0, 1, 6, 0, 2, 6, 1, 6, 1,
    ],
    &[1, 7],
    &[6, 0, 0, 0, 0, 0, 0],
    &[1, 7, 2, 6],
];

/// An instruction's shape: its type, the number of its additional IDs, and its parts (1 target loudness, 2 limiter, 4 lower value, which is in
/// a target loudness).
#[derive(Clone, Copy)]
pub struct Instruction {
    pub kind: u8,
    pub ids: usize,
    pub parts: u8,
}

/// A loudness entry's shape: its type and the bytes of its payload.
#[derive(Clone, Copy)]
pub struct Loudness {
    pub kind: u8,
    pub length: usize,
}

/// The shape of a DRC and loudness body: its rows, or no info.
#[derive(Clone)]
pub struct DrcLoudness {
    pub info: bool,
    pub instructions: Vec<Instruction>,
    pub loudness: Vec<Loudness>,
    pub definitions: usize,
    pub trailing: usize,
}

impl DrcLoudness {
    /// The rows of tables 9 to 12.
    pub fn rows(&self) -> [usize; 4] {
        [
            self.instructions.len(),
            self.instructions.iter().map(|i| i.ids).sum(),
            self.loudness.len(),
            self.definitions,
        ]
    }
}

impl Bytes<'_> {
    /// A type, and the ID that follows some.
    fn scope(&mut self, kind: u8, group_types: &[u8]) {
        self.number(kind.into(), 0x03);
        if group_types.contains(&kind) {
            self.any(&[0x80]);
        } else if kind == 3 {
            self.any(&[0xE0]);
        }
    }

    fn instruction(&mut self, i: &Instruction) {
        self.scope(i.kind, &[2]);
        self.any(&[0xC0, 0x80]);
        self.number(i.ids << 2 | usize::from(i.parts & 3), 0x1F);
        self.any(&vec![0x80; i.ids]);
        self.any(&[0, 0]);
        if i.parts & 2 != 0 {
            self.any(&[0]);
        }
        if i.parts & 1 != 0 {
            let lower = i.parts >> 2;
            let upper = self.r.byte() & 0xFE | lower;
            self.put(upper, 0x80);
            self.any(&vec![0xC0; usize::from(lower)]);
            self.any(&[0x80]);
        }
    }

    fn loudness(&mut self, l: &Loudness) {
        self.scope(l.kind, &[1, 2]);
        self.number(l.length, 0xFF);
        self.any(&vec![0; l.length]);
    }
}

pub fn drc_loudness(r: &mut Random, s: &DrcLoudness, reserved: Reserved) -> Vec<u8> {
    let bytes = vec![];
    let mut b = Bytes { r, reserved, bytes };
    b.number(s.info.into(), 0x01);
    if s.info {
        b.number(s.instructions.len(), 0x3F);
        b.number(s.loudness.len(), 0x3F);
        b.number(s.definitions, 0x1F);
        s.instructions.iter().for_each(|i| b.instruction(i));
        s.loudness.iter().for_each(|l| b.loudness(l));
        (0..s.definitions).for_each(|_| b.any(&[0x80, 0]));
    }
    b.any(&vec![0; s.trailing]);
    b.bytes
}

/// A shape with lists that are empty, of a few rows and now and then full, or now and then with no info.
pub fn drc_loudness_shape(r: &mut Random, trailing: usize) -> DrcLoudness {
    let count = |r: &mut Random, full: usize| match r.to(40) {
        0 => full,
        n if n < 10 => 0,
        _ => 1 + r.to(4),
    };
    let info = r.to(12) > 0;
    let full = if info { [63, 63, 31] } else { [0; 3] };
    let [instructions, loudness, definitions] = full.map(|n| count(r, n).min(n));
    let most = r.one_of(&[0, 1, 1, 2, 3, 12, 255]);
    let instruction = |r: &mut Random| Instruction {
        kind: r.byte() & 3,
        ids: r.one_of(&[0, 0, 1, 1, 2, 3, 4, 5, 6, 7]),
        parts: r.one_of(&[0, 1, 2, 3, 5, 7]),
    };
    DrcLoudness {
        info,
        instructions: (0..instructions).map(|_| instruction(r)).collect(),
        loudness: (0..loudness)
            .map(|_| Loudness {
                kind: r.byte() & 3,
                length: r.to(most + 1),
            })
            .collect(),
        definitions,
        trailing,
    }
}
