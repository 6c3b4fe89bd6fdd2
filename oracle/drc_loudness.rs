//! The DRC and loudness body: what the Rust's `parse` gives as columns of tables 9 to 12, and what its `write` makes of such columns.
use crate::answers::{answer, byte, image, Behind, Image, Record, Value, Walk};
use crate::rust::mpegh_3d_audio::*;
use document_01::{Fault, Part};
use std::cmp::Ordering;

// ---- reading

impl Walk<'_> {
    /// A type byte and what follows it: reserved_type, case, kind, reserved, ID.
    fn typed_scope(&mut self, reserved_type: u8, s: &DrcScope) -> [u16; 5] {
        self.along.at += 1;
        let [case, kind, reserved, id] = match *s {
            DrcScope::Plain(kind) => [0, kind.into(), 0, 0],
            DrcScope::Group {
                kind,
                reserved,
                group_id,
            } => {
                self.along.at += 1;
                [1, kind.into(), self.reserved(reserved, 1), group_id.into()]
            }
            DrcScope::Preset {
                reserved,
                preset_id,
            } => {
                self.along.at += 1;
                [2, 3, self.reserved(reserved, 3), preset_id.into()]
            }
        };
        [self.reserved(reserved_type, 6), case, kind, reserved, id]
    }

    fn target_loudness(&mut self, t: &Option<DrcTargetLoudness>) -> [u16; 9] {
        let Some(t) = t else { return [0; 9] };
        self.along.at += 2 + usize::from(t.lower.is_some());
        let lower = match t.lower {
            Some((reserved, lower)) => [1, self.reserved(reserved, 2), lower.into()],
            None => [0; 3],
        };
        [
            1,
            self.reserved(t.reserved_upper, 1),
            t.upper.into(),
            lower[0],
            lower[1],
            lower[2],
            self.reserved(t.reserved_depends, 1),
            t.depends_on_drc_set.into(),
            t.no_independent_use_or_reserved.into(),
        ]
    }

    fn instruction(&mut self, d: &DrcInstructions) {
        let mut row = self.typed_scope(d.reserved_type, &d.scope).to_vec();
        let ids = &d.additional_downmix_ids;
        self.along.at += 3 + ids.len() + 2 + usize::from(d.limiter_peak_target.is_some());
        row.extend([
            self.reserved(d.reserved_set, 2),
            d.drc_set_id.into(),
            self.reserved(d.reserved_downmix, 1),
            d.downmix_id.into(),
            self.reserved(d.reserved_additional, 3),
            self.tables[1].len() as u16 / 2,
            ids.len() as u16,
            d.drc_set_effect,
            d.limiter_peak_target.is_some().into(),
            d.limiter_peak_target.unwrap_or(0).into(),
        ]);
        row.extend(self.target_loudness(&d.target_loudness));
        self.tables[0].extend(row);
        for &(reserved, id) in ids {
            let reserved = self.reserved(reserved, 1);
            self.tables[1].extend([reserved, id.into()]);
        }
    }

    fn loudness_info(&mut self, e: &LoudnessInfoEntry) {
        let mut row = self.typed_scope(e.reserved_type, &e.scope).to_vec();
        self.along.at += 1;
        row.extend(self.along.payload(&e.loudness_info));
        self.tables[2].extend(row);
    }

    fn downmix_definition(&mut self, m: &DownmixDefinition) {
        self.along.at += 2;
        let reserved = self.reserved(m.reserved, 1);
        self.tables[3].extend([
            reserved,
            m.downmix_id.into(),
            m.downmix_type.into(),
            m.cicp_speaker_layout_idx.into(),
        ]);
    }

    /// The columns of the info: its flag, its reserved bits and its counts.
    fn drc_loudness_info(&mut self, i: &DrcLoudnessInfo) -> [u16; 7] {
        self.along.at += 3;
        let columns = [
            1,
            self.reserved(i.reserved_drc, 2),
            self.reserved(i.reserved_loudness, 2),
            self.reserved(i.reserved_downmix, 3),
            i.drc_instructions.len() as u16,
            i.loudness_infos.len() as u16,
            i.downmix_definitions.len() as u16,
        ];
        i.drc_instructions.iter().for_each(|d| self.instruction(d));
        i.loudness_infos.iter().for_each(|e| self.loudness_info(e));
        let definitions = i.downmix_definitions.iter();
        definitions.for_each(|m| self.downmix_definition(m));
        columns
    }
}

pub fn record(m: &MpegH3dAudioDrcLoudness, body: &[u8]) -> Record {
    let mut w = Walk::new(body, 1, 4);
    let mut top = vec![w.reserved(m.reserved, 7)];
    top.extend(match &m.info {
        Some(i) => w.drc_loudness_info(i),
        None => [0; 7],
    });
    w.record(top, &m.trailing)
}

// ---- writing

/// The scope of its four columns, whose case is not above 2.
fn scope_value(c: &[u16]) -> DrcScope {
    match c[0] {
        0 => DrcScope::Plain(byte(c[1])),
        1 => DrcScope::Group {
            kind: byte(c[1]),
            reserved: byte(c[2]),
            group_id: byte(c[3]),
        },
        _ => DrcScope::Preset {
            reserved: byte(c[2]),
            preset_id: byte(c[3]),
        },
    }
}

fn target_value(c: &[u16]) -> DrcTargetLoudness {
    DrcTargetLoudness {
        reserved_upper: byte(c[0]),
        upper: byte(c[1]),
        lower: (c[2] != 0).then(|| (byte(c[3]), byte(c[4]))),
        reserved_depends: byte(c[5]),
        depends_on_drc_set: byte(c[6]),
        no_independent_use_or_reserved: byte(c[7]),
    }
}

fn instruction_value(v: &Value, row: usize) -> DrcInstructions {
    let c = &v.tables[0][24 * row..24 * row + 24];
    let (first, count) = (usize::from(c[10]), usize::from(c[11]));
    let ids = v.tables[1].chunks_exact(2).skip(first).take(count);
    DrcInstructions {
        reserved_type: byte(c[0]),
        scope: scope_value(&c[1..5]),
        reserved_set: byte(c[5]),
        drc_set_id: byte(c[6]),
        reserved_downmix: byte(c[7]),
        downmix_id: byte(c[8]),
        reserved_additional: byte(c[9]),
        additional_downmix_ids: ids.map(|id| (byte(id[0]), byte(id[1]))).collect(),
        drc_set_effect: c[12],
        limiter_peak_target: (c[13] != 0).then(|| byte(c[14])),
        target_loudness: (c[15] != 0).then(|| target_value(&c[16..24])),
    }
}

fn plain_instruction() -> DrcInstructions {
    DrcInstructions::new(DrcScope::Plain(0), 0, 0, 0)
}

/// An instruction whose start is faulty is plain; one with a limiter over 255 ends with it.
fn instruction_at(v: &Value, row: usize, part: Part) -> DrcInstructions {
    match part {
        Part::Start => plain_instruction(),
        Part::Limiter => DrcInstructions {
            limiter_peak_target: Some(0),
            target_loudness: None,
            ..instruction_value(v, row)
        },
    }
}

fn loudness_value(v: &Value, row: usize) -> LoudnessInfoEntry {
    let c = &v.tables[2][7 * row..7 * row + 7];
    LoudnessInfoEntry {
        reserved_type: byte(c[0]),
        scope: scope_value(&c[1..5]),
        loudness_info: v.payload(c[5], c[6]),
    }
}

fn plain_loudness() -> LoudnessInfoEntry {
    LoudnessInfoEntry::new(DrcScope::Plain(0), vec![])
}

fn definition_value(v: &Value, row: usize) -> DownmixDefinition {
    let c = &v.tables[3][4 * row..4 * row + 4];
    DownmixDefinition {
        reserved: byte(c[0]),
        downmix_id: byte(c[1]),
        downmix_type: byte(c[2]),
        cicp_speaker_layout_idx: byte(c[3]),
    }
}

/// The rows of a list up to the one with the fault, that one by `at`, and what stands behind; or all of them. The counts of all three lists
/// stand before the first row: so lists behind the fault keep their plain rows.
fn list<T>(
    (number, count): (usize, u16),
    fault: Option<&Fault>,
    behind: Behind,
    row: impl Fn(usize) -> T,
    at: impl Fn(usize, Part) -> T,
    plain: impl Fn() -> T,
) -> Vec<T> {
    let one = |i| {
        let Some(f) = fault else { return Some(row(i)) };
        match (number, i).cmp(&f.row.list_and_row()) {
            Ordering::Less => Some(row(i)),
            Ordering::Equal => Some(at(i, f.part)),
            Ordering::Greater => (behind == Behind::Plain).then(&plain),
        }
    };
    (0..usize::from(count)).filter_map(one).collect()
}

/// The value; or the value up to a fault that the Rust has no word for.
fn value(v: &Value, fault: Option<&Fault>, behind: Behind) -> MpegH3dAudioDrcLoudness {
    let t = v.top;
    let plain_definition = || DownmixDefinition::new(0, 0, 0);
    let info = || DrcLoudnessInfo {
        reserved_drc: byte(t[2]),
        reserved_loudness: byte(t[3]),
        reserved_downmix: byte(t[4]),
        drc_instructions: list(
            (0, t[5]),
            fault,
            behind,
            |i| instruction_value(v, i),
            |i, part| instruction_at(v, i, part),
            plain_instruction,
        ),
        loudness_infos: list(
            (1, t[6]),
            fault,
            behind,
            |i| loudness_value(v, i),
            |_, _| plain_loudness(),
            plain_loudness,
        ),
        downmix_definitions: list(
            (2, t[7]),
            fault,
            behind,
            |i| definition_value(v, i),
            |_, _| plain_definition(),
            plain_definition,
        ),
    };
    MpegH3dAudioDrcLoudness {
        reserved: byte(t[0]),
        info: (t[1] != 0).then(info),
        trailing: fault.map_or_else(|| v.trailing(8), |_| vec![]),
    }
}

pub fn write(v: &Value) -> Image {
    let fault = document_01::fault(v);
    let up_to = |behind| value(v, fault.as_ref(), behind);
    let written = image(|out| up_to(Behind::Plain).write(out)).map_err(|e| e.0)?;
    let Some(f) = &fault else { return Ok(written) };
    // without the rows behind the fault the image ends with what is faulty: its length says the place
    let end = image(|out| up_to(Behind::Nothing).write(out)).expect("as before");
    Err(answer(f.number, end.len() - f.bytes_to_the_end()))
}

/// As in answers.rs: ranges, flags over 1, cases above 2, and a limiter of more than a byte.
pub mod document_01 {
    use crate::answers::document_01::passes;
    use crate::answers::Value;

    /// Rows in image order. A downmix definition has no such fault.
    #[derive(Clone, Copy)]
    pub enum Row {
        Instruction(usize),
        Loudness(usize),
    }

    /// Where in its row a fault is: at its start, which is the type byte, or at a limiter of more than a byte.
    #[derive(Clone, Copy)]
    pub enum Part {
        Start,
        Limiter,
    }

    pub struct Fault {
        pub number: u64,
        pub row: Row,
        pub part: Part,
    }

    impl Row {
        pub fn list_and_row(self) -> (usize, usize) {
            match self {
                Row::Instruction(i) => (0, i),
                Row::Loudness(i) => (1, i),
            }
        }
    }

    impl Fault {
        /// The bytes of a plain row, or of a limiter.
        pub fn bytes_to_the_end(&self) -> usize {
            match (self.row, self.part) {
                (_, Part::Limiter) => 1,
                (Row::Instruction(_), Part::Start) => 6,
                (Row::Loudness(_), Part::Start) => 2,
            }
        }
    }

    /// The first row in image order with a range (6), a flag over 1 (5), a scope's case above 2 (8), or a limiter over 255 (5 at its byte).
    pub fn fault(v: &Value) -> Option<Fault> {
        let count = |i: usize| usize::from(if v.top[1] != 0 { v.top[i] } else { 0 });
        let instructions = (0..count(5)).find_map(|i| instruction_fault(v, i));
        instructions.or_else(|| (0..count(6)).find_map(|i| loudness_fault(v, i)))
    }

    fn instruction_fault(v: &Value, i: usize) -> Option<Fault> {
        let c = &v.tables[0][24 * i..24 * i + 24];
        let (number, part) = if passes(c[10], c[11], v.tables[1].len() / 2) {
            (6, Part::Start)
        } else if c[13] > 1 || c[15] > 1 || (c[15] == 1 && c[18] > 1) {
            (5, Part::Start)
        } else if c[1] > 2 {
            (8, Part::Start)
        } else if c[13] == 1 && c[14] > 255 {
            (5, Part::Limiter)
        } else {
            return None;
        };
        let row = Row::Instruction(i);
        Some(Fault { number, row, part })
    }

    fn loudness_fault(v: &Value, i: usize) -> Option<Fault> {
        let c = &v.tables[2][7 * i..7 * i + 7];
        let number = if passes(c[5], c[6], v.store.len()) {
            6
        } else if c[1] > 2 {
            8
        } else {
            return None;
        };
        let (row, part) = (Row::Loudness(i), Part::Start);
        Some(Fault { number, row, part })
    }
}
