//! The scene body: what the Rust's `parse` gives as columns of tables 1 to 5, and what its `write` makes of such columns.
use crate::answers::{answer, byte, image, Behind, Image, Record, Value, Walk};
use crate::rust::mpegh_3d_audio::*;
use document_01::{Fault, Part, Row};

// ---- reading

impl Walk<'_> {
    fn position(&mut self, p: &Option<PositionInteractivity>) -> [u16; 11] {
        let Some(p) = p else { return [0; 11] };
        self.along.at += 5;
        [
            1,
            self.reserved(p.reserved_min_az, 1),
            p.min_az_offset.into(),
            self.reserved(p.reserved_max_az, 1),
            p.max_az_offset.into(),
            self.reserved(p.reserved_min_el, 3),
            p.min_el_offset.into(),
            self.reserved(p.reserved_max_el, 3),
            p.max_el_offset.into(),
            p.min_dist_offset.into(),
            p.max_dist_offset.into(),
        ]
    }

    fn gain(&mut self, g: &Option<GainInteractivity>) -> [u16; 5] {
        let Some(g) = g else { return [0; 5] };
        self.along.at += 2;
        [
            1,
            self.reserved(g.reserved_min, 2),
            g.min_gain.into(),
            self.reserved(g.reserved_max, 3),
            g.max_gain.into(),
        ]
    }

    fn group(&mut self, g: &SceneGroup) {
        self.along.at += 3;
        let mut row = vec![
            self.reserved(g.reserved_id, 1),
            g.group_id.into(),
            self.reserved(g.reserved_flags, 3),
            g.allow_on_off.into(),
            g.default_on_off.into(),
            self.reserved(g.reserved_kind, 4),
            g.content_kind.into(),
        ];
        row.extend(self.position(&g.position));
        row.extend(self.gain(&g.gain));
        row.push(g.content_language.is_some().into());
        row.extend(g.content_language.unwrap_or([0; 3]).map(u16::from));
        if let Some(language) = &g.content_language {
            self.along.payload(language);
        }
        self.tables[0].extend(row);
    }

    fn switch_group(&mut self, g: &SwitchGroup) {
        self.along.at += 2 + g.members.len() + 1;
        let row = [
            self.reserved(g.reserved_id, 1),
            g.switch_group_id.into(),
            g.allow_on_off.into(),
            g.default_on_off.into(),
            self.reserved(g.reserved_members, 3),
            self.tables[2].len() as u16 / 2,
            g.members.len() as u16,
            self.reserved(g.reserved_default, 1),
            g.default_group_id.into(),
        ];
        self.tables[1].extend(row);
        for m in &g.members {
            let reserved = self.reserved(m.reserved, 1);
            self.tables[2].extend([reserved, m.member_id.into()]);
        }
    }

    fn preset(&mut self, p: &GroupPreset) {
        self.along.at += 3;
        let row = [
            self.reserved(p.reserved_id, 3),
            p.preset_id.into(),
            self.reserved(p.reserved_kind, 3),
            p.preset_kind.into(),
            self.reserved(p.reserved_conditions, 4),
            self.tables[4].len() as u16 / 13,
            p.conditions.len() as u16,
        ];
        self.tables[3].extend(row);
        for c in &p.conditions {
            self.along.at += 1;
            let detail = self.detail(&c.detail);
            self.tables[4].push(c.group_id.into());
            self.tables[4].extend(detail);
        }
    }

    fn detail(&mut self, d: &Option<PresetConditionDetail>) -> [u16; 12] {
        let Some(d) = d else { return [0; 12] };
        self.along.at += 1 + usize::from(d.gain.is_some());
        let mut row = [0; 12];
        row[..6].copy_from_slice(&[
            1,
            self.reserved(d.reserved, 4),
            d.disable_gain_interactivity.into(),
            d.disable_position_interactivity.into(),
            d.gain.is_some().into(),
            d.gain.unwrap_or(0).into(),
        ]);
        if let Some(p) = &d.position {
            self.along.at += 3;
            row[6..].copy_from_slice(&[
                1,
                p.az_offset.into(),
                self.reserved(p.reserved_el, 2),
                p.el_offset.into(),
                self.reserved(p.reserved_dist, 4),
                p.dist_factor.into(),
            ]);
        }
        row
    }

    /// The columns of a section: reserved bits of so many as stand there if it is present, its flag and its count.
    fn section<T>(&mut self, reserved: u8, width: u32, rows: &Option<Vec<T>>) -> [u16; 3] {
        let Some(rows) = rows else {
            return [reserved.into(), 0, 0];
        };
        self.along.at += 1;
        [self.reserved(reserved, width), 1, rows.len() as u16]
    }
}

pub fn record(m: &MpegH3dAudioScene, body: &[u8]) -> Record {
    let mut w = Walk::new(body, 2, 5);
    let flags = w.reserved(m.reserved_flags, 5);
    let g = w.section(m.reserved_groups, 1, &m.groups);
    m.groups.iter().flatten().for_each(|g| w.group(g));
    let s = w.section(m.reserved_switch_groups, 3, &m.switch_groups);
    let switch_groups = m.switch_groups.iter().flatten();
    switch_groups.for_each(|g| w.switch_group(g));
    let p = w.section(m.reserved_presets, 3, &m.presets);
    m.presets.iter().flatten().for_each(|p| w.preset(p));
    let mut top = vec![flags, m.scene_info_id.into(), g[1], g[2]];
    top.extend(s.into_iter().chain(p).chain([g[0]]));
    w.record(top, &m.trailing)
}

// ---- writing

fn position_value(c: &[u16]) -> PositionInteractivity {
    PositionInteractivity {
        reserved_min_az: byte(c[0]),
        min_az_offset: byte(c[1]),
        reserved_max_az: byte(c[2]),
        max_az_offset: byte(c[3]),
        reserved_min_el: byte(c[4]),
        min_el_offset: byte(c[5]),
        reserved_max_el: byte(c[6]),
        max_el_offset: byte(c[7]),
        min_dist_offset: byte(c[8]),
        max_dist_offset: byte(c[9]),
    }
}

fn gain_value(c: &[u16]) -> GainInteractivity {
    GainInteractivity {
        reserved_min: byte(c[0]),
        min_gain: byte(c[1]),
        reserved_max: byte(c[2]),
        max_gain: byte(c[3]),
    }
}

fn group_value(v: &Value, row: usize) -> SceneGroup {
    let c = &v.tables[0][27 * row..27 * row + 27];
    SceneGroup {
        reserved_id: byte(c[0]),
        group_id: byte(c[1]),
        reserved_flags: byte(c[2]),
        allow_on_off: c[3] != 0,
        default_on_off: c[4] != 0,
        reserved_kind: byte(c[5]),
        content_kind: byte(c[6]),
        position: (c[7] != 0).then(|| position_value(&c[8..18])),
        gain: (c[18] != 0).then(|| gain_value(&c[19..23])),
        content_language: (c[23] != 0).then(|| [byte(c[24]), byte(c[25]), byte(c[26])]),
    }
}

fn member_value(v: &Value, row: usize) -> SwitchGroupMember {
    let c = &v.tables[2][2 * row..2 * row + 2];
    SwitchGroupMember {
        reserved: byte(c[0]),
        member_id: byte(c[1]),
    }
}

fn switch_group_value(v: &Value, row: usize) -> SwitchGroup {
    let c = &v.tables[1][9 * row..9 * row + 9];
    let (first, count) = (usize::from(c[5]), usize::from(c[6]));
    SwitchGroup {
        reserved_id: byte(c[0]),
        switch_group_id: byte(c[1]),
        allow_on_off: c[2] != 0,
        default_on_off: c[3] != 0,
        reserved_members: byte(c[4]),
        members: (first..first + count).map(|i| member_value(v, i)).collect(),
        reserved_default: byte(c[7]),
        default_group_id: byte(c[8]),
    }
}

fn plain_switch_group() -> SwitchGroup {
    SwitchGroup {
        reserved_id: 0,
        switch_group_id: 0,
        allow_on_off: false,
        default_on_off: false,
        reserved_members: 0,
        members: vec![SwitchGroupMember::new(0)],
        reserved_default: 0,
        default_group_id: 0,
    }
}

fn preset_position_value(c: &[u16]) -> PresetPosition {
    PresetPosition {
        az_offset: byte(c[0]),
        reserved_el: byte(c[1]),
        el_offset: byte(c[2]),
        reserved_dist: byte(c[3]),
        dist_factor: byte(c[4]),
    }
}

fn condition_value(v: &Value, row: usize) -> PresetCondition {
    let c = &v.tables[4][13 * row..13 * row + 13];
    PresetCondition {
        group_id: byte(c[0]),
        detail: (c[1] != 0).then(|| PresetConditionDetail {
            reserved: byte(c[2]),
            disable_gain_interactivity: c[3] != 0,
            disable_position_interactivity: c[4] != 0,
            gain: (c[5] != 0).then(|| byte(c[6])),
            position: (c[7] != 0).then(|| preset_position_value(&c[8..13])),
        }),
    }
}

fn plain_condition() -> PresetCondition {
    PresetCondition {
        group_id: 0,
        detail: None,
    }
}

fn plain_preset() -> GroupPreset {
    GroupPreset {
        reserved_id: 0,
        preset_id: 0,
        reserved_kind: 0,
        preset_kind: 0,
        reserved_conditions: 0,
        conditions: vec![plain_condition()],
    }
}

/// The rows of a list up to the one with the fault, that one by `at`, and what stands behind; or all of them.
fn list<T>(
    count: u16,
    fault: Option<usize>,
    behind: Behind,
    row: impl Fn(usize) -> T,
    at: impl Fn(usize) -> T,
    plain: impl Fn() -> T,
) -> Vec<T> {
    let end = match fault {
        Some(f) if behind == Behind::Nothing => f + 1,
        _ => usize::from(count),
    };
    let one = |i| match fault {
        Some(f) if i > f => plain(),
        Some(f) if i == f => at(i),
        _ => row(i),
    };
    (0..end).map(one).collect()
}

/// A group whose start is faulty is plain; of one with a character over 255 the language is.
fn group_at(v: &Value, row: usize, part: Part) -> SceneGroup {
    match part {
        Part::Language(_) => SceneGroup {
            content_language: Some([0; 3]),
            ..group_value(v, row)
        },
        _ => SceneGroup::new(0, false, false, 0),
    }
}

/// A condition up to its fault.
fn condition_at(v: &Value, row: usize, part: Part) -> PresetCondition {
    let mut c = condition_value(v, row);
    match (&mut c.detail, part) {
        (Some(d), Part::Gain) => {
            d.gain = Some(0);
            d.position = None;
        }
        (Some(d), Part::Azimuth) => d.position = Some(PresetPosition::new(0, 0, 0)),
        _ => return plain_condition(),
    }
    c
}

/// A preset, whole or up to the condition with the fault.
fn preset_value(
    v: &Value,
    row: usize,
    fault: Option<(usize, Part)>,
    behind: Behind,
) -> GroupPreset {
    let c = &v.tables[3][7 * row..7 * row + 7];
    let first = usize::from(c[5]);
    GroupPreset {
        reserved_id: byte(c[0]),
        preset_id: byte(c[1]),
        reserved_kind: byte(c[2]),
        preset_kind: byte(c[3]),
        reserved_conditions: byte(c[4]),
        conditions: list(
            c[6],
            fault.map(|f| f.0),
            behind,
            |i| condition_value(v, first + i),
            |i| condition_at(v, first + i, fault.expect("a fault").1),
            plain_condition,
        ),
    }
}

fn preset_at(v: &Value, f: &Fault, behind: Behind) -> GroupPreset {
    match f.row {
        Row::Condition(preset, i) => preset_value(v, preset, Some((i, f.part)), behind),
        _ => plain_preset(),
    }
}

/// The value; or the value up to a fault that the Rust has no word for, without the sections behind it.
fn scene_value(v: &Value, fault: Option<&Fault>, behind: Behind) -> MpegH3dAudioScene {
    let t = v.top;
    let (section, row) = fault.map_or((3, 0), |f| f.row.section_and_row());
    let present = |s: usize| t[2 + 3 * s] != 0 && s <= section;
    let row_of = |s: usize| (s == section).then_some(row);
    let f = || fault.expect("a fault");
    let group = |i| group_value(v, i);
    let group_at = |i| group_at(v, i, f().part);
    let plain = || SceneGroup::new(0, false, false, 0);
    let switch_group = |i| switch_group_value(v, i);
    let switch_group_at = |_| plain_switch_group();
    let preset = |i| preset_value(v, i, None, behind);
    let preset_at = |_| preset_at(v, f(), behind);
    let groups = || list(t[3], row_of(0), behind, group, group_at, plain);
    let switch_groups = || {
        let (at, plain) = (switch_group_at, plain_switch_group);
        list(t[6], row_of(1), behind, switch_group, at, plain)
    };
    let presets = || list(t[9], row_of(2), behind, preset, preset_at, plain_preset);
    MpegH3dAudioScene {
        reserved_flags: byte(t[0]),
        scene_info_id: byte(t[1]),
        groups: present(0).then(groups),
        reserved_switch_groups: byte(t[4]),
        switch_groups: present(1).then(switch_groups),
        reserved_presets: byte(t[7]),
        presets: present(2).then(presets),
        reserved_groups: byte(t[10]),
        trailing: if section < 3 { vec![] } else { v.trailing(11) },
    }
}

pub fn write(v: &Value) -> Image {
    let fault = document_01::fault(v);
    let value = scene_value(v, fault.as_ref(), Behind::Plain);
    let written = image(|out| value.write(out)).map_err(|e| e.0)?;
    let Some(f) = fault else { return Ok(written) };
    // without the rows behind the fault the image ends with what is faulty: its length says the place
    let value = scene_value(v, Some(&f), Behind::Nothing);
    let end = image(|out| value.write(out)).expect("as before").len();
    Err(answer(f.number, end - f.bytes_to_the_end()))
}

/// As in answers.rs: ranges, flags over 1, and numbers over 255 of fields that are full bytes.
pub mod document_01 {
    use crate::answers::document_01::passes;
    use crate::answers::Value;

    /// Rows in image order: a condition is one of a preset.
    #[derive(Clone, Copy)]
    pub enum Row {
        Group(usize),
        SwitchGroup(usize),
        Preset(usize),
        Condition(usize, usize),
    }

    /// Where in its row a fault is: at its start, or at a character, a gain or an azimuth of more than a byte.
    #[derive(Clone, Copy)]
    pub enum Part {
        Start,
        Language(usize),
        Gain,
        Azimuth,
    }

    pub struct Fault {
        pub number: u64,
        pub row: Row,
        pub part: Part,
    }

    impl Row {
        pub fn section_and_row(self) -> (usize, usize) {
            match self {
                Row::Group(i) => (0, i),
                Row::SwitchGroup(i) => (1, i),
                Row::Preset(i) | Row::Condition(i, _) => (2, i),
            }
        }
    }

    impl Fault {
        /// The bytes of a plain row, or of the part that is plain.
        pub fn bytes_to_the_end(&self) -> usize {
            match (self.row, self.part) {
                (_, Part::Language(i)) => 3 - i,
                (_, Part::Azimuth) | (Row::Group(_), _) => 3,
                (Row::SwitchGroup(_) | Row::Preset(_), _) => 4,
                (Row::Condition(..), _) => 1,
            }
        }
    }

    fn start(number: u64, row: Row) -> Option<Fault> {
        let part = Part::Start;
        Some(Fault { number, row, part })
    }

    /// The first row in image order with a range (6), a flag over 1 (5), or a byte over 255 (5 at its own byte).
    pub fn fault(v: &Value) -> Option<Fault> {
        let t = v.top;
        let count = |s: usize| usize::from(if t[2 + 3 * s] != 0 { t[3 + 3 * s] } else { 0 });
        let groups = (0..count(0)).find_map(|i| group_fault(v, i));
        let switch_groups = || (0..count(1)).find_map(|i| switch_group_fault(v, i));
        let presets = || (0..count(2)).find_map(|i| preset_fault(v, i));
        groups.or_else(switch_groups).or_else(presets)
    }

    fn group_fault(v: &Value, i: usize) -> Option<Fault> {
        let c = &v.tables[0][27 * i..27 * i + 27];
        let row = Row::Group(i);
        if [3, 4, 7, 18, 23].iter().any(|&flag| c[flag] > 1) {
            return start(5, row);
        }
        let wide = |i: &usize| c[23] == 1 && c[24 + i] > 255;
        (0..3).find(wide).map(|i| Fault {
            number: 5,
            row,
            part: Part::Language(i),
        })
    }

    fn switch_group_fault(v: &Value, i: usize) -> Option<Fault> {
        let c = &v.tables[1][9 * i..9 * i + 9];
        let row = Row::SwitchGroup(i);
        if passes(c[5], c[6], v.tables[2].len() / 2) {
            return start(6, row);
        }
        if c[2] > 1 || c[3] > 1 {
            return start(5, row);
        }
        None
    }

    fn preset_fault(v: &Value, i: usize) -> Option<Fault> {
        let c = &v.tables[3][7 * i..7 * i + 7];
        if passes(c[5], c[6], v.tables[4].len() / 13) {
            return start(6, Row::Preset(i));
        }
        let first = usize::from(c[5]);
        (0..usize::from(c[6])).find_map(|j| condition_fault(v, first + j, Row::Condition(i, j)))
    }

    fn condition_fault(v: &Value, i: usize, row: Row) -> Option<Fault> {
        let c = &v.tables[4][13 * i..13 * i + 13];
        if c[1] > 1 || (c[1] == 1 && [3, 4, 5, 7].iter().any(|&flag| c[flag] > 1)) {
            return start(5, row);
        }
        let fault = |part| {
            Some(Fault {
                number: 5,
                row,
                part,
            })
        };
        match c[1] {
            1 if c[5] == 1 && c[6] > 255 => fault(Part::Gain),
            1 if c[7] == 1 && c[8] > 255 => fault(Part::Azimuth),
            _ => None,
        }
    }
}
