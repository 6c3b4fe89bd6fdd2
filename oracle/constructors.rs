//! Prints what the Rust's constructors make, a line a call: the name of the constructor, and the value's columns by document 01.
//! `crates/constructors` prints the same lines of the library's constructors.
#![allow(dead_code, unexpected_cfgs)]
extern crate alloc;
mod rust;
use rust::error;
use rust::mpegh_3d_audio::*;

// ---- columns

/// The columns of a value. answers.rs goes along a body; here a value owns its lists and payloads, and each begins at 0.
trait Columns {
    const COUNT: usize;
    fn put(&self, row: &mut Vec<u16>);
}

macro_rules! columns {
    ($count:expr, |$value:ident| $columns:expr; $($type:ty),*) => {$(
        impl Columns for $type {
            const COUNT: usize = $count;
            fn put(&self, row: &mut Vec<u16>) {
                let $value = self;
                row.extend::<[u16; $count]>($columns);
            }
        }
    )*};
}

columns!(1, |number| [(*number).into()]; bool, u8, u16);
columns!(2, |pair| [pair.0.into(), pair.1.into()]; (u8, u8));
columns!(3, |characters| characters.map(u16::from); [u8; 3]);

// a list of a top record is its count
columns!(1, |list| [list.len() as u16];
    Vec<SceneGroup>, Vec<SwitchGroup>, Vec<GroupPreset>, Vec<TextLabelLanguage>, Vec<MultiStreamGroup>,
    Vec<DrcInstructions>, Vec<LoudnessInfoEntry>, Vec<DownmixDefinition>);

// a list of a row, or a payload
columns!(2, |list| [0, list.len() as u16];
    Vec<u8>, Vec<SwitchGroupMember>, Vec<PresetCondition>, Vec<TextLabelEntry>, Vec<(u8, u8)>);

/// Case, kind, reserved, ID.
impl Columns for DrcScope {
    const COUNT: usize = 4;
    fn put(&self, row: &mut Vec<u16>) {
        row.extend(match *self {
            DrcScope::Plain(kind) => [0, kind.into(), 0, 0],
            DrcScope::Group {
                kind,
                reserved,
                group_id,
            } => [1, kind.into(), reserved.into(), group_id.into()],
            DrcScope::Preset {
                reserved,
                preset_id,
            } => [2, 3, reserved.into(), preset_id.into()],
        });
    }
}

/// A flag, then the part's columns, all 0 where it is absent.
impl<T: Columns> Columns for Option<T> {
    const COUNT: usize = 1 + T::COUNT;
    fn put(&self, row: &mut Vec<u16>) {
        row.push(self.is_some().into());
        match self {
            Some(part) => part.put(row),
            None => row.extend(vec![0; T::COUNT]),
        }
    }
}

/// The fields in the Rust's order, and how many columns they are.
macro_rules! fields {
    ($($type:ident $count:literal: $($field:ident)*;)*) => {$(
        impl Columns for $type {
            const COUNT: usize = $count;
            fn put(&self, row: &mut Vec<u16>) {
                $(self.$field.put(row);)*
            }
        }
    )*};
}

fields! {
    MpegH3dAudio 10: profile_level_indication interactivity_enabled compatible_sets reserved_flags reserved_layout
        reference_channel_layout trailing;

    MpegH3dAudioScene 13: reserved_flags scene_info_id groups reserved_switch_groups switch_groups reserved_presets presets
        reserved_groups trailing;
    SceneGroup 27: reserved_id group_id reserved_flags allow_on_off default_on_off reserved_kind content_kind position gain
        content_language;
    PositionInteractivity 10: reserved_min_az min_az_offset reserved_max_az max_az_offset reserved_min_el min_el_offset
        reserved_max_el max_el_offset min_dist_offset max_dist_offset;
    GainInteractivity 4: reserved_min min_gain reserved_max max_gain;
    SwitchGroup 9: reserved_id switch_group_id allow_on_off default_on_off reserved_members members reserved_default
        default_group_id;
    SwitchGroupMember 2: reserved member_id;
    GroupPreset 7: reserved_id preset_id reserved_kind preset_kind reserved_conditions conditions;
    PresetCondition 13: group_id detail;
    PresetConditionDetail 11: reserved disable_gain_interactivity disable_position_interactivity gain position;
    PresetPosition 5: az_offset reserved_el el_offset reserved_dist dist_factor;

    MpegH3dAudioTextLabel 5: scene_info_id reserved languages trailing;
    TextLabelLanguage 12: language reserved_groups groups reserved_switch_groups switch_groups reserved_presets presets;
    TextLabelEntry 4: reserved id data;

    MpegH3dAudioMultiStream 8: this_stream_id main trailing;
    MultiStreamMain 4: reserved_aux num_auxiliary_streams reserved_groups groups;
    MultiStreamGroup 5: group_id is_in_main_stream auxiliary;
    AuxiliaryLocation 2: is_in_ts auxiliary_stream_id;

    MpegH3dAudioDrcLoudness 10: reserved info trailing;
    DrcLoudnessInfo 6: reserved_drc reserved_loudness reserved_downmix drc_instructions loudness_infos downmix_definitions;
    DrcInstructions 24: reserved_type scope reserved_set drc_set_id reserved_downmix downmix_id reserved_additional
        additional_downmix_ids drc_set_effect limiter_peak_target target_loudness;
    DrcTargetLoudness 8: reserved_upper upper lower reserved_depends depends_on_drc_set no_independent_use_or_reserved;
    LoudnessInfoEntry 7: reserved_type scope loudness_info;
    DownmixDefinition 4: reserved downmix_id downmix_type cicp_speaker_layout_idx;
}

// ---- lines

fn show<T: Columns>(name: &str, value: &T) {
    let mut row = vec![];
    value.put(&mut row);
    assert_eq!(row.len(), T::COUNT, "{name}");
    let row: Vec<String> = row.iter().map(u16::to_string).collect();
    println!("{name} {}", row.join(" "));
}

/// The line of a call.
macro_rules! line {
    ($type:ident::$new:ident($($argument:expr),*)) => {
        show(concat!(stringify!($type), "::", stringify!($new)), &$type::$new($($argument),*))
    };
}

/// The line of a call that makes an optional part: its flag comes first.
macro_rules! part {
    ($type:ident::$new:ident($($argument:expr),*)) => {
        show(concat!(stringify!($type), "::", stringify!($new)), &Some($type::$new($($argument),*)))
    };
}

fn bytes(count: usize) -> Vec<u8> {
    vec![0; count]
}

fn base() {
    line!(MpegH3dAudio::new(11, true, None, 12));
    line!(MpegH3dAudio::new(13, false, Some(bytes(4)), 14));
    line!(MpegH3dAudio::new(201, true, Some(bytes(0)), 202));
}

fn scene() {
    let groups = |n| Some(vec![SceneGroup::new(0, false, false, 0); n]);
    let switch_groups = |n| Some(vec![SwitchGroup::new(0, false, false, vec![], 0); n]);
    let presets = |n| Some(vec![GroupPreset::new(0, 0, vec![]); n]);
    line!(MpegH3dAudioScene::new(11, None, None, None));
    line!(MpegH3dAudioScene::new(
        12,
        groups(4),
        switch_groups(5),
        presets(6)
    ));
    line!(MpegH3dAudioScene::new(13, groups(0), None, None));
    line!(MpegH3dAudioScene::new(14, None, switch_groups(0), None));
    line!(MpegH3dAudioScene::new(201, None, None, presets(301)));
}

fn scene_groups() {
    part!(PositionInteractivity::new(11, 12, 13, 14, 16, 17));
    part!(PositionInteractivity::new(201, 202, 203, 204, 205, 206));
    part!(GainInteractivity::new(11, 12));
    part!(GainInteractivity::new(201, 202));
    line!(SceneGroup::new(11, true, false, 12));
    line!(SceneGroup::new(201, false, true, 202));
    // with the parts that the constructor leaves out
    let mut g = SceneGroup::new(21, true, true, 22);
    g.position = Some(PositionInteractivity::new(23, 24, 25, 26, 27, 28));
    g.gain = Some(GainInteractivity::new(29, 30));
    g.content_language = Some(*b"eng");
    show("SceneGroup::new", &g);
}

fn switch_groups() {
    let members = |n| vec![SwitchGroupMember::new(0); n];
    line!(SwitchGroupMember::new(11));
    line!(SwitchGroupMember::new(201));
    line!(SwitchGroup::new(11, true, false, members(4), 12));
    line!(SwitchGroup::new(201, false, true, members(301), 202));
}

fn presets() {
    let conditions = |n| vec![PresetCondition::new(0, None); n];
    let position = Some(PresetPosition::new(21, 22, 23));
    let detail = PresetConditionDetail::new(true, false, Some(13), position);
    let plain = PresetConditionDetail::new(false, true, None, None);
    part!(PresetPosition::new(11, 12, 13));
    part!(PresetPosition::new(201, 202, 203));
    part!(PresetConditionDetail::new(true, false, None, None));
    part!(PresetConditionDetail::new(false, true, Some(11), None));
    part!(PresetConditionDetail::new(true, false, None, position));
    part!(PresetConditionDetail::new(false, true, Some(201), position));
    line!(PresetCondition::new(11, None));
    line!(PresetCondition::new(12, Some(detail)));
    line!(PresetCondition::new(201, Some(plain)));
    line!(GroupPreset::new(11, 12, conditions(4)));
    line!(GroupPreset::new(201, 202, conditions(301)));
}

fn text_label() {
    let entries = |n| vec![TextLabelEntry::group(0, vec![]); n];
    let languages = |n| vec![TextLabelLanguage::new([0; 3], vec![], vec![], vec![]); n];
    line!(MpegH3dAudioTextLabel::new(11, languages(0)));
    line!(MpegH3dAudioTextLabel::new(201, languages(301)));
    line!(TextLabelLanguage::new(
        *b"eng",
        entries(4),
        entries(5),
        entries(6)
    ));
    line!(TextLabelLanguage::new(
        [201, 202, 203],
        entries(0),
        entries(301),
        entries(302)
    ));
    line!(TextLabelEntry::group(11, bytes(4)));
    line!(TextLabelEntry::group(201, bytes(301)));
    // the library has two constructors for this one, so that their IDs are not exchanged
    line!(TextLabelEntry::switch_group_or_preset(12, bytes(5)));
    line!(TextLabelEntry::switch_group_or_preset(202, bytes(302)));
    line!(TextLabelEntry::switch_group_or_preset(13, bytes(6)));
    line!(TextLabelEntry::switch_group_or_preset(203, bytes(303)));
}

fn multi_stream() {
    let groups = |n| vec![MultiStreamGroup::in_main_stream(0); n];
    line!(MpegH3dAudioMultiStream::new(11, None));
    line!(MpegH3dAudioMultiStream::new(
        201,
        Some(MultiStreamMain::new(12, groups(4)))
    ));
    line!(MultiStreamMain::new(11, groups(4)));
    line!(MultiStreamMain::new(201, groups(301)));
    line!(AuxiliaryLocation::new(true, 11));
    line!(AuxiliaryLocation::new(false, 201));
    line!(MultiStreamGroup::in_main_stream(11));
    line!(MultiStreamGroup::in_main_stream(201));
    line!(MultiStreamGroup::in_auxiliary_stream(
        11,
        AuxiliaryLocation::new(true, 12)
    ));
    line!(MultiStreamGroup::in_auxiliary_stream(
        201,
        AuxiliaryLocation::new(false, 202)
    ));
}

fn drc_loudness() {
    let instructions = |n| vec![DrcInstructions::new(DrcScope::Plain(0), 0, 0, 0); n];
    let entries = |n| vec![LoudnessInfoEntry::new(DrcScope::Plain(0), vec![]); n];
    let definitions = |n| vec![DownmixDefinition::new(0, 0, 0); n];
    let info = DrcLoudnessInfo::new(instructions(4), entries(5), definitions(6));
    line!(MpegH3dAudioDrcLoudness::new(None));
    line!(MpegH3dAudioDrcLoudness::new(Some(info)));
    line!(DrcLoudnessInfo::new(
        instructions(4),
        entries(5),
        definitions(6)
    ));
    line!(DrcLoudnessInfo::new(
        instructions(301),
        entries(0),
        definitions(302)
    ));
    line!(DownmixDefinition::new(11, 12, 13));
    line!(DownmixDefinition::new(201, 202, 203));
}

fn scopes() {
    line!(DrcScope::group(11, 12));
    line!(DrcScope::group(201, 202));
    line!(DrcScope::preset(11));
    line!(DrcScope::preset(201));
    line!(LoudnessInfoEntry::new(DrcScope::Plain(11), bytes(4)));
    line!(LoudnessInfoEntry::new(DrcScope::group(12, 13), bytes(5)));
    line!(LoudnessInfoEntry::new(DrcScope::preset(201), bytes(301)));
}

fn instructions() {
    part!(DrcTargetLoudness::new(11, 12, 13));
    part!(DrcTargetLoudness::new(201, 202, 203));
    // with the lower value, which the constructor leaves out
    let mut target = DrcTargetLoudness::new(21, 22, 23);
    target.lower = Some((3, 24));
    show("DrcTargetLoudness::new", &Some(target));
    line!(DrcInstructions::new(DrcScope::Plain(11), 12, 13, 14));
    line!(DrcInstructions::new(DrcScope::group(16, 17), 18, 19, 20));
    line!(DrcInstructions::new(DrcScope::preset(201), 202, 203, 60001));
    // with the parts that the constructor leaves out
    let mut d = DrcInstructions::new(DrcScope::Plain(25), 26, 27, 28);
    d.additional_downmix_ids = vec![(1, 0); 4];
    d.limiter_peak_target = Some(29);
    d.target_loudness = Some(target);
    show("DrcInstructions::new", &d);
}

fn main() {
    base();
    scene();
    scene_groups();
    switch_groups();
    presets();
    text_label();
    multi_stream();
    drc_loudness();
    scopes();
    instructions();
}
