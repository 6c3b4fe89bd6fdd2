//! Calls the Rust module and the library on one line of speed/bodies, so that a counter can compare their instructions.
//! For every measurement it prints a line (bytes, operation, side, calls) and calls `mark` three times: before a loop of `FEW` calls, between it
//! and a loop of `MANY`, and after that. The cost of a call is the difference of the two loops divided by `MANY - FEW`.
//! Built with `panic=abort` it measures the Rust at its best instead: without landing pads, and writing into one vector that is used again.
#![allow(dead_code, unexpected_cfgs)]

extern crate alloc;
mod rust;

use rust::error;
use rust::mpegh_3d_audio::{
    DrcScope, MpegH3dAudio, MpegH3dAudioDrcLoudness, MpegH3dAudioMultiStream, MpegH3dAudioScene,
    MpegH3dAudioTextLabel, Reader,
};
use std::hint::black_box;

const FEW: usize = 10;
const MANY: usize = 60;

extern "C" {
    fn mpegh_base_read(body: *const u8, body_len: usize, top: *mut u16, top_len: usize) -> u64;
    fn mpegh_base_write(
        profile_level_indication: u8,
        interactivity_enabled: bool,
        compatible_sets_present: bool,
        compatible_sets_offset: u16,
        compatible_sets_length: u16,
        reserved_flags: u8,
        reserved_layout: u8,
        reference_channel_layout: u8,
        trailing_offset: u16,
        trailing_length: u16,
        store: *const u8,
        store_len: usize,
        out: *mut u8,
        out_len: usize,
    ) -> u64;
    fn mpegh_scene_read(
        body: *const u8,
        body_len: usize,
        top: *mut u16,
        top_len: usize,
        groups: *mut u16,
        groups_len: usize,
        switch_groups: *mut u16,
        switch_groups_len: usize,
        members: *mut u16,
        members_len: usize,
        presets: *mut u16,
        presets_len: usize,
        conditions: *mut u16,
        conditions_len: usize,
    ) -> u64;
    fn mpegh_scene_write(
        reserved_flags: u8,
        scene_info_id: u8,
        groups_present: bool,
        groups_count: u16,
        reserved_switch_groups: u8,
        switch_groups_present: bool,
        switch_groups_count: u16,
        reserved_presets: u8,
        presets_present: bool,
        presets_count: u16,
        reserved_groups: u8,
        trailing_offset: u16,
        trailing_length: u16,
        groups: *const u16,
        groups_len: usize,
        switch_groups: *const u16,
        switch_groups_len: usize,
        members: *const u16,
        members_len: usize,
        presets: *const u16,
        presets_len: usize,
        conditions: *const u16,
        conditions_len: usize,
        store: *const u8,
        store_len: usize,
        out: *mut u8,
        out_len: usize,
    ) -> u64;
    fn mpegh_text_label_read(
        body: *const u8,
        body_len: usize,
        top: *mut u16,
        top_len: usize,
        languages: *mut u16,
        languages_len: usize,
        entries: *mut u16,
        entries_len: usize,
    ) -> u64;
    fn mpegh_text_label_write(
        scene_info_id: u8,
        reserved: u8,
        languages_count: u16,
        trailing_offset: u16,
        trailing_length: u16,
        languages: *const u16,
        languages_len: usize,
        entries: *const u16,
        entries_len: usize,
        store: *const u8,
        store_len: usize,
        out: *mut u8,
        out_len: usize,
    ) -> u64;
    fn mpegh_multi_stream_read(
        body: *const u8,
        body_len: usize,
        top: *mut u16,
        top_len: usize,
        groups: *mut u16,
        groups_len: usize,
    ) -> u64;
    fn mpegh_multi_stream_write(
        this_stream_id: u8,
        main_present: bool,
        reserved_aux: u8,
        num_auxiliary_streams: u8,
        reserved_groups: u8,
        groups_count: u16,
        trailing_offset: u16,
        trailing_length: u16,
        groups: *const u16,
        groups_len: usize,
        store: *const u8,
        store_len: usize,
        out: *mut u8,
        out_len: usize,
    ) -> u64;
    fn mpegh_drc_loudness_read(
        body: *const u8,
        body_len: usize,
        top: *mut u16,
        top_len: usize,
        instructions: *mut u16,
        instructions_len: usize,
        additional: *mut u16,
        additional_len: usize,
        loudness: *mut u16,
        loudness_len: usize,
        downmix: *mut u16,
        downmix_len: usize,
    ) -> u64;
    fn mpegh_drc_loudness_write(
        reserved: u8,
        info_present: bool,
        reserved_drc: u8,
        reserved_loudness: u8,
        reserved_downmix: u8,
        drc_instructions: u16,
        loudness_infos: u16,
        downmix_definitions: u16,
        trailing_offset: u16,
        trailing_length: u16,
        instructions: *const u16,
        instructions_len: usize,
        additional: *const u16,
        additional_len: usize,
        loudness: *const u16,
        loudness_len: usize,
        downmix: *const u16,
        downmix_len: usize,
        store: *const u8,
        store_len: usize,
        out: *mut u8,
        out_len: usize,
    ) -> u64;
}

/// What the library is lent: a top record, and tables with more rows than any body needs.
struct Lent {
    top: [u16; 32],
    tables: [Vec<u16>; 5],
}

/// A payload, as the structs of include/mpegh.h have it.
struct Payload {
    offset: u16,
    length: u16,
}

fn payload(columns: &[u16]) -> Payload {
    Payload {
        offset: columns[0],
        length: columns[1],
    }
}

/// A kind of body, on both sides.
trait Kind {
    type Value;
    /// The top record as a host holds it: the struct of include/mpegh.h.
    type Top;
    /// The number of `Error::InvalidDescriptor`, where the kind has it: 7 for an empty list, 8 for a scope whose type and case disagree, 9 for
    /// an auxiliary part that does not fit.
    const INVALID: u64;
    fn parse(r: &mut Reader<'_>) -> error::Result<Self::Value>;
    fn write(value: &Self::Value, out: &mut Vec<u8>) -> error::Result<()>;
    fn our_read(body: &[u8], lent: &mut Lent) -> u64;
    fn top(columns: &[u16]) -> Self::Top;
    fn our_write(top: &Self::Top, lent: &Lent, store: &[u8], out: &mut [u8]) -> u64;
    /// Puts a fault into both values, at their end.
    fn spoil(fault: &str, value: &mut Self::Value, lent: &mut Lent);
}

struct BaseTop {
    profile_level_indication: u8,
    interactivity_enabled: bool,
    compatible_sets_present: bool,
    compatible_sets: Payload,
    reserved_flags: u8,
    reserved_layout: u8,
    reference_channel_layout: u8,
    trailing: Payload,
}

struct Base;

impl Kind for Base {
    type Value = MpegH3dAudio;
    type Top = BaseTop;
    const INVALID: u64 = 0;
    #[inline(always)]
    fn parse(r: &mut Reader<'_>) -> error::Result<MpegH3dAudio> {
        MpegH3dAudio::parse(r)
    }
    #[inline(always)]
    fn write(value: &MpegH3dAudio, out: &mut Vec<u8>) -> error::Result<()> {
        value.write(out)
    }
    #[inline(always)]
    fn our_read(body: &[u8], lent: &mut Lent) -> u64 {
        let top = &mut lent.top;
        unsafe { mpegh_base_read(body.as_ptr(), body.len(), top.as_mut_ptr(), top.len()) }
    }
    fn top(t: &[u16]) -> BaseTop {
        BaseTop {
            profile_level_indication: t[0] as u8,
            interactivity_enabled: t[1] != 0,
            compatible_sets_present: t[2] != 0,
            compatible_sets: payload(&t[3..]),
            reserved_flags: t[5] as u8,
            reserved_layout: t[6] as u8,
            reference_channel_layout: t[7] as u8,
            trailing: payload(&t[8..]),
        }
    }
    #[inline(always)]
    fn our_write(t: &BaseTop, _lent: &Lent, store: &[u8], out: &mut [u8]) -> u64 {
        unsafe {
            mpegh_base_write(
                t.profile_level_indication,
                t.interactivity_enabled,
                t.compatible_sets_present,
                t.compatible_sets.offset,
                t.compatible_sets.length,
                t.reserved_flags,
                t.reserved_layout,
                t.reference_channel_layout,
                t.trailing.offset,
                t.trailing.length,
                store.as_ptr(),
                store.len(),
                out.as_mut_ptr(),
                out.len(),
            )
        }
    }
    fn spoil(fault: &str, value: &mut MpegH3dAudio, lent: &mut Lent) {
        match fault {
            "field" => {
                value.reference_channel_layout = 64;
                lent.top[7] = 64;
            }
            _ => panic!("the base has no fault {fault}"),
        }
    }
}

struct SceneTop {
    reserved_flags: u8,
    scene_info_id: u8,
    groups_present: bool,
    groups: u16,
    reserved_switch_groups: u8,
    switch_groups_present: bool,
    switch_groups: u16,
    reserved_presets: u8,
    presets_present: bool,
    presets: u16,
    reserved_groups: u8,
    trailing: Payload,
}

struct Scene;

impl Kind for Scene {
    type Value = MpegH3dAudioScene;
    type Top = SceneTop;
    const INVALID: u64 = 7;
    #[inline(always)]
    fn parse(r: &mut Reader<'_>) -> error::Result<MpegH3dAudioScene> {
        MpegH3dAudioScene::parse(r)
    }
    #[inline(always)]
    fn write(value: &MpegH3dAudioScene, out: &mut Vec<u8>) -> error::Result<()> {
        value.write(out)
    }
    #[inline(always)]
    fn our_read(body: &[u8], lent: &mut Lent) -> u64 {
        let top = &mut lent.top;
        let [groups, switch_groups, members, presets, conditions] = &mut lent.tables;
        unsafe {
            mpegh_scene_read(
                body.as_ptr(),
                body.len(),
                top.as_mut_ptr(),
                top.len(),
                groups.as_mut_ptr(),
                groups.len(),
                switch_groups.as_mut_ptr(),
                switch_groups.len(),
                members.as_mut_ptr(),
                members.len(),
                presets.as_mut_ptr(),
                presets.len(),
                conditions.as_mut_ptr(),
                conditions.len(),
            )
        }
    }
    fn top(t: &[u16]) -> SceneTop {
        SceneTop {
            reserved_flags: t[0] as u8,
            scene_info_id: t[1] as u8,
            groups_present: t[2] != 0,
            groups: t[3],
            reserved_switch_groups: t[4] as u8,
            switch_groups_present: t[5] != 0,
            switch_groups: t[6],
            reserved_presets: t[7] as u8,
            presets_present: t[8] != 0,
            presets: t[9],
            reserved_groups: t[10] as u8,
            trailing: payload(&t[11..]),
        }
    }
    #[inline(always)]
    fn our_write(t: &SceneTop, lent: &Lent, store: &[u8], out: &mut [u8]) -> u64 {
        let [groups, switch_groups, members, presets, conditions] = &lent.tables;
        unsafe {
            mpegh_scene_write(
                t.reserved_flags,
                t.scene_info_id,
                t.groups_present,
                t.groups,
                t.reserved_switch_groups,
                t.switch_groups_present,
                t.switch_groups,
                t.reserved_presets,
                t.presets_present,
                t.presets,
                t.reserved_groups,
                t.trailing.offset,
                t.trailing.length,
                groups.as_ptr(),
                groups.len(),
                switch_groups.as_ptr(),
                switch_groups.len(),
                members.as_ptr(),
                members.len(),
                presets.as_ptr(),
                presets.len(),
                conditions.as_ptr(),
                conditions.len(),
                store.as_ptr(),
                store.len(),
                out.as_mut_ptr(),
                out.len(),
            )
        }
    }
    fn spoil(fault: &str, value: &mut MpegH3dAudioScene, lent: &mut Lent) {
        let last = |count: usize| usize::from(lent.top[count]).saturating_sub(1);
        let (group, switch_group, preset) = (27 * last(3), 9 * last(6), 7 * last(9));
        let [groups, switch_groups, _, presets, conditions] = &mut lent.tables;
        match fault {
            "group" => {
                let list = value.groups.as_mut().unwrap();
                list.last_mut().unwrap().content_kind = 16;
                groups[group + 6] = 16;
            }
            "default" => {
                let list = value.switch_groups.as_mut().unwrap();
                list.last_mut().unwrap().default_group_id = 128;
                switch_groups[switch_group + 8] = 128;
            }
            "field" | "empty" => {
                let list = value.presets.as_mut().unwrap();
                let last = &mut list.last_mut().unwrap().conditions;
                if fault == "empty" {
                    last.clear();
                    presets[preset + 6] = 0;
                } else {
                    last.last_mut().unwrap().group_id = 128;
                    let end = presets[preset + 5] + presets[preset + 6];
                    conditions[13 * (usize::from(end) - 1)] = 128;
                }
            }
            _ => panic!("the scene body has no fault {fault}"),
        }
    }
}

struct TextLabelTop {
    scene_info_id: u8,
    reserved: u8,
    languages: u16,
    trailing: Payload,
}

struct TextLabel;

impl Kind for TextLabel {
    type Value = MpegH3dAudioTextLabel;
    type Top = TextLabelTop;
    const INVALID: u64 = 0;
    #[inline(always)]
    fn parse(r: &mut Reader<'_>) -> error::Result<MpegH3dAudioTextLabel> {
        MpegH3dAudioTextLabel::parse(r)
    }
    #[inline(always)]
    fn write(value: &MpegH3dAudioTextLabel, out: &mut Vec<u8>) -> error::Result<()> {
        value.write(out)
    }
    #[inline(always)]
    fn our_read(body: &[u8], lent: &mut Lent) -> u64 {
        let top = &mut lent.top;
        let [languages, entries, ..] = &mut lent.tables;
        unsafe {
            mpegh_text_label_read(
                body.as_ptr(),
                body.len(),
                top.as_mut_ptr(),
                top.len(),
                languages.as_mut_ptr(),
                languages.len(),
                entries.as_mut_ptr(),
                entries.len(),
            )
        }
    }
    fn top(t: &[u16]) -> TextLabelTop {
        TextLabelTop {
            scene_info_id: t[0] as u8,
            reserved: t[1] as u8,
            languages: t[2],
            trailing: payload(&t[3..]),
        }
    }
    #[inline(always)]
    fn our_write(t: &TextLabelTop, lent: &Lent, store: &[u8], out: &mut [u8]) -> u64 {
        let [languages, entries, ..] = &lent.tables;
        unsafe {
            mpegh_text_label_write(
                t.scene_info_id,
                t.reserved,
                t.languages,
                t.trailing.offset,
                t.trailing.length,
                languages.as_ptr(),
                languages.len(),
                entries.as_ptr(),
                entries.len(),
                store.as_ptr(),
                store.len(),
                out.as_mut_ptr(),
                out.len(),
            )
        }
    }
    fn spoil(fault: &str, value: &mut MpegH3dAudioTextLabel, lent: &mut Lent) {
        let last = value.languages.last_mut().unwrap().presets.last_mut();
        let [languages, entries, ..] = &mut lent.tables;
        let language = 12 * (usize::from(lent.top[2]) - 1);
        let presets_end =
            usize::from(languages[language + 10]) + usize::from(languages[language + 11]);
        match fault {
            "field" => {
                last.unwrap().id = 32;
                entries[4 * (presets_end - 1) + 1] = 32;
            }
            _ => panic!("the text label body has no fault {fault}"),
        }
    }
}

struct MultiStreamTop {
    this_stream_id: u8,
    main_present: bool,
    reserved_aux: u8,
    num_auxiliary_streams: u8,
    reserved_groups: u8,
    groups: u16,
    trailing: Payload,
}

struct MultiStream;

impl Kind for MultiStream {
    type Value = MpegH3dAudioMultiStream;
    type Top = MultiStreamTop;
    const INVALID: u64 = 9;
    #[inline(always)]
    fn parse(r: &mut Reader<'_>) -> error::Result<MpegH3dAudioMultiStream> {
        MpegH3dAudioMultiStream::parse(r)
    }
    #[inline(always)]
    fn write(value: &MpegH3dAudioMultiStream, out: &mut Vec<u8>) -> error::Result<()> {
        value.write(out)
    }
    #[inline(always)]
    fn our_read(body: &[u8], lent: &mut Lent) -> u64 {
        let top = &mut lent.top;
        let [groups, ..] = &mut lent.tables;
        unsafe {
            mpegh_multi_stream_read(
                body.as_ptr(),
                body.len(),
                top.as_mut_ptr(),
                top.len(),
                groups.as_mut_ptr(),
                groups.len(),
            )
        }
    }
    fn top(t: &[u16]) -> MultiStreamTop {
        MultiStreamTop {
            this_stream_id: t[0] as u8,
            main_present: t[1] != 0,
            reserved_aux: t[2] as u8,
            num_auxiliary_streams: t[3] as u8,
            reserved_groups: t[4] as u8,
            groups: t[5],
            trailing: payload(&t[6..]),
        }
    }
    #[inline(always)]
    fn our_write(t: &MultiStreamTop, lent: &Lent, store: &[u8], out: &mut [u8]) -> u64 {
        let [groups, ..] = &lent.tables;
        unsafe {
            mpegh_multi_stream_write(
                t.this_stream_id,
                t.main_present,
                t.reserved_aux,
                t.num_auxiliary_streams,
                t.reserved_groups,
                t.groups,
                t.trailing.offset,
                t.trailing.length,
                groups.as_ptr(),
                groups.len(),
                store.as_ptr(),
                store.len(),
                out.as_mut_ptr(),
                out.len(),
            )
        }
    }
    fn spoil(fault: &str, value: &mut MpegH3dAudioMultiStream, lent: &mut Lent) {
        let last = value.main.as_mut().unwrap().groups.last_mut().unwrap();
        let row = 5 * (usize::from(lent.top[5]) - 1);
        match fault {
            "field" => {
                last.auxiliary.as_mut().unwrap().auxiliary_stream_id = 128;
                lent.tables[0][row + 4] = 128;
            }
            "auxiliary" => {
                last.is_in_main_stream = !last.is_in_main_stream;
                lent.tables[0][row + 1] ^= 1;
            }
            _ => panic!("the multi-stream body has no fault {fault}"),
        }
    }
}

struct DrcLoudnessTop {
    reserved: u8,
    info_present: bool,
    reserved_drc: u8,
    reserved_loudness: u8,
    reserved_downmix: u8,
    drc_instructions: u16,
    loudness_infos: u16,
    downmix_definitions: u16,
    trailing: Payload,
}

struct DrcLoudness;

impl Kind for DrcLoudness {
    type Value = MpegH3dAudioDrcLoudness;
    type Top = DrcLoudnessTop;
    const INVALID: u64 = 8;
    #[inline(always)]
    fn parse(r: &mut Reader<'_>) -> error::Result<MpegH3dAudioDrcLoudness> {
        MpegH3dAudioDrcLoudness::parse(r)
    }
    #[inline(always)]
    fn write(value: &MpegH3dAudioDrcLoudness, out: &mut Vec<u8>) -> error::Result<()> {
        value.write(out)
    }
    #[inline(always)]
    fn our_read(body: &[u8], lent: &mut Lent) -> u64 {
        let top = &mut lent.top;
        let [instructions, additional, loudness, downmix, _] = &mut lent.tables;
        unsafe {
            mpegh_drc_loudness_read(
                body.as_ptr(),
                body.len(),
                top.as_mut_ptr(),
                top.len(),
                instructions.as_mut_ptr(),
                instructions.len(),
                additional.as_mut_ptr(),
                additional.len(),
                loudness.as_mut_ptr(),
                loudness.len(),
                downmix.as_mut_ptr(),
                downmix.len(),
            )
        }
    }
    fn top(t: &[u16]) -> DrcLoudnessTop {
        DrcLoudnessTop {
            reserved: t[0] as u8,
            info_present: t[1] != 0,
            reserved_drc: t[2] as u8,
            reserved_loudness: t[3] as u8,
            reserved_downmix: t[4] as u8,
            drc_instructions: t[5],
            loudness_infos: t[6],
            downmix_definitions: t[7],
            trailing: payload(&t[8..]),
        }
    }
    #[inline(always)]
    fn our_write(t: &DrcLoudnessTop, lent: &Lent, store: &[u8], out: &mut [u8]) -> u64 {
        let [instructions, additional, loudness, downmix, _] = &lent.tables;
        unsafe {
            mpegh_drc_loudness_write(
                t.reserved,
                t.info_present,
                t.reserved_drc,
                t.reserved_loudness,
                t.reserved_downmix,
                t.drc_instructions,
                t.loudness_infos,
                t.downmix_definitions,
                t.trailing.offset,
                t.trailing.length,
                instructions.as_ptr(),
                instructions.len(),
                additional.as_ptr(),
                additional.len(),
                loudness.as_ptr(),
                loudness.len(),
                downmix.as_ptr(),
                downmix.len(),
                store.as_ptr(),
                store.len(),
                out.as_mut_ptr(),
                out.len(),
            )
        }
    }
    fn spoil(fault: &str, value: &mut MpegH3dAudioDrcLoudness, lent: &mut Lent) {
        let last = |count: usize| usize::from(lent.top[count]).saturating_sub(1);
        let (instruction, entry, definition) = (24 * last(5), 7 * last(6), 4 * last(7));
        let [instructions, _, loudness, downmix, _] = &mut lent.tables;
        let info = value.info.as_mut().unwrap();
        match fault {
            "instruction" => {
                let last = info.drc_instructions.last_mut().unwrap();
                last.target_loudness.as_mut().unwrap().depends_on_drc_set = 64;
                instructions[instruction + 22] = 64;
            }
            "scope" => {
                info.loudness_infos.last_mut().unwrap().scope = DrcScope::Plain(3);
                loudness[entry + 1] = 0;
                loudness[entry + 2] = 3;
            }
            "field" => {
                let last = info.downmix_definitions.last_mut().unwrap();
                last.cicp_speaker_layout_idx = 64;
                downmix[definition + 3] = 64;
            }
            _ => panic!("the DRC and loudness body has no fault {fault}"),
        }
    }
}

/// A body that is read, and what is lent for it.
struct Asked<'a> {
    body: &'a [u8],
    lent: Lent,
}

#[inline(always)]
fn our_read<K: Kind>(asked: &mut Asked) -> u64 {
    K::our_read(asked.body, &mut asked.lent)
}

/// A value as a host of the library holds it, beside the Rust's: its top record, its tables and its store.
struct Held<'a, K: Kind> {
    top: K::Top,
    lent: Lent,
    store: &'a [u8],
}

#[inline(always)]
fn our_write<K: Kind>(held: &Held<K>, out: &mut [u8]) -> u64 {
    K::our_write(&held.top, &held.lent, held.store, out)
}

/// The number of the Rust's answer, with the need of number 1. It does not name the place of a fault in a value.
fn number<K: Kind>(e: error::Error) -> u64 {
    match e {
        error::Error::BufferTooShort { need, .. } => 1 | (need as u64) << 8,
        error::Error::FieldOverflow(_) => 5,
        error::Error::InvalidDescriptor { .. } => K::INVALID,
    }
}

/// The Rust's reading: the record is made and dropped. Without `black_box` the compiler may leave out what nobody looks at.
#[inline(never)]
fn rust_read<K: Kind>(body: &[u8]) -> u64 {
    match K::parse(&mut Reader::new(body, "speed")) {
        Ok(value) => {
            black_box(&value);
            0
        }
        Err(e) => number::<K>(e),
    }
}

/// The Rust's writing, into a vector that is made and dropped.
#[inline(never)]
fn rust_write<K: Kind>(value: &K::Value) -> u64 {
    written::<K>(value, &mut Vec::new())
}

/// The same into one vector for all calls, cleared each time.
#[inline(never)]
fn rust_write_again<K: Kind>(value: &K::Value, out: &mut Vec<u8>) -> u64 {
    out.clear();
    written::<K>(value, out)
}

#[inline(always)]
fn written<K: Kind>(value: &K::Value, out: &mut Vec<u8>) -> u64 {
    match K::write(value, out) {
        Ok(()) => (black_box(&*out).len() as u64) << 8,
        Err(e) => number::<K>(e),
    }
}

/// Whether this is the build that measures the Rust at its best.
const BEST: bool = cfg!(panic = "abort");

/// Where the counter looks: it notes the instructions so far.
#[no_mangle]
#[inline(never)]
pub extern "C" fn mark() {
    black_box(());
}

/// One loop of calls, their answers summed up.
#[inline(never)]
fn repeat(calls: usize, call: &mut impl FnMut() -> u64) {
    let mut sum = 0u64;
    for _ in 0..calls {
        sum = sum.wrapping_add(call());
    }
    black_box(sum);
}

/// A measurement. The first loop, which is not counted, lets the allocator come to rest.
fn count(mut call: impl FnMut() -> u64) {
    repeat(black_box(FEW), &mut call);
    for calls in [FEW, MANY] {
        mark();
        repeat(black_box(calls), &mut call);
    }
    mark();
}

fn measure<K: Kind>(fault: &str, body: &[u8]) {
    let mut asked = Asked {
        body,
        lent: Lent {
            top: [0; 32],
            tables: std::array::from_fn(|_| vec![0; 65536]),
        },
    };
    let mut out = vec![0; 65536];
    let length = body.len();
    let say = |what: &str| println!("{length} {what} {}", MANY - FEW);

    let sound = fault == "-";
    assert_eq!(
        rust_read::<K>(body),
        our_read::<K>(&mut asked),
        "reading"
    );
    if sound {
        say(if BEST { "read best" } else { "read rust" });
        count(|| rust_read::<K>(black_box(body)));
        say("read ours");
        count(|| our_read::<K>(black_box(&mut asked)));
    }
    let mut lent = asked.lent;

    let Ok(mut value) = K::parse(&mut Reader::new(body, "speed")) else {
        return;
    };
    if !sound {
        K::spoil(fault, &mut value, &mut lent);
    }
    let held = Held::<K> {
        top: K::top(&lent.top),
        lent,
        store: body,
    };
    let (rust, ours) = (rust_write::<K>(&value), our_write(&held, &mut out));
    if sound {
        assert_eq!((rust, ours), ((length as u64) << 8, rust), "writing");
        assert!(out[..length] == *body, "writing");
    } else {
        assert_eq!(rust, ours & 0xFF, "writing");
    }
    if BEST {
        let mut again = Vec::new();
        say("write best");
        count(|| rust_write_again::<K>(black_box(&value), &mut again));
    } else {
        say("write rust");
        count(|| rust_write::<K>(black_box(&value)));
    }
    say("write ours");
    count(|| our_write(black_box(&held), &mut out));
}

/// The bytes of words up to a closing bracket: pairs of hexadecimal digits, and `N*(` words `)` for what stands there N times.
fn bytes<'a>(words: &mut impl Iterator<Item = &'a str>) -> Vec<u8> {
    let mut all = Vec::new();
    while let Some(word) = words.next() {
        if word == ")" {
            break;
        } else if let Some(times) = word.strip_suffix("*(") {
            let times = times.parse().expect("a number before *(");
            all.extend(bytes(words).repeat(times));
        } else {
            all.push(u8::from_str_radix(word, 16).expect("two hexadecimal digits"));
        }
    }
    all
}

/// The arguments are a line of speed/bodies: kind, name, fault, body.
fn main() {
    let arguments: Vec<String> = std::env::args().skip(1).collect();
    let mut words = arguments.iter().map(String::as_str);
    let kind = words.next().expect("a kind");
    words.next().expect("a name");
    let fault = words.next().expect("a fault, or -");
    let body = bytes(&mut words);
    match kind {
        "1" => measure::<Base>(fault, &body),
        "2" => measure::<Scene>(fault, &body),
        "3" => measure::<TextLabel>(fault, &body),
        "4" => measure::<MultiStream>(fault, &body),
        "5" => measure::<DrcLoudness>(fault, &body),
        _ => panic!("no kind {kind}"),
    }
}
