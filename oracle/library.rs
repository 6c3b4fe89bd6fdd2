//! The functions of include/mpegh.h, called with columns and bytes that stand between guards.
use crate::answers::{answer, Answer, Kind, Value};

extern "C" {
    fn mpegh_base_read(b: *const u8, bl: usize, t: *mut u16, tl: usize) -> u64;
    fn mpegh_base_measure(b: *const u8, bl: usize, r: *mut u16, rl: usize) -> u64;
    fn mpegh_base_tally(b: *const u8, bl: usize) -> u64;
    fn mpegh_base_write(
        profile: u8,
        interactivity: bool,
        sets: bool,
        sets_offset: u16,
        sets_length: u16,
        flags: u8,
        layout: u8,
        channels: u8,
        trailing_offset: u16,
        trailing_length: u16,
        s: *const u8,
        sl: usize,
        o: *mut u8,
        ol: usize,
    ) -> u64;
    fn mpegh_scene_read(
        b: *const u8,
        bl: usize,
        t: *mut u16,
        tl: usize,
        groups: *mut u16,
        groups_length: usize,
        switch_groups: *mut u16,
        switch_groups_length: usize,
        members: *mut u16,
        members_length: usize,
        presets: *mut u16,
        presets_length: usize,
        conditions: *mut u16,
        conditions_length: usize,
    ) -> u64;
    fn mpegh_scene_measure(b: *const u8, bl: usize, r: *mut u16, rl: usize) -> u64;
    fn mpegh_scene_tally(b: *const u8, bl: usize) -> u64;
    fn mpegh_scene_write(
        flags: u8,
        scene: u8,
        groups_present: bool,
        groups_count: u16,
        reserved_switch_groups: u8,
        switch_groups_present: bool,
        switch_groups_count: u16,
        reserved_presets: u8,
        presets_present: bool,
        presets_count: u16,
        reserved_groups: u8,
        trailing_offset: u16,
        trailing_length: u16,
        groups: *const u16,
        groups_length: usize,
        switch_groups: *const u16,
        switch_groups_length: usize,
        members: *const u16,
        members_length: usize,
        presets: *const u16,
        presets_length: usize,
        conditions: *const u16,
        conditions_length: usize,
        s: *const u8,
        sl: usize,
        o: *mut u8,
        ol: usize,
    ) -> u64;
    fn mpegh_text_label_read(
        b: *const u8,
        bl: usize,
        t: *mut u16,
        tl: usize,
        l: *mut u16,
        ll: usize,
        e: *mut u16,
        el: usize,
    ) -> u64;
    fn mpegh_text_label_measure(b: *const u8, bl: usize, r: *mut u16, rl: usize) -> u64;
    fn mpegh_text_label_tally(b: *const u8, bl: usize) -> u64;
    fn mpegh_text_label_write(
        scene: u8,
        reserved: u8,
        languages: u16,
        trailing_offset: u16,
        trailing_length: u16,
        l: *const u16,
        ll: usize,
        e: *const u16,
        el: usize,
        s: *const u8,
        sl: usize,
        o: *mut u8,
        ol: usize,
    ) -> u64;
    fn mpegh_multi_stream_read(
        b: *const u8,
        bl: usize,
        t: *mut u16,
        tl: usize,
        g: *mut u16,
        gl: usize,
    ) -> u64;
    fn mpegh_multi_stream_measure(b: *const u8, bl: usize, r: *mut u16, rl: usize) -> u64;
    fn mpegh_multi_stream_tally(b: *const u8, bl: usize) -> u64;
    fn mpegh_multi_stream_write(
        stream: u8,
        main: bool,
        reserved_aux: u8,
        streams: u8,
        reserved_groups: u8,
        groups: u16,
        trailing_offset: u16,
        trailing_length: u16,
        g: *const u16,
        gl: usize,
        s: *const u8,
        sl: usize,
        o: *mut u8,
        ol: usize,
    ) -> u64;
    fn mpegh_drc_loudness_read(
        b: *const u8,
        bl: usize,
        t: *mut u16,
        tl: usize,
        instructions: *mut u16,
        instructions_length: usize,
        additional: *mut u16,
        additional_length: usize,
        loudness: *mut u16,
        loudness_length: usize,
        downmix: *mut u16,
        downmix_length: usize,
    ) -> u64;
    fn mpegh_drc_loudness_measure(b: *const u8, bl: usize, r: *mut u16, rl: usize) -> u64;
    fn mpegh_drc_loudness_tally(b: *const u8, bl: usize) -> u64;
    fn mpegh_drc_loudness_write(
        reserved: u8,
        info_present: bool,
        reserved_drc: u8,
        reserved_loudness: u8,
        reserved_downmix: u8,
        drc_instructions: u16,
        loudness_infos: u16,
        downmix_definitions: u16,
        trailing_offset: u16,
        trailing_length: u16,
        instructions: *const u16,
        instructions_length: usize,
        additional: *const u16,
        additional_length: usize,
        loudness: *const u16,
        loudness_length: usize,
        downmix: *const u16,
        downmix_length: usize,
        s: *const u8,
        sl: usize,
        o: *mut u8,
        ol: usize,
    ) -> u64;
}

/// The answer that one number of the library stands for.
fn answer_of(code: u64) -> Answer {
    match code & 255 {
        3 => Answer {
            number: 3,
            value: code >> 8 & 0xFFFFFF,
            rows: code >> 32,
        },
        number => answer(number, (code >> 8) as usize),
    }
}

/// Lent memory between guards, all of it a pattern before the call.
#[derive(Clone, PartialEq, Debug)]
pub struct Lent<T>(Vec<T>);

const GUARD: usize = 8;

impl<T: Copy> Lent<T> {
    pub fn new(n: usize, pattern: T) -> Self {
        Lent(vec![pattern; n + 2 * GUARD])
    }

    fn len(&self) -> usize {
        self.0.len() - 2 * GUARD
    }

    fn start(&mut self) -> *mut T {
        self.0[GUARD..].as_mut_ptr()
    }

    /// What is expected there after the call.
    pub fn put(&mut self, front: &[T]) {
        self.0[GUARD..GUARD + front.len()].copy_from_slice(front);
    }
}

/// Reads, measures and tallies: lent are the top record, the tables and, last, the rows of measuring.
pub fn read(kind: &Kind, body: &[u8], lent: &mut [Lent<u16>]) -> [Answer; 3] {
    let (b, bl) = (body.as_ptr(), body.len());
    let n: Vec<usize> = lent.iter().map(Lent::len).collect();
    let p: Vec<*mut u16> = lent.iter_mut().map(Lent::start).collect();
    let (rows, rl) = (p[p.len() - 1], n[n.len() - 1]);
    let codes = unsafe {
        match kind.number {
            1 => [
                mpegh_base_read(b, bl, p[0], n[0]),
                mpegh_base_measure(b, bl, rows, rl),
                mpegh_base_tally(b, bl),
            ],
            2 => [
                mpegh_scene_read(
                    b, bl, p[0], n[0], p[1], n[1], p[2], n[2], p[3], n[3], p[4], n[4], p[5], n[5],
                ),
                mpegh_scene_measure(b, bl, rows, rl),
                mpegh_scene_tally(b, bl),
            ],
            3 => [
                mpegh_text_label_read(b, bl, p[0], n[0], p[1], n[1], p[2], n[2]),
                mpegh_text_label_measure(b, bl, rows, rl),
                mpegh_text_label_tally(b, bl),
            ],
            4 => [
                mpegh_multi_stream_read(b, bl, p[0], n[0], p[1], n[1]),
                mpegh_multi_stream_measure(b, bl, rows, rl),
                mpegh_multi_stream_tally(b, bl),
            ],
            _ => [
                mpegh_drc_loudness_read(
                    b, bl, p[0], n[0], p[1], n[1], p[2], n[2], p[3], n[3], p[4], n[4],
                ),
                mpegh_drc_loudness_measure(b, bl, rows, rl),
                mpegh_drc_loudness_tally(b, bl),
            ],
        }
    };
    codes.map(answer_of)
}

pub fn write(kind: &Kind, v: &Value, out: &mut Lent<u8>) -> Answer {
    let (s, sl) = (v.store.as_ptr(), v.store.len());
    let (o, ol) = (out.start(), out.len());
    answer_of(unsafe {
        match kind.number {
            1 => write_base(v.top, s, sl, o, ol),
            2 => write_scene(v, s, sl, o, ol),
            3 => write_text_label(v, s, sl, o, ol),
            4 => write_multi_stream(v, s, sl, o, ol),
            _ => write_drc_loudness(v, s, sl, o, ol),
        }
    })
}

unsafe fn write_base(t: &[u16], s: *const u8, sl: usize, o: *mut u8, ol: usize) -> u64 {
    let b = |i: usize| t[i] as u8;
    mpegh_base_write(
        b(0),
        t[1] != 0,
        t[2] != 0,
        t[3],
        t[4],
        b(5),
        b(6),
        b(7),
        t[8],
        t[9],
        s,
        sl,
        o,
        ol,
    )
}

unsafe fn write_scene(v: &Value, s: *const u8, sl: usize, o: *mut u8, ol: usize) -> u64 {
    let (t, p) = (v.top, |i: usize| v.tables[i].as_ptr());
    let (b, n) = (|i: usize| t[i] as u8, |i: usize| v.tables[i].len());
    mpegh_scene_write(
        b(0),
        b(1),
        t[2] != 0,
        t[3],
        b(4),
        t[5] != 0,
        t[6],
        b(7),
        t[8] != 0,
        t[9],
        b(10),
        t[11],
        t[12],
        p(0),
        n(0),
        p(1),
        n(1),
        p(2),
        n(2),
        p(3),
        n(3),
        p(4),
        n(4),
        s,
        sl,
        o,
        ol,
    )
}

unsafe fn write_text_label(v: &Value, s: *const u8, sl: usize, o: *mut u8, ol: usize) -> u64 {
    let t = v.top;
    let (one, two) = (v.tables[0], v.tables[1]);
    mpegh_text_label_write(
        t[0] as u8,
        t[1] as u8,
        t[2],
        t[3],
        t[4],
        one.as_ptr(),
        one.len(),
        two.as_ptr(),
        two.len(),
        s,
        sl,
        o,
        ol,
    )
}

unsafe fn write_multi_stream(v: &Value, s: *const u8, sl: usize, o: *mut u8, ol: usize) -> u64 {
    let t = v.top;
    let b = |i: usize| t[i] as u8;
    let groups = v.tables[0];
    mpegh_multi_stream_write(
        b(0),
        t[1] != 0,
        b(2),
        b(3),
        b(4),
        t[5],
        t[6],
        t[7],
        groups.as_ptr(),
        groups.len(),
        s,
        sl,
        o,
        ol,
    )
}

unsafe fn write_drc_loudness(v: &Value, s: *const u8, sl: usize, o: *mut u8, ol: usize) -> u64 {
    let (t, p) = (v.top, |i: usize| v.tables[i].as_ptr());
    let (b, n) = (|i: usize| t[i] as u8, |i: usize| v.tables[i].len());
    mpegh_drc_loudness_write(
        b(0),
        t[1] != 0,
        b(2),
        b(3),
        b(4),
        t[5],
        t[6],
        t[7],
        t[8],
        t[9],
        p(0),
        n(0),
        p(1),
        n(1),
        p(2),
        n(2),
        p(3),
        n(3),
        s,
        sl,
        o,
        ol,
    )
}
