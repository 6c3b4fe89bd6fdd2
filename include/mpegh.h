/*
 * The MPEG-H 3D audio descriptor bodies of Rec. ITU-T H.222.0 for C and C++: base (kind 1), scene (2), text label (3), multi-stream (4),
 * DRC and loudness (5).
 * Link with target/staticlib/libmpegh_c.a (`examples/archive` builds it, for x86-64). Of the C library the archive needs memmove and nothing else.
 *
 * Every kind has four functions:
 *
 *   read     takes a body apart into a top record and the rows of lent tables
 *   measure  says how many rows of each table a body needs, and k, the bytes before its trailing run
 *   tally    says how many reserved bits of a body are 0
 *   write    makes the body of a top record and its rows
 *
 * Each ends on every input, keeps nothing between calls, and uses no memory but its stack and what it was lent. Its answer is one
 * uint64_t (see mpegh_number). A refusal leaves all lent memory as it was. After a success a table has its rows at the front, and the
 * output the body; what stands behind them is as it was.
 *
 * What is lent is a pointer and a length, in bytes for uint8_t and in columns for uint16_t. The caller sees to two things that no
 * function can check:
 *
 *   - The whole length can be read, or written where the pointer is not const. A pointer may be null where its length is 0.
 *   - What a function writes (top, rows, tables, out) overlaps nothing else that the call was lent. What it only reads may overlap.
 *
 * A table is its rows end to end, a row is its columns, a column is a uint16_t. A payload (sets, a label, loudness info, the trailing run)
 * is an offset and a length: after reading it counts from the start of the body; writing takes it from the store. So the body itself
 * serves as the store of what was read from it.
 *
 * Every kind has a struct for its top record. mpegh_KIND_read_into fills one and mpegh_KIND_write_from writes one: this is the way that is
 * shown and meant. mpegh_KIND_write itself takes the fields one by one, and C cuts a number over 255 that is handed for a uint8_t
 * parameter before the call: 300 arrives as 44, and no refusal is seen. It does so too where a uint8_t field is assigned. A compiler
 * warns of both with -Wconversion. A column of a row has 16 bits: there 300 arrives, and is refused with 5.
 *
 * A value is made by functions that stand for the constructors of the Rust module mpegh_3d_audio.rs, and say which: mpegh_scene_group_new
 * for SceneGroup::new. Reserved bits are 1s. An optional part is a pointer, null for none; one that is no parameter is absent, with its
 * flag and its columns 0. The trailing run is empty. A list of a top record is its count, a list of a row is a range of rows. All fields
 * can be changed afterwards.
 */
#ifndef MPEGH_H
#define MPEGH_H

#include <stddef.h>
#include <stdint.h>
#ifndef __cplusplus
#include <stdbool.h>
#endif

#ifdef __cplusplus
extern "C" {
#endif

/*
 * The version of this header and its archive, major * 10000 + minor * 100 + patch. The patch moves where nothing that a caller sees
 * changes, minor where functions, numbers or tables are added, major where a caller has to change.
 */
#define MPEGH_VERSION 10000
#define MPEGH_VERSION_TEXT "1.0.0"

/* ---------------------------------------------------------------- answers */

/* The number of an answer. What each returns is its value, of MPEGH_NO_ROWS its table and rows. */
enum mpegh_numbers {
    MPEGH_DONE = 0,            /* read: 0; measure: k; tally: the tally; write: the length written */
    MPEGH_SHORT = 1,           /* a read ends past the body; the position where it would end */
    MPEGH_BODY_TOO_LONG = 2,   /* a body over 65,535 bytes; its length */
    MPEGH_NO_ROWS = 3,         /* a table has too few rows; the lowest such table, and the rows it needs */
    MPEGH_NO_ROOM = 4,         /* the output is too short; the bytes it needs */
    MPEGH_FIELD = 5,           /* a field, flag or count over its width; the place */
    MPEGH_RANGE = 6,           /* rows that pass their table, or a payload that passes the store; the place */
    MPEGH_EMPTY = 7,           /* a switch group without members, or a preset without conditions; the place */
    MPEGH_SCOPE = 8,           /* a scope case above 2, or a type and a case that disagree; the place */
    MPEGH_AUXILIARY = 9,       /* an auxiliary part in the main stream, or none outside it; the place */
    MPEGH_RESULT_TOO_LONG = 10 /* a result over 65,535 bytes; its length */
};
/* A place is the number of bytes of the result that precede the fault. A length past 56 bits is given as the largest 56-bit number. */

static inline unsigned mpegh_number(uint64_t answer)
{
    return (unsigned)(answer & 0xFF);
}

static inline uint64_t mpegh_value(uint64_t answer)
{
    return answer >> 8;
}

/* A number in words. */
static inline const char *mpegh_text(unsigned number)
{
    switch (number) {
    case MPEGH_DONE: return "done";
    case MPEGH_SHORT: return "a read ends past the body";
    case MPEGH_BODY_TOO_LONG: return "the body is too long";
    case MPEGH_NO_ROWS: return "a table has too few rows";
    case MPEGH_NO_ROOM: return "the output is too short";
    case MPEGH_FIELD: return "a field, flag or count is over its width";
    case MPEGH_RANGE: return "rows pass their table, or a payload passes the store";
    case MPEGH_EMPTY: return "a switch group has no members, or a preset no conditions";
    case MPEGH_SCOPE: return "a scope does not fit its type";
    case MPEGH_AUXILIARY: return "an auxiliary part in the main stream, or none outside it";
    case MPEGH_RESULT_TOO_LONG: return "the result is too long";
    default: return "an unknown number";
    }
}

/* Of MPEGH_NO_ROWS: the table, by its number; 0 stands for `top` of read and `rows` of measure. */
static inline unsigned mpegh_table(uint64_t answer)
{
    return (unsigned)(answer >> 8 & 0xFFFFFF);
}

/* Of MPEGH_NO_ROWS: the rows that the table needs. mpegh_columns, at the end, says how many columns these are. */
static inline uint32_t mpegh_rows(uint64_t answer)
{
    return (uint32_t)(answer >> 32);
}

/* ------------------------------------------------- what all kinds have */

enum { MPEGH_LONGEST_BODY = 65535 };

/* Bytes that stand in the body or in the store. */
struct mpegh_payload {
    uint16_t offset;
    uint16_t length;
};

/* Rows of a table. */
struct mpegh_range {
    uint16_t first;
    uint16_t count;
};

static inline struct mpegh_payload mpegh_payload_of(const uint16_t *columns)
{
    struct mpegh_payload p;
    p.offset = columns[0];
    p.length = columns[1];
    return p;
}

static inline struct mpegh_range mpegh_range_of(const uint16_t *columns)
{
    struct mpegh_range r;
    r.first = columns[0];
    r.count = columns[1];
    return r;
}

/* ------------------------------------------------------ kind 1: base */

enum {
    MPEGH_BASE_COLUMNS = 10, /* of the top record */
    MPEGH_BASE_TABLES = 0    /* the base lends no tables */
};

/* The top record, in the order of its columns (the Rust's MpegH3dAudio). */
struct mpegh_base {
    uint8_t profile_level_indication;
    bool interactivity_enabled;
    bool compatible_sets_present;         /* a list may be present and empty */
    struct mpegh_payload compatible_sets; /* 0, 0 where not present; writing does not look at it then */
    uint8_t reserved_flags;               /* 6 bits */
    uint8_t reserved_layout;              /* 2 bits */
    uint8_t reference_channel_layout;     /* 6 bits */
    struct mpegh_payload trailing;
};

/*
 * Answers 0 and puts the top record into the first MPEGH_BASE_COLUMNS columns of `top`, or refuses with 2, 1, or 3 (table 0, 1 row) where
 * `top` is shorter, judged in this order.
 */
uint64_t mpegh_base_read(const uint8_t *body, size_t body_length, uint16_t *top, size_t top_length);

/* Answers k, or refuses with 2 or 1. The base has no tables: `rows` may have length 0 and is left as it was. */
uint64_t mpegh_base_measure(const uint8_t *body, size_t body_length, uint16_t *rows, size_t rows_length);

/* Answers the number of reserved bits that are 0, or refuses with 2 or 1. */
uint64_t mpegh_base_tally(const uint8_t *body, size_t body_length);

/*
 * Answers the length and puts the body at the front of `out`, or refuses with the first of 5 and 6 in the order of the body, then 10,
 * then 4. The parameters are the top record's fields.
 */
uint64_t mpegh_base_write(
    uint8_t profile_level_indication,
    bool interactivity_enabled,
    bool compatible_sets_present,
    uint16_t compatible_sets_offset,
    uint16_t compatible_sets_length,
    uint8_t reserved_flags,
    uint8_t reserved_layout,
    uint8_t reference_channel_layout,
    uint16_t trailing_offset,
    uint16_t trailing_length,
    const uint8_t *store, size_t store_length,
    uint8_t *out, size_t out_length);

/* The top record of columns that mpegh_base_read filled. */
static inline struct mpegh_base mpegh_base_of(const uint16_t *top)
{
    struct mpegh_base m;
    m.profile_level_indication = (uint8_t)top[0];
    m.interactivity_enabled = top[1] != 0;
    m.compatible_sets_present = top[2] != 0;
    m.compatible_sets = mpegh_payload_of(top + 3);
    m.reserved_flags = (uint8_t)top[5];
    m.reserved_layout = (uint8_t)top[6];
    m.reference_channel_layout = (uint8_t)top[7];
    m.trailing = mpegh_payload_of(top + 8);
    return m;
}

/* mpegh_base_read into a struct. A refusal leaves it as it was. */
static inline uint64_t mpegh_base_read_into(struct mpegh_base *m, const uint8_t *body, size_t body_length)
{
    uint16_t top[MPEGH_BASE_COLUMNS];
    uint64_t answer = mpegh_base_read(body, body_length, top, MPEGH_BASE_COLUMNS);
    if (mpegh_number(answer) == MPEGH_DONE)
        *m = mpegh_base_of(top);
    return answer;
}

/* mpegh_base_write from a struct. */
static inline uint64_t mpegh_base_write_from(
    const struct mpegh_base *m, const uint8_t *store, size_t store_length, uint8_t *out, size_t out_length)
{
    return mpegh_base_write(
        m->profile_level_indication, m->interactivity_enabled, m->compatible_sets_present, m->compatible_sets.offset,
        m->compatible_sets.length, m->reserved_flags, m->reserved_layout, m->reference_channel_layout, m->trailing.offset,
        m->trailing.length, store, store_length, out, out_length);
}

/* MpegH3dAudio::new. The sets are a payload of the store. */
static inline struct mpegh_base mpegh_base_new(
    uint8_t profile_level_indication,
    bool interactivity_enabled,
    const struct mpegh_payload *compatible_sets,
    uint8_t reference_channel_layout)
{
    const uint16_t none[MPEGH_BASE_COLUMNS] = {0};
    struct mpegh_base m = mpegh_base_of(none);
    m.profile_level_indication = profile_level_indication;
    m.interactivity_enabled = interactivity_enabled;
    if (compatible_sets != NULL) {
        m.compatible_sets_present = true;
        m.compatible_sets = *compatible_sets;
    }
    m.reserved_flags = 63;
    m.reserved_layout = 3;
    m.reference_channel_layout = reference_channel_layout;
    return m;
}

/* ----------------------------------------------------- kind 2: scene */

enum {
    MPEGH_SCENE_COLUMNS = 13,             /* of the top record */
    MPEGH_SCENE_TABLES = 5,               /* 1 to 5, as below: the columns that measure puts into `rows` */
    MPEGH_SCENE_GROUP_COLUMNS = 27,       /* of a row of table 1 */
    MPEGH_SCENE_SWITCH_GROUP_COLUMNS = 9, /* of a row of table 2 */
    MPEGH_SCENE_MEMBER_COLUMNS = 2,       /* of a row of table 3 */
    MPEGH_SCENE_PRESET_COLUMNS = 7,       /* of a row of table 4 */
    MPEGH_SCENE_CONDITION_COLUMNS = 13,   /* of a row of table 5 */
    MPEGH_SCENE_MOST_GROUPS = 127,        /* no body has more rows */
    MPEGH_SCENE_MOST_SWITCH_GROUPS = 31,
    MPEGH_SCENE_MOST_MEMBERS = 992, /* 31 switch groups of 32 members */
    MPEGH_SCENE_MOST_PRESETS = 31,
    MPEGH_SCENE_MOST_CONDITIONS = 496 /* 31 presets of 16 conditions */
};

/*
 * The top record (the Rust's MpegH3dAudioScene). Its groups, switch groups and presets are the first rows of tables 1, 2 and 4. A section
 * may be present and empty. Where it is not present its count is 0 and its reserved bits are 1s; writing looks at neither then.
 */
struct mpegh_scene {
    uint8_t reserved_flags; /* 5 bits */
    uint8_t scene_info_id;
    bool groups_present;
    uint16_t groups;                /* their count */
    uint8_t reserved_switch_groups; /* 3 bits */
    bool switch_groups_present;
    uint16_t switch_groups;   /* their count */
    uint8_t reserved_presets; /* 3 bits */
    bool presets_present;
    uint16_t presets;        /* their count */
    uint8_t reserved_groups; /* 1 bit */
    struct mpegh_payload trailing;
};

/* In the rows below a part is there where the flag before it is 1. Where that is 0 its columns are 0, and writing does not look at them. */

/* The Rust's PositionInteractivity. */
struct mpegh_scene_position_interactivity {
    uint16_t reserved_min_az; /* 1 bit */
    uint16_t min_az_offset;   /* 7 bits */
    uint16_t reserved_max_az; /* 1 bit */
    uint16_t max_az_offset;   /* 7 bits */
    uint16_t reserved_min_el; /* 3 bits */
    uint16_t min_el_offset;   /* 5 bits */
    uint16_t reserved_max_el; /* 3 bits */
    uint16_t max_el_offset;   /* 5 bits */
    uint16_t min_dist_offset; /* 4 bits */
    uint16_t max_dist_offset; /* 4 bits */
};

/* The Rust's GainInteractivity. */
struct mpegh_scene_gain_interactivity {
    uint16_t reserved_min; /* 2 bits */
    uint16_t min_gain;     /* 6 bits */
    uint16_t reserved_max; /* 3 bits */
    uint16_t max_gain;     /* 5 bits */
};

/* A row of table 1 (the Rust's SceneGroup). */
struct mpegh_scene_group {
    uint16_t reserved_id;      /* 1 bit */
    uint16_t group_id;         /* 7 bits */
    uint16_t reserved_flags;   /* 3 bits */
    uint16_t allow_on_off;     /* 0 or 1 */
    uint16_t default_on_off;   /* 0 or 1 */
    uint16_t reserved_kind;    /* 4 bits */
    uint16_t content_kind;     /* 4 bits */
    uint16_t position_present; /* 0 or 1 */
    struct mpegh_scene_position_interactivity position;
    uint16_t gain_present; /* 0 or 1 */
    struct mpegh_scene_gain_interactivity gain;
    uint16_t content_language_present; /* 0 or 1 */
    uint16_t content_language[3];      /* three characters of ISO 639-2 */
};

/* A row of table 2 (the Rust's SwitchGroup). Its members, 1 to 32, are rows of table 3. */
struct mpegh_scene_switch_group {
    uint16_t reserved_id;      /* 1 bit */
    uint16_t switch_group_id;  /* 5 bits */
    uint16_t allow_on_off;     /* 0 or 1 */
    uint16_t default_on_off;   /* 0 or 1 */
    uint16_t reserved_members; /* 3 bits */
    struct mpegh_range members;
    uint16_t reserved_default; /* 1 bit */
    uint16_t default_group_id; /* 7 bits */
};

/* A row of table 3 (the Rust's SwitchGroupMember). */
struct mpegh_scene_member {
    uint16_t reserved;  /* 1 bit */
    uint16_t member_id; /* 7 bits */
};

/* A row of table 4 (the Rust's GroupPreset). Its conditions, 1 to 16, are rows of table 5. */
struct mpegh_scene_preset {
    uint16_t reserved_id;         /* 3 bits */
    uint16_t preset_id;           /* 5 bits */
    uint16_t reserved_kind;       /* 3 bits */
    uint16_t preset_kind;         /* 5 bits */
    uint16_t reserved_conditions; /* 4 bits */
    struct mpegh_range conditions;
};

/* The Rust's PresetPosition. */
struct mpegh_scene_preset_position {
    uint16_t az_offset;     /* 8 bits */
    uint16_t reserved_el;   /* 2 bits */
    uint16_t el_offset;     /* 6 bits */
    uint16_t reserved_dist; /* 4 bits */
    uint16_t dist_factor;   /* 4 bits */
};

/* The Rust's PresetConditionDetail. */
struct mpegh_scene_condition_detail {
    uint16_t reserved;                       /* 4 bits */
    uint16_t disable_gain_interactivity;     /* 0 or 1 */
    uint16_t disable_position_interactivity; /* 0 or 1 */
    uint16_t gain_present;                   /* 0 or 1 */
    uint16_t gain;                           /* 8 bits */
    uint16_t position_present;               /* 0 or 1 */
    struct mpegh_scene_preset_position position;
};

/* A row of table 5 (the Rust's PresetCondition). */
struct mpegh_scene_condition {
    uint16_t group_id;       /* 7 bits */
    uint16_t detail_present; /* 0 or 1 */
    struct mpegh_scene_condition_detail detail;
};

/*
 * Answers 0 and puts the top record into the first MPEGH_SCENE_COLUMNS columns of `top`, the groups into the first rows of `groups` (table
 * 1), the switch groups into those of `switch_groups` (2), their members of `members` (3), the presets of `presets` (4) and their
 * conditions of `conditions` (5), or refuses with 2, 1, or 3 (of table 0 to 5), judged in this order.
 */
uint64_t mpegh_scene_read(
    const uint8_t *body, size_t body_length,
    uint16_t *top, size_t top_length,
    uint16_t *groups, size_t groups_length,
    uint16_t *switch_groups, size_t switch_groups_length,
    uint16_t *members, size_t members_length,
    uint16_t *presets, size_t presets_length,
    uint16_t *conditions, size_t conditions_length);

/*
 * Answers k and puts the rows needed of tables 1 to 5 into the first MPEGH_SCENE_TABLES columns of `rows`, or refuses with 2, 1, or 3
 * (table 0, 1 row) where `rows` is shorter, judged in this order.
 */
uint64_t mpegh_scene_measure(const uint8_t *body, size_t body_length, uint16_t *rows, size_t rows_length);

/* Answers the number of reserved bits that are 0, or refuses with 2 or 1. */
uint64_t mpegh_scene_tally(const uint8_t *body, size_t body_length);

/*
 * Answers the length and puts the body at the front of `out`, or refuses with the first of 5, 6 and 7 in the order of the body, then 10,
 * then 4. So many rows of `groups`, `switch_groups` and `presets` are written as the counts say; switch groups may share rows of
 * `members`, and presets rows of `conditions`.
 */
uint64_t mpegh_scene_write(
    uint8_t reserved_flags,
    uint8_t scene_info_id,
    bool groups_present,
    uint16_t groups_count,
    uint8_t reserved_switch_groups,
    bool switch_groups_present,
    uint16_t switch_groups_count,
    uint8_t reserved_presets,
    bool presets_present,
    uint16_t presets_count,
    uint8_t reserved_groups,
    uint16_t trailing_offset,
    uint16_t trailing_length,
    const uint16_t *groups, size_t groups_length,
    const uint16_t *switch_groups, size_t switch_groups_length,
    const uint16_t *members, size_t members_length,
    const uint16_t *presets, size_t presets_length,
    const uint16_t *conditions, size_t conditions_length,
    const uint8_t *store, size_t store_length,
    uint8_t *out, size_t out_length);

/* The top record of columns that mpegh_scene_read filled. */
static inline struct mpegh_scene mpegh_scene_of(const uint16_t *top)
{
    struct mpegh_scene m;
    m.reserved_flags = (uint8_t)top[0];
    m.scene_info_id = (uint8_t)top[1];
    m.groups_present = top[2] != 0;
    m.groups = top[3];
    m.reserved_switch_groups = (uint8_t)top[4];
    m.switch_groups_present = top[5] != 0;
    m.switch_groups = top[6];
    m.reserved_presets = (uint8_t)top[7];
    m.presets_present = top[8] != 0;
    m.presets = top[9];
    m.reserved_groups = (uint8_t)top[10];
    m.trailing = mpegh_payload_of(top + 11);
    return m;
}

/* mpegh_scene_read into a struct. A refusal leaves it as it was. */
static inline uint64_t mpegh_scene_read_into(
    struct mpegh_scene *m, const uint8_t *body, size_t body_length,
    uint16_t *groups, size_t groups_length,
    uint16_t *switch_groups, size_t switch_groups_length,
    uint16_t *members, size_t members_length,
    uint16_t *presets, size_t presets_length,
    uint16_t *conditions, size_t conditions_length)
{
    uint16_t top[MPEGH_SCENE_COLUMNS];
    uint64_t answer = mpegh_scene_read(
        body, body_length, top, MPEGH_SCENE_COLUMNS, groups, groups_length, switch_groups, switch_groups_length, members,
        members_length, presets, presets_length, conditions, conditions_length);
    if (mpegh_number(answer) == MPEGH_DONE)
        *m = mpegh_scene_of(top);
    return answer;
}

/* mpegh_scene_write from a struct. */
static inline uint64_t mpegh_scene_write_from(
    const struct mpegh_scene *m,
    const uint16_t *groups, size_t groups_length,
    const uint16_t *switch_groups, size_t switch_groups_length,
    const uint16_t *members, size_t members_length,
    const uint16_t *presets, size_t presets_length,
    const uint16_t *conditions, size_t conditions_length,
    const uint8_t *store, size_t store_length,
    uint8_t *out, size_t out_length)
{
    return mpegh_scene_write(
        m->reserved_flags, m->scene_info_id, m->groups_present, m->groups, m->reserved_switch_groups, m->switch_groups_present,
        m->switch_groups, m->reserved_presets, m->presets_present, m->presets, m->reserved_groups, m->trailing.offset,
        m->trailing.length, groups, groups_length, switch_groups, switch_groups_length, members, members_length, presets,
        presets_length, conditions, conditions_length, store, store_length, out, out_length);
}

/* A row of table 1, counted from 0. */
static inline struct mpegh_scene_group mpegh_scene_group_get(const uint16_t *groups, size_t row)
{
    const uint16_t *c = groups + row * MPEGH_SCENE_GROUP_COLUMNS;
    struct mpegh_scene_group g;
    g.reserved_id = c[0];
    g.group_id = c[1];
    g.reserved_flags = c[2];
    g.allow_on_off = c[3];
    g.default_on_off = c[4];
    g.reserved_kind = c[5];
    g.content_kind = c[6];
    g.position_present = c[7];
    g.position.reserved_min_az = c[8];
    g.position.min_az_offset = c[9];
    g.position.reserved_max_az = c[10];
    g.position.max_az_offset = c[11];
    g.position.reserved_min_el = c[12];
    g.position.min_el_offset = c[13];
    g.position.reserved_max_el = c[14];
    g.position.max_el_offset = c[15];
    g.position.min_dist_offset = c[16];
    g.position.max_dist_offset = c[17];
    g.gain_present = c[18];
    g.gain.reserved_min = c[19];
    g.gain.min_gain = c[20];
    g.gain.reserved_max = c[21];
    g.gain.max_gain = c[22];
    g.content_language_present = c[23];
    g.content_language[0] = c[24];
    g.content_language[1] = c[25];
    g.content_language[2] = c[26];
    return g;
}

static inline void mpegh_scene_group_put(uint16_t *groups, size_t row, const struct mpegh_scene_group *g)
{
    uint16_t *c = groups + row * MPEGH_SCENE_GROUP_COLUMNS;
    c[0] = g->reserved_id;
    c[1] = g->group_id;
    c[2] = g->reserved_flags;
    c[3] = g->allow_on_off;
    c[4] = g->default_on_off;
    c[5] = g->reserved_kind;
    c[6] = g->content_kind;
    c[7] = g->position_present;
    c[8] = g->position.reserved_min_az;
    c[9] = g->position.min_az_offset;
    c[10] = g->position.reserved_max_az;
    c[11] = g->position.max_az_offset;
    c[12] = g->position.reserved_min_el;
    c[13] = g->position.min_el_offset;
    c[14] = g->position.reserved_max_el;
    c[15] = g->position.max_el_offset;
    c[16] = g->position.min_dist_offset;
    c[17] = g->position.max_dist_offset;
    c[18] = g->gain_present;
    c[19] = g->gain.reserved_min;
    c[20] = g->gain.min_gain;
    c[21] = g->gain.reserved_max;
    c[22] = g->gain.max_gain;
    c[23] = g->content_language_present;
    c[24] = g->content_language[0];
    c[25] = g->content_language[1];
    c[26] = g->content_language[2];
}

/* A row of table 2, counted from 0. */
static inline struct mpegh_scene_switch_group mpegh_scene_switch_group_get(const uint16_t *switch_groups, size_t row)
{
    const uint16_t *c = switch_groups + row * MPEGH_SCENE_SWITCH_GROUP_COLUMNS;
    struct mpegh_scene_switch_group g;
    g.reserved_id = c[0];
    g.switch_group_id = c[1];
    g.allow_on_off = c[2];
    g.default_on_off = c[3];
    g.reserved_members = c[4];
    g.members = mpegh_range_of(c + 5);
    g.reserved_default = c[7];
    g.default_group_id = c[8];
    return g;
}

static inline void mpegh_scene_switch_group_put(uint16_t *switch_groups, size_t row, const struct mpegh_scene_switch_group *g)
{
    uint16_t *c = switch_groups + row * MPEGH_SCENE_SWITCH_GROUP_COLUMNS;
    c[0] = g->reserved_id;
    c[1] = g->switch_group_id;
    c[2] = g->allow_on_off;
    c[3] = g->default_on_off;
    c[4] = g->reserved_members;
    c[5] = g->members.first;
    c[6] = g->members.count;
    c[7] = g->reserved_default;
    c[8] = g->default_group_id;
}

/* A row of table 3, counted from 0. */
static inline struct mpegh_scene_member mpegh_scene_member_get(const uint16_t *members, size_t row)
{
    const uint16_t *c = members + row * MPEGH_SCENE_MEMBER_COLUMNS;
    struct mpegh_scene_member m;
    m.reserved = c[0];
    m.member_id = c[1];
    return m;
}

static inline void mpegh_scene_member_put(uint16_t *members, size_t row, const struct mpegh_scene_member *m)
{
    uint16_t *c = members + row * MPEGH_SCENE_MEMBER_COLUMNS;
    c[0] = m->reserved;
    c[1] = m->member_id;
}

/* A row of table 4, counted from 0. */
static inline struct mpegh_scene_preset mpegh_scene_preset_get(const uint16_t *presets, size_t row)
{
    const uint16_t *c = presets + row * MPEGH_SCENE_PRESET_COLUMNS;
    struct mpegh_scene_preset p;
    p.reserved_id = c[0];
    p.preset_id = c[1];
    p.reserved_kind = c[2];
    p.preset_kind = c[3];
    p.reserved_conditions = c[4];
    p.conditions = mpegh_range_of(c + 5);
    return p;
}

static inline void mpegh_scene_preset_put(uint16_t *presets, size_t row, const struct mpegh_scene_preset *p)
{
    uint16_t *c = presets + row * MPEGH_SCENE_PRESET_COLUMNS;
    c[0] = p->reserved_id;
    c[1] = p->preset_id;
    c[2] = p->reserved_kind;
    c[3] = p->preset_kind;
    c[4] = p->reserved_conditions;
    c[5] = p->conditions.first;
    c[6] = p->conditions.count;
}

/* A row of table 5, counted from 0. */
static inline struct mpegh_scene_condition mpegh_scene_condition_get(const uint16_t *conditions, size_t row)
{
    const uint16_t *c = conditions + row * MPEGH_SCENE_CONDITION_COLUMNS;
    struct mpegh_scene_condition p;
    p.group_id = c[0];
    p.detail_present = c[1];
    p.detail.reserved = c[2];
    p.detail.disable_gain_interactivity = c[3];
    p.detail.disable_position_interactivity = c[4];
    p.detail.gain_present = c[5];
    p.detail.gain = c[6];
    p.detail.position_present = c[7];
    p.detail.position.az_offset = c[8];
    p.detail.position.reserved_el = c[9];
    p.detail.position.el_offset = c[10];
    p.detail.position.reserved_dist = c[11];
    p.detail.position.dist_factor = c[12];
    return p;
}

static inline void mpegh_scene_condition_put(uint16_t *conditions, size_t row, const struct mpegh_scene_condition *p)
{
    uint16_t *c = conditions + row * MPEGH_SCENE_CONDITION_COLUMNS;
    c[0] = p->group_id;
    c[1] = p->detail_present;
    c[2] = p->detail.reserved;
    c[3] = p->detail.disable_gain_interactivity;
    c[4] = p->detail.disable_position_interactivity;
    c[5] = p->detail.gain_present;
    c[6] = p->detail.gain;
    c[7] = p->detail.position_present;
    c[8] = p->detail.position.az_offset;
    c[9] = p->detail.position.reserved_el;
    c[10] = p->detail.position.el_offset;
    c[11] = p->detail.position.reserved_dist;
    c[12] = p->detail.position.dist_factor;
}

/* A list of the top record for mpegh_scene_new: the Rust's Some of so many rows, or None. */
struct mpegh_scene_section {
    bool present;
    uint16_t count;
};

static inline struct mpegh_scene_section mpegh_scene_section_present(uint16_t count)
{
    struct mpegh_scene_section s;
    s.present = true;
    s.count = count;
    return s;
}

static inline struct mpegh_scene_section mpegh_scene_section_absent(void)
{
    struct mpegh_scene_section s;
    s.present = false;
    s.count = 0;
    return s;
}

/* MpegH3dAudioScene::new. */
static inline struct mpegh_scene mpegh_scene_new(
    uint8_t scene_info_id,
    struct mpegh_scene_section groups,
    struct mpegh_scene_section switch_groups,
    struct mpegh_scene_section presets)
{
    const uint16_t none[MPEGH_SCENE_COLUMNS] = {0};
    struct mpegh_scene m = mpegh_scene_of(none);
    m.reserved_flags = 31;
    m.scene_info_id = scene_info_id;
    m.groups_present = groups.present;
    m.groups = groups.count;
    m.reserved_switch_groups = 7;
    m.switch_groups_present = switch_groups.present;
    m.switch_groups = switch_groups.count;
    m.reserved_presets = 7;
    m.presets_present = presets.present;
    m.presets = presets.count;
    m.reserved_groups = 1;
    return m;
}

/* PositionInteractivity::new. */
static inline struct mpegh_scene_position_interactivity mpegh_scene_position_interactivity_new(
    uint16_t min_az_offset,
    uint16_t max_az_offset,
    uint16_t min_el_offset,
    uint16_t max_el_offset,
    uint16_t min_dist_offset,
    uint16_t max_dist_offset)
{
    struct mpegh_scene_position_interactivity p;
    p.reserved_min_az = 1;
    p.min_az_offset = min_az_offset;
    p.reserved_max_az = 1;
    p.max_az_offset = max_az_offset;
    p.reserved_min_el = 7;
    p.min_el_offset = min_el_offset;
    p.reserved_max_el = 7;
    p.max_el_offset = max_el_offset;
    p.min_dist_offset = min_dist_offset;
    p.max_dist_offset = max_dist_offset;
    return p;
}

/* GainInteractivity::new. */
static inline struct mpegh_scene_gain_interactivity mpegh_scene_gain_interactivity_new(uint16_t min_gain, uint16_t max_gain)
{
    struct mpegh_scene_gain_interactivity g;
    g.reserved_min = 3;
    g.min_gain = min_gain;
    g.reserved_max = 7;
    g.max_gain = max_gain;
    return g;
}

/* SceneGroup::new. Its three parts are absent. */
static inline struct mpegh_scene_group mpegh_scene_group_new(
    uint16_t group_id, bool allow_on_off, bool default_on_off, uint16_t content_kind)
{
    const uint16_t none[MPEGH_SCENE_GROUP_COLUMNS] = {0};
    struct mpegh_scene_group g = mpegh_scene_group_get(none, 0);
    g.reserved_id = 1;
    g.group_id = group_id;
    g.reserved_flags = 7;
    g.allow_on_off = allow_on_off;
    g.default_on_off = default_on_off;
    g.reserved_kind = 15;
    g.content_kind = content_kind;
    return g;
}

/* SwitchGroup::new. */
static inline struct mpegh_scene_switch_group mpegh_scene_switch_group_new(
    uint16_t switch_group_id, bool allow_on_off, bool default_on_off, struct mpegh_range members, uint16_t default_group_id)
{
    struct mpegh_scene_switch_group g;
    g.reserved_id = 1;
    g.switch_group_id = switch_group_id;
    g.allow_on_off = allow_on_off;
    g.default_on_off = default_on_off;
    g.reserved_members = 7;
    g.members = members;
    g.reserved_default = 1;
    g.default_group_id = default_group_id;
    return g;
}

/* SwitchGroupMember::new. */
static inline struct mpegh_scene_member mpegh_scene_member_new(uint16_t member_id)
{
    struct mpegh_scene_member m;
    m.reserved = 1;
    m.member_id = member_id;
    return m;
}

/* GroupPreset::new. */
static inline struct mpegh_scene_preset mpegh_scene_preset_new(uint16_t preset_id, uint16_t preset_kind, struct mpegh_range conditions)
{
    struct mpegh_scene_preset p;
    p.reserved_id = 7;
    p.preset_id = preset_id;
    p.reserved_kind = 7;
    p.preset_kind = preset_kind;
    p.reserved_conditions = 15;
    p.conditions = conditions;
    return p;
}

/* PresetPosition::new. */
static inline struct mpegh_scene_preset_position mpegh_scene_preset_position_new(
    uint16_t az_offset, uint16_t el_offset, uint16_t dist_factor)
{
    struct mpegh_scene_preset_position p;
    p.az_offset = az_offset;
    p.reserved_el = 3;
    p.el_offset = el_offset;
    p.reserved_dist = 15;
    p.dist_factor = dist_factor;
    return p;
}

/* PresetConditionDetail::new. */
static inline struct mpegh_scene_condition_detail mpegh_scene_condition_detail_new(
    bool disable_gain_interactivity,
    bool disable_position_interactivity,
    const uint16_t *gain,
    const struct mpegh_scene_preset_position *position)
{
    const uint16_t none[MPEGH_SCENE_CONDITION_COLUMNS] = {0};
    struct mpegh_scene_condition_detail d = mpegh_scene_condition_get(none, 0).detail;
    d.reserved = 15;
    d.disable_gain_interactivity = disable_gain_interactivity;
    d.disable_position_interactivity = disable_position_interactivity;
    if (gain != NULL) {
        d.gain_present = 1;
        d.gain = *gain;
    }
    if (position != NULL) {
        d.position_present = 1;
        d.position = *position;
    }
    return d;
}

/* PresetCondition::new. */
static inline struct mpegh_scene_condition mpegh_scene_condition_new(
    uint16_t group_id, const struct mpegh_scene_condition_detail *detail)
{
    const uint16_t none[MPEGH_SCENE_CONDITION_COLUMNS] = {0};
    struct mpegh_scene_condition c = mpegh_scene_condition_get(none, 0);
    c.group_id = group_id;
    if (detail != NULL) {
        c.detail_present = 1;
        c.detail = *detail;
    }
    return c;
}

/* ------------------------------------------------ kind 3: text label */

enum {
    MPEGH_TEXT_LABEL_COLUMNS = 5,           /* of the top record */
    MPEGH_TEXT_LABEL_TABLES = 2,            /* 6, the languages, and 7, the entries: the columns that measure puts into `rows` */
    MPEGH_TEXT_LABEL_LANGUAGE_COLUMNS = 12, /* of a row of table 6 */
    MPEGH_TEXT_LABEL_ENTRY_COLUMNS = 4,     /* of a row of table 7 */
    MPEGH_TEXT_LABEL_MOST_LANGUAGES = 15,   /* no body has more rows */
    MPEGH_TEXT_LABEL_MOST_ENTRIES = 2835    /* 15 languages of 127 groups, 31 switch groups and 31 presets */
};

/* The top record (the Rust's MpegH3dAudioTextLabel). Its languages are the first rows of table 6. */
struct mpegh_text_label {
    uint8_t scene_info_id;
    uint8_t reserved;   /* 4 bits */
    uint16_t languages; /* their count */
    struct mpegh_payload trailing;
};

/* A row of table 6 (the Rust's TextLabelLanguage). Its three lists are rows of table 7. */
struct mpegh_text_label_language {
    uint16_t language[3];     /* three characters of ISO 639-2 */
    uint16_t reserved_groups; /* 1 bit */
    struct mpegh_range groups;
    uint16_t reserved_switch_groups; /* 3 bits */
    struct mpegh_range switch_groups;
    uint16_t reserved_presets; /* 3 bits */
    struct mpegh_range presets;
};

/* A row of table 7: one label (the Rust's TextLabelEntry). */
struct mpegh_text_label_entry {
    uint16_t reserved; /* 1 bit for a group, 3 for a switch group or a preset */
    uint16_t id;       /* 7 bits for a group, 5 for a switch group or a preset */
    struct mpegh_payload data;
};

/*
 * Answers 0 and puts the top record into the first MPEGH_TEXT_LABEL_COLUMNS columns of `top`, the languages into the first rows of
 * `languages` (table 6) and the labels into the first rows of `entries` (table 7), or refuses with 2, 1, or 3 (of table 0, 6, 7), judged
 * in this order.
 */
uint64_t mpegh_text_label_read(
    const uint8_t *body, size_t body_length,
    uint16_t *top, size_t top_length,
    uint16_t *languages, size_t languages_length,
    uint16_t *entries, size_t entries_length);

/*
 * Answers k and puts the rows needed of tables 6 and 7 into the first MPEGH_TEXT_LABEL_TABLES columns of `rows`, or refuses with 2, 1, or
 * 3 (table 0, 1 row) where `rows` is shorter, judged in this order.
 */
uint64_t mpegh_text_label_measure(const uint8_t *body, size_t body_length, uint16_t *rows, size_t rows_length);

/* Answers the number of reserved bits that are 0, or refuses with 2 or 1. */
uint64_t mpegh_text_label_tally(const uint8_t *body, size_t body_length);

/*
 * Answers the length and puts the body at the front of `out`, or refuses with the first of 5 and 6 in the order of the body, then 10,
 * then 4. `languages_count` rows of `languages` are written; they may share rows of `entries`, and those bytes of the store.
 */
uint64_t mpegh_text_label_write(
    uint8_t scene_info_id,
    uint8_t reserved,
    uint16_t languages_count,
    uint16_t trailing_offset,
    uint16_t trailing_length,
    const uint16_t *languages, size_t languages_length,
    const uint16_t *entries, size_t entries_length,
    const uint8_t *store, size_t store_length,
    uint8_t *out, size_t out_length);

/* The top record of columns that mpegh_text_label_read filled. */
static inline struct mpegh_text_label mpegh_text_label_of(const uint16_t *top)
{
    struct mpegh_text_label m;
    m.scene_info_id = (uint8_t)top[0];
    m.reserved = (uint8_t)top[1];
    m.languages = top[2];
    m.trailing = mpegh_payload_of(top + 3);
    return m;
}

/* mpegh_text_label_read into a struct. A refusal leaves it as it was. */
static inline uint64_t mpegh_text_label_read_into(
    struct mpegh_text_label *m, const uint8_t *body, size_t body_length,
    uint16_t *languages, size_t languages_length,
    uint16_t *entries, size_t entries_length)
{
    uint16_t top[MPEGH_TEXT_LABEL_COLUMNS];
    uint64_t answer = mpegh_text_label_read(
        body, body_length, top, MPEGH_TEXT_LABEL_COLUMNS, languages, languages_length, entries, entries_length);
    if (mpegh_number(answer) == MPEGH_DONE)
        *m = mpegh_text_label_of(top);
    return answer;
}

/* mpegh_text_label_write from a struct. */
static inline uint64_t mpegh_text_label_write_from(
    const struct mpegh_text_label *m,
    const uint16_t *languages, size_t languages_length,
    const uint16_t *entries, size_t entries_length,
    const uint8_t *store, size_t store_length,
    uint8_t *out, size_t out_length)
{
    return mpegh_text_label_write(
        m->scene_info_id, m->reserved, m->languages, m->trailing.offset, m->trailing.length, languages, languages_length, entries,
        entries_length, store, store_length, out, out_length);
}

/* A row of table 6, counted from 0. */
static inline struct mpegh_text_label_language mpegh_text_label_language_get(const uint16_t *languages, size_t row)
{
    const uint16_t *c = languages + row * MPEGH_TEXT_LABEL_LANGUAGE_COLUMNS;
    struct mpegh_text_label_language l;
    l.language[0] = c[0];
    l.language[1] = c[1];
    l.language[2] = c[2];
    l.reserved_groups = c[3];
    l.groups = mpegh_range_of(c + 4);
    l.reserved_switch_groups = c[6];
    l.switch_groups = mpegh_range_of(c + 7);
    l.reserved_presets = c[9];
    l.presets = mpegh_range_of(c + 10);
    return l;
}

static inline void mpegh_text_label_language_put(uint16_t *languages, size_t row, const struct mpegh_text_label_language *l)
{
    uint16_t *c = languages + row * MPEGH_TEXT_LABEL_LANGUAGE_COLUMNS;
    c[0] = l->language[0];
    c[1] = l->language[1];
    c[2] = l->language[2];
    c[3] = l->reserved_groups;
    c[4] = l->groups.first;
    c[5] = l->groups.count;
    c[6] = l->reserved_switch_groups;
    c[7] = l->switch_groups.first;
    c[8] = l->switch_groups.count;
    c[9] = l->reserved_presets;
    c[10] = l->presets.first;
    c[11] = l->presets.count;
}

/* A row of table 7, counted from 0. */
static inline struct mpegh_text_label_entry mpegh_text_label_entry_get(const uint16_t *entries, size_t row)
{
    const uint16_t *c = entries + row * MPEGH_TEXT_LABEL_ENTRY_COLUMNS;
    struct mpegh_text_label_entry e;
    e.reserved = c[0];
    e.id = c[1];
    e.data = mpegh_payload_of(c + 2);
    return e;
}

static inline void mpegh_text_label_entry_put(uint16_t *entries, size_t row, const struct mpegh_text_label_entry *e)
{
    uint16_t *c = entries + row * MPEGH_TEXT_LABEL_ENTRY_COLUMNS;
    c[0] = e->reserved;
    c[1] = e->id;
    c[2] = e->data.offset;
    c[3] = e->data.length;
}

/* MpegH3dAudioTextLabel::new. */
static inline struct mpegh_text_label mpegh_text_label_new(uint8_t scene_info_id, uint16_t languages)
{
    const uint16_t none[MPEGH_TEXT_LABEL_COLUMNS] = {0};
    struct mpegh_text_label m = mpegh_text_label_of(none);
    m.scene_info_id = scene_info_id;
    m.reserved = 15;
    m.languages = languages;
    return m;
}

/* TextLabelLanguage::new. The three characters come one by one, as in mpegh_text_label_language_new('e', 'n', 'g', ..). */
static inline struct mpegh_text_label_language mpegh_text_label_language_new(
    uint16_t first,
    uint16_t second,
    uint16_t third,
    struct mpegh_range groups,
    struct mpegh_range switch_groups,
    struct mpegh_range presets)
{
    struct mpegh_text_label_language l;
    l.language[0] = first;
    l.language[1] = second;
    l.language[2] = third;
    l.reserved_groups = 1;
    l.groups = groups;
    l.reserved_switch_groups = 7;
    l.switch_groups = switch_groups;
    l.reserved_presets = 7;
    l.presets = presets;
    return l;
}

/* TextLabelEntry::group. */
static inline struct mpegh_text_label_entry mpegh_text_label_entry_group(uint16_t id, struct mpegh_payload data)
{
    struct mpegh_text_label_entry e;
    e.reserved = 1;
    e.id = id;
    e.data = data;
    return e;
}

/* TextLabelEntry::switch_group_or_preset. */
static inline struct mpegh_text_label_entry mpegh_text_label_entry_switch_group_or_preset(uint16_t id, struct mpegh_payload data)
{
    struct mpegh_text_label_entry e;
    e.reserved = 7;
    e.id = id;
    e.data = data;
    return e;
}

/* ---------------------------------------------- kind 4: multi-stream */

enum {
    MPEGH_MULTI_STREAM_COLUMNS = 8,       /* of the top record */
    MPEGH_MULTI_STREAM_TABLES = 1,        /* 8, the groups: the columns that measure puts into `rows` */
    MPEGH_MULTI_STREAM_GROUP_COLUMNS = 5, /* of a row of table 8 */
    MPEGH_MULTI_STREAM_MOST_GROUPS = 127  /* no body has more rows */
};

/* The top record (the Rust's MpegH3dAudioMultiStream). Its groups are the first rows of table 8. */
struct mpegh_multi_stream {
    uint8_t this_stream_id;        /* 7 bits */
    bool main_present;             /* thisIsMainStream; the next four are 0 where it is false, and writing does not look at them then */
    uint8_t reserved_aux;          /* 1 bit */
    uint8_t num_auxiliary_streams; /* 7 bits */
    uint8_t reserved_groups;       /* 1 bit */
    uint16_t groups;               /* their count */
    struct mpegh_payload trailing;
};

/* A row of table 8 (the Rust's MultiStreamGroup). The auxiliary location is present exactly where is_in_main_stream is 0. */
struct mpegh_multi_stream_group {
    uint16_t group_id;            /* 7 bits */
    uint16_t is_in_main_stream;   /* 0 or 1 */
    uint16_t auxiliary_present;   /* 0 or 1; the next two are 0 where it is 0, and writing does not look at them then */
    uint16_t is_in_ts;            /* 0 or 1 */
    uint16_t auxiliary_stream_id; /* 7 bits */
};

/*
 * Answers 0 and puts the top record into the first MPEGH_MULTI_STREAM_COLUMNS columns of `top` and the groups into the first rows of
 * `groups` (table 8), or refuses with 2, 1, or 3 (of table 0, 8), judged in this order.
 */
uint64_t mpegh_multi_stream_read(
    const uint8_t *body, size_t body_length,
    uint16_t *top, size_t top_length,
    uint16_t *groups, size_t groups_length);

/*
 * Answers k and puts the rows needed of table 8 into the first column of `rows`, or refuses with 2, 1, or 3 (table 0, 1 row) where `rows`
 * has none, judged in this order.
 */
uint64_t mpegh_multi_stream_measure(const uint8_t *body, size_t body_length, uint16_t *rows, size_t rows_length);

/* Answers the number of reserved bits that are 0, or refuses with 2 or 1. */
uint64_t mpegh_multi_stream_tally(const uint8_t *body, size_t body_length);

/*
 * Answers the length and puts the body at the front of `out`, or refuses with the first of 5, 6 and 9 in the order of the body, then
 * 10, then 4. `groups_count` rows of `groups` are written.
 */
uint64_t mpegh_multi_stream_write(
    uint8_t this_stream_id,
    bool main_present,
    uint8_t reserved_aux,
    uint8_t num_auxiliary_streams,
    uint8_t reserved_groups,
    uint16_t groups_count,
    uint16_t trailing_offset,
    uint16_t trailing_length,
    const uint16_t *groups, size_t groups_length,
    const uint8_t *store, size_t store_length,
    uint8_t *out, size_t out_length);

/* The top record of columns that mpegh_multi_stream_read filled. */
static inline struct mpegh_multi_stream mpegh_multi_stream_of(const uint16_t *top)
{
    struct mpegh_multi_stream m;
    m.this_stream_id = (uint8_t)top[0];
    m.main_present = top[1] != 0;
    m.reserved_aux = (uint8_t)top[2];
    m.num_auxiliary_streams = (uint8_t)top[3];
    m.reserved_groups = (uint8_t)top[4];
    m.groups = top[5];
    m.trailing = mpegh_payload_of(top + 6);
    return m;
}

/* mpegh_multi_stream_read into a struct. A refusal leaves it as it was. */
static inline uint64_t mpegh_multi_stream_read_into(
    struct mpegh_multi_stream *m, const uint8_t *body, size_t body_length, uint16_t *groups, size_t groups_length)
{
    uint16_t top[MPEGH_MULTI_STREAM_COLUMNS];
    uint64_t answer = mpegh_multi_stream_read(body, body_length, top, MPEGH_MULTI_STREAM_COLUMNS, groups, groups_length);
    if (mpegh_number(answer) == MPEGH_DONE)
        *m = mpegh_multi_stream_of(top);
    return answer;
}

/* mpegh_multi_stream_write from a struct. */
static inline uint64_t mpegh_multi_stream_write_from(
    const struct mpegh_multi_stream *m,
    const uint16_t *groups, size_t groups_length,
    const uint8_t *store, size_t store_length,
    uint8_t *out, size_t out_length)
{
    return mpegh_multi_stream_write(
        m->this_stream_id, m->main_present, m->reserved_aux, m->num_auxiliary_streams, m->reserved_groups, m->groups,
        m->trailing.offset, m->trailing.length, groups, groups_length, store, store_length, out, out_length);
}

/* A row of table 8, counted from 0. */
static inline struct mpegh_multi_stream_group mpegh_multi_stream_group_get(const uint16_t *groups, size_t row)
{
    const uint16_t *c = groups + row * MPEGH_MULTI_STREAM_GROUP_COLUMNS;
    struct mpegh_multi_stream_group g;
    g.group_id = c[0];
    g.is_in_main_stream = c[1];
    g.auxiliary_present = c[2];
    g.is_in_ts = c[3];
    g.auxiliary_stream_id = c[4];
    return g;
}

static inline void mpegh_multi_stream_group_put(uint16_t *groups, size_t row, const struct mpegh_multi_stream_group *g)
{
    uint16_t *c = groups + row * MPEGH_MULTI_STREAM_GROUP_COLUMNS;
    c[0] = g->group_id;
    c[1] = g->is_in_main_stream;
    c[2] = g->auxiliary_present;
    c[3] = g->is_in_ts;
    c[4] = g->auxiliary_stream_id;
}

/* The Rust's MultiStreamMain, for mpegh_multi_stream_new: the top record has its fields among its own. */
struct mpegh_multi_stream_main {
    uint8_t reserved_aux;
    uint8_t num_auxiliary_streams;
    uint8_t reserved_groups;
    uint16_t groups;
};

/* The Rust's AuxiliaryLocation, for mpegh_multi_stream_group_in_auxiliary_stream: the row has its fields among its own. */
struct mpegh_multi_stream_auxiliary_location {
    uint16_t is_in_ts;
    uint16_t auxiliary_stream_id;
};

/* MultiStreamMain::new. */
static inline struct mpegh_multi_stream_main mpegh_multi_stream_main_new(uint8_t num_auxiliary_streams, uint16_t groups)
{
    struct mpegh_multi_stream_main m;
    m.reserved_aux = 1;
    m.num_auxiliary_streams = num_auxiliary_streams;
    m.reserved_groups = 1;
    m.groups = groups;
    return m;
}

/* MpegH3dAudioMultiStream::new. `main_part` is null where this is not the main stream. */
static inline struct mpegh_multi_stream mpegh_multi_stream_new(
    uint8_t this_stream_id, const struct mpegh_multi_stream_main *main_part)
{
    const uint16_t none[MPEGH_MULTI_STREAM_COLUMNS] = {0};
    struct mpegh_multi_stream m = mpegh_multi_stream_of(none);
    m.this_stream_id = this_stream_id;
    if (main_part != NULL) {
        m.main_present = true;
        m.reserved_aux = main_part->reserved_aux;
        m.num_auxiliary_streams = main_part->num_auxiliary_streams;
        m.reserved_groups = main_part->reserved_groups;
        m.groups = main_part->groups;
    }
    return m;
}

/* AuxiliaryLocation::new. */
static inline struct mpegh_multi_stream_auxiliary_location mpegh_multi_stream_auxiliary_location_new(
    bool is_in_ts, uint16_t auxiliary_stream_id)
{
    struct mpegh_multi_stream_auxiliary_location l;
    l.is_in_ts = is_in_ts;
    l.auxiliary_stream_id = auxiliary_stream_id;
    return l;
}

/* MultiStreamGroup::in_main_stream. */
static inline struct mpegh_multi_stream_group mpegh_multi_stream_group_in_main_stream(uint16_t group_id)
{
    struct mpegh_multi_stream_group g;
    g.group_id = group_id;
    g.is_in_main_stream = 1;
    g.auxiliary_present = 0;
    g.is_in_ts = 0;
    g.auxiliary_stream_id = 0;
    return g;
}

/* MultiStreamGroup::in_auxiliary_stream. */
static inline struct mpegh_multi_stream_group mpegh_multi_stream_group_in_auxiliary_stream(
    uint16_t group_id, struct mpegh_multi_stream_auxiliary_location auxiliary)
{
    struct mpegh_multi_stream_group g;
    g.group_id = group_id;
    g.is_in_main_stream = 0;
    g.auxiliary_present = 1;
    g.is_in_ts = auxiliary.is_in_ts;
    g.auxiliary_stream_id = auxiliary.auxiliary_stream_id;
    return g;
}

/* ------------------------------------------ kind 5: DRC and loudness */

enum {
    MPEGH_DRC_LOUDNESS_COLUMNS = 10,             /* of the top record */
    MPEGH_DRC_LOUDNESS_TABLES = 4,               /* 9 to 12, as below: the columns that measure puts into `rows` */
    MPEGH_DRC_LOUDNESS_INSTRUCTION_COLUMNS = 24, /* of a row of table 9 */
    MPEGH_DRC_LOUDNESS_ADDITIONAL_COLUMNS = 2,   /* of a row of table 10 */
    MPEGH_DRC_LOUDNESS_ENTRY_COLUMNS = 7,        /* of a row of table 11 */
    MPEGH_DRC_LOUDNESS_DOWNMIX_COLUMNS = 4,      /* of a row of table 12 */
    MPEGH_DRC_LOUDNESS_MOST_INSTRUCTIONS = 63,   /* no body has more rows */
    MPEGH_DRC_LOUDNESS_MOST_ADDITIONAL = 441,    /* 63 instructions with 7 each */
    MPEGH_DRC_LOUDNESS_MOST_ENTRIES = 63,
    MPEGH_DRC_LOUDNESS_MOST_DOWNMIXES = 31
};

/*
 * The top record (the Rust's MpegH3dAudioDrcLoudness). Its DRC instructions, loudness infos and downmix definitions are the first rows of
 * tables 9, 11 and 12.
 */
struct mpegh_drc_loudness {
    uint8_t reserved;             /* 7 bits */
    bool info_present;            /* the next six are 0 where it is false, and writing does not look at them then */
    uint8_t reserved_drc;         /* 2 bits */
    uint8_t reserved_loudness;    /* 2 bits */
    uint8_t reserved_downmix;     /* 3 bits */
    uint16_t drc_instructions;    /* their count */
    uint16_t loudness_infos;      /* their count */
    uint16_t downmix_definitions; /* their count */
    struct mpegh_payload trailing;
};

/* The cases of a scope. MPEGH_SCOPE is none of them: it is the number 8. */
enum mpegh_scopes {
    MPEGH_SCOPE_PLAIN = 0, /* no ID; kind 0 or 1 of an instruction, 0 of a loudness info */
    MPEGH_SCOPE_GROUP = 1, /* a group ID; kind 2 of an instruction, 1 or 2 of a loudness info */
    MPEGH_SCOPE_PRESET = 2 /* a group preset ID; kind 3 of both */
};

/* What a row is about, in the order of its columns (the Rust's DrcScope). */
struct mpegh_drc_loudness_scope {
    uint16_t scope_case; /* one of mpegh_scopes */
    uint16_t kind;       /* 2 bits; of a preset it is read as 3, and writing does not look at it */
    uint16_t reserved;   /* 1 bit of a group, 3 of a preset; of a plain scope it is read as 0, and writing does not look at it */
    uint16_t id;         /* 7 bits of a group, 5 of a preset; of a plain scope as the reserved bits */
};

/* In a row a part is there where the flag before it is 1. Where that is 0 its columns are 0, and writing does not look at them. */

/* The Rust's DrcTargetLoudness. */
struct mpegh_drc_loudness_target {
    uint16_t reserved_upper;                 /* 1 bit */
    uint16_t upper;                          /* 6 bits */
    uint16_t lower_present;                  /* 0 or 1 */
    uint16_t reserved_lower;                 /* 2 bits */
    uint16_t lower;                          /* 6 bits */
    uint16_t reserved_depends;               /* 1 bit */
    uint16_t depends_on_drc_set;             /* 6 bits */
    uint16_t no_independent_use_or_reserved; /* 1 bit */
};

/* A row of table 9 (the Rust's DrcInstructions). Its additional downmix IDs, 0 to 7, are rows of table 10. */
struct mpegh_drc_loudness_instruction {
    uint16_t reserved_type; /* 6 bits */
    struct mpegh_drc_loudness_scope scope;
    uint16_t reserved_set;        /* 2 bits */
    uint16_t drc_set_id;          /* 6 bits */
    uint16_t reserved_downmix;    /* 1 bit */
    uint16_t downmix_id;          /* 7 bits */
    uint16_t reserved_additional; /* 3 bits */
    struct mpegh_range additional_downmix_ids;
    uint16_t drc_set_effect;              /* 16 bits */
    uint16_t limiter_peak_target_present; /* 0 or 1 */
    uint16_t limiter_peak_target;         /* 8 bits */
    uint16_t target_loudness_present;     /* 0 or 1 */
    struct mpegh_drc_loudness_target target_loudness;
};

/* A row of table 10: one additional downmix ID. */
struct mpegh_drc_loudness_additional {
    uint16_t reserved; /* 1 bit */
    uint16_t id;       /* 7 bits */
};

/* A row of table 11 (the Rust's LoudnessInfoEntry). Its payload has at most 255 bytes. */
struct mpegh_drc_loudness_entry {
    uint16_t reserved_type; /* 6 bits */
    struct mpegh_drc_loudness_scope scope;
    struct mpegh_payload loudness_info;
};

/* A row of table 12 (the Rust's DownmixDefinition). */
struct mpegh_drc_loudness_downmix {
    uint16_t reserved;                /* 1 bit */
    uint16_t downmix_id;              /* 7 bits */
    uint16_t downmix_type;            /* 2 bits */
    uint16_t cicp_speaker_layout_idx; /* 6 bits */
};

/*
 * Answers 0 and puts the top record into the first MPEGH_DRC_LOUDNESS_COLUMNS columns of `top`, the DRC instructions into the first rows of
 * `instructions` (table 9), their additional downmix IDs into those of `additional` (10), the loudness infos of `entries` (11) and the
 * downmix definitions of `downmixes` (12), or refuses with 2, 1, or 3 (of table 0, 9 to 12), judged in this order.
 */
uint64_t mpegh_drc_loudness_read(
    const uint8_t *body, size_t body_length,
    uint16_t *top, size_t top_length,
    uint16_t *instructions, size_t instructions_length,
    uint16_t *additional, size_t additional_length,
    uint16_t *entries, size_t entries_length,
    uint16_t *downmixes, size_t downmixes_length);

/*
 * Answers k and puts the rows needed of tables 9 to 12 into the first MPEGH_DRC_LOUDNESS_TABLES columns of `rows`, or refuses with 2, 1, or
 * 3 (table 0, 1 row) where `rows` is shorter, judged in this order.
 */
uint64_t mpegh_drc_loudness_measure(const uint8_t *body, size_t body_length, uint16_t *rows, size_t rows_length);

/* Answers the number of reserved bits that are 0, or refuses with 2 or 1. `no_independent_use_or_reserved` is not counted. */
uint64_t mpegh_drc_loudness_tally(const uint8_t *body, size_t body_length);

/*
 * Answers the length and puts the body at the front of `out`, or refuses with the first of 5, 6 and 8 in the order of the body, then 10,
 * then 4. So many rows of `instructions`, `entries` and `downmixes` are written as the counts say; instructions may share rows of
 * `additional`, and loudness infos bytes of the store.
 */
uint64_t mpegh_drc_loudness_write(
    uint8_t reserved,
    bool info_present,
    uint8_t reserved_drc,
    uint8_t reserved_loudness,
    uint8_t reserved_downmix,
    uint16_t drc_instructions,
    uint16_t loudness_infos,
    uint16_t downmix_definitions,
    uint16_t trailing_offset,
    uint16_t trailing_length,
    const uint16_t *instructions, size_t instructions_length,
    const uint16_t *additional, size_t additional_length,
    const uint16_t *entries, size_t entries_length,
    const uint16_t *downmixes, size_t downmixes_length,
    const uint8_t *store, size_t store_length,
    uint8_t *out, size_t out_length);

/* The top record of columns that mpegh_drc_loudness_read filled. */
static inline struct mpegh_drc_loudness mpegh_drc_loudness_of(const uint16_t *top)
{
    struct mpegh_drc_loudness m;
    m.reserved = (uint8_t)top[0];
    m.info_present = top[1] != 0;
    m.reserved_drc = (uint8_t)top[2];
    m.reserved_loudness = (uint8_t)top[3];
    m.reserved_downmix = (uint8_t)top[4];
    m.drc_instructions = top[5];
    m.loudness_infos = top[6];
    m.downmix_definitions = top[7];
    m.trailing = mpegh_payload_of(top + 8);
    return m;
}

/* mpegh_drc_loudness_read into a struct. A refusal leaves it as it was. */
static inline uint64_t mpegh_drc_loudness_read_into(
    struct mpegh_drc_loudness *m, const uint8_t *body, size_t body_length,
    uint16_t *instructions, size_t instructions_length,
    uint16_t *additional, size_t additional_length,
    uint16_t *entries, size_t entries_length,
    uint16_t *downmixes, size_t downmixes_length)
{
    uint16_t top[MPEGH_DRC_LOUDNESS_COLUMNS];
    uint64_t answer = mpegh_drc_loudness_read(
        body, body_length, top, MPEGH_DRC_LOUDNESS_COLUMNS, instructions, instructions_length, additional, additional_length,
        entries, entries_length, downmixes, downmixes_length);
    if (mpegh_number(answer) == MPEGH_DONE)
        *m = mpegh_drc_loudness_of(top);
    return answer;
}

/* mpegh_drc_loudness_write from a struct. */
static inline uint64_t mpegh_drc_loudness_write_from(
    const struct mpegh_drc_loudness *m,
    const uint16_t *instructions, size_t instructions_length,
    const uint16_t *additional, size_t additional_length,
    const uint16_t *entries, size_t entries_length,
    const uint16_t *downmixes, size_t downmixes_length,
    const uint8_t *store, size_t store_length,
    uint8_t *out, size_t out_length)
{
    return mpegh_drc_loudness_write(
        m->reserved, m->info_present, m->reserved_drc, m->reserved_loudness, m->reserved_downmix, m->drc_instructions,
        m->loudness_infos, m->downmix_definitions, m->trailing.offset, m->trailing.length, instructions, instructions_length,
        additional, additional_length, entries, entries_length, downmixes, downmixes_length, store, store_length, out, out_length);
}

static inline struct mpegh_drc_loudness_scope mpegh_drc_loudness_scope_of(const uint16_t *columns)
{
    struct mpegh_drc_loudness_scope s;
    s.scope_case = columns[0];
    s.kind = columns[1];
    s.reserved = columns[2];
    s.id = columns[3];
    return s;
}

static inline void mpegh_drc_loudness_scope_to(uint16_t *columns, const struct mpegh_drc_loudness_scope *s)
{
    columns[0] = s->scope_case;
    columns[1] = s->kind;
    columns[2] = s->reserved;
    columns[3] = s->id;
}

/* A row of table 9, counted from 0. */
static inline struct mpegh_drc_loudness_instruction mpegh_drc_loudness_instruction_get(const uint16_t *instructions, size_t row)
{
    const uint16_t *c = instructions + row * MPEGH_DRC_LOUDNESS_INSTRUCTION_COLUMNS;
    struct mpegh_drc_loudness_instruction d;
    d.reserved_type = c[0];
    d.scope = mpegh_drc_loudness_scope_of(c + 1);
    d.reserved_set = c[5];
    d.drc_set_id = c[6];
    d.reserved_downmix = c[7];
    d.downmix_id = c[8];
    d.reserved_additional = c[9];
    d.additional_downmix_ids = mpegh_range_of(c + 10);
    d.drc_set_effect = c[12];
    d.limiter_peak_target_present = c[13];
    d.limiter_peak_target = c[14];
    d.target_loudness_present = c[15];
    d.target_loudness.reserved_upper = c[16];
    d.target_loudness.upper = c[17];
    d.target_loudness.lower_present = c[18];
    d.target_loudness.reserved_lower = c[19];
    d.target_loudness.lower = c[20];
    d.target_loudness.reserved_depends = c[21];
    d.target_loudness.depends_on_drc_set = c[22];
    d.target_loudness.no_independent_use_or_reserved = c[23];
    return d;
}

static inline void mpegh_drc_loudness_instruction_put(uint16_t *instructions, size_t row, const struct mpegh_drc_loudness_instruction *d)
{
    uint16_t *c = instructions + row * MPEGH_DRC_LOUDNESS_INSTRUCTION_COLUMNS;
    c[0] = d->reserved_type;
    mpegh_drc_loudness_scope_to(c + 1, &d->scope);
    c[5] = d->reserved_set;
    c[6] = d->drc_set_id;
    c[7] = d->reserved_downmix;
    c[8] = d->downmix_id;
    c[9] = d->reserved_additional;
    c[10] = d->additional_downmix_ids.first;
    c[11] = d->additional_downmix_ids.count;
    c[12] = d->drc_set_effect;
    c[13] = d->limiter_peak_target_present;
    c[14] = d->limiter_peak_target;
    c[15] = d->target_loudness_present;
    c[16] = d->target_loudness.reserved_upper;
    c[17] = d->target_loudness.upper;
    c[18] = d->target_loudness.lower_present;
    c[19] = d->target_loudness.reserved_lower;
    c[20] = d->target_loudness.lower;
    c[21] = d->target_loudness.reserved_depends;
    c[22] = d->target_loudness.depends_on_drc_set;
    c[23] = d->target_loudness.no_independent_use_or_reserved;
}

/* A row of table 10, counted from 0. */
static inline struct mpegh_drc_loudness_additional mpegh_drc_loudness_additional_get(const uint16_t *additional, size_t row)
{
    const uint16_t *c = additional + row * MPEGH_DRC_LOUDNESS_ADDITIONAL_COLUMNS;
    struct mpegh_drc_loudness_additional a;
    a.reserved = c[0];
    a.id = c[1];
    return a;
}

static inline void mpegh_drc_loudness_additional_put(uint16_t *additional, size_t row, const struct mpegh_drc_loudness_additional *a)
{
    uint16_t *c = additional + row * MPEGH_DRC_LOUDNESS_ADDITIONAL_COLUMNS;
    c[0] = a->reserved;
    c[1] = a->id;
}

/* A row of table 11, counted from 0. */
static inline struct mpegh_drc_loudness_entry mpegh_drc_loudness_entry_get(const uint16_t *entries, size_t row)
{
    const uint16_t *c = entries + row * MPEGH_DRC_LOUDNESS_ENTRY_COLUMNS;
    struct mpegh_drc_loudness_entry l;
    l.reserved_type = c[0];
    l.scope = mpegh_drc_loudness_scope_of(c + 1);
    l.loudness_info = mpegh_payload_of(c + 5);
    return l;
}

static inline void mpegh_drc_loudness_entry_put(uint16_t *entries, size_t row, const struct mpegh_drc_loudness_entry *l)
{
    uint16_t *c = entries + row * MPEGH_DRC_LOUDNESS_ENTRY_COLUMNS;
    c[0] = l->reserved_type;
    mpegh_drc_loudness_scope_to(c + 1, &l->scope);
    c[5] = l->loudness_info.offset;
    c[6] = l->loudness_info.length;
}

/* A row of table 12, counted from 0. */
static inline struct mpegh_drc_loudness_downmix mpegh_drc_loudness_downmix_get(const uint16_t *downmixes, size_t row)
{
    const uint16_t *c = downmixes + row * MPEGH_DRC_LOUDNESS_DOWNMIX_COLUMNS;
    struct mpegh_drc_loudness_downmix m;
    m.reserved = c[0];
    m.downmix_id = c[1];
    m.downmix_type = c[2];
    m.cicp_speaker_layout_idx = c[3];
    return m;
}

static inline void mpegh_drc_loudness_downmix_put(uint16_t *downmixes, size_t row, const struct mpegh_drc_loudness_downmix *m)
{
    uint16_t *c = downmixes + row * MPEGH_DRC_LOUDNESS_DOWNMIX_COLUMNS;
    c[0] = m->reserved;
    c[1] = m->downmix_id;
    c[2] = m->downmix_type;
    c[3] = m->cicp_speaker_layout_idx;
}

/* The Rust's DrcLoudnessInfo, for mpegh_drc_loudness_new: the top record has its fields among its own. */
struct mpegh_drc_loudness_info {
    uint8_t reserved_drc;
    uint8_t reserved_loudness;
    uint8_t reserved_downmix;
    uint16_t drc_instructions;
    uint16_t loudness_infos;
    uint16_t downmix_definitions;
};

/* DrcLoudnessInfo::new. */
static inline struct mpegh_drc_loudness_info mpegh_drc_loudness_info_new(
    uint16_t drc_instructions, uint16_t loudness_infos, uint16_t downmix_definitions)
{
    struct mpegh_drc_loudness_info i;
    i.reserved_drc = 3;
    i.reserved_loudness = 3;
    i.reserved_downmix = 7;
    i.drc_instructions = drc_instructions;
    i.loudness_infos = loudness_infos;
    i.downmix_definitions = downmix_definitions;
    return i;
}

/* MpegH3dAudioDrcLoudness::new. */
static inline struct mpegh_drc_loudness mpegh_drc_loudness_new(const struct mpegh_drc_loudness_info *info)
{
    const uint16_t none[MPEGH_DRC_LOUDNESS_COLUMNS] = {0};
    struct mpegh_drc_loudness m = mpegh_drc_loudness_of(none);
    m.reserved = 127;
    if (info != NULL) {
        m.info_present = true;
        m.reserved_drc = info->reserved_drc;
        m.reserved_loudness = info->reserved_loudness;
        m.reserved_downmix = info->reserved_downmix;
        m.drc_instructions = info->drc_instructions;
        m.loudness_infos = info->loudness_infos;
        m.downmix_definitions = info->downmix_definitions;
    }
    return m;
}

/* The variant DrcScope::Plain, which the Rust makes without a constructor. */
static inline struct mpegh_drc_loudness_scope mpegh_drc_loudness_scope_plain(uint16_t kind)
{
    struct mpegh_drc_loudness_scope s;
    s.scope_case = MPEGH_SCOPE_PLAIN;
    s.kind = kind;
    s.reserved = 0;
    s.id = 0;
    return s;
}

/* DrcScope::group. */
static inline struct mpegh_drc_loudness_scope mpegh_drc_loudness_scope_group(uint16_t kind, uint16_t group_id)
{
    struct mpegh_drc_loudness_scope s;
    s.scope_case = MPEGH_SCOPE_GROUP;
    s.kind = kind;
    s.reserved = 1;
    s.id = group_id;
    return s;
}

/* DrcScope::preset. */
static inline struct mpegh_drc_loudness_scope mpegh_drc_loudness_scope_preset(uint16_t preset_id)
{
    struct mpegh_drc_loudness_scope s;
    s.scope_case = MPEGH_SCOPE_PRESET;
    s.kind = 3;
    s.reserved = 7;
    s.id = preset_id;
    return s;
}

/* DrcInstructions::new. It has no additional downmix IDs, no limiter peak target and no target loudness. */
static inline struct mpegh_drc_loudness_instruction mpegh_drc_loudness_instruction_new(
    struct mpegh_drc_loudness_scope scope, uint16_t drc_set_id, uint16_t downmix_id, uint16_t drc_set_effect)
{
    const uint16_t none[MPEGH_DRC_LOUDNESS_INSTRUCTION_COLUMNS] = {0};
    struct mpegh_drc_loudness_instruction d = mpegh_drc_loudness_instruction_get(none, 0);
    d.reserved_type = 63;
    d.scope = scope;
    d.reserved_set = 3;
    d.drc_set_id = drc_set_id;
    d.reserved_downmix = 1;
    d.downmix_id = downmix_id;
    d.reserved_additional = 7;
    d.drc_set_effect = drc_set_effect;
    return d;
}

/* DrcTargetLoudness::new. It has no lower value. */
static inline struct mpegh_drc_loudness_target mpegh_drc_loudness_target_new(
    uint16_t upper, uint16_t depends_on_drc_set, uint16_t no_independent_use_or_reserved)
{
    struct mpegh_drc_loudness_target t;
    t.reserved_upper = 1;
    t.upper = upper;
    t.lower_present = 0;
    t.reserved_lower = 0;
    t.lower = 0;
    t.reserved_depends = 1;
    t.depends_on_drc_set = depends_on_drc_set;
    t.no_independent_use_or_reserved = no_independent_use_or_reserved;
    return t;
}

/* LoudnessInfoEntry::new. */
static inline struct mpegh_drc_loudness_entry mpegh_drc_loudness_entry_new(
    struct mpegh_drc_loudness_scope scope, struct mpegh_payload loudness_info)
{
    struct mpegh_drc_loudness_entry l;
    l.reserved_type = 63;
    l.scope = scope;
    l.loudness_info = loudness_info;
    return l;
}

/* DownmixDefinition::new. */
static inline struct mpegh_drc_loudness_downmix mpegh_drc_loudness_downmix_new(
    uint16_t downmix_id, uint16_t downmix_type, uint16_t cicp_speaker_layout_idx)
{
    struct mpegh_drc_loudness_downmix m;
    m.reserved = 1;
    m.downmix_id = downmix_id;
    m.downmix_type = downmix_type;
    m.cicp_speaker_layout_idx = cicp_speaker_layout_idx;
    return m;
}

/* ------------------------------------------------- columns of any table */

/* The columns of the largest top record, which is the scene's. No `rows` of measure needs more. */
enum { MPEGH_MOST_TOP_COLUMNS = MPEGH_SCENE_COLUMNS };

/*
 * How many columns so many rows of a table take, by its number, and 0 if there is no such table. For table 0 a row is as long as the
 * largest top record. So after number 3, mpegh_columns(mpegh_table(answer), mpegh_rows(answer)) columns are enough.
 */
static inline size_t mpegh_columns(unsigned table, size_t rows)
{
    switch (table) {
    case 0: return rows * MPEGH_MOST_TOP_COLUMNS;
    case 1: return rows * MPEGH_SCENE_GROUP_COLUMNS;
    case 2: return rows * MPEGH_SCENE_SWITCH_GROUP_COLUMNS;
    case 3: return rows * MPEGH_SCENE_MEMBER_COLUMNS;
    case 4: return rows * MPEGH_SCENE_PRESET_COLUMNS;
    case 5: return rows * MPEGH_SCENE_CONDITION_COLUMNS;
    case 6: return rows * MPEGH_TEXT_LABEL_LANGUAGE_COLUMNS;
    case 7: return rows * MPEGH_TEXT_LABEL_ENTRY_COLUMNS;
    case 8: return rows * MPEGH_MULTI_STREAM_GROUP_COLUMNS;
    case 9: return rows * MPEGH_DRC_LOUDNESS_INSTRUCTION_COLUMNS;
    case 10: return rows * MPEGH_DRC_LOUDNESS_ADDITIONAL_COLUMNS;
    case 11: return rows * MPEGH_DRC_LOUDNESS_ENTRY_COLUMNS;
    case 12: return rows * MPEGH_DRC_LOUDNESS_DOWNMIX_COLUMNS;
    default: return 0;
    }
}

#ifdef __cplusplus
}
#endif

#endif
