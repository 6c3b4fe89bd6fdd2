/*
 * Prints what the constructors of mpegh.h make: the Rust's name of each, then the columns of the value. crates/constructors/stdout has the
 * same lines of the Rust's own constructors, and examples/constructors compares.
 */
#include "mpegh.h"

#include <stdio.h>

static void line(const char *name, const uint16_t *columns, size_t count)
{
    printf("%s", name);
    for (size_t i = 0; i < count; i++)
        printf(" %u", columns[i]);
    printf("\n");
}

/* Each list and each payload has a store or a table of its own, and begins at 0. */
static struct mpegh_payload bytes(uint16_t length)
{
    struct mpegh_payload p;
    p.offset = 0;
    p.length = length;
    return p;
}

static struct mpegh_range rows(uint16_t count)
{
    struct mpegh_range r;
    r.first = 0;
    r.count = count;
    return r;
}

/* ------------------------------------------------------ kind 1: base */

static void base(struct mpegh_base m)
{
    const uint16_t c[MPEGH_BASE_COLUMNS] = {
        m.profile_level_indication, m.interactivity_enabled, m.compatible_sets_present, m.compatible_sets.offset,
        m.compatible_sets.length, m.reserved_flags, m.reserved_layout, m.reference_channel_layout, m.trailing.offset,
        m.trailing.length};
    line("MpegH3dAudio::new", c, MPEGH_BASE_COLUMNS);
}

static void print_base(void)
{
    struct mpegh_payload sets = bytes(4), empty = bytes(0);
    base(mpegh_base_new(11, true, NULL, 12));
    base(mpegh_base_new(13, false, &sets, 14));
    base(mpegh_base_new(201, true, &empty, 202));
}

/* ----------------------------------------------------- kind 2: scene */

static void scene(struct mpegh_scene m)
{
    const uint16_t c[MPEGH_SCENE_COLUMNS] = {
        m.reserved_flags, m.scene_info_id, m.groups_present, m.groups, m.reserved_switch_groups, m.switch_groups_present,
        m.switch_groups, m.reserved_presets, m.presets_present, m.presets, m.reserved_groups, m.trailing.offset,
        m.trailing.length};
    line("MpegH3dAudioScene::new", c, MPEGH_SCENE_COLUMNS);
}

static void print_scene(void)
{
    struct mpegh_scene_section none = mpegh_scene_section_absent(), empty = mpegh_scene_section_present(0);
    scene(mpegh_scene_new(11, none, none, none));
    scene(mpegh_scene_new(12, mpegh_scene_section_present(4), mpegh_scene_section_present(5), mpegh_scene_section_present(6)));
    scene(mpegh_scene_new(13, empty, none, none));
    scene(mpegh_scene_new(14, none, empty, none));
    scene(mpegh_scene_new(201, none, none, mpegh_scene_section_present(301)));
}

static void group(struct mpegh_scene_group g)
{
    uint16_t c[MPEGH_SCENE_GROUP_COLUMNS];
    mpegh_scene_group_put(c, 0, &g);
    line("SceneGroup::new", c, MPEGH_SCENE_GROUP_COLUMNS);
}

/* An optional part is shown with its flag, as it stands in its row. */
static void position(struct mpegh_scene_position_interactivity p)
{
    uint16_t c[MPEGH_SCENE_GROUP_COLUMNS];
    struct mpegh_scene_group g = mpegh_scene_group_new(0, false, false, 0);
    g.position_present = 1;
    g.position = p;
    mpegh_scene_group_put(c, 0, &g);
    line("PositionInteractivity::new", c + 7, 11);
}

static void gain(struct mpegh_scene_gain_interactivity i)
{
    uint16_t c[MPEGH_SCENE_GROUP_COLUMNS];
    struct mpegh_scene_group g = mpegh_scene_group_new(0, false, false, 0);
    g.gain_present = 1;
    g.gain = i;
    mpegh_scene_group_put(c, 0, &g);
    line("GainInteractivity::new", c + 18, 5);
}

static void print_scene_groups(void)
{
    struct mpegh_scene_group g;
    position(mpegh_scene_position_interactivity_new(11, 12, 13, 14, 16, 17));
    position(mpegh_scene_position_interactivity_new(201, 202, 203, 204, 205, 206));
    gain(mpegh_scene_gain_interactivity_new(11, 12));
    gain(mpegh_scene_gain_interactivity_new(201, 202));
    group(mpegh_scene_group_new(11, true, false, 12));
    group(mpegh_scene_group_new(201, false, true, 202));
    g = mpegh_scene_group_new(21, true, true, 22);
    g.position_present = 1;
    g.position = mpegh_scene_position_interactivity_new(23, 24, 25, 26, 27, 28);
    g.gain_present = 1;
    g.gain = mpegh_scene_gain_interactivity_new(29, 30);
    g.content_language_present = 1;
    g.content_language[0] = 'e';
    g.content_language[1] = 'n';
    g.content_language[2] = 'g';
    group(g);
}

static void member(struct mpegh_scene_member m)
{
    uint16_t c[MPEGH_SCENE_MEMBER_COLUMNS];
    mpegh_scene_member_put(c, 0, &m);
    line("SwitchGroupMember::new", c, MPEGH_SCENE_MEMBER_COLUMNS);
}

static void switch_group(struct mpegh_scene_switch_group g)
{
    uint16_t c[MPEGH_SCENE_SWITCH_GROUP_COLUMNS];
    mpegh_scene_switch_group_put(c, 0, &g);
    line("SwitchGroup::new", c, MPEGH_SCENE_SWITCH_GROUP_COLUMNS);
}

static void print_switch_groups(void)
{
    member(mpegh_scene_member_new(11));
    member(mpegh_scene_member_new(201));
    switch_group(mpegh_scene_switch_group_new(11, true, false, rows(4), 12));
    switch_group(mpegh_scene_switch_group_new(201, false, true, rows(301), 202));
}

static void condition(struct mpegh_scene_condition p)
{
    uint16_t c[MPEGH_SCENE_CONDITION_COLUMNS];
    mpegh_scene_condition_put(c, 0, &p);
    line("PresetCondition::new", c, MPEGH_SCENE_CONDITION_COLUMNS);
}

static void detail(struct mpegh_scene_condition_detail d)
{
    uint16_t c[MPEGH_SCENE_CONDITION_COLUMNS];
    struct mpegh_scene_condition p = mpegh_scene_condition_new(0, &d);
    mpegh_scene_condition_put(c, 0, &p);
    line("PresetConditionDetail::new", c + 1, 12);
}

static void preset_position(struct mpegh_scene_preset_position o)
{
    uint16_t c[MPEGH_SCENE_CONDITION_COLUMNS];
    struct mpegh_scene_condition_detail d = mpegh_scene_condition_detail_new(false, false, NULL, &o);
    struct mpegh_scene_condition p = mpegh_scene_condition_new(0, &d);
    mpegh_scene_condition_put(c, 0, &p);
    line("PresetPosition::new", c + 7, 6);
}

static void preset(struct mpegh_scene_preset p)
{
    uint16_t c[MPEGH_SCENE_PRESET_COLUMNS];
    mpegh_scene_preset_put(c, 0, &p);
    line("GroupPreset::new", c, MPEGH_SCENE_PRESET_COLUMNS);
}

static void print_presets(void)
{
    const uint16_t low = 11, middle = 13, high = 201;
    struct mpegh_scene_preset_position place = mpegh_scene_preset_position_new(21, 22, 23);
    struct mpegh_scene_condition_detail full = mpegh_scene_condition_detail_new(true, false, &middle, &place);
    struct mpegh_scene_condition_detail plain = mpegh_scene_condition_detail_new(false, true, NULL, NULL);
    preset_position(mpegh_scene_preset_position_new(11, 12, 13));
    preset_position(mpegh_scene_preset_position_new(201, 202, 203));
    detail(mpegh_scene_condition_detail_new(true, false, NULL, NULL));
    detail(mpegh_scene_condition_detail_new(false, true, &low, NULL));
    detail(mpegh_scene_condition_detail_new(true, false, NULL, &place));
    detail(mpegh_scene_condition_detail_new(false, true, &high, &place));
    condition(mpegh_scene_condition_new(11, NULL));
    condition(mpegh_scene_condition_new(12, &full));
    condition(mpegh_scene_condition_new(201, &plain));
    preset(mpegh_scene_preset_new(11, 12, rows(4)));
    preset(mpegh_scene_preset_new(201, 202, rows(301)));
}

/* ------------------------------------------------ kind 3: text label */

static void text_label(struct mpegh_text_label m)
{
    const uint16_t c[MPEGH_TEXT_LABEL_COLUMNS] = {m.scene_info_id, m.reserved, m.languages, m.trailing.offset, m.trailing.length};
    line("MpegH3dAudioTextLabel::new", c, MPEGH_TEXT_LABEL_COLUMNS);
}

static void language(struct mpegh_text_label_language l)
{
    uint16_t c[MPEGH_TEXT_LABEL_LANGUAGE_COLUMNS];
    mpegh_text_label_language_put(c, 0, &l);
    line("TextLabelLanguage::new", c, MPEGH_TEXT_LABEL_LANGUAGE_COLUMNS);
}

static void label(const char *name, struct mpegh_text_label_entry e)
{
    uint16_t c[MPEGH_TEXT_LABEL_ENTRY_COLUMNS];
    mpegh_text_label_entry_put(c, 0, &e);
    line(name, c, MPEGH_TEXT_LABEL_ENTRY_COLUMNS);
}

static void print_text_label(void)
{
    text_label(mpegh_text_label_new(11, 0));
    text_label(mpegh_text_label_new(201, 301));
    language(mpegh_text_label_language_new('e', 'n', 'g', rows(4), rows(5), rows(6)));
    language(mpegh_text_label_language_new(201, 202, 203, rows(0), rows(301), rows(302)));
    label("TextLabelEntry::group", mpegh_text_label_entry_group(11, bytes(4)));
    label("TextLabelEntry::group", mpegh_text_label_entry_group(201, bytes(301)));
    label("TextLabelEntry::switch_group_or_preset", mpegh_text_label_entry_switch_group_or_preset(12, bytes(5)));
    label("TextLabelEntry::switch_group_or_preset", mpegh_text_label_entry_switch_group_or_preset(202, bytes(302)));
    label("TextLabelEntry::switch_group_or_preset", mpegh_text_label_entry_switch_group_or_preset(13, bytes(6)));
    label("TextLabelEntry::switch_group_or_preset", mpegh_text_label_entry_switch_group_or_preset(203, bytes(303)));
}

/* ---------------------------------------------- kind 4: multi-stream */

static void multi_stream(struct mpegh_multi_stream m)
{
    const uint16_t c[MPEGH_MULTI_STREAM_COLUMNS] = {
        m.this_stream_id, m.main_present, m.reserved_aux, m.num_auxiliary_streams, m.reserved_groups, m.groups, m.trailing.offset,
        m.trailing.length};
    line("MpegH3dAudioMultiStream::new", c, MPEGH_MULTI_STREAM_COLUMNS);
}

static void main_part(struct mpegh_multi_stream_main m)
{
    const uint16_t c[4] = {m.reserved_aux, m.num_auxiliary_streams, m.reserved_groups, m.groups};
    line("MultiStreamMain::new", c, 4);
}

static void location(struct mpegh_multi_stream_auxiliary_location l)
{
    const uint16_t c[2] = {l.is_in_ts, l.auxiliary_stream_id};
    line("AuxiliaryLocation::new", c, 2);
}

static void stream_group(const char *name, struct mpegh_multi_stream_group g)
{
    uint16_t c[MPEGH_MULTI_STREAM_GROUP_COLUMNS];
    mpegh_multi_stream_group_put(c, 0, &g);
    line(name, c, MPEGH_MULTI_STREAM_GROUP_COLUMNS);
}

static void print_multi_stream(void)
{
    struct mpegh_multi_stream_main part = mpegh_multi_stream_main_new(12, 4);
    struct mpegh_multi_stream_auxiliary_location in = mpegh_multi_stream_auxiliary_location_new(true, 12);
    struct mpegh_multi_stream_auxiliary_location out = mpegh_multi_stream_auxiliary_location_new(false, 202);
    multi_stream(mpegh_multi_stream_new(11, NULL));
    multi_stream(mpegh_multi_stream_new(201, &part));
    main_part(mpegh_multi_stream_main_new(11, 4));
    main_part(mpegh_multi_stream_main_new(201, 301));
    location(mpegh_multi_stream_auxiliary_location_new(true, 11));
    location(mpegh_multi_stream_auxiliary_location_new(false, 201));
    stream_group("MultiStreamGroup::in_main_stream", mpegh_multi_stream_group_in_main_stream(11));
    stream_group("MultiStreamGroup::in_main_stream", mpegh_multi_stream_group_in_main_stream(201));
    stream_group("MultiStreamGroup::in_auxiliary_stream", mpegh_multi_stream_group_in_auxiliary_stream(11, in));
    stream_group("MultiStreamGroup::in_auxiliary_stream", mpegh_multi_stream_group_in_auxiliary_stream(201, out));
}

/* ------------------------------------------ kind 5: DRC and loudness */

static void drc_loudness(struct mpegh_drc_loudness m)
{
    const uint16_t c[MPEGH_DRC_LOUDNESS_COLUMNS] = {
        m.reserved, m.info_present, m.reserved_drc, m.reserved_loudness, m.reserved_downmix, m.drc_instructions,
        m.loudness_infos, m.downmix_definitions, m.trailing.offset, m.trailing.length};
    line("MpegH3dAudioDrcLoudness::new", c, MPEGH_DRC_LOUDNESS_COLUMNS);
}

static void info(struct mpegh_drc_loudness_info i)
{
    const uint16_t c[6] = {
        i.reserved_drc, i.reserved_loudness, i.reserved_downmix, i.drc_instructions, i.loudness_infos, i.downmix_definitions};
    line("DrcLoudnessInfo::new", c, 6);
}

static void downmix(struct mpegh_drc_loudness_downmix m)
{
    uint16_t c[MPEGH_DRC_LOUDNESS_DOWNMIX_COLUMNS];
    mpegh_drc_loudness_downmix_put(c, 0, &m);
    line("DownmixDefinition::new", c, MPEGH_DRC_LOUDNESS_DOWNMIX_COLUMNS);
}

static void print_drc_loudness(void)
{
    struct mpegh_drc_loudness_info part = mpegh_drc_loudness_info_new(4, 5, 6);
    drc_loudness(mpegh_drc_loudness_new(NULL));
    drc_loudness(mpegh_drc_loudness_new(&part));
    info(mpegh_drc_loudness_info_new(4, 5, 6));
    info(mpegh_drc_loudness_info_new(301, 0, 302));
    downmix(mpegh_drc_loudness_downmix_new(11, 12, 13));
    downmix(mpegh_drc_loudness_downmix_new(201, 202, 203));
}

static void scope(const char *name, struct mpegh_drc_loudness_scope s)
{
    uint16_t c[4];
    mpegh_drc_loudness_scope_to(c, &s);
    line(name, c, 4);
}

static void entry(struct mpegh_drc_loudness_entry l)
{
    uint16_t c[MPEGH_DRC_LOUDNESS_ENTRY_COLUMNS];
    mpegh_drc_loudness_entry_put(c, 0, &l);
    line("LoudnessInfoEntry::new", c, MPEGH_DRC_LOUDNESS_ENTRY_COLUMNS);
}

static void print_scopes(void)
{
    scope("DrcScope::group", mpegh_drc_loudness_scope_group(11, 12));
    scope("DrcScope::group", mpegh_drc_loudness_scope_group(201, 202));
    scope("DrcScope::preset", mpegh_drc_loudness_scope_preset(11));
    scope("DrcScope::preset", mpegh_drc_loudness_scope_preset(201));
    entry(mpegh_drc_loudness_entry_new(mpegh_drc_loudness_scope_plain(11), bytes(4)));
    entry(mpegh_drc_loudness_entry_new(mpegh_drc_loudness_scope_group(12, 13), bytes(5)));
    entry(mpegh_drc_loudness_entry_new(mpegh_drc_loudness_scope_preset(201), bytes(301)));
}

static void instruction(struct mpegh_drc_loudness_instruction d)
{
    uint16_t c[MPEGH_DRC_LOUDNESS_INSTRUCTION_COLUMNS];
    mpegh_drc_loudness_instruction_put(c, 0, &d);
    line("DrcInstructions::new", c, MPEGH_DRC_LOUDNESS_INSTRUCTION_COLUMNS);
}

static void target(struct mpegh_drc_loudness_target t)
{
    uint16_t c[MPEGH_DRC_LOUDNESS_INSTRUCTION_COLUMNS];
    struct mpegh_drc_loudness_instruction d = mpegh_drc_loudness_instruction_new(mpegh_drc_loudness_scope_plain(0), 0, 0, 0);
    d.target_loudness_present = 1;
    d.target_loudness = t;
    mpegh_drc_loudness_instruction_put(c, 0, &d);
    line("DrcTargetLoudness::new", c + 15, 9);
}

static void print_instructions(void)
{
    struct mpegh_drc_loudness_target t = mpegh_drc_loudness_target_new(21, 22, 23);
    struct mpegh_drc_loudness_instruction d = mpegh_drc_loudness_instruction_new(mpegh_drc_loudness_scope_plain(25), 26, 27, 28);
    target(mpegh_drc_loudness_target_new(11, 12, 13));
    target(mpegh_drc_loudness_target_new(201, 202, 203));
    t.lower_present = 1;
    t.reserved_lower = 3;
    t.lower = 24;
    target(t);
    instruction(mpegh_drc_loudness_instruction_new(mpegh_drc_loudness_scope_plain(11), 12, 13, 14));
    instruction(mpegh_drc_loudness_instruction_new(mpegh_drc_loudness_scope_group(16, 17), 18, 19, 20));
    instruction(mpegh_drc_loudness_instruction_new(mpegh_drc_loudness_scope_preset(201), 202, 203, 60001));
    d.additional_downmix_ids = rows(4);
    d.limiter_peak_target_present = 1;
    d.limiter_peak_target = 29;
    d.target_loudness_present = 1;
    d.target_loudness = t;
    instruction(d);
}

int main(void)
{
    print_base();
    print_scene();
    print_scene_groups();
    print_switch_groups();
    print_presets();
    print_text_label();
    print_multi_stream();
    print_drc_loudness();
    print_scopes();
    print_instructions();
    return 0;
}
