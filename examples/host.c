/*
 * A host of the library: takes one body apart, prints what it found, and writes it back. Usage: host KIND <BODY, where KIND is a name or a
 * number and BODY the bytes; examples/host takes them in other forms. The exit code is 0 if the body was accepted and the same bytes came
 * back, 1 if it was refused or other bytes came back, 2 for wrong arguments or if the body could not be had.
 *
 * The pattern is that of every host: measure, lend tables of that many rows, read, use, write.
 */
#include "mpegh.h"

#include <stdio.h>
#include <stdlib.h>
#include <string.h>

enum { MOST_TABLES = MPEGH_SCENE_TABLES, MOST_COLUMNS = MPEGH_SCENE_GROUP_COLUMNS };

/* A body, its top record and its rows. */
struct value {
    const uint8_t *body;
    size_t length;
    uint16_t top[MPEGH_MOST_TOP_COLUMNS];
    uint16_t *table[MOST_TABLES];
    size_t columns[MOST_TABLES]; /* of the whole table */
};

/* A table of a kind: its number, its name, and the names of a row's columns. */
struct table {
    unsigned number;
    const char *name;
    const char *column[MOST_COLUMNS];
};

/* A kind of body. A column whose name ends in .offset is a payload's, and its length is the next. */
struct kind {
    int number;
    const char *name;
    size_t top_columns;
    const char *top_column[MPEGH_MOST_TOP_COLUMNS];
    size_t tables;
    struct table table[MOST_TABLES];
    uint64_t (*measure)(const uint8_t *body, size_t length, uint16_t *rows, size_t rows_length);
    uint64_t (*tally)(const uint8_t *body, size_t length);
    uint64_t (*read)(struct value *v);
    uint64_t (*write)(const struct value *v, uint8_t *out, size_t out_length);
};

static uint64_t base_read(struct value *v)
{
    return mpegh_base_read(v->body, v->length, v->top, MPEGH_MOST_TOP_COLUMNS);
}

static uint64_t base_write(const struct value *v, uint8_t *out, size_t out_length)
{
    struct mpegh_base m = mpegh_base_of(v->top);
    return mpegh_base_write_from(&m, v->body, v->length, out, out_length);
}

static uint64_t scene_read(struct value *v)
{
    return mpegh_scene_read(
        v->body, v->length, v->top, MPEGH_MOST_TOP_COLUMNS, v->table[0], v->columns[0], v->table[1], v->columns[1], v->table[2],
        v->columns[2], v->table[3], v->columns[3], v->table[4], v->columns[4]);
}

static uint64_t scene_write(const struct value *v, uint8_t *out, size_t out_length)
{
    struct mpegh_scene m = mpegh_scene_of(v->top);
    return mpegh_scene_write_from(
        &m, v->table[0], v->columns[0], v->table[1], v->columns[1], v->table[2], v->columns[2], v->table[3], v->columns[3],
        v->table[4], v->columns[4], v->body, v->length, out, out_length);
}

static uint64_t text_label_read(struct value *v)
{
    return mpegh_text_label_read(
        v->body, v->length, v->top, MPEGH_MOST_TOP_COLUMNS, v->table[0], v->columns[0], v->table[1], v->columns[1]);
}

static uint64_t text_label_write(const struct value *v, uint8_t *out, size_t out_length)
{
    struct mpegh_text_label m = mpegh_text_label_of(v->top);
    return mpegh_text_label_write_from(
        &m, v->table[0], v->columns[0], v->table[1], v->columns[1], v->body, v->length, out, out_length);
}

static uint64_t multi_stream_read(struct value *v)
{
    return mpegh_multi_stream_read(v->body, v->length, v->top, MPEGH_MOST_TOP_COLUMNS, v->table[0], v->columns[0]);
}

static uint64_t multi_stream_write(const struct value *v, uint8_t *out, size_t out_length)
{
    struct mpegh_multi_stream m = mpegh_multi_stream_of(v->top);
    return mpegh_multi_stream_write_from(&m, v->table[0], v->columns[0], v->body, v->length, out, out_length);
}

static uint64_t drc_loudness_read(struct value *v)
{
    return mpegh_drc_loudness_read(
        v->body, v->length, v->top, MPEGH_MOST_TOP_COLUMNS, v->table[0], v->columns[0], v->table[1], v->columns[1], v->table[2],
        v->columns[2], v->table[3], v->columns[3]);
}

static uint64_t drc_loudness_write(const struct value *v, uint8_t *out, size_t out_length)
{
    struct mpegh_drc_loudness m = mpegh_drc_loudness_of(v->top);
    return mpegh_drc_loudness_write_from(
        &m, v->table[0], v->columns[0], v->table[1], v->columns[1], v->table[2], v->columns[2], v->table[3], v->columns[3], v->body,
        v->length, out, out_length);
}

static const struct kind kinds[] = {
    {1, "base", MPEGH_BASE_COLUMNS,
     {"profile_level_indication", "interactivity_enabled", "compatible_sets_present", "compatible_sets.offset",
      "compatible_sets.length", "reserved_flags", "reserved_layout", "reference_channel_layout", "trailing.offset",
      "trailing.length"},
     MPEGH_BASE_TABLES,
     {{0, NULL, {NULL}}},
     mpegh_base_measure, mpegh_base_tally, base_read, base_write},
    {2, "scene", MPEGH_SCENE_COLUMNS,
     {"reserved_flags", "scene_info_id", "groups_present", "groups", "reserved_switch_groups", "switch_groups_present",
      "switch_groups", "reserved_presets", "presets_present", "presets", "reserved_groups", "trailing.offset",
      "trailing.length"},
     MPEGH_SCENE_TABLES,
     {{1, "groups",
       {"reserved_id", "group_id", "reserved_flags", "allow_on_off", "default_on_off", "reserved_kind", "content_kind",
        "position_present", "position.reserved_min_az", "position.min_az_offset", "position.reserved_max_az",
        "position.max_az_offset", "position.reserved_min_el", "position.min_el_offset", "position.reserved_max_el",
        "position.max_el_offset", "position.min_dist_offset", "position.max_dist_offset", "gain_present",
        "gain.reserved_min", "gain.min_gain", "gain.reserved_max", "gain.max_gain", "content_language_present",
        "content_language[0]", "content_language[1]", "content_language[2]"}},
      {2, "switch_groups",
       {"reserved_id", "switch_group_id", "allow_on_off", "default_on_off", "reserved_members", "members.first",
        "members.count", "reserved_default", "default_group_id"}},
      {3, "members", {"reserved", "member_id"}},
      {4, "presets",
       {"reserved_id", "preset_id", "reserved_kind", "preset_kind", "reserved_conditions", "conditions.first",
        "conditions.count"}},
      {5, "conditions",
       {"group_id", "detail_present", "detail.reserved", "detail.disable_gain_interactivity",
        "detail.disable_position_interactivity", "detail.gain_present", "detail.gain", "detail.position_present",
        "detail.position.az_offset", "detail.position.reserved_el", "detail.position.el_offset",
        "detail.position.reserved_dist", "detail.position.dist_factor"}}},
     mpegh_scene_measure, mpegh_scene_tally, scene_read, scene_write},
    {3, "text_label", MPEGH_TEXT_LABEL_COLUMNS,
     {"scene_info_id", "reserved", "languages", "trailing.offset", "trailing.length"},
     MPEGH_TEXT_LABEL_TABLES,
     {{6, "languages",
       {"language[0]", "language[1]", "language[2]", "reserved_groups", "groups.first", "groups.count",
        "reserved_switch_groups", "switch_groups.first", "switch_groups.count", "reserved_presets", "presets.first",
        "presets.count"}},
      {7, "entries", {"reserved", "id", "data.offset", "data.length"}}},
     mpegh_text_label_measure, mpegh_text_label_tally, text_label_read, text_label_write},
    {4, "multi_stream", MPEGH_MULTI_STREAM_COLUMNS,
     {"this_stream_id", "main_present", "reserved_aux", "num_auxiliary_streams", "reserved_groups", "groups",
      "trailing.offset", "trailing.length"},
     MPEGH_MULTI_STREAM_TABLES,
     {{8, "groups", {"group_id", "is_in_main_stream", "auxiliary_present", "is_in_ts", "auxiliary_stream_id"}}},
     mpegh_multi_stream_measure, mpegh_multi_stream_tally, multi_stream_read, multi_stream_write},
    {5, "drc_loudness", MPEGH_DRC_LOUDNESS_COLUMNS,
     {"reserved", "info_present", "reserved_drc", "reserved_loudness", "reserved_downmix", "drc_instructions", "loudness_infos",
      "downmix_definitions", "trailing.offset", "trailing.length"},
     MPEGH_DRC_LOUDNESS_TABLES,
     {{9, "instructions",
       {"reserved_type", "scope.scope_case", "scope.kind", "scope.reserved", "scope.id", "reserved_set", "drc_set_id",
        "reserved_downmix", "downmix_id", "reserved_additional", "additional_downmix_ids.first", "additional_downmix_ids.count",
        "drc_set_effect", "limiter_peak_target_present", "limiter_peak_target", "target_loudness_present",
        "target_loudness.reserved_upper", "target_loudness.upper", "target_loudness.lower_present",
        "target_loudness.reserved_lower", "target_loudness.lower", "target_loudness.reserved_depends",
        "target_loudness.depends_on_drc_set", "target_loudness.no_independent_use_or_reserved"}},
      {10, "additional", {"reserved", "id"}},
      {11, "entries",
       {"reserved_type", "scope.scope_case", "scope.kind", "scope.reserved", "scope.id", "loudness_info.offset",
        "loudness_info.length"}},
      {12, "downmixes", {"reserved", "downmix_id", "downmix_type", "cicp_speaker_layout_idx"}}},
     mpegh_drc_loudness_measure, mpegh_drc_loudness_tally, drc_loudness_read, drc_loudness_write},
};

static const size_t kind_count = sizeof kinds / sizeof kinds[0];

static void print_bytes(const uint8_t *bytes, size_t count)
{
    for (size_t i = 0; i < count; i++)
        printf(" %02X", bytes[i]);
}

/* One line for each column, or for each payload with its bytes. */
static void print_row(const char *indent, const char *const *column, size_t columns, const uint16_t *row, const uint8_t *body)
{
    for (size_t i = 0; i < columns; i++) {
        size_t part = strlen(column[i]);
        if (part > 7 && strcmp(column[i] + part - 7, ".offset") == 0) {
            printf("%s%.*s: at %u, length %u:", indent, (int)(part - 7), column[i], row[i], row[i + 1]);
            print_bytes(body + row[i], row[i + 1]);
            printf("\n");
            i++;
        } else {
            printf("%s%s: %u\n", indent, column[i], row[i]);
        }
    }
}

/* What an answer says: the number in words, and what it returns. */
static void print_answer(const char *what, uint64_t answer)
{
    unsigned number = mpegh_number(answer);
    printf("%s: %u, %s", what, number, mpegh_text(number));
    if (number == MPEGH_NO_ROWS)
        printf(": table %u needs %lu", mpegh_table(answer), (unsigned long)mpegh_rows(answer));
    else if (number != MPEGH_DONE)
        printf(": %llu", (unsigned long long)mpegh_value(answer));
    printf("\n");
}

/* Memory to lend; for no bytes it may be null, as what is lent may be. */
static void *lend(size_t bytes)
{
    void *p = malloc(bytes);
    if (p == NULL && bytes > 0) {
        fprintf(stderr, "host: no memory\n");
        exit(2);
    }
    return p;
}

/* Returns the exit code. */
static int show(const struct kind *k, const uint8_t *body, size_t length)
{
    struct value v;
    uint16_t rows[MOST_TABLES];
    uint8_t *out;
    bool same;
    uint64_t answer = k->measure(body, length, rows, MOST_TABLES);

    printf("%s, kind %d, %lu bytes\n", k->name, k->number, (unsigned long)length);
    print_answer("measure", answer);
    if (mpegh_number(answer) != MPEGH_DONE)
        return 1;
    printf("  k: %lu\n", (unsigned long)mpegh_value(answer));
    for (size_t t = 0; t < k->tables; t++)
        printf("  rows of table %u, %s: %u\n", k->table[t].number, k->table[t].name, rows[t]);

    v.body = body;
    v.length = length;
    for (size_t t = 0; t < k->tables; t++) {
        v.columns[t] = mpegh_columns(k->table[t].number, rows[t]);
        v.table[t] = (uint16_t *)lend(v.columns[t] * sizeof(uint16_t));
    }

    answer = k->read(&v);
    print_answer("read", answer);
    if (mpegh_number(answer) != MPEGH_DONE)
        return 1;
    print_row("  ", k->top_column, k->top_columns, v.top, body);
    for (size_t t = 0; t < k->tables; t++) {
        size_t columns = mpegh_columns(k->table[t].number, 1);
        for (size_t r = 0; r < rows[t]; r++) {
            printf("  table %u, %s, row %lu\n", k->table[t].number, k->table[t].name, (unsigned long)r);
            print_row("    ", k->table[t].column, columns, v.table[t] + r * columns, body);
        }
    }

    answer = k->tally(body, length);
    print_answer("tally", answer);
    printf("  reserved bits at 0: %lu\n", (unsigned long)mpegh_value(answer));

    out = (uint8_t *)lend(length);
    answer = k->write(&v, out, length);
    print_answer("write", answer);
    if (mpegh_number(answer) != MPEGH_DONE)
        return 1;
    same = mpegh_value(answer) == length && memcmp(out, body, length) == 0;
    printf("  %lu bytes, %s\n", (unsigned long)mpegh_value(answer), same ? "the same as the body" : "NOT the same as the body");
    free(out);
    for (size_t t = 0; t < k->tables; t++)
        free(v.table[t]);
    return same ? 0 : 1;
}

/* The bytes of standard input, to be freed. */
static uint8_t *take(size_t *length)
{
    size_t room = 4096, count;
    uint8_t *bytes = (uint8_t *)lend(room);
    *length = 0;
    while ((count = fread(bytes + *length, 1, room - *length, stdin)) > 0) {
        *length += count;
        if (*length == room) {
            uint8_t *more = (uint8_t *)lend(2 * room);
            memcpy(more, bytes, room);
            free(bytes);
            bytes = more;
            room *= 2;
        }
    }
    if (ferror(stdin)) {
        fprintf(stderr, "host: the body could not be read\n");
        exit(2);
    }
    return bytes;
}

int main(int argc, char **argv)
{
    const struct kind *kind = NULL;
    size_t length;
    uint8_t *body;
    int code;

    for (size_t i = 0; argc == 2 && i < kind_count; i++) {
        char number[8];
        snprintf(number, sizeof number, "%d", kinds[i].number);
        if (strcmp(argv[1], kinds[i].name) == 0 || strcmp(argv[1], number) == 0)
            kind = &kinds[i];
    }
    if (kind == NULL) {
        fprintf(stderr, "usage: host KIND <BODY    where BODY is the bytes\nkinds:");
        for (size_t i = 0; i < kind_count; i++)
            fprintf(stderr, " %d %s%s", kinds[i].number, kinds[i].name, i + 1 < kind_count ? "," : "\n");
        return 2;
    }
    body = take(&length);
    code = show(kind, body, length);
    free(body);
    return code;
}
