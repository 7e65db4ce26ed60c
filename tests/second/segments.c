/* The eight segment records, as docs/RULES.md's "Eight segment records" has them. */
#include "reader.h"
#include "tables.h"

#define MAX_LOOP_FILTER 63
#define MAX_Q 255

static int clamp(int value, int high)
{
    return value < 0 ? 0 : value > high ? high : value;
}

static bool seg_feature_active(const struct segmentation_params *seg, int segment, int feature)
{
    return seg->enabled && seg->feature_enabled[segment][feature];
}

/* A frame's number with the segment's feature in its place or added to it, not yet clamped. */
static int with_feature(const struct segmentation_params *seg, int segment, int feature, int base)
{
    if (!seg_feature_active(seg, segment, feature))
        return base;
    int data = seg->feature_data[segment][feature];
    return seg->abs_or_delta_update ? data : base + data;
}

static void fill_levels(uint8_t levels[MAX_REF_FRAMES][MAX_MODE_LF_DELTAS], uint8_t level)
{
    for (int ref = 0; ref < MAX_REF_FRAMES; ref++)
        for (int mode = 0; mode < MAX_MODE_LF_DELTAS; mode++)
            levels[ref][mode] = level;
}

/* Entry [0][1] isn't touched: intra has no second mode. The frame's level gives the scale, not the segment's. */
static void add_deltas(const struct loop_filter_params *lf, int level,
                       uint8_t levels[MAX_REF_FRAMES][MAX_MODE_LF_DELTAS])
{
    int scale = 1 << lf->level / 32;
    levels[0][0] = (uint8_t)clamp(level + lf->ref_deltas[0] * scale, MAX_LOOP_FILTER);
    for (int ref = 1; ref < MAX_REF_FRAMES; ref++)
        for (int mode = 0; mode < MAX_MODE_LF_DELTAS; mode++) {
            int delta = lf->ref_deltas[ref] + lf->mode_deltas[mode];
            levels[ref][mode] = (uint8_t)clamp(level + delta * scale, MAX_LOOP_FILTER);
        }
}

static void update_levels(const struct header *h, int segment, uint8_t levels[MAX_REF_FRAMES][MAX_MODE_LF_DELTAS])
{
    int level = clamp(with_feature(&h->seg, segment, SEG_LVL_ALT_L, h->lf.level), MAX_LOOP_FILTER);
    if (h->lf.level == 0)
        fill_levels(levels, 0);
    else if (!h->lf.delta_enabled)
        fill_levels(levels, (uint8_t)level);
    else
        add_deltas(&h->lf, level, levels);
}

static int get_qindex(const struct header *h, int segment)
{
    return clamp(with_feature(&h->seg, segment, SEG_LVL_ALT_Q, h->quant.base_q_idx), MAX_Q);
}

static const int16_t *dc_table(uint8_t bit_depth)
{
    return bit_depth == 8 ? dc_qlookup : bit_depth == 10 ? dc_qlookup_10 : dc_qlookup_12;
}

static const int16_t *ac_table(uint8_t bit_depth)
{
    return bit_depth == 8 ? ac_qlookup : bit_depth == 10 ? ac_qlookup_10 : ac_qlookup_12;
}

static void update_scales(const struct header *h, int qindex, struct segment_record *record)
{
    const int16_t *dc = dc_table(h->bit_depth);
    const int16_t *ac = ac_table(h->bit_depth);
    record->luma_ac_quant_scale = ac[qindex];
    record->luma_dc_quant_scale = dc[clamp(qindex + h->quant.delta_q_y_dc, MAX_Q)];
    record->chroma_ac_quant_scale = ac[clamp(qindex + h->quant.delta_q_uv_ac, MAX_Q)];
    record->chroma_dc_quant_scale = dc[clamp(qindex + h->quant.delta_q_uv_dc, MAX_Q)];
}

void update_segments(const struct header *header, struct segment_record records[MAX_SEGMENTS])
{
    for (int i = 0; i < MAX_SEGMENTS; i++) {
        update_levels(header, i, records[i].lvl_lookup);
        update_scales(header, get_qindex(header, i), &records[i]);
        records[i].reference_frame_enabled = header->seg.feature_enabled[i][SEG_LVL_REF_FRAME];
        records[i].reference_frame = header->seg.feature_data[i][SEG_LVL_REF_FRAME];
        records[i].reference_skip_enabled = header->seg.feature_enabled[i][SEG_LVL_SKIP];
    }
}
