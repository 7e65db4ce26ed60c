/* The long text of a chunk: the listing's lines, and the records in the form of Rust's derived Debug. */
#include "output.h"

#include <inttypes.h>
#include <stdio.h>

static const char *boolean(bool value)
{
    return value ? "true" : "false";
}

static const char *color_space_name(uint8_t space)
{
    static const char *const names[8] = {"Unknown", "Bt601", "Bt709", "Smpte170",
                                         "Smpte240", "Bt2020", "Reserved2", "CsSrgb"};
    return names[space];
}

static const char *color_range_name(uint8_t range)
{
    return range == FULL_SWING ? "FullSwing" : "StudioSwing";
}

static const char *frame_type_name(uint8_t type)
{
    return type == KEY_FRAME ? "KeyFrame" : "InterFrame";
}

static const char *interpolation_filter_name(uint8_t filter)
{
    static const char *const names[5] = {"EightTap", "EightTapSmooth", "EightTapSharp", "Bilinear", "Switchable"};
    return names[filter];
}

static const char *kind(const struct header *h)
{
    if (h->show_existing_frame)
        return "show";
    if (h->frame_type == KEY_FRAME)
        return "key";
    return h->intra_only ? "intra" : "inter";
}

static const char *comma(int i)
{
    return i == 0 ? "" : ", ";
}

static void print_flags(const bool *flags, int count)
{
    putchar('[');
    for (int i = 0; i < count; i++)
        printf("%s%s", comma(i), boolean(flags[i]));
    putchar(']');
}

static void print_bytes(const uint8_t *bytes, int count)
{
    putchar('[');
    for (int i = 0; i < count; i++)
        printf("%s%d", comma(i), bytes[i]);
    putchar(']');
}

static void print_deltas(const int8_t *deltas, int count)
{
    putchar('[');
    for (int i = 0; i < count; i++)
        printf("%s%d", comma(i), deltas[i]);
    putchar(']');
}

static void print_data(const int16_t *data, int count)
{
    putchar('[');
    for (int i = 0; i < count; i++)
        printf("%s%d", comma(i), data[i]);
    putchar(']');
}

static void print_color(uint8_t bit_depth, bool subsampling_x, bool subsampling_y, uint8_t space, uint8_t range)
{
    printf("bit_depth: Depth%d, subsampling_x: %s, subsampling_y: %s, color_space: %s, color_range: %s, ", bit_depth,
           boolean(subsampling_x), boolean(subsampling_y), color_space_name(space), color_range_name(range));
}

static void print_loop_filter(const struct loop_filter_params *lf)
{
    printf("lf: LoopFilterParams { level: %d, sharpness: %d, delta_enabled: %s, delta_update: %s, ", lf->level,
           lf->sharpness, boolean(lf->delta_enabled), boolean(lf->delta_update));
    printf("update_ref_delta: ");
    print_flags(lf->update_ref_delta, MAX_REF_FRAMES);
    printf(", ref_deltas: ");
    print_deltas(lf->ref_deltas, MAX_REF_FRAMES);
    printf(", update_mode_delta: ");
    print_flags(lf->update_mode_delta, MAX_MODE_LF_DELTAS);
    printf(", mode_deltas: ");
    print_deltas(lf->mode_deltas, MAX_MODE_LF_DELTAS);
    printf(" }, ");
}

static void print_quantization(const struct quantization_params *quant)
{
    printf("quant: QuantizationParams { base_q_idx: %d, delta_q_y_dc: %d, delta_q_uv_dc: %d, delta_q_uv_ac: %d }, ",
           quant->base_q_idx, quant->delta_q_y_dc, quant->delta_q_uv_dc, quant->delta_q_uv_ac);
}

static void print_features(const struct segmentation_params *seg)
{
    printf("feature_enabled: [");
    for (int i = 0; i < MAX_SEGMENTS; i++) {
        printf("%s", comma(i));
        print_flags(seg->feature_enabled[i], SEG_LVL_MAX);
    }
    printf("], feature_data: [");
    for (int i = 0; i < MAX_SEGMENTS; i++) {
        printf("%s", comma(i));
        print_data(seg->feature_data[i], SEG_LVL_MAX);
    }
    printf("] ");
}

static void print_segmentation(const struct segmentation_params *seg)
{
    printf("seg: SegmentationParams { enabled: %s, update_map: %s, tree_probs: ", boolean(seg->enabled),
           boolean(seg->update_map));
    print_bytes(seg->tree_probs, TREE_PROBS);
    printf(", pred_probs: ");
    print_bytes(seg->pred_probs, PRED_PROBS);
    printf(", temporal_update: %s, update_data: %s, abs_or_delta_update: %s, ", boolean(seg->temporal_update),
           boolean(seg->update_data), boolean(seg->abs_or_delta_update));
    print_features(seg);
    printf("}, ");
}

static void print_header_start(const struct header *h)
{
    printf("  Header { profile: Profile%d, ", h->profile);
    print_color(h->bit_depth, h->subsampling_x, h->subsampling_y, h->color_space, h->color_range);
    printf("show_existing_frame: %s, frame_to_show_map_idx: %d, ", boolean(h->show_existing_frame),
           h->frame_to_show_map_idx);
    printf("frame_type: %s, show_frame: %s, error_resilient_mode: %s, ", frame_type_name(h->frame_type),
           boolean(h->show_frame), boolean(h->error_resilient_mode));
    printf("width: %" PRIu32 ", height: %" PRIu32 ", ", h->width, h->height);
    printf("render_and_frame_size_different: %s, render_width: %" PRIu32 ", render_height: %" PRIu32 ", ",
           boolean(h->render_and_frame_size_different), h->render_width, h->render_height);
}

static void print_header_references(const struct header *h)
{
    printf("intra_only: %s, reset_frame_context: %d, refresh_frame_flags: %d, ref_frame_idx: ", boolean(h->intra_only),
           h->reset_frame_context, h->refresh_frame_flags);
    print_bytes(h->ref_frame_idx, REFS_PER_FRAME);
    printf(", ref_frame_sign_bias: ");
    print_bytes(h->ref_frame_sign_bias, MAX_REF_FRAMES);
    printf(", allow_high_precision_mv: %s, interpolation_filter: %s, ", boolean(h->allow_high_precision_mv),
           interpolation_filter_name(h->interpolation_filter));
    printf("refresh_frame_context: %s, frame_parallel_decoding_mode: %s, frame_context_idx: %d, ",
           boolean(h->refresh_frame_context), boolean(h->frame_parallel_decoding_mode), h->frame_context_idx);
}

static void print_header(const struct header *h)
{
    print_header_start(h);
    print_header_references(h);
    print_loop_filter(&h->lf);
    print_quantization(&h->quant);
    print_segmentation(&h->seg);
    printf("tile_cols_log2: %d, tile_rows_log2: %d, lossless: %s, header_size_in_bytes: %d, "
           "uncompressed_header_size_in_bytes: %d }\n",
           h->tile_cols_log2, h->tile_rows_log2, boolean(h->lossless), h->header_size_in_bytes,
           h->uncompressed_header_size_in_bytes);
}

static void print_segment_record(int segment, const struct segment_record *record)
{
    printf("  seg %d Segmentation { lvl_lookup: [", segment);
    for (int ref = 0; ref < MAX_REF_FRAMES; ref++) {
        printf("%s", comma(ref));
        print_bytes(record->lvl_lookup[ref], MAX_MODE_LF_DELTAS);
    }
    printf("], luma_ac_quant_scale: %d, luma_dc_quant_scale: %d, ", record->luma_ac_quant_scale,
           record->luma_dc_quant_scale);
    printf("chroma_ac_quant_scale: %d, chroma_dc_quant_scale: %d, ", record->chroma_ac_quant_scale,
           record->chroma_dc_quant_scale);
    printf("reference_frame_enabled: %s, reference_frame: %d, reference_skip_enabled: %s }\n",
           boolean(record->reference_frame_enabled), record->reference_frame, boolean(record->reference_skip_enabled));
}

static void print_state(const struct reader_state *state)
{
    printf("  state ReaderState { ");
    print_color(state->bit_depth, state->subsampling_x, state->subsampling_y, state->color_space, state->color_range);
    print_loop_filter(&state->lf);
    print_segmentation(&state->seg);
    printf("reference_frame_sz: [");
    for (int i = 0; i < NUM_REF_FRAMES; i++)
        printf("%sFrameSize { width: %" PRIu32 ", height: %" PRIu32 " }", comma(i), state->reference_frame_sz[i].width,
               state->reference_frame_sz[i].height);
    printf("] }\n");
}

static void print_frame(const struct outcome *outcome, unsigned frame)
{
    const struct header *h = &outcome->answer.headers[frame];
    const struct place *place = &outcome->answer.places[frame];
    printf("%" PRIu64 " %u %s %" PRIu64 " %" PRIu64 " %" PRIu32 " %" PRIu32 " %d %d\n", outcome->chunk, frame, kind(h),
           place->at, place->size, h->width, h->height, h->refresh_frame_flags, h->uncompressed_header_size_in_bytes);
    print_header(h);
    for (int i = 0; i < MAX_SEGMENTS; i++)
        print_segment_record(i, &outcome->steps[frame][i]);
}

void print_trace(const struct outcome *outcome)
{
    const struct answer *answer = &outcome->answer;
    for (unsigned i = 0; i < answer->count; i++)
        print_frame(outcome, i);
    if (answer->number != ACCEPTED)
        printf("%" PRIu64 " refused %d frame %u\n", outcome->chunk, (int)answer->number, answer->frame);
    print_state(&answer->after);
}
