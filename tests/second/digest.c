/* The digest line of a chunk. */
#include "output.h"

#include <inttypes.h>
#include <stdio.h>

static void fold(uint64_t *digest, uint64_t x)
{
    *digest = (*digest * 1000003 + x) % 2147483647;
}

static void fold_signed(uint64_t *digest, int n)
{
    fold(digest, (uint64_t)(n + 65536));
}

static void fold_flags(uint64_t *digest, const bool *flags, int count)
{
    for (int i = 0; i < count; i++)
        fold(digest, flags[i]);
}

static void fold_bytes(uint64_t *digest, const uint8_t *bytes, int count)
{
    for (int i = 0; i < count; i++)
        fold(digest, bytes[i]);
}

static void fold_deltas(uint64_t *digest, const int8_t *deltas, int count)
{
    for (int i = 0; i < count; i++)
        fold_signed(digest, deltas[i]);
}

static void fold_loop_filter(uint64_t *digest, const struct loop_filter_params *lf)
{
    fold(digest, lf->level);
    fold(digest, lf->sharpness);
    fold(digest, lf->delta_enabled);
    fold(digest, lf->delta_update);
    fold_flags(digest, lf->update_ref_delta, MAX_REF_FRAMES);
    fold_deltas(digest, lf->ref_deltas, MAX_REF_FRAMES);
    fold_flags(digest, lf->update_mode_delta, MAX_MODE_LF_DELTAS);
    fold_deltas(digest, lf->mode_deltas, MAX_MODE_LF_DELTAS);
}

static void fold_quantization(uint64_t *digest, const struct quantization_params *quant)
{
    fold(digest, quant->base_q_idx);
    fold_signed(digest, quant->delta_q_y_dc);
    fold_signed(digest, quant->delta_q_uv_dc);
    fold_signed(digest, quant->delta_q_uv_ac);
}

static void fold_segmentation(uint64_t *digest, const struct segmentation_params *seg)
{
    fold(digest, seg->enabled);
    fold(digest, seg->update_map);
    fold_bytes(digest, seg->tree_probs, TREE_PROBS);
    fold_bytes(digest, seg->pred_probs, PRED_PROBS);
    fold(digest, seg->temporal_update);
    fold(digest, seg->update_data);
    fold(digest, seg->abs_or_delta_update);
    for (int i = 0; i < MAX_SEGMENTS; i++)
        fold_flags(digest, seg->feature_enabled[i], SEG_LVL_MAX);
    for (int i = 0; i < MAX_SEGMENTS; i++)
        for (int j = 0; j < SEG_LVL_MAX; j++)
            fold_signed(digest, seg->feature_data[i][j]);
}

static void fold_header(uint64_t *digest, const struct header *h)
{
    fold(digest, h->profile);
    fold(digest, h->bit_depth);
    fold(digest, h->subsampling_x);
    fold(digest, h->subsampling_y);
    fold(digest, h->color_space);
    fold(digest, h->color_range);
    fold(digest, h->show_existing_frame);
    fold(digest, h->frame_to_show_map_idx);
    fold(digest, h->frame_type);
    fold(digest, h->show_frame);
    fold(digest, h->error_resilient_mode);
    fold(digest, h->width);
    fold(digest, h->height);
    fold(digest, h->render_and_frame_size_different);
    fold(digest, h->render_width);
    fold(digest, h->render_height);
    fold(digest, h->intra_only);
    fold(digest, h->reset_frame_context);
    fold(digest, h->refresh_frame_flags);
    fold_bytes(digest, h->ref_frame_idx, REFS_PER_FRAME);
    fold_bytes(digest, h->ref_frame_sign_bias, MAX_REF_FRAMES);
    fold(digest, h->allow_high_precision_mv);
    fold(digest, h->interpolation_filter);
    fold(digest, h->refresh_frame_context);
    fold(digest, h->frame_parallel_decoding_mode);
    fold(digest, h->frame_context_idx);
    fold_loop_filter(digest, &h->lf);
    fold_quantization(digest, &h->quant);
    fold_segmentation(digest, &h->seg);
    fold(digest, h->tile_cols_log2);
    fold(digest, h->tile_rows_log2);
    fold(digest, h->lossless);
    fold(digest, h->header_size_in_bytes);
    fold(digest, h->uncompressed_header_size_in_bytes);
}

static void fold_segment_records(uint64_t *digest, const struct segment_record records[MAX_SEGMENTS])
{
    for (int i = 0; i < MAX_SEGMENTS; i++) {
        for (int ref = 0; ref < MAX_REF_FRAMES; ref++)
            fold_bytes(digest, records[i].lvl_lookup[ref], MAX_MODE_LF_DELTAS);
        fold_signed(digest, records[i].luma_ac_quant_scale);
        fold_signed(digest, records[i].luma_dc_quant_scale);
        fold_signed(digest, records[i].chroma_ac_quant_scale);
        fold_signed(digest, records[i].chroma_dc_quant_scale);
        fold(digest, records[i].reference_frame_enabled);
        fold_signed(digest, records[i].reference_frame);
        fold(digest, records[i].reference_skip_enabled);
    }
}

static uint64_t state_digest(const struct reader_state *state)
{
    uint64_t digest = 0;
    fold(&digest, state->bit_depth);
    fold(&digest, state->subsampling_x);
    fold(&digest, state->subsampling_y);
    fold(&digest, state->color_space);
    fold(&digest, state->color_range);
    fold_loop_filter(&digest, &state->lf);
    fold_segmentation(&digest, &state->seg);
    for (int i = 0; i < NUM_REF_FRAMES; i++) {
        fold(&digest, state->reference_frame_sz[i].width);
        fold(&digest, state->reference_frame_sz[i].height);
    }
    return digest;
}

static uint64_t frames_digest(const struct outcome *outcome)
{
    uint64_t digest = 0;
    for (unsigned i = 0; i < outcome->answer.count; i++) {
        fold(&digest, outcome->answer.places[i].at);
        fold(&digest, outcome->answer.places[i].size);
        fold_header(&digest, &outcome->answer.headers[i]);
        fold_segment_records(&digest, outcome->steps[i]);
    }
    return digest;
}

static uint64_t segments_digest(const struct segment_record records[MAX_SEGMENTS])
{
    uint64_t digest = 0;
    fold_segment_records(&digest, records);
    return digest;
}

void print_digest(const struct outcome *outcome)
{
    const struct answer *answer = &outcome->answer;
    unsigned which = answer->number == ACCEPTED ? answer->count : answer->frame;
    printf("%d %u %" PRIu64 " %" PRIu64 " %" PRIu64 " %d\n", (int)answer->number, which, frames_digest(outcome),
           segments_digest(outcome->carried), state_digest(&answer->after), (int)answer->domain);
}
