/* The reader: Annex B's superframe index, then uncompressed_header( ) frame by frame. */
#include "reader.h"

#define FRAME_MARKER 2
#define SYNC_CODE 0x498342
#define SUPERFRAME_MARKER 6
#define MIN_TILE_WIDTH_B64 4
#define MAX_TILE_WIDTH_B64 64
#define MAX_PROB 255

#define TRY(call)                         \
    do {                                  \
        enum refusal refused_ = (call);   \
        if (refused_ != ACCEPTED)         \
            return refused_;              \
    } while (0)

/* One frame being read. Places are counted in bits. */
struct reading {
    const uint8_t *data;
    uint64_t at;
    uint64_t end;
    const struct reader_state *before;
    enum domain seen; /* the first feature off the domain, of this chunk */
};

struct reader_state fresh_state(void)
{
    return (struct reader_state){.bit_depth = 8};
}

struct header default_header(void)
{
    return (struct header){.bit_depth = 8, .interpolation_filter = EIGHTTAP};
}

/* f(n): high bit first. A field that doesn't fit reads nothing. */
static enum refusal field(struct reading *r, unsigned width, uint32_t *value)
{
    if (r->end - r->at < width)
        return FIELD_CUT;
    *value = 0;
    for (unsigned i = 0; i < width; i++, r->at++)
        *value = *value << 1 | (r->data[r->at / 8] >> (7 - r->at % 8) & 1);
    return ACCEPTED;
}

static enum refusal byte_field(struct reading *r, unsigned width, uint8_t *value)
{
    uint32_t wide;
    TRY(field(r, width, &wide));
    *value = (uint8_t)wide;
    return ACCEPTED;
}

static enum refusal flag(struct reading *r, bool *value)
{
    uint32_t bit;
    TRY(field(r, 1, &bit));
    *value = bit == 1;
    return ACCEPTED;
}

/* A reserved bit may be 0 or 1. */
static enum refusal reserved_bit(struct reading *r)
{
    bool ignored;
    return flag(r, &ignored);
}

/* A magnitude and then its sign. The widest is six bits. */
static enum refusal signed_field(struct reading *r, unsigned width, int8_t *value)
{
    uint32_t magnitude;
    bool negative;
    TRY(field(r, width, &magnitude));
    TRY(flag(r, &negative));
    *value = (int8_t)(negative ? -(int)magnitude : (int)magnitude);
    return ACCEPTED;
}

/* frame_sync_code( ): the three bytes are one field. */
static enum refusal frame_sync_code(struct reading *r)
{
    uint32_t code;
    TRY(field(r, 24, &code));
    return code == SYNC_CODE ? ACCEPTED : BAD_SYNC_CODE;
}

static enum refusal read_bit_depth(struct reading *r, struct header *h)
{
    bool ten_or_twelve_bit;
    h->bit_depth = 8;
    if (h->profile < 2)
        return ACCEPTED;
    TRY(flag(r, &ten_or_twelve_bit));
    h->bit_depth = ten_or_twelve_bit ? 12 : 10;
    return ACCEPTED;
}

static enum refusal read_subsampling(struct reading *r, struct header *h)
{
    if (h->profile != 1 && h->profile != 3) {
        h->subsampling_x = true;
        h->subsampling_y = true;
        return ACCEPTED;
    }
    TRY(flag(r, &h->subsampling_x));
    TRY(flag(r, &h->subsampling_y));
    return reserved_bit(r);
}

/* color_config( ) */
static enum refusal color_config(struct reading *r, struct header *h)
{
    bool full;
    TRY(read_bit_depth(r, h));
    TRY(byte_field(r, 3, &h->color_space));
    if (h->color_space != CS_RGB) {
        TRY(flag(r, &full));
        h->color_range = full ? FULL_SWING : STUDIO_SWING;
        return read_subsampling(r, h);
    }
    h->color_range = FULL_SWING;
    h->subsampling_x = false;
    h->subsampling_y = false;
    if (h->profile == 1 || h->profile == 3)
        return reserved_bit(r);
    return ACCEPTED;
}

/* What an intra-only frame of profile 0 has in place of color_config( ). */
static void profile_0_color(struct header *h)
{
    h->bit_depth = 8;
    h->color_space = CS_BT_601;
    h->color_range = STUDIO_SWING;
    h->subsampling_x = true;
    h->subsampling_y = true;
}

static void remembered_color(struct header *h, const struct reader_state *state)
{
    h->bit_depth = state->bit_depth;
    h->color_space = state->color_space;
    h->color_range = state->color_range;
    h->subsampling_x = state->subsampling_x;
    h->subsampling_y = state->subsampling_y;
}

/* frame_size( ): both numbers are read less 1. */
static enum refusal frame_size(struct reading *r, uint32_t *width, uint32_t *height)
{
    TRY(field(r, 16, width));
    TRY(field(r, 16, height));
    *width += 1;
    *height += 1;
    return ACCEPTED;
}

/* render_size( ) */
static enum refusal render_size(struct reading *r, struct header *h)
{
    TRY(flag(r, &h->render_and_frame_size_different));
    if (h->render_and_frame_size_different)
        return frame_size(r, &h->render_width, &h->render_height);
    h->render_width = h->width;
    h->render_height = h->height;
    return ACCEPTED;
}

/* frame_size_with_refs( ): the first flag that is 1 ends the flags. */
static enum refusal frame_size_with_refs(struct reading *r, struct header *h)
{
    bool found_ref = false;
    for (int i = 0; i < REFS_PER_FRAME && !found_ref; i++) {
        TRY(flag(r, &found_ref));
        if (found_ref) {
            const struct frame_size *slot = &r->before->reference_frame_sz[h->ref_frame_idx[i]];
            h->width = slot->width;
            h->height = slot->height;
        }
    }
    if (!found_ref)
        TRY(frame_size(r, &h->width, &h->height));
    return render_size(r, h);
}

/* read_interpolation_filter( ) */
static enum refusal read_interpolation_filter(struct reading *r, struct header *h)
{
    static const uint8_t literal_to_type[4] = {EIGHTTAP_SMOOTH, EIGHTTAP, EIGHTTAP_SHARP, BILINEAR};
    bool is_filter_switchable;
    uint32_t raw_interpolation_filter;
    TRY(flag(r, &is_filter_switchable));
    if (is_filter_switchable) {
        h->interpolation_filter = SWITCHABLE;
        return ACCEPTED;
    }
    TRY(field(r, 2, &raw_interpolation_filter));
    h->interpolation_filter = literal_to_type[raw_interpolation_filter];
    return ACCEPTED;
}

/* uncompressed_header( ), the part of a key frame */
static enum refusal key_frame(struct reading *r, struct header *h)
{
    TRY(frame_sync_code(r));
    TRY(color_config(r, h));
    TRY(frame_size(r, &h->width, &h->height));
    TRY(render_size(r, h));
    h->refresh_frame_flags = 0xFF;
    return ACCEPTED;
}

/* uncompressed_header( ), the part of an intra-only frame */
static enum refusal intra_only_frame(struct reading *r, struct header *h)
{
    TRY(frame_sync_code(r));
    if (h->profile > 0)
        TRY(color_config(r, h));
    else
        profile_0_color(h);
    TRY(byte_field(r, 8, &h->refresh_frame_flags));
    TRY(frame_size(r, &h->width, &h->height));
    return render_size(r, h);
}

/* uncompressed_header( ), the part of an inter frame */
static enum refusal inter_frame(struct reading *r, struct header *h)
{
    remembered_color(h, r->before);
    TRY(byte_field(r, 8, &h->refresh_frame_flags));
    for (int i = 0; i < REFS_PER_FRAME; i++) {
        TRY(byte_field(r, 3, &h->ref_frame_idx[i]));
        TRY(byte_field(r, 1, &h->ref_frame_sign_bias[1 + i]));
    }
    TRY(frame_size_with_refs(r, h));
    TRY(flag(r, &h->allow_high_precision_mv));
    return read_interpolation_filter(r, h);
}

/* uncompressed_header( ), the part of a frame that isn't a key frame */
static enum refusal non_key_frame(struct reading *r, struct header *h)
{
    if (!h->show_frame)
        TRY(flag(r, &h->intra_only));
    if (!h->error_resilient_mode)
        TRY(byte_field(r, 2, &h->reset_frame_context));
    return h->intra_only ? intra_only_frame(r, h) : inter_frame(r, h);
}

/* The context fields of uncompressed_header( ); the number keeps what was read. */
static enum refusal frame_context(struct reading *r, struct header *h)
{
    if (h->error_resilient_mode) {
        h->refresh_frame_context = false;
        h->frame_parallel_decoding_mode = true;
    } else {
        TRY(flag(r, &h->refresh_frame_context));
        TRY(flag(r, &h->frame_parallel_decoding_mode));
    }
    return byte_field(r, 2, &h->frame_context_idx);
}

/* setup_past_independence( ), and docs/RULES.md's clearing of the sign biases */
static void setup_past_independence(struct header *h)
{
    static const int8_t ref_deltas[MAX_REF_FRAMES] = {1, 0, -1, -1};
    for (int i = 0; i < MAX_SEGMENTS; i++)
        for (int j = 0; j < SEG_LVL_MAX; j++) {
            h->seg.feature_enabled[i][j] = false;
            h->seg.feature_data[i][j] = 0;
        }
    h->seg.abs_or_delta_update = false;
    for (int i = 0; i < MAX_REF_FRAMES; i++) {
        h->lf.ref_deltas[i] = ref_deltas[i];
        h->ref_frame_sign_bias[i] = 0;
    }
    for (int i = 0; i < MAX_MODE_LF_DELTAS; i++)
        h->lf.mode_deltas[i] = 0;
}

static enum refusal loop_filter_delta(struct reading *r, bool *update, int8_t *delta)
{
    TRY(flag(r, update));
    return *update ? signed_field(r, 6, delta) : ACCEPTED;
}

/* loop_filter_params( ): what isn't read keeps its remembered value. */
static enum refusal loop_filter_params(struct reading *r, struct loop_filter_params *lf)
{
    TRY(byte_field(r, 6, &lf->level));
    TRY(byte_field(r, 3, &lf->sharpness));
    TRY(flag(r, &lf->delta_enabled));
    if (!lf->delta_enabled)
        return ACCEPTED;
    TRY(flag(r, &lf->delta_update));
    if (!lf->delta_update)
        return ACCEPTED;
    for (int i = 0; i < MAX_REF_FRAMES; i++)
        TRY(loop_filter_delta(r, &lf->update_ref_delta[i], &lf->ref_deltas[i]));
    for (int i = 0; i < MAX_MODE_LF_DELTAS; i++)
        TRY(loop_filter_delta(r, &lf->update_mode_delta[i], &lf->mode_deltas[i]));
    return ACCEPTED;
}

/* read_delta_q( ) */
static enum refusal read_delta_q(struct reading *r, int8_t *delta)
{
    bool delta_coded;
    *delta = 0;
    TRY(flag(r, &delta_coded));
    return delta_coded ? signed_field(r, 4, delta) : ACCEPTED;
}

/* quantization_params( ) */
static enum refusal quantization_params(struct reading *r, struct header *h)
{
    struct quantization_params *q = &h->quant;
    TRY(byte_field(r, 8, &q->base_q_idx));
    TRY(read_delta_q(r, &q->delta_q_y_dc));
    TRY(read_delta_q(r, &q->delta_q_uv_dc));
    TRY(read_delta_q(r, &q->delta_q_uv_ac));
    h->lossless = q->base_q_idx == 0 && q->delta_q_y_dc == 0 && q->delta_q_uv_dc == 0 && q->delta_q_uv_ac == 0;
    return ACCEPTED;
}

/* read_prob( ) */
static enum refusal read_prob(struct reading *r, uint8_t *prob)
{
    bool prob_coded;
    *prob = MAX_PROB;
    TRY(flag(r, &prob_coded));
    return prob_coded ? byte_field(r, 8, prob) : ACCEPTED;
}

/* segmentation_params( ), the map's probabilities */
static enum refusal segmentation_map(struct reading *r, struct segmentation_params *seg)
{
    for (int i = 0; i < TREE_PROBS; i++)
        TRY(read_prob(r, &seg->tree_probs[i]));
    TRY(flag(r, &seg->temporal_update));
    for (int i = 0; i < PRED_PROBS; i++) {
        if (seg->temporal_update)
            TRY(read_prob(r, &seg->pred_probs[i]));
        else
            seg->pred_probs[i] = MAX_PROB;
    }
    return ACCEPTED;
}

static void note(struct reading *r, enum domain reason)
{
    if (r->seen == ON_DOMAIN)
        r->seen = reason;
}

/* The value of an enabled feature: its bits as a number from 0, then a sign if it has one. */
static enum refusal feature_value(struct reading *r, int feature, int16_t *data)
{
    static const uint8_t segmentation_feature_bits[SEG_LVL_MAX] = {8, 6, 2, 0};
    static const bool segmentation_feature_signed[SEG_LVL_MAX] = {true, true, false, false};
    unsigned width = segmentation_feature_bits[feature];
    uint32_t value;
    bool negative = false;
    TRY(field(r, width, &value));
    if (width > 0 && value >> (width - 1) == 1)
        note(r, FEATURE_TOP_BIT);
    if (segmentation_feature_signed[feature])
        TRY(flag(r, &negative));
    *data = (int16_t)(negative ? -(int)value : (int)value);
    return ACCEPTED;
}

static enum refusal feature(struct reading *r, int feature, bool *enabled, int16_t *data)
{
    TRY(flag(r, enabled));
    if (*enabled)
        return feature_value(r, feature, data);
    if (*data != 0)
        note(r, FEATURE_SWITCHED_OFF);
    *data = 0;
    return ACCEPTED;
}

/* segmentation_params( ), the features */
static enum refusal segmentation_data(struct reading *r, struct segmentation_params *seg)
{
    TRY(flag(r, &seg->abs_or_delta_update));
    for (int i = 0; i < MAX_SEGMENTS; i++)
        for (int j = 0; j < SEG_LVL_MAX; j++)
            TRY(feature(r, j, &seg->feature_enabled[i][j], &seg->feature_data[i][j]));
    return ACCEPTED;
}

/* segmentation_params( ): what isn't read keeps its remembered value, but for the two update flags. */
static enum refusal segmentation_params(struct reading *r, struct segmentation_params *seg)
{
    seg->update_map = false;
    seg->update_data = false;
    TRY(flag(r, &seg->enabled));
    if (!seg->enabled)
        return ACCEPTED;
    TRY(flag(r, &seg->update_map));
    if (seg->update_map)
        TRY(segmentation_map(r, seg));
    TRY(flag(r, &seg->update_data));
    return seg->update_data ? segmentation_data(r, seg) : ACCEPTED;
}

static uint8_t min_log2_tile_cols(uint64_t sb64_cols)
{
    uint8_t least = 0;
    while ((uint64_t)MAX_TILE_WIDTH_B64 << least < sb64_cols)
        least++;
    return least;
}

static uint8_t max_log2_tile_cols(uint64_t sb64_cols)
{
    uint8_t over = 1;
    while (sb64_cols >> over >= MIN_TILE_WIDTH_B64)
        over++;
    return over - 1;
}

/* tile_info( ) */
static enum refusal tile_info(struct reading *r, struct header *h)
{
    uint64_t sb64_cols = ((uint64_t)h->width + 63) / 64;
    uint8_t most = max_log2_tile_cols(sb64_cols);
    bool increment = true;
    h->tile_cols_log2 = min_log2_tile_cols(sb64_cols);
    while (increment && h->tile_cols_log2 < most) {
        TRY(flag(r, &increment));
        h->tile_cols_log2 += increment;
    }
    TRY(byte_field(r, 1, &h->tile_rows_log2));
    if (h->tile_rows_log2 == 1) {
        TRY(flag(r, &increment));
        h->tile_rows_log2 += increment;
    }
    return ACCEPTED;
}

/* uncompressed_header( ), up to show_existing_frame */
static enum refusal header_start(struct reading *r, struct header *h)
{
    uint32_t frame_marker, profile_low_bit, profile_high_bit;
    TRY(field(r, 2, &frame_marker));
    if (frame_marker != FRAME_MARKER)
        return BAD_MARKER;
    TRY(field(r, 1, &profile_low_bit));
    TRY(field(r, 1, &profile_high_bit));
    h->profile = (uint8_t)(profile_high_bit << 1 | profile_low_bit);
    if (h->profile == 3)
        TRY(reserved_bit(r));
    return flag(r, &h->show_existing_frame);
}

/* uncompressed_header( ), from the loop filter to the end */
static enum refusal header_end(struct reading *r, struct header *h)
{
    uint32_t header_size_in_bytes;
    TRY(loop_filter_params(r, &h->lf));
    TRY(quantization_params(r, h));
    TRY(segmentation_params(r, &h->seg));
    TRY(tile_info(r, h));
    TRY(field(r, 16, &header_size_in_bytes));
    h->header_size_in_bytes = (uint16_t)header_size_in_bytes;
    return ACCEPTED;
}

/* uncompressed_header( ), what follows a show_existing_frame that is 0 */
static enum refusal new_frame(struct reading *r, struct header *h)
{
    h->lf = r->before->lf;
    h->seg = r->before->seg;
    TRY(byte_field(r, 1, &h->frame_type));
    TRY(flag(r, &h->show_frame));
    TRY(flag(r, &h->error_resilient_mode));
    if (h->frame_type == KEY_FRAME)
        TRY(key_frame(r, h));
    else
        TRY(non_key_frame(r, h));
    TRY(frame_context(r, h));
    if (h->frame_type == KEY_FRAME || h->intra_only || h->error_resilient_mode)
        setup_past_independence(h);
    TRY(header_end(r, h));
    h->uncompressed_header_size_in_bytes = (uint16_t)((r->at + 7) / 8);
    return ACCEPTED;
}

/* uncompressed_header( ) */
static enum refusal uncompressed_header(struct reading *r, struct header *h)
{
    *h = default_header();
    TRY(header_start(r, h));
    if (h->show_existing_frame)
        return byte_field(r, 3, &h->frame_to_show_map_idx);
    return new_frame(r, h);
}

static void remember(const struct header *h, struct reader_state *state)
{
    if (h->show_existing_frame)
        return;
    state->bit_depth = h->bit_depth;
    state->subsampling_x = h->subsampling_x;
    state->subsampling_y = h->subsampling_y;
    state->color_space = h->color_space;
    if (!h->intra_only || h->profile > 0)
        state->color_range = h->color_range;
    state->lf = h->lf;
    state->seg = h->seg;
    for (int i = 0; i < NUM_REF_FRAMES; i++)
        if (h->refresh_frame_flags >> i & 1)
            state->reference_frame_sz[i] = (struct frame_size){h->width, h->height};
}

/* Annex B, superframe_index( ): the places of the frames, none of them checked, and the room for them. */
struct layout {
    unsigned count;
    uint64_t sizes[MAX_FRAMES];
    uint64_t room;
};

static struct layout one_frame(size_t length)
{
    return (struct layout){.count = 1, .sizes = {length}, .room = length};
}

static uint64_t little_endian(const uint8_t *bytes, unsigned count)
{
    uint64_t value = 0;
    for (unsigned i = 0; i < count; i++)
        value |= (uint64_t)bytes[i] << 8 * i;
    return value;
}

static enum refusal superframe_index(const uint8_t *chunk, size_t length, struct layout *layout)
{
    if (length == 0)
        return NO_BYTES;
    uint8_t last = chunk[length - 1];
    unsigned bytes = (last >> 3 & 3) + 1;
    unsigned count = (last & 7) + 1;
    size_t index = 2 + (size_t)bytes * count;
    *layout = one_frame(length);
    if (last >> 5 != SUPERFRAME_MARKER)
        return ACCEPTED;
    if (length < index)
        return INDEX_CUT;
    const uint8_t *start = chunk + (length - index);
    if (start[0] != last)
        return ACCEPTED;
    layout->count = count;
    layout->room = length - index;
    for (unsigned i = 0; i < count; i++)
        layout->sizes[i] = little_endian(start + 1 + i * bytes, bytes);
    return ACCEPTED;
}

static void refuse(struct answer *answer, enum refusal number, unsigned frame)
{
    answer->number = number;
    answer->frame = frame;
}

/* Frames lie end to end from 0; eight sizes of 32 bits can't wrap. */
static bool place_frames(const struct layout *layout, struct answer *answer)
{
    uint64_t at = 0;
    for (unsigned i = 0; i < layout->count; i++) {
        answer->places[i] = (struct place){at, layout->sizes[i]};
        at += layout->sizes[i];
        if (at > layout->room) {
            refuse(answer, FRAME_OUTSIDE, i);
            return false;
        }
    }
    return true;
}

/* The headers in turn, each by the state that the frames before it left. */
static void read_frames(const uint8_t *chunk, unsigned count, struct reader_state *state, struct answer *answer)
{
    enum domain seen = ON_DOMAIN;
    for (unsigned i = 0; i < count && answer->number == ACCEPTED; i++) {
        const struct place *place = &answer->places[i];
        struct reading r = {chunk + place->at, 0, place->size * 8, state, seen};
        enum refusal number = uncompressed_header(&r, &answer->headers[i]);
        seen = r.seen;
        if (number == ACCEPTED)
            remember(&answer->headers[i], state);
        else
            refuse(answer, number, i);
    }
    answer->domain = answer->number == FIELD_CUT ? HEADER_OUTSIDE : seen;
}

void answer_chunk(const struct reader_state *before, const uint8_t *chunk, size_t length, struct answer *answer)
{
    struct layout layout;
    struct reader_state state = *before;
    refuse(answer, ACCEPTED, 0);
    answer->count = 0;
    answer->after = *before;
    answer->domain = NO_FRAMES;
    enum refusal number = superframe_index(chunk, length, &layout);
    if (number != ACCEPTED) {
        refuse(answer, number, 0);
        return;
    }
    if (!place_frames(&layout, answer))
        return;
    read_frames(chunk, layout.count, &state, answer);
    if (answer->number == ACCEPTED) {
        answer->count = layout.count;
        answer->after = state;
    }
}
