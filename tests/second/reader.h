/* A reader of VP9's uncompressed headers, written from VP9's syntax tables and docs/RULES.md. */
#ifndef SECOND_READER_H
#define SECOND_READER_H

#include <stdbool.h>
#include <stddef.h>
#include <stdint.h>

#define MAX_FRAMES 8
#define NUM_REF_FRAMES 8
#define REFS_PER_FRAME 3
#define MAX_REF_FRAMES 4 /* intra, last, golden, altref */
#define MAX_MODE_LF_DELTAS 2
#define MAX_SEGMENTS 8
#define SEG_LVL_MAX 4
#define TREE_PROBS 7
#define PRED_PROBS 3

enum { SEG_LVL_ALT_Q, SEG_LVL_ALT_L, SEG_LVL_REF_FRAME, SEG_LVL_SKIP };
enum { KEY_FRAME, NON_KEY_FRAME };
enum { STUDIO_SWING, FULL_SWING };
enum { CS_UNKNOWN = 0, CS_BT_601 = 1, CS_RGB = 7 };
enum { EIGHTTAP, EIGHTTAP_SMOOTH, EIGHTTAP_SHARP, BILINEAR, SWITCHABLE };

/* docs/RULES.md's numbers, as far as a chunk can give them. */
enum refusal {
    ACCEPTED = 0,
    NO_BYTES = 1,
    INDEX_CUT = 2,
    FRAME_OUTSIDE = 3,
    BAD_MARKER = 4,
    BAD_SYNC_CODE = 5,
    FIELD_CUT = 6,
};

/* Whether a chunk lies on docs/RULES.md's domain for runs; README.md says which reason goes first. */
enum domain {
    ON_DOMAIN = 0,
    NO_FRAMES = 1,
    HEADER_OUTSIDE = 2,
    FEATURE_TOP_BIT = 3,
    FEATURE_SWITCHED_OFF = 4,
};

struct loop_filter_params {
    uint8_t level;
    uint8_t sharpness;
    bool delta_enabled;
    bool delta_update;
    bool update_ref_delta[MAX_REF_FRAMES];
    int8_t ref_deltas[MAX_REF_FRAMES];
    bool update_mode_delta[MAX_MODE_LF_DELTAS];
    int8_t mode_deltas[MAX_MODE_LF_DELTAS];
};

struct quantization_params {
    uint8_t base_q_idx;
    int8_t delta_q_y_dc;
    int8_t delta_q_uv_dc;
    int8_t delta_q_uv_ac;
};

struct segmentation_params {
    bool enabled;
    bool update_map;
    uint8_t tree_probs[TREE_PROBS];
    uint8_t pred_probs[PRED_PROBS];
    bool temporal_update;
    bool update_data;
    bool abs_or_delta_update;
    bool feature_enabled[MAX_SEGMENTS][SEG_LVL_MAX];
    int16_t feature_data[MAX_SEGMENTS][SEG_LVL_MAX];
};

struct frame_size {
    uint32_t width;
    uint32_t height;
};

struct reader_state {
    uint8_t bit_depth;
    bool subsampling_x;
    bool subsampling_y;
    uint8_t color_space;
    uint8_t color_range;
    struct loop_filter_params lf;
    struct segmentation_params seg;
    struct frame_size reference_frame_sz[NUM_REF_FRAMES];
};

struct header {
    uint8_t profile;
    uint8_t bit_depth;
    bool subsampling_x;
    bool subsampling_y;
    uint8_t color_space;
    uint8_t color_range;
    bool show_existing_frame;
    uint8_t frame_to_show_map_idx;
    uint8_t frame_type;
    bool show_frame;
    bool error_resilient_mode;
    uint32_t width;
    uint32_t height;
    bool render_and_frame_size_different;
    uint32_t render_width;
    uint32_t render_height;
    bool intra_only;
    uint8_t reset_frame_context;
    uint8_t refresh_frame_flags;
    uint8_t ref_frame_idx[REFS_PER_FRAME];
    uint8_t ref_frame_sign_bias[MAX_REF_FRAMES];
    bool allow_high_precision_mv;
    uint8_t interpolation_filter;
    bool refresh_frame_context;
    bool frame_parallel_decoding_mode;
    uint8_t frame_context_idx;
    struct loop_filter_params lf;
    struct quantization_params quant;
    struct segmentation_params seg;
    uint8_t tile_cols_log2;
    uint8_t tile_rows_log2;
    bool lossless;
    uint16_t header_size_in_bytes;
    uint16_t uncompressed_header_size_in_bytes;
};

struct place {
    uint64_t at;
    uint64_t size;
};

/* A refused chunk has no frames, and the state after it is the state before. */
struct answer {
    enum refusal number;
    unsigned frame; /* the frame number of a refusal */
    unsigned count;
    struct place places[MAX_FRAMES];
    struct header headers[MAX_FRAMES];
    struct reader_state after;
    enum domain domain;
};

struct segment_record {
    uint8_t lvl_lookup[MAX_REF_FRAMES][MAX_MODE_LF_DELTAS];
    int16_t luma_ac_quant_scale;
    int16_t luma_dc_quant_scale;
    int16_t chroma_ac_quant_scale;
    int16_t chroma_dc_quant_scale;
    bool reference_frame_enabled;
    int16_t reference_frame;
    bool reference_skip_enabled;
};

struct reader_state fresh_state(void);
struct header default_header(void);

/* Only the first `count` places and headers of the answer mean anything. */
void answer_chunk(const struct reader_state *before, const uint8_t *chunk, size_t length, struct answer *answer);

/* The step that an accepted frame's header makes on the eight segment records. */
void update_segments(const struct header *header, struct segment_record records[MAX_SEGMENTS]);

#endif
