/* The program: reads records from standard input and prints each chunk's answer.
   usage: second --digest | --trace */
#include "output.h"

#include <stdio.h>
#include <string.h>
#include <unistd.h>

#define INPUT_SIZE (1 << 16)
#define OUTPUT_SIZE (1 << 16)
#define MAX_CHUNK 65536
#define STATE_BYTES 234

enum { RECORD_FRESH = 0, RECORD_CHUNK = 1, RECORD_STATE = 3 };

struct input {
    uint8_t bytes[INPUT_SIZE];
    size_t at;
    size_t end;
};

struct session {
    struct reader_state state;
    struct segment_record records[MAX_SEGMENTS];
    uint64_t chunks;
    void (*print)(const struct outcome *);
};

/* What is printed goes out before the program may wait for more. */
static bool refill(struct input *input)
{
    fflush(stdout);
    ssize_t got = read(STDIN_FILENO, input->bytes, INPUT_SIZE);
    input->at = 0;
    input->end = got > 0 ? (size_t)got : 0;
    return got > 0;
}

/* False if the input ends first. */
static bool take(struct input *input, uint8_t *bytes, size_t count)
{
    while (count > 0) {
        if (input->at == input->end && !refill(input))
            return false;
        size_t ready = input->end - input->at;
        size_t part = count < ready ? count : ready;
        memcpy(bytes, input->bytes + input->at, part);
        input->at += part;
        bytes += part;
        count -= part;
    }
    return true;
}

static uint32_t u32_of(const uint8_t *b)
{
    return (uint32_t)b[0] | (uint32_t)b[1] << 8 | (uint32_t)b[2] << 16 | (uint32_t)b[3] << 24;
}

/* The numbers of a state record; each moves past its bytes. */
static uint8_t next_byte(const uint8_t **at)
{
    return *(*at)++;
}

static bool next_flag(const uint8_t **at)
{
    return next_byte(at) == 1;
}

static void next_flags(const uint8_t **at, bool *flags, int count)
{
    for (int i = 0; i < count; i++)
        flags[i] = next_flag(at);
}

static int with_sign(uint8_t sign, int magnitude, int otherwise)
{
    return sign == 0 ? magnitude : sign == 1 ? -magnitude : otherwise;
}

static void next_deltas(const uint8_t **at, int8_t *deltas, int count)
{
    for (int i = 0; i < count; i++) {
        uint8_t sign = next_byte(at);
        int magnitude = next_byte(at) & 127;
        deltas[i] = (int8_t)with_sign(sign, magnitude, -128);
    }
}

static int16_t next_datum(const uint8_t **at)
{
    uint8_t sign = next_byte(at);
    int high = next_byte(at) & 127;
    int low = next_byte(at);
    return (int16_t)with_sign(sign, high * 256 + low, -32768);
}

static uint32_t next_u32(const uint8_t **at)
{
    uint32_t value = u32_of(*at);
    *at += 4;
    return value;
}

static void next_loop_filter(const uint8_t **at, struct loop_filter_params *lf)
{
    lf->level = next_byte(at);
    lf->sharpness = next_byte(at);
    lf->delta_enabled = next_flag(at);
    lf->delta_update = next_flag(at);
    next_flags(at, lf->update_ref_delta, MAX_REF_FRAMES);
    next_deltas(at, lf->ref_deltas, MAX_REF_FRAMES);
    next_flags(at, lf->update_mode_delta, MAX_MODE_LF_DELTAS);
    next_deltas(at, lf->mode_deltas, MAX_MODE_LF_DELTAS);
}

static void next_segmentation(const uint8_t **at, struct segmentation_params *seg)
{
    seg->enabled = next_flag(at);
    seg->update_map = next_flag(at);
    for (int i = 0; i < TREE_PROBS; i++)
        seg->tree_probs[i] = next_byte(at);
    for (int i = 0; i < PRED_PROBS; i++)
        seg->pred_probs[i] = next_byte(at);
    seg->temporal_update = next_flag(at);
    seg->update_data = next_flag(at);
    seg->abs_or_delta_update = next_flag(at);
    for (int i = 0; i < MAX_SEGMENTS; i++)
        next_flags(at, seg->feature_enabled[i], SEG_LVL_MAX);
    for (int i = 0; i < MAX_SEGMENTS; i++)
        for (int j = 0; j < SEG_LVL_MAX; j++)
            seg->feature_data[i][j] = next_datum(at);
}

static void next_state(const uint8_t *at, struct reader_state *state)
{
    uint8_t depth = next_byte(&at);
    state->bit_depth = depth == 0 ? 8 : depth == 1 ? 10 : 12;
    state->subsampling_x = next_flag(&at);
    state->subsampling_y = next_flag(&at);
    state->color_space = next_byte(&at) & 7;
    state->color_range = next_flag(&at) ? FULL_SWING : STUDIO_SWING;
    next_loop_filter(&at, &state->lf);
    next_segmentation(&at, &state->seg);
    for (int i = 0; i < NUM_REF_FRAMES; i++) {
        state->reference_frame_sz[i].width = next_u32(&at);
        state->reference_frame_sz[i].height = next_u32(&at);
    }
}

static void start_fresh(struct session *session)
{
    session->state = fresh_state();
    memset(session->records, 0, sizeof session->records);
    session->chunks = 0;
}

/* An accepted chunk changes state and records, a refused one neither. */
static void answer(struct session *session, const uint8_t *chunk, size_t length)
{
    static struct outcome outcome;
    outcome.chunk = session->chunks++;
    answer_chunk(&session->state, chunk, length, &outcome.answer);
    for (unsigned i = 0; i < outcome.answer.count; i++) {
        update_segments(&outcome.answer.headers[i], session->records);
        memcpy(outcome.steps[i], session->records, sizeof session->records);
    }
    memcpy(outcome.carried, session->records, sizeof session->records);
    session->state = outcome.answer.after;
    session->print(&outcome);
}

static bool chunk_record(struct input *input, struct session *session)
{
    static uint8_t chunk[MAX_CHUNK];
    uint8_t bytes[4];
    if (!take(input, bytes, sizeof bytes))
        return false;
    uint32_t length = u32_of(bytes);
    if (length > MAX_CHUNK || !take(input, chunk, length))
        return false;
    answer(session, chunk, length);
    return true;
}

static bool state_record(struct input *input, struct session *session)
{
    uint8_t bytes[STATE_BYTES];
    if (!take(input, bytes, sizeof bytes))
        return false;
    next_state(bytes, &session->state);
    return true;
}

/* False at the end of the records. */
static bool record(struct input *input, struct session *session)
{
    uint8_t kind;
    if (!take(input, &kind, 1))
        return false;
    switch (kind) {
    case RECORD_FRESH:
        start_fresh(session);
        return true;
    case RECORD_CHUNK:
        return chunk_record(input, session);
    case RECORD_STATE:
        return state_record(input, session);
    default:
        return false;
    }
}

int main(int argc, char **argv)
{
    static struct input input;
    static struct session session;
    static char output[OUTPUT_SIZE];
    if (argc == 2 && strcmp(argv[1], "--digest") == 0)
        session.print = print_digest;
    else if (argc == 2 && strcmp(argv[1], "--trace") == 0)
        session.print = print_trace;
    else {
        fprintf(stderr, "usage: second --digest | --trace\n");
        return 2;
    }
    setvbuf(stdout, output, _IOFBF, sizeof output);
    start_fresh(&session);
    while (record(&input, &session))
        ;
    return fflush(stdout) == 0 ? 0 : 1;
}
