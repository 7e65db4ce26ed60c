// Writes series of VP9 chunks as the records that the readers take: a byte 0 for a fresh state; a byte 1, four bytes of length and a chunk; a byte 3 and a
// state. README.md says what each kind of series holds. The same words give the same bytes on every machine.
//   generate --seed S --chunks N [--kind KIND] [--part P] [--first F] [--only I] [--recordings DIR..]
// P numbers parts of one seed and kind, each with series of its own. --only I: just the series that holds chunk I, up to that chunk.
#define _POSIX_C_SOURCE 200809L
#include <dirent.h>
#include <stdbool.h>
#include <stdint.h>
#include <stdio.h>
#include <stdlib.h>
#include <string.h>

#define LONGEST 65536
#define SLOTS 8
#define SEGMENTS 8
#define FEATURES 4
#define MOST_FRAMES 8
#define SYNC_CODE 0x498342
// No header has over 863 bits, so so many bytes of a frame hold its header.
#define LONGEST_HEADER 108
#define COUNT(list) (sizeof(list) / sizeof *(list))
#define PICK(list) ((list)[below(COUNT(list))])

static void stop(const char *what, const char *which)
{
    fprintf(stderr, "generate: %s%s\n", what, which);
    exit(2);
}

// Dice: splitmix64. No expression rolls them twice where C leaves the order open, so that every compiler's program writes the same.

static uint64_t dice;

static uint64_t scramble(uint64_t z)
{
    z = (z ^ z >> 30) * 0xBF58476D1CE4E5B9u;
    z = (z ^ z >> 27) * 0x94D049BB133111EBu;
    return z ^ z >> 31;
}

static uint64_t roll(void)
{
    return scramble(dice += 0x9E3779B97F4A7C15u);
}

static unsigned below(unsigned n)
{
    return (unsigned)((roll() >> 32) * n >> 32);
}

static unsigned bits(unsigned width)
{
    return width ? (unsigned)(roll() >> (64 - width)) : 0;
}

static bool percent(unsigned p)
{
    return below(100) < p;
}

// A number of so many bits, often at a limit.
static unsigned extreme(unsigned width)
{
    unsigned most = (1u << width) - 1;
    switch (below(8)) {
    case 0: return 0;
    case 1: return most;
    case 2: return width ? 1 : 0;
    case 3: return most >> 1;
    default: return bits(width);
    }
}

// The output: the series at hand, kept until it ends.

static uint8_t *held;
static size_t held_length, held_room;

static void flush_series(void)
{
    if (held_length && fwrite(held, 1, held_length, stdout) != held_length)
        stop("the output can't be written", "");
    held_length = 0;
}

static void say(const uint8_t *bytes, size_t length)
{
    if (held_length + length > held_room) {
        held_room = 2 * (held_length + length);
        held = realloc(held, held_room);
        if (!held)
            stop("no memory", "");
    }
    memcpy(held + held_length, bytes, length);
    held_length += length;
}

static void say_byte(uint8_t byte)
{
    say(&byte, 1);
}

static void say_number(uint32_t n)
{
    for (int i = 0; i < 4; i++)
        say_byte(n >> 8 * i & 255);
}

// What a header's spelling and the domain depend on: the widths of the slots, and where the stored feature data isn't 0.
struct memory {
    uint32_t width[SLOTS];
    bool stored[SEGMENTS][FEATURES];
};

static struct memory memory;

// How often a series has what, in percent, so that some series remember settings for long and others forget them often.
struct temper {
    unsigned key, intra_only, show_existing, error_resilient, segmentation, data_update, superframe, profile, other_profile;
    // Feature values may have their top bit set, and any feature may be switched off.
    bool free_features;
};

static struct temper temper;

static void choose_temper(void)
{
    static const unsigned rare[] = {1, 3, 10, 25}, often[] = {10, 50, 80, 100}, many[] = {2, 10, 25, 60};
    temper.key = PICK(rare);
    temper.intra_only = PICK(rare);
    temper.show_existing = PICK(rare);
    temper.error_resilient = PICK(rare);
    temper.segmentation = PICK(often);
    temper.data_update = PICK(often);
    temper.superframe = PICK(many);
    temper.profile = below(4);
    temper.other_profile = percent(50) ? 0 : 30;
    temper.free_features = false;
}

// The chunk at hand: its frames end to end, each with the length of its header, and then the index.

static uint8_t chunk[LONGEST + 64];
static unsigned length;
static unsigned frames, frame_at[MOST_FRAMES], header_bytes[MOST_FRAMES];
static uint32_t frame_size[MOST_FRAMES];

// Bits, high bit first, at the chunk's end.

static uint32_t hold;
static unsigned in_hold;

static void put(unsigned value, unsigned width)
{
    hold = hold << width | value;
    in_hold += width;
    while (in_hold >= 8) {
        in_hold -= 8;
        chunk[length++] = (uint8_t)(hold >> in_hold);
    }
}

static bool put_flag(bool flag)
{
    put(flag, 1);
    return flag;
}

static void put_padding(void)
{
    if (in_hold)
        put(bits(8 - in_hold), 8 - in_hold);
}

static void put_random(unsigned count)
{
    while (count--)
        chunk[length++] = (uint8_t)bits(8);
}

// A header, group by group, in VP9's order.

enum frame_kind { KEY, INTRA_ONLY, INTER, SHOW_EXISTING };
enum fault { NO_FAULT, WRONG_MARKER, WRONG_SYNC };

// Each pair lies on the two sides of a width at which the least or the most tile columns change.
static const unsigned edges[] = {448, 449, 960, 961, 1984, 1985, 4032, 4033, 4096, 4097, 8128, 8129, 8192, 8193, 16320, 16321,
                                 16384, 16385, 32704, 32705, 32768, 32769, 65472, 65473, 65535, 65536};

static unsigned choose_side(void)
{
    switch (below(4)) {
    case 0: return PICK(edges);
    case 1: return 1 + below(65536);
    case 2: return 1 + below(8);
    default: return 1 + below(2048);
    }
}

static unsigned put_size(void)
{
    unsigned width = choose_side();
    put(width - 1, 16);
    put(choose_side() - 1, 16);
    return width;
}

static void put_render_size(void)
{
    if (put_flag(percent(30)))
        put_size();
}

static unsigned wrong_sync(void)
{
    unsigned code = percent(70) ? SYNC_CODE ^ 1u << below(24) : bits(24);
    return code == SYNC_CODE ? 0 : code;
}

static void put_sync(enum fault fault)
{
    put(fault == WRONG_SYNC ? wrong_sync() : SYNC_CODE, 24);
}

static void put_color(unsigned profile)
{
    if (profile >= 2)
        put(bits(1), 1);
    unsigned space = bits(3);
    put(space, 3);
    if (space != 7)
        put(bits(1), 1);
    if (profile & 1)
        put(bits(space != 7 ? 3 : 1), space != 7 ? 3 : 1);
}

static unsigned put_refresh(void)
{
    unsigned flags = percent(60) ? 1u << below(8) : extreme(8);
    put(flags, 8);
    return flags;
}

// The first flag that is 1 names the slot; without one a size is read.
static unsigned put_size_with_refs(const unsigned *slots)
{
    static const unsigned firsts[] = {0, 0, 0, 1, 1, 2, 2, 3};
    unsigned first = PICK(firsts);
    for (unsigned i = 0; i < first; i++)
        put(0, 1);
    if (first == 3)
        return put_size();
    put(1, 1);
    return memory.width[slots[first]];
}

static unsigned put_inter(void)
{
    unsigned slots[3];
    for (int i = 0; i < 3; i++) {
        slots[i] = bits(3);
        put(slots[i], 3);
        put(bits(1), 1);
    }
    unsigned width = put_size_with_refs(slots);
    put_render_size();
    put(bits(1), 1);
    if (!put_flag(percent(30)))
        put(bits(2), 2);
    return width;
}

// A flag, and behind it a number and a sign.
static void put_coded_delta(unsigned likely, unsigned width)
{
    if (!put_flag(percent(likely)))
        return;
    put(extreme(width), width);
    put(bits(1), 1);
}

static void put_loop_filter(void)
{
    static const unsigned levels[] = {0, 1, 31, 32, 62, 63};
    put(percent(50) ? PICK(levels) : bits(6), 6);
    put(bits(3), 3);
    if (!put_flag(percent(75)) || !put_flag(percent(50)))
        return;
    unsigned likely = below(101);
    for (int i = 0; i < 6; i++)
        put_coded_delta(likely, 6);
}

static void put_quantizer(void)
{
    put(extreme(8), 8);
    unsigned likely = percent(30) ? 0 : 50;
    for (int i = 0; i < 3; i++)
        put_coded_delta(likely, 4);
}

static void put_probs(int count)
{
    unsigned likely = below(101);
    for (int i = 0; i < count; i++)
        if (put_flag(percent(likely)))
            put(extreme(8), 8);
}

static void put_feature(bool *stored, unsigned feature, unsigned likely)
{
    static const unsigned widths[FEATURES] = {8, 6, 2, 0};
    bool enabled = percent(likely) || (*stored && !temper.free_features);
    unsigned value = 0, width = widths[feature];
    if (put_flag(enabled)) {
        if (width && percent(70))
            value = extreme(temper.free_features ? width : width - 1);
        put(value, width);
        if (feature < 2)
            put(bits(1), 1);
    }
    *stored = value != 0;
}

static void put_features(void)
{
    static const unsigned likelies[] = {0, 5, 30, 60, 100};
    unsigned likely = PICK(likelies);
    for (int i = 0; i < SEGMENTS; i++)
        for (unsigned j = 0; j < FEATURES; j++)
            put_feature(&memory.stored[i][j], j, likely);
}

static void put_segmentation(void)
{
    if (!put_flag(percent(temper.segmentation)))
        return;
    if (put_flag(percent(50))) {
        put_probs(7);
        if (put_flag(percent(50)))
            put_probs(3);
    }
    if (put_flag(percent(temper.data_update))) {
        put(bits(1), 1);
        put_features();
    }
}

static unsigned tile_increments(uint32_t width)
{
    uint64_t across = ((uint64_t)width + 63) / 64;
    unsigned least = 0, most = 0;
    while ((uint64_t)64 << least < across)
        least++;
    while (across >> (most + 1) >= 4)
        most++;
    return most > least ? most - least : 0;
}

static void put_tiles(uint32_t width)
{
    unsigned most = tile_increments(width);
    unsigned ones = percent(30) ? most : below(most + 1);
    for (unsigned i = 0; i < ones; i++)
        put(1, 1);
    if (ones < most)
        put(0, 1);
    if (put_flag(percent(50)))
        put(bits(1), 1);
}

static enum frame_kind choose_kind(enum fault fault)
{
    if (fault == WRONG_SYNC)
        return percent(50) ? KEY : INTRA_ONLY;
    unsigned at = below(100);
    if (at < temper.key)
        return KEY;
    if (at < temper.key + temper.intra_only)
        return INTRA_ONLY;
    return at < temper.key + temper.intra_only + temper.show_existing ? SHOW_EXISTING : INTER;
}

static unsigned put_start(enum fault fault)
{
    static const unsigned wrong[] = {0, 1, 3};
    put(fault == WRONG_MARKER ? PICK(wrong) : 2, 2);
    unsigned profile = percent(temper.other_profile) ? below(4) : temper.profile;
    put(profile & 1, 1);
    put(profile >> 1, 1);
    if (profile == 3)
        put(percent(20), 1);
    return profile;
}

// The picture of a frame that isn't show-existing: answers its width, and its refresh flags by `refresh`.
static uint32_t put_picture(enum frame_kind kind, unsigned profile, enum fault fault, unsigned *refresh)
{
    *refresh = 255;
    if (kind != INTER)
        put_sync(fault);
    if (kind == KEY || (kind == INTRA_ONLY && profile > 0))
        put_color(profile);
    if (kind != KEY)
        *refresh = put_refresh();
    if (kind == INTER)
        return put_inter();
    uint32_t width = put_size();
    put_render_size();
    return width;
}

static void put_settings(bool error_resilient)
{
    if (!error_resilient)
        put(bits(2), 2);
    put(bits(2), 2);
    put_loop_filter();
    put_quantizer();
    put_segmentation();
}

static void put_header(bool shown, enum fault fault)
{
    unsigned profile = put_start(fault), refresh;
    enum frame_kind kind = choose_kind(fault);
    bool error_resilient = percent(temper.error_resilient);
    if (put_flag(kind == SHOW_EXISTING)) {
        put(bits(3), 3);
        return;
    }
    shown = shown && kind != INTRA_ONLY;
    put(kind != KEY, 1);
    put(shown, 1);
    put(error_resilient, 1);
    if (kind != KEY && !shown)
        put(kind == INTRA_ONLY, 1);
    if (kind != KEY && !error_resilient)
        put(bits(2), 2);
    uint32_t width = put_picture(kind, profile, fault, &refresh);
    if (kind != INTER || error_resilient)
        memset(memory.stored, 0, sizeof memory.stored);
    put_settings(error_resilient);
    put_tiles(width);
    put(extreme(16), 16);
    for (int i = 0; i < SLOTS; i++)
        if (refresh >> i & 1)
            memory.width[i] = width;
}

// Frames and chunks.

// The compressed data behind a header, here any bytes: none, few, or so many that a size takes two bytes.
static unsigned choose_data(void)
{
    if (percent(40))
        return 0;
    return percent(98) ? below(12) : below(400);
}

static void put_frame(bool shown, enum fault fault)
{
    unsigned at = length;
    put_header(shown, fault);
    put_padding();
    header_bytes[frames] = length - at;
    put_random(choose_data());
    frame_at[frames] = at;
    frame_size[frames++] = length - at;
}

// Room left over, or the data of the last frame, up to the place `end`: rarely all of it, so that the chunk is one of the longest.
static void put_room(unsigned end)
{
    if (percent(15))
        put_random(1 + below(12));
    if (below(5000) == 0)
        put_random(percent(50) ? end - length : below(end - length));
}

static bool is_marker(uint8_t byte)
{
    return byte >> 5 == 6;
}

static unsigned index_length(uint8_t marker)
{
    return 2 + ((marker >> 3 & 3u) + 1) * ((marker & 7u) + 1);
}

// The end of a chunk without an index. A last byte like an index's is left only where the index's first byte isn't there.
static void end_plain(void)
{
    put_room(LONGEST - 2);
    if (percent(5))
        chunk[length++] = (uint8_t)(0xC0 | bits(5));
    uint8_t last = chunk[length - 1];
    if (is_marker(last) && (length < index_length(last) || chunk[length - index_length(last)] == last))
        chunk[length++] = (uint8_t)bits(7);
    frame_size[frames - 1] = length - frame_at[frames - 1];
}

static unsigned fewest_bytes(void)
{
    uint32_t most = 0;
    for (unsigned i = 0; i < frames; i++)
        most |= frame_size[i];
    return most >> 24 ? 4 : most >> 16 ? 3 : most >> 8 ? 2 : 1;
}

static void put_index(unsigned width)
{
    uint8_t marker = (uint8_t)(0xC0 | (width - 1) << 3 | (frames - 1));
    chunk[length++] = marker;
    for (unsigned i = 0; i < frames; i++)
        for (unsigned j = 0; j < width; j++)
            chunk[length++] = (uint8_t)(frame_size[i] >> 8 * j);
    chunk[length++] = marker;
}

static void end_indexed(void)
{
    unsigned width = fewest_bytes();
    width += below(5 - width);
    put_room(LONGEST - 2 - width * frames);
    put_index(width);
}

static void start_chunk(void)
{
    length = frames = in_hold = 0;
}

static unsigned choose_frames(void)
{
    return percent(temper.superframe) ? 1 + below(MOST_FRAMES) : 1;
}

// The frames of a chunk: the fault stands in frame `at`, and most often only the last frame is shown.
static void put_frames(unsigned count, unsigned at, enum fault fault)
{
    bool hidden = percent(60);
    start_chunk();
    for (unsigned i = 0; i < count; i++)
        put_frame(percent(80) && (i + 1 == count || !hidden), i == at ? fault : NO_FAULT);
}

static void end_chunk(bool indexed)
{
    if (indexed)
        end_indexed();
    else
        end_plain();
}

static void say_chunk(void)
{
    say_byte(1);
    say_number(length);
    say(chunk, length);
}

static void fields_chunk(void)
{
    unsigned count = choose_frames();
    put_frames(count, 0, NO_FAULT);
    end_chunk(count > 1 || percent(5));
}

// A chunk with one fault is refused, so what is remembered is put back.
static void refused_chunk(void)
{
    if (percent(60)) {
        fields_chunk();
        return;
    }
    struct memory before = memory;
    unsigned count = choose_frames(), at = below(count);
    put_frames(count, at, percent(50) ? WRONG_MARKER : WRONG_SYNC);
    end_chunk(count > 1 || percent(5));
    memory = before;
}

static void flip_bit(unsigned at)
{
    chunk[at] ^= (uint8_t)(1u << below(8));
}

// What leaves the domain.

enum leave { EMPTY_CHUNK, CUT_CHUNK, CUT_INDEX, CUT_HEADER, EMPTY_FRAME, LONG_FRAME, HUGE_FRAME, BENT_INDEX, FREE_FEATURES };

static void cut(unsigned to)
{
    length = to;
}

// Frames of a superframe with one size made wrong.
static void bend_size(enum leave how)
{
    unsigned i = below(frames);
    if (how == CUT_HEADER)
        frame_size[i] = header_bytes[i] - 1 - (percent(50) ? 0 : below(header_bytes[i]));
    else if (how == EMPTY_FRAME)
        frame_size[i] = 0;
    else if (how == LONG_FRAME)
        frame_size[i] += 1 + below(percent(50) ? 4 : 200);
    else
        frame_size[i] = percent(50) ? (uint32_t)-1 - below(300) : bits(32);
}

static void bent_superframe(enum leave how)
{
    put_frames(1 + below(MOST_FRAMES), 0, NO_FAULT);
    bend_size(how);
    end_indexed();
}

static void short_index(void)
{
    uint8_t marker = (uint8_t)(0xC0 | bits(5));
    start_chunk();
    put_random(below(index_length(marker) - 1));
    chunk[length++] = marker;
}

static void free_features(void)
{
    struct temper usual = temper;
    temper.free_features = true;
    temper.segmentation = temper.data_update = 100;
    fields_chunk();
    temper = usual;
}

static void leaving_chunk(enum leave how)
{
    struct memory before = memory;
    switch (how) {
    case EMPTY_CHUNK:
        start_chunk();
        break;
    case CUT_CHUNK:
        fields_chunk();
        cut(below(length));
        break;
    case CUT_INDEX:
        short_index();
        break;
    case BENT_INDEX:
        put_frames(1 + below(MOST_FRAMES), 0, NO_FAULT);
        end_chunk(true);
        flip_bit(length - 1 - below(index_length(chunk[length - 1])));
        break;
    case FREE_FEATURES:
        free_features();
        break;
    default:
        bent_superframe(how);
    }
    // Most of the others are refused. Where one isn't, only the bits for the tiles of later frames may be read as other fields.
    if (how != FREE_FEATURES && !(how == CUT_CHUNK && frames == 1 && length >= header_bytes[0]))
        memory = before;
}

static void outside_chunk(void)
{
    static const enum leave ways[] = {EMPTY_CHUNK, CUT_CHUNK, CUT_CHUNK, CUT_INDEX, CUT_HEADER, CUT_HEADER, EMPTY_FRAME,
                                      LONG_FRAME, HUGE_FRAME, BENT_INDEX, FREE_FEATURES, FREE_FEATURES, FREE_FEATURES};
    if (percent(50))
        fields_chunk();
    else
        leaving_chunk(PICK(ways));
}

// Random bytes, most of them past the first tests: a marker in front, often a sync code behind it, often an index at the end.

static void good_marker(unsigned at)
{
    chunk[at] = 0x80 | (chunk[at] & 0x3F);
}

// Sizes that share the room, most often with a good marker in front of each frame.
static void random_sizes(unsigned room, unsigned count, unsigned width)
{
    bool good = percent(70);
    unsigned at = 0;
    for (unsigned i = 0; i < count; i++) {
        unsigned size = percent(5) ? bits(8) : i + 1 == count && percent(50) ? room - at : below((room - at) / (count - i) * 2 + 1);
        memset(chunk + room + 1 + i * width, 0, width);
        chunk[room + 1 + i * width] = (uint8_t)size;
        if (size > room - at)
            return;
        if (good && size)
            good_marker(at);
        // Most often such a short frame is only accepted if it shows an existing one.
        if (good && size && percent(60))
            chunk[at] |= 8;
        at += size;
    }
}

static void random_index(void)
{
    unsigned width = percent(70) ? 1 : 1 + below(4);
    uint8_t marker = (uint8_t)(0xC0 | (width - 1) << 3 | bits(3));
    chunk[length - 1] = marker;
    if (length < index_length(marker) || percent(30))
        return;
    unsigned room = length - index_length(marker);
    chunk[room] = marker;
    if (percent(90))
        random_sizes(room, (marker & 7u) + 1, width);
}

static void random_chunk(void)
{
    static const uint8_t sync[] = {SYNC_CODE >> 16, SYNC_CODE >> 8 & 255, SYNC_CODE & 255};
    start_chunk();
    put_random(below(41));
    if (length && percent(85))
        good_marker(0);
    if (length > 4 && percent(40))
        memcpy(chunk + 1, sync, sizeof sync);
    if (length && percent(35))
        random_index();
}

// States that no stream need reach.

static uint32_t free_side(void)
{
    static const uint32_t sides[] = {0, 1, 65535, 65536, 65537, (uint32_t)-1, (uint32_t)-63, (uint32_t)-64, 1u << 31};
    switch (below(4)) {
    case 0: return PICK(sides);
    case 1: return PICK(edges);
    case 2: return bits(32);
    default: return bits(below(33));
    }
}

static void say_flags(int count)
{
    unsigned likely = below(101);
    while (count--)
        say_byte(percent(2) ? (uint8_t)bits(8) : percent(likely));
}

static void say_bytes(int count)
{
    while (count--)
        say_byte((uint8_t)extreme(8));
}

// Sign and magnitude; the sign 2 and over stands for the least number.
static void say_delta(void)
{
    say_byte((uint8_t)below(percent(10) ? 256 : 2));
    say_byte((uint8_t)extreme(percent(50) ? 8 : 6));
}

static bool say_datum(void)
{
    unsigned sign = below(percent(5) ? 256 : 2);
    unsigned magnitude = percent(20) ? 0 : extreme(percent(30) ? 16 : below(16));
    say_byte((uint8_t)sign);
    say_byte((uint8_t)(magnitude >> 8));
    say_byte((uint8_t)magnitude);
    return sign > 1 || (magnitude & 0x7FFF) != 0;
}

static void say_state(void)
{
    say_byte(3);
    say_byte((uint8_t)below(percent(5) ? 256 : 3));
    say_flags(2);
    say_byte((uint8_t)bits(percent(5) ? 8 : 3));
    say_flags(1);
    say_bytes(2);
    say_flags(2 + 4);
    for (int i = 0; i < 4; i++)
        say_delta();
    say_flags(2);
    for (int i = 0; i < 2; i++)
        say_delta();
    say_flags(2);
    say_bytes(7 + 3);
    say_flags(3 + SEGMENTS * FEATURES);
    for (int i = 0; i < SEGMENTS; i++)
        for (int j = 0; j < FEATURES; j++)
            memory.stored[i][j] = say_datum();
    for (int i = 0; i < SLOTS; i++) {
        say_number(memory.width[i] = free_side());
        say_number(free_side());
    }
}

// A new state every few chunks. The Rust isn't asked, so features are free.
static void states_chunk(void)
{
    if (percent(30))
        say_state();
    temper.free_features = true;
    if (percent(80))
        fields_chunk();
    else
        random_chunk();
}

// Real recordings.

struct record {
    const uint8_t *data;
    unsigned length;
};

struct recording {
    struct record *records;
    unsigned count;
};

static struct recording *recordings;
static unsigned recording_count;

static uint32_t number_at(const uint8_t *bytes)
{
    return bytes[0] | bytes[1] << 8 | bytes[2] << 16 | (uint32_t)bytes[3] << 24;
}

static uint8_t *read_file(const char *path, size_t *size)
{
    FILE *file = fopen(path, "rb");
    if (!file || fseek(file, 0, SEEK_END))
        stop("can't read ", path);
    *size = (size_t)ftell(file);
    rewind(file);
    uint8_t *data = malloc(*size + 1);
    if (!data || fread(data, 1, *size, file) != *size)
        stop("can't read ", path);
    fclose(file);
    return data;
}

static void add_record(struct recording *to, const uint8_t *data, uint32_t size)
{
    to->records = realloc(to->records, (to->count + 1) * sizeof *to->records);
    if (!to->records)
        stop("no memory", "");
    to->records[to->count++] = (struct record){data, size};
}

// The records of an IVF file: behind 32 bytes, each with 12 bytes in front.
static void read_recording(const char *path)
{
    size_t size, at = 32;
    const uint8_t *data = read_file(path, &size);
    struct recording new = {0};
    while (at + 12 <= size && number_at(data + at) <= size - at - 12) {
        if (!number_at(data + at))
            stop("an empty record in ", path);
        add_record(&new, data + at + 12, number_at(data + at));
        at += 12 + number_at(data + at);
    }
    if (!new.count)
        stop("no records in ", path);
    recordings = realloc(recordings, (recording_count + 1) * sizeof *recordings);
    if (!recordings)
        stop("no memory", "");
    recordings[recording_count++] = new;
}

static int by_name(const void *a, const void *b)
{
    return strcmp(*(char *const *)a, *(char *const *)b);
}

static char *joined(const char *folder, const char *name)
{
    char *path = malloc(strlen(folder) + strlen(name) + 2);
    if (!path)
        stop("no memory", "");
    strcpy(path, folder);
    strcat(path, "/");
    return strcat(path, name);
}

// In the order of their names, since a folder has its files in any order.
static void read_recordings(const char *folder)
{
    static char *paths[4096];
    unsigned count = 0;
    DIR *open = opendir(folder);
    if (!open)
        stop("no folder ", folder);
    for (struct dirent *entry = readdir(open); entry; entry = readdir(open)) {
        size_t end = strlen(entry->d_name);
        if (end > 4 && !strcmp(entry->d_name + end - 4, ".ivf") && count < COUNT(paths))
            paths[count++] = joined(folder, entry->d_name);
    }
    closedir(open);
    qsort(paths, count, sizeof *paths, by_name);
    for (unsigned i = 0; i < count; i++) {
        read_recording(paths[i]);
        free(paths[i]);
    }
}

// A frame of a recording, its data cut behind the place where any header ends.
static void take_frame(const uint8_t *data, uint32_t size)
{
    unsigned most = LONGEST_HEADER + below(8);
    unsigned kept = size < most ? size : most;
    memcpy(chunk + length, data, kept);
    frame_at[frames] = length;
    frame_size[frames++] = kept;
    length += kept;
}

// The frames of a real chunk with their index's width of sizes, 0 for none. Its room left over goes.
static unsigned take_frames(struct record r)
{
    uint8_t last = r.data[r.length - 1];
    start_chunk();
    if (!is_marker(last) || r.length < index_length(last) || r.data[r.length - index_length(last)] != last) {
        take_frame(r.data, r.length);
        return 0;
    }
    unsigned width = (last >> 3 & 3u) + 1, at = 0;
    const uint8_t *sizes = r.data + r.length - index_length(last) + 1;
    for (unsigned i = 0; i <= (last & 7u); i++) {
        uint32_t size = 0;
        for (unsigned j = 0; j < width; j++)
            size |= (uint32_t)*sizes++ << 8 * j;
        if (size > r.length - at)
            stop("a recording has a frame past its chunk", "");
        take_frame(r.data + at, size);
        at += size;
    }
    return width;
}

static void flip_bits(unsigned first, unsigned count)
{
    for (unsigned left = 1 + below(3); left; left--)
        flip_bit(first + below(count));
}

// The first bytes of a frame, most often the very first.
static unsigned bent_bytes(unsigned i)
{
    unsigned most = percent(50) ? 12 : 40;
    return frame_size[i] < most ? frame_size[i] : most;
}

static void bend_frame(void)
{
    unsigned i = below(frames), count = bent_bytes(i);
    if (!count)
        return;
    if (percent(70)) {
        flip_bits(frame_at[i], count);
        return;
    }
    unsigned at = frame_at[i] + below(count);
    chunk[at] = (uint8_t)bits(8);
}

static void bend_end(void)
{
    uint8_t last = chunk[length - 1];
    unsigned count = is_marker(last) && index_length(last) <= length ? index_length(last) : 1;
    flip_bits(length - count, count);
}

static void bend_chunk(void)
{
    unsigned how = below(10);
    if (how < 7)
        bend_frame();
    else if (how < 9)
        cut(below(length + 1));
    else
        bend_end();
}

static struct record any_record(void)
{
    struct recording from = recordings[below(recording_count)];
    return from.records[below(from.count)];
}

// The recording at hand, the place in it, and how many of its chunks are bent or swapped, in percent.
static struct recording playing;
static unsigned played, bent;

static void real_chunk(void)
{
    bool swapped = percent(bent) && percent(20);
    unsigned width = take_frames(swapped ? any_record() : playing.records[played]);
    if (width)
        put_index(width);
    else if (is_marker(chunk[length - 1]))
        chunk[length - 1] = 0;
    if (!swapped && percent(bent))
        bend_chunk();
    played++;
}

static unsigned start_recording(void)
{
    static const unsigned rates[] = {0, 10, 30, 60, 60, 100};
    playing = recordings[below(recording_count)];
    played = 0;
    bent = PICK(rates);
    return playing.count;
}

// All strings of bytes, the shorter ones first, from number F on (--first).
static uint64_t short_number;

static void short_chunk(void)
{
    uint64_t number = short_number++, count = 1;
    for (length = 0; number >= count; length++) {
        number -= count;
        count *= 256;
    }
    for (unsigned i = length; i > 0; i--) {
        chunk[i - 1] = number % 256;
        number /= 256;
    }
}

// The kinds of series.

struct series {
    const char *name;
    unsigned least, more;
    void (*write_chunk)(void);
};

static const struct series kinds[] = {
    {"fields", 50, 350, fields_chunk}, {"refused", 50, 350, refused_chunk}, {"outside", 10, 50, outside_chunk},
    {"real", 0, 0, real_chunk}, {"random", 20, 80, random_chunk}, {"states", 30, 60, states_chunk},
    {"short", 1000, 1, short_chunk}};

static unsigned start_series(const struct series *kind)
{
    memory = (struct memory){0};
    choose_temper();
    say_byte(0);
    return kind->write_chunk == real_chunk ? start_recording() : kind->least + below(kind->more);
}

static void write_series(const struct series *kind, uint64_t chunks, int64_t only)
{
    unsigned left = 0;
    for (uint64_t i = 0; i < chunks; i++) {
        if (!left) {
            if (only < 0)
                flush_series();
            held_length = 0;
            left = start_series(kind);
        }
        kind->write_chunk();
        say_chunk();
        left--;
        if (only >= 0 && (uint64_t)only == i)
            break;
    }
    flush_series();
}

static const struct series *kind_named(const char *name)
{
    for (unsigned i = 0; i < COUNT(kinds); i++)
        if (!strcmp(kinds[i].name, name))
            return &kinds[i];
    stop("no kind ", name);
    return NULL;
}

static uint64_t number(const char *text)
{
    char *end;
    uint64_t n = strtoull(text, &end, 10);
    if (*text < '0' || *text > '9' || *end)
        stop("not a number: ", text);
    return n;
}

int main(int count, char **words)
{
    uint64_t seed = 1, chunks = 0, part = 0;
    int64_t only = -1;
    const struct series *kind = &kinds[0];
    for (int i = 1; i < count; i++) {
        const char *word = words[i];
        if (i + 1 == count)
            stop("nothing behind ", word);
        if (!strcmp(word, "--seed"))
            seed = number(words[++i]);
        else if (!strcmp(word, "--chunks"))
            chunks = number(words[++i]);
        else if (!strcmp(word, "--kind"))
            kind = kind_named(words[++i]);
        else if (!strcmp(word, "--part"))
            part = number(words[++i]);
        else if (!strcmp(word, "--first"))
            short_number = number(words[++i]);
        else if (!strcmp(word, "--only"))
            only = (int64_t)number(words[++i]);
        else if (!strcmp(word, "--recordings"))
            while (i + 1 < count && words[i + 1][0] != '-')
                read_recordings(words[++i]);
        else
            stop("not known: ", word);
    }
    if (kind->write_chunk == real_chunk && !recording_count)
        stop("the kind real needs --recordings", "");
    dice = scramble(scramble(scramble(seed) + (uint64_t)(kind - kinds) + 1) + part + 1);
    write_series(kind, chunks, only);
    return 0;
}
