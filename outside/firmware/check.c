/* Checks every answer of every function of tashmirok.h, the zeros of every refusal, and that no other byte moves.
 * The last line is `N passed, M failed`. */
#define _DEFAULT_SOURCE /* mmap, and a mapping that no memory is set aside for */
#include <stdalign.h>
#include <stdio.h>
#include <string.h>
#include <sys/mman.h>

#include "tashmirok.h"
#include "tashmirok_words.h"

static unsigned passed, failed;

static void expect(int good, const char *what, int line)
{
    passed += good != 0;
    failed += good == 0;
    if (!good)
        printf("check.c:%d: %s\n", line, what);
}
#define EXPECT(what) expect((what), #what, __LINE__)

/* ---- Lent bytes, with others around them that no call may touch. */

enum { AROUND = 64, MOST = 8192, UNUSED = 0x5A, GARBAGE = 0xA5 };

struct lent {
    alignas(16) uint8_t room[AROUND + MOST + AROUND];
    uint8_t before[MOST];
    size_t start, length;
};

static uint8_t *bytes(struct lent *lent)
{
    return lent->room + lent->start;
}

/* So many bytes of garbage, `odd` bytes off an aligned place. */
static void *lend(struct lent *lent, size_t length, size_t odd)
{
    lent->start = AROUND + odd;
    lent->length = length;
    memset(lent->room, UNUSED, sizeof lent->room);
    memset(bytes(lent), GARBAGE, length);
    return bytes(lent);
}

/* What stands there now is what a refusal has to leave. */
static void keep(struct lent *lent)
{
    memcpy(lent->before, bytes(lent), lent->length);
}

static int all(const uint8_t *from, size_t length, uint8_t byte)
{
    for (size_t i = 0; i < length; i++)
        if (from[i] != byte)
            return 0;
    return 1;
}

/* Nothing before or after the lent bytes was written. */
static int within(const struct lent *lent)
{
    size_t end = lent->start + lent->length;
    return all(lent->room, lent->start, UNUSED) && all(lent->room + end, sizeof lent->room - end, UNUSED);
}

static int stays(struct lent *lent)
{
    return within(lent) && memcmp(lent->before, bytes(lent), lent->length) == 0;
}

static int zero(struct lent *lent)
{
    return within(lent) && all(bytes(lent), lent->length, 0);
}

/* ---- Document 01's packet A, and a header to spoil. */

static const uint8_t HALL4[16] = "Hall4";
static const uint8_t FULL[16] = {'s', 'i', 'x', 't', 'e', 'e', 'n', ' ', 'l', 'e', 't', 't', 'e', 'r', 's', '~'};
static const uint8_t NO_NAME[16] = "";
static const uint8_t BAD_NAME[16] = "Hall\x7F";
static const uint8_t PACKET_A[32] = {
    0x56, 0x42, 0x41, 0x4E, 0x03, 0x00, 0x01, 0x01, 0x48, 0x61, 0x6C, 0x6C, 0x34, 0, 0, 0,
    0, 0, 0, 0, 0, 0, 0, 0, 0x07, 0, 0, 0, 0x01, 0x00, 0xFE, 0xFF};
static const uint8_t RECORD_A[6] = {0x00, 0x01, 0x00, 0x00, 0xFE, 0xFF};
static const uint32_t DESK = 0x0A000005;

/* A packet of our stream with so many frames of zero samples; gives its length. */
static size_t packet(uint8_t *to, unsigned frames, unsigned channels, unsigned format, uint32_t counter)
{
    size_t length = TASHMIROK_HEADER + frames * channels * (format + 1);
    memset(to, 0, length);
    memcpy(to, PACKET_A, TASHMIROK_HEADER);
    to[5] = (uint8_t)(frames - 1);
    to[6] = (uint8_t)(channels - 1);
    to[7] = (uint8_t)format;
    for (int i = 0; i < 4; i++)
        to[24 + i] = (uint8_t)(counter >> 8 * i);
    return length;
}

/* ---- The header's constants, and the answers in words. */

/* The compiler refuses this where an answer of the header has no words, or a number has some that is no answer. */
static const char *named(enum tashmirok_answer answer)
{
    switch (answer) {
#define NAMED(number, name, meaning) case number: return sizeof meaning > 1 ? name : "";
        TASHMIROK_WORDS(NAMED)
#undef NAMED
    }
    return "";
}

#define PINNED(constant, number) EXPECT(TASHMIROK_##constant == number)
#define ANSWERED(constant, number, name) \
    EXPECT(TASHMIROK_##constant == number && strcmp(named(TASHMIROK_##constant), name) == 0)

static void check_constants(void)
{
    PINNED(RECORD, 24);
    PINNED(HEADER, 28);
    PINNED(LONGEST, 1464);
    PINNED(TAKE_SIZE, 40);
    PINNED(TALLY_SIZE, 68);
    EXPECT(tashmirok_take_size() == TASHMIROK_TAKE_SIZE);
    EXPECT(tashmirok_tally_size() == TASHMIROK_TALLY_SIZE);
}

static void check_numbers(void)
{
    ANSWERED(ACCEPTED, 0, "Accepted");
    ANSWERED(SHORT, 1, "Short");
    ANSWERED(LONG, 2, "Long");
    ANSWERED(FOREIGN, 3, "Foreign");
    ANSWERED(NAME, 4, "Name");
    ANSWERED(OTHER_STREAM, 5, "Other stream");
    ANSWERED(SUB_PROTOCOL, 6, "Sub protocol");
    ANSWERED(CODEC, 7, "Codec");
    ANSWERED(RESERVED, 8, "Reserved");
    ANSWERED(RATE, 9, "Rate");
    ANSWERED(DATA_TYPE, 10, "Data type");
    ANSWERED(LENGTH, 11, "Length");
    ANSWERED(CHANNELS, 12, "Channels");
    ANSWERED(SHAPE, 13, "Shape");
    ANSWERED(LATE, 14, "Late");
    ANSWERED(BEYOND, 15, "Beyond");
    ANSWERED(STATE, 16, "State");
    ANSWERED(FORM, 20, "Form");
    ANSWERED(BIG, 21, "Big");
    ANSWERED(DATA, 22, "Data");
    ANSWERED(ROOM, 23, "Room");
    ANSWERED(NUMBER, 24, "Number");
    ANSWERED(SAMPLE, 26, "Sample");
}

/* ---- Rates, numbers, the largest N. */

static void check_rate(void)
{
    static const uint32_t rates[21] = {6000,   12000,  24000,  48000,  96000, 192000, 384000,
                                       8000,   16000,  32000,  64000,  128000, 256000, 512000,
                                       11025,  22050,  44100,  88200,  176400, 352800, 705600};
    static struct lent given;
    for (unsigned index = 0; index < 256; index++) {
        uint32_t due = index < 21 ? rates[index] : 0;
        uint8_t answer = tashmirok_rate((uint8_t)index, lend(&given, sizeof due, 0));
        EXPECT(answer == (index < 21 ? TASHMIROK_ACCEPTED : TASHMIROK_RATE));
        EXPECT(within(&given) && memcmp(bytes(&given), &due, sizeof due) == 0);
    }
}

static void converts(uint8_t from, uint8_t to, int64_t number, uint8_t due, int64_t converted, int line)
{
    static struct lent given;
    uint8_t answer = tashmirok_convert(from, to, number, lend(&given, sizeof number, 0));
    int same = memcmp(bytes(&given), &converted, sizeof converted) == 0;
    expect(answer == due && same && within(&given), "converting a number", line);
}
#define CONVERTS(from, to, number, due, converted) converts(from, to, number, due, converted, __LINE__)

static void check_convert(void)
{
    CONVERTS(2, 1, 128, 0, 0);
    CONVERTS(2, 1, 384, 0, 2);
    CONVERTS(2, 1, -128, 0, 0);
    CONVERTS(2, 1, -384, 0, -2);
    CONVERTS(2, 1, -1, 0, 0);
    CONVERTS(2, 1, 8388607, 0, 32767);
    CONVERTS(2, 1, -8388608, 0, -32768);
    CONVERTS(3, 2, 2147483520, 0, 8388607);
    CONVERTS(0, 2, 0, 0, -8388608);
    CONVERTS(0, 2, 128, 0, 0);
    CONVERTS(0, 2, 255, 0, 8323072);
    CONVERTS(3, 0, 2147483647, 0, 255);
    CONVERTS(1, 1, -5, 0, -5);
    CONVERTS(4, 1, 0, TASHMIROK_FORM, 0);
    CONVERTS(1, 4, 0, TASHMIROK_FORM, 0);
    CONVERTS(255, 255, INT64_MAX, TASHMIROK_FORM, 0);
    CONVERTS(1, 4, 40000, TASHMIROK_FORM, 0);
    CONVERTS(0, 1, 256, TASHMIROK_SAMPLE, 0);
    CONVERTS(0, 0, -1, TASHMIROK_SAMPLE, 0);
    CONVERTS(1, 2, 32768, TASHMIROK_SAMPLE, 0);
    CONVERTS(2, 1, -8388609, TASHMIROK_SAMPLE, 0);
    CONVERTS(3, 1, INT64_MIN, TASHMIROK_SAMPLE, 0);
}

static void most(uint8_t format, uint16_t channels, uint8_t due, uint16_t frames, int line)
{
    static struct lent given;
    uint8_t answer = tashmirok_largest(format, channels, lend(&given, sizeof frames, 0));
    int same = memcmp(bytes(&given), &frames, sizeof frames) == 0;
    expect(answer == due && same && within(&given), "the largest N", line);
}
#define MOST_FRAMES(format, channels, due, frames) most(format, channels, due, frames, __LINE__)

static void check_largest(void)
{
    MOST_FRAMES(1, 8, 0, 89);
    MOST_FRAMES(1, 2, 0, 256);
    MOST_FRAMES(2, 2, 0, 239);
    MOST_FRAMES(3, 8, 0, 44);
    MOST_FRAMES(0, 1, 0, 256);
    MOST_FRAMES(3, 256, 0, 1);
    MOST_FRAMES(4, 1, TASHMIROK_FORM, 0);
    MOST_FRAMES(255, 1, TASHMIROK_FORM, 0);
    MOST_FRAMES(1, 0, TASHMIROK_FORM, 0);
    MOST_FRAMES(1, 257, TASHMIROK_FORM, 0);
    MOST_FRAMES(1, 65535, TASHMIROK_FORM, 0);
}

/* ---- Reading. */

static struct lent heard, fields, name, size;

/* Reads the datagram in `heard`, which has to stay, into garbage. */
static uint8_t reading(void)
{
    keep(&heard);
    uint32_t *five = lend(&fields, 5 * sizeof(uint32_t), 0);
    uint8_t *sixteen = lend(&name, 16, 1);
    size_t *one = lend(&size, sizeof(size_t), 0);
    uint8_t answer = tashmirok_read(bytes(&heard), heard.length, five, sixteen, one);
    EXPECT(stays(&heard) && within(&fields) && within(&name) && within(&size));
    return answer;
}

/* Packet A with one byte changed is read with that answer, and zeros where that is a refusal. */
static void reads(size_t at, uint8_t byte, uint8_t due, int line)
{
    memcpy(lend(&heard, sizeof PACKET_A, 1), PACKET_A, sizeof PACKET_A);
    bytes(&heard)[at] = byte;
    expect(reading() == due, "the answer of reading", line);
    if (due != 0)
        expect(zero(&fields) && zero(&name) && zero(&size), "zeros of reading's refusal", line);
}
#define READS(at, byte, due) reads(at, byte, due, __LINE__)

static void check_read(void)
{
    const uint32_t five[5] = {3, 1, 2, 1, 7};
    const size_t four = 4;
    READS(20, 0xFF, TASHMIROK_ACCEPTED); /* after the name's first zero */
    EXPECT(memcmp(bytes(&fields), five, sizeof five) == 0);
    EXPECT(memcmp(bytes(&name), HALL4, 16) == 0);
    EXPECT(memcmp(bytes(&size), &four, sizeof four) == 0);
    READS(0, 0x57, TASHMIROK_FOREIGN);
    READS(8, 0x00, TASHMIROK_NAME);
    READS(12, 0x7F, TASHMIROK_NAME);
    READS(4, 0x23, TASHMIROK_SUB_PROTOCOL);
    READS(7, 0x11, TASHMIROK_CODEC);
    READS(7, 0x09, TASHMIROK_RESERVED);
    READS(4, 0x15, TASHMIROK_RATE);
    READS(7, 0x04, TASHMIROK_DATA_TYPE);
    READS(5, 0x01, TASHMIROK_LENGTH);
}

/* Lengths, and the first of several reasons. */
static void check_read_lengths(void)
{
    static const size_t lengths[] = {0, 27, 28, 1464, 1465, 4096};
    static const uint8_t due[] = {1, 1, 3, 3, 2, 2};
    for (int i = 0; i < 6; i++) {
        memset(lend(&heard, lengths[i], 0), 0, lengths[i]);
        EXPECT(reading() == due[i]);
        EXPECT(zero(&fields) && zero(&name) && zero(&size));
    }
    packet(lend(&heard, 28 + 256 * 5, 3), 256, 5, 0, 0);
    EXPECT(reading() == TASHMIROK_ACCEPTED);
    packet(lend(&heard, 28 + 9 * 2, 3), 1, 9, 1, 0);
    EXPECT(reading() == TASHMIROK_ACCEPTED);
    bytes(&heard)[7] = 0xFF;
    bytes(&heard)[4] = 0xFF;
    EXPECT(reading() == TASHMIROK_SUB_PROTOCOL);
    bytes(&heard)[4] = 0x1F;
    EXPECT(reading() == TASHMIROK_CODEC);
}

/* ---- Writing and cutting: a form, what is sent, and an output of garbage. */

struct form {
    uint8_t rate;
    uint16_t frames, channels;
    uint8_t format;
    const uint8_t *name;
    uint32_t counter;
};

static const struct form FORM_A = {3, 1, 2, 1, HALL4, 7};
static struct lent sent, out, written;

static size_t length_written(void)
{
    size_t length;
    memcpy(&length, bytes(&written), sizeof length);
    return length;
}

static size_t room_left(void)
{
    return length_written() <= out.length ? out.length - length_written() : 0;
}

/* A refusal gives 0 bytes written and leaves the output; nothing ever moves what is sent. */
static void made(uint8_t answer, uint8_t due, int line)
{
    expect(answer == due, "the answer of writing or cutting", line);
    expect(stays(&sent) && within(&out) && within(&written), "bytes around those lent", line);
    if (due != 0)
        expect(stays(&out) && zero(&written), "a refusal's zeros and output", line);
    else
        expect(all(bytes(&out) + length_written(), room_left(), GARBAGE), "output past the packet", line);
}

static void writes(struct form form, size_t samples, size_t room, uint8_t due, int line)
{
    memset(lend(&sent, samples, 1), 0x11, samples);
    memcpy(bytes(&sent), PACKET_A + TASHMIROK_HEADER, samples < 4 ? samples : 4);
    keep(&sent);
    lend(&out, room, 3);
    keep(&out);
    size_t *length = lend(&written, sizeof(size_t), 0);
    made(tashmirok_write(form.rate, form.frames, form.channels, form.format, form.name, form.counter,
                         bytes(&sent), samples, bytes(&out), room, length), due, line);
}
#define WRITES(form, samples, room, due) writes(form, samples, room, due, __LINE__)

/* FORM_A with one field changed. */
#define WITH(field, value) changed(&(struct form){.field = value}, offsetof(struct form, field), sizeof FORM_A.field)
static struct form changed(const struct form *from, size_t at, size_t length)
{
    struct form form = FORM_A;
    memcpy((uint8_t *)&form + at, (const uint8_t *)from + at, length);
    return form;
}

static void check_write(void)
{
    WRITES(FORM_A, 4, 40, TASHMIROK_ACCEPTED);
    EXPECT(length_written() == 32 && memcmp(bytes(&out), PACKET_A, 32) == 0);
    WRITES(FORM_A, 4, 32, TASHMIROK_ACCEPTED);
    WRITES(WITH(name, FULL), 4, 32, TASHMIROK_ACCEPTED);
    EXPECT(memcmp(bytes(&out) + 8, FULL, 16) == 0);
    WRITES(WITH(rate, 21), 4, 32, TASHMIROK_FORM);
    WRITES(WITH(format, 4), 4, 32, TASHMIROK_FORM);
    WRITES(WITH(frames, 0), 0, 32, TASHMIROK_FORM);
    WRITES(WITH(frames, 257), 4, 32, TASHMIROK_FORM);
    WRITES(WITH(channels, 0), 0, 32, TASHMIROK_FORM);
    WRITES(WITH(channels, 257), 4, 32, TASHMIROK_FORM);
    WRITES(WITH(name, NO_NAME), 4, 32, TASHMIROK_FORM);
    WRITES(WITH(name, BAD_NAME), 0, 0, TASHMIROK_FORM);
    WRITES(WITH(channels, 256), 512, 1464, TASHMIROK_ACCEPTED);
    WRITES(((struct form){3, 4, 180, 1, HALL4, 0}), 1440, 2000, TASHMIROK_BIG);
    WRITES(((struct form){3, 256, 256, 3, HALL4, 0}), 0, 0, TASHMIROK_BIG);
    WRITES(FORM_A, 3, 32, TASHMIROK_DATA);
    WRITES(FORM_A, 5, 32, TASHMIROK_DATA);
    WRITES(FORM_A, 0, 0, TASHMIROK_DATA);
    WRITES(FORM_A, 4, 31, TASHMIROK_ROOM);
    WRITES(FORM_A, 4, 0, TASHMIROK_ROOM);
}

/* Cuts a track whose every record is packet A's, slots past the channels being garbage. */
static void cuts(struct form form, size_t track, uint32_t k, size_t room, uint8_t due, int line)
{
    lend(&sent, track, 1);
    for (size_t at = 0; at + TASHMIROK_RECORD <= track; at += TASHMIROK_RECORD)
        memcpy(bytes(&sent) + at, RECORD_A, sizeof RECORD_A);
    keep(&sent);
    lend(&out, room, 3);
    keep(&out);
    size_t *length = lend(&written, sizeof(size_t), 0);
    made(tashmirok_cut(form.rate, form.frames, form.channels, form.format, form.name, form.counter,
                       bytes(&sent), track, k, bytes(&out), room, length), due, line);
}
#define CUTS(form, track, k, room, due) cuts(form, track, k, room, due, __LINE__)

static void check_cut(void)
{
    CUTS(FORM_A, 24, 0, 40, TASHMIROK_ACCEPTED);
    EXPECT(length_written() == 32 && memcmp(bytes(&out), PACKET_A, 32) == 0);
    CUTS(WITH(frames, 2), 24 * 5, 2, 1464, TASHMIROK_ACCEPTED); /* the last one, of one frame */
    EXPECT(length_written() == 32 && bytes(&out)[5] == 0 && bytes(&out)[24] == 9);
    CUTS(WITH(frames, 2), 24 * 5, 1, 1464, TASHMIROK_ACCEPTED);
    EXPECT(length_written() == 36 && bytes(&out)[5] == 1 && memcmp(bytes(&out) + 32, PACKET_A + 28, 4) == 0);
    CUTS(WITH(counter, UINT32_MAX), 24 * 2, 1, 32, TASHMIROK_ACCEPTED);
    EXPECT(all(bytes(&out) + 24, 4, 0));
    CUTS(WITH(rate, 21), 24, 0, 32, TASHMIROK_FORM);
    CUTS(WITH(format, 4), 24, 0, 32, TASHMIROK_FORM);
    CUTS(WITH(frames, 0), 24, 0, 32, TASHMIROK_FORM);
    CUTS(WITH(frames, 257), 24, 0, 32, TASHMIROK_FORM);
    CUTS(WITH(channels, 0), 24, 0, 32, TASHMIROK_FORM);
    CUTS(WITH(channels, 9), 24, 0, 1464, TASHMIROK_FORM);
    CUTS(WITH(name, NO_NAME), 23, 9, 0, TASHMIROK_FORM);
    CUTS(((struct form){3, 90, 8, 1, HALL4, 0}), 24, 0, 1464, TASHMIROK_FORM); /* the largest is 89 */
    CUTS(FORM_A, 23, 0, 32, TASHMIROK_DATA);
    CUTS(FORM_A, 25, 9, 0, TASHMIROK_DATA);
    CUTS(FORM_A, 0, 0, 32, TASHMIROK_NUMBER);
    CUTS(FORM_A, 24, 1, 32, TASHMIROK_NUMBER);
    CUTS(FORM_A, 24, UINT32_MAX, 0, TASHMIROK_NUMBER);
    CUTS(FORM_A, 24, 0, 31, TASHMIROK_ROOM);
    CUTS(FORM_A, 24, 0, 0, TASHMIROK_ROOM);
}

/* Packet k of a long track of zeros, one frame a packet. */
static void cuts_long(const uint8_t *track, uint64_t packets, uint32_t k, uint8_t due)
{
    lend(&out, 32, 0);
    keep(&out);
    size_t *length = lend(&written, sizeof(size_t), 0);
    uint8_t answer = tashmirok_cut(3, 1, 2, 1, HALL4, 7, track, packets * TASHMIROK_RECORD, k, bytes(&out), 32, length);
    EXPECT(answer == due && within(&out) && within(&written));
    EXPECT(due == 0 ? length_written() == 32 : stays(&out) && zero(&written));
}

/* 2^31 packets can be cut, and not one more. The track is address space that is never written; a machine that does
 * not give it has not tried this, and that is a failure. */
static void check_most_packets(void)
{
    const uint64_t most_packets = (uint64_t)1 << 31, length = (most_packets + 1) * TASHMIROK_RECORD;
    void *track = mmap(NULL, length, PROT_READ, MAP_PRIVATE | MAP_ANONYMOUS | MAP_NORESERVE, -1, 0);
    EXPECT(track != MAP_FAILED && "addresses for a track of 2^31 packets");
    if (track == MAP_FAILED)
        return;
    cuts_long(track, most_packets, 0, TASHMIROK_ACCEPTED);
    cuts_long(track, most_packets, (uint32_t)most_packets - 1, TASHMIROK_ACCEPTED);
    cuts_long(track, most_packets, (uint32_t)most_packets, TASHMIROK_NUMBER);
    cuts_long(track, most_packets + 1, 0, TASHMIROK_NUMBER);
    munmap(track, length);
}

/* ---- Opening, following, the tally. */

static struct lent take, tally, track, laid;

static tashmirok_take *the_take(void)
{
    return (tashmirok_take *)(void *)bytes(&take);
}

static tashmirok_tally *the_tally(void)
{
    return (tashmirok_tally *)(void *)bytes(&tally);
}

static void check_sizes(void)
{
    EXPECT(tashmirok_take_size() > 16 + 4 && tashmirok_take_size() <= MOST);
    EXPECT(tashmirok_tally_size() >= 17 * 4 && tashmirok_tally_size() <= MOST);
    EXPECT(tashmirok_take_size() == tashmirok_take_size());
}

/* A track of garbage and a take opened on it, at places that nothing is aligned to. */
static uint8_t opening(const uint8_t *named, uint32_t address, size_t length)
{
    lend(&take, tashmirok_take_size(), 1);
    lend(&track, length, 5);
    keep(&track);
    uint8_t answer = tashmirok_open(the_take(), named, address, bytes(&track), length);
    EXPECT(within(&take) && within(&track));
    return answer;
}

static void check_open(void)
{
    static const uint8_t *const bad[] = {NO_NAME, BAD_NAME, (const uint8_t *)"\x1F\0\0\0\0\0\0\0\0\0\0\0\0\0\0"};
    for (int i = 0; i < 3; i++) {
        EXPECT(opening(bad[i], DESK, 100) == TASHMIROK_NAME);
        EXPECT(zero(&take) && stays(&track));
    }
    EXPECT(opening(HALL4, DESK, 100) == TASHMIROK_ACCEPTED);
    EXPECT(all(bytes(&track), 96, 0) && all(bytes(&track) + 96, 4, GARBAGE));
    EXPECT(opening(FULL, 0, 23) == TASHMIROK_ACCEPTED);
    EXPECT(stays(&track));
    EXPECT(opening(FULL, UINT32_MAX, 0) == TASHMIROK_ACCEPTED);
}

static void counts(uint32_t to[256])
{
    for (unsigned number = 0; number < 256; number++)
        to[number] = tashmirok_count(the_tally(), (uint8_t)number);
}

/* One count was raised, that of the answer, and holds at the top. */
static int raised(const uint32_t before[256], uint8_t answer)
{
    uint32_t now[256];
    counts(now);
    for (unsigned number = 0; number < 256; number++) {
        uint32_t due = before[number] + (number == answer && before[number] != UINT32_MAX);
        if (now[number] != due)
            return 0;
    }
    return within(&tally);
}

/* Follows what is in `heard`; a refusal gives zeros and leaves take and track. */
static void following(uint32_t address, uint8_t due, int line)
{
    uint32_t before[256];
    counts(before);
    keep(&heard), keep(&take), keep(&track);
    tashmirok_laid *told = lend(&laid, sizeof *told, 0);
    uint8_t answer = tashmirok_follow(the_take(), the_tally(), address, bytes(&heard), heard.length,
                                      bytes(&track), track.length, told);
    expect(answer == due, "the answer of following", line);
    expect(raised(before, due), "one count raised", line);
    expect(stays(&heard) && within(&take) && within(&track) && within(&laid), "bytes around those lent", line);
    if (due != 0)
        expect(zero(&laid) && stays(&take) && stays(&track), "a refusal's zeros, take and track", line);
}
#define FOLLOWS(address, due) following(address, due, __LINE__)

/* Our stream's packet of zero samples. */
static void hear(unsigned frames, unsigned channels, unsigned format, uint32_t counter)
{
    lend(&heard, TASHMIROK_HEADER + frames * channels * (format + 1), 1);
    packet(bytes(&heard), frames, channels, format, counter);
}

/* Packet A with one byte changed. */
static void hear_changed(size_t at, uint8_t byte)
{
    memcpy(lend(&heard, sizeof PACKET_A, 1), PACKET_A, sizeof PACKET_A);
    bytes(&heard)[at] = byte;
}

static int was_laid(uint64_t place, uint64_t frames, uint64_t skipped)
{
    const tashmirok_laid due = {.place = place, .frames = frames, .skipped = skipped};
    return memcmp(bytes(&laid), &due, sizeof due) == 0;
}

static void begin(size_t length)
{
    tashmirok_tally *cleared = lend(&tally, tashmirok_tally_size(), 0);
    tashmirok_clear_tally(cleared);
    uint32_t now[256], none[256] = {0};
    counts(now);
    EXPECT(within(&tally) && memcmp(now, none, sizeof now) == 0);
    EXPECT(opening(HALL4, DESK, length) == TASHMIROK_ACCEPTED);
}

/* Document 01's listing: A, A with counter 9, A with counter 8, and A with counter 10 from another address. */
static void check_listing(void)
{
    begin(24 * 4 + 7);
    hear_changed(24, 7);
    FOLLOWS(DESK, TASHMIROK_ACCEPTED);
    EXPECT(was_laid(0, 1, 0));
    hear_changed(24, 9);
    FOLLOWS(DESK, TASHMIROK_ACCEPTED);
    EXPECT(was_laid(2, 1, 1));
    for (size_t record = 0; record < 4; record++) {
        const uint8_t *at = bytes(&track) + record * TASHMIROK_RECORD;
        int silent = record % 2 == 1;
        EXPECT(silent ? all(at, 24, 0) : memcmp(at, RECORD_A, 6) == 0 && all(at + 6, 18, 0));
    }
    EXPECT(all(bytes(&track) + 96, 7, GARBAGE));
    hear_changed(24, 8);
    FOLLOWS(DESK, TASHMIROK_LATE);
    hear_changed(24, 10);
    FOLLOWS(DESK + 1, TASHMIROK_OTHER_STREAM);
    EXPECT(tashmirok_count(the_tally(), 0) == 2);
}

/* Rows 1 to 12, on a take that was not begun and again on one that was. */
static void refused_alike(void)
{
    memset(lend(&heard, 27, 0), 0, 27);
    FOLLOWS(DESK, TASHMIROK_SHORT);
    lend(&heard, 0, 0);
    FOLLOWS(DESK, TASHMIROK_SHORT);
    memset(lend(&heard, 1465, 0), 0, 1465);
    FOLLOWS(DESK, TASHMIROK_LONG);
    hear_changed(3, 0x4D), FOLLOWS(DESK, TASHMIROK_FOREIGN);
    hear_changed(8, 0x00), FOLLOWS(DESK, TASHMIROK_NAME);
    hear_changed(12, 0x35), FOLLOWS(DESK, TASHMIROK_OTHER_STREAM);
    hear_changed(13, 0x35), FOLLOWS(DESK, TASHMIROK_OTHER_STREAM);
    hear_changed(24, 0x09), FOLLOWS(DESK ^ 0x80000000, TASHMIROK_OTHER_STREAM);
    hear_changed(5, 0x01), FOLLOWS(DESK + 1, TASHMIROK_OTHER_STREAM); /* before the length */
    hear_changed(4, 0x43), FOLLOWS(DESK, TASHMIROK_SUB_PROTOCOL);
    hear_changed(7, 0x21), FOLLOWS(DESK, TASHMIROK_CODEC);
    hear_changed(7, 0x09), FOLLOWS(DESK, TASHMIROK_RESERVED);
    hear_changed(4, 0x1F), FOLLOWS(DESK, TASHMIROK_RATE);
    hear_changed(7, 0x07), FOLLOWS(DESK, TASHMIROK_DATA_TYPE);
    hear_changed(6, 0x02), FOLLOWS(DESK, TASHMIROK_LENGTH);
    hear(1, 9, 1, 50), FOLLOWS(DESK, TASHMIROK_CHANNELS);
}

static void check_refusals(void)
{
    begin(24 * 8);
    refused_alike();
    hear(9, 2, 1, 50), FOLLOWS(DESK, TASHMIROK_BEYOND); /* a first packet that does not fit */
    hear(3, 2, 1, UINT32_MAX), FOLLOWS(DESK, TASHMIROK_ACCEPTED);
    EXPECT(was_laid(0, 3, 0));
    refused_alike();
    hear(4, 2, 1, 0), FOLLOWS(DESK, TASHMIROK_SHAPE);
    hear(3, 3, 1, 0), FOLLOWS(DESK, TASHMIROK_SHAPE);
    hear(3, 2, 2, 0), FOLLOWS(DESK, TASHMIROK_SHAPE);
    hear(3, 2, 1, 0), bytes(&heard)[4] = 4, FOLLOWS(DESK, TASHMIROK_SHAPE);
    hear(3, 2, 1, UINT32_MAX), FOLLOWS(DESK, TASHMIROK_LATE);
    hear(3, 2, 1, 0x7FFFFFFF), FOLLOWS(DESK, TASHMIROK_LATE);
    hear(3, 2, 1, 0x7FFFFFFE), FOLLOWS(DESK, TASHMIROK_BEYOND);
    hear(3, 2, 1, 1), FOLLOWS(DESK, TASHMIROK_BEYOND);
    hear(2, 2, 1, 1), FOLLOWS(DESK, TASHMIROK_ACCEPTED); /* past the wrap, and to the last record */
    EXPECT(was_laid(6, 2, 1));
}

/* The longest packet that a stream of at most 8 channels can have, and datagrams around the longest of all: no packet
 * has 1,464 bytes, as 1,436 is no product of such counts. */
static void check_longest(void)
{
    CUTS(((struct form){3, 205, 7, 0, HALL4, 0}), 24 * 205, 0, TASHMIROK_LONGEST, TASHMIROK_ACCEPTED);
    EXPECT(length_written() == TASHMIROK_LONGEST - 1);
    begin(24 * 256);
    hear(205, 7, 0, 7), FOLLOWS(DESK, TASHMIROK_ACCEPTED);
    packet(lend(&heard, TASHMIROK_LONGEST, 1), 205, 7, 0, 8), FOLLOWS(DESK, TASHMIROK_LENGTH);
    packet(lend(&heard, TASHMIROK_LONGEST + 1, 1), 205, 7, 0, 8), FOLLOWS(DESK, TASHMIROK_LONG);
}

/* A closed take, which is all zero bytes, and one that a bad name closed. */
static void check_state(void)
{
    begin(24 * 8);
    memset(bytes(&take), 0, take.length);
    hear_changed(24, 7), FOLLOWS(DESK, TASHMIROK_STATE);
    lend(&heard, 0, 0), FOLLOWS(0, TASHMIROK_STATE); /* before all other checks */
    EXPECT(opening(BAD_NAME, DESK, 24) == TASHMIROK_NAME);
    hear_changed(24, 7), FOLLOWS(DESK, TASHMIROK_STATE);
    EXPECT(tashmirok_count(the_tally(), TASHMIROK_STATE) == 3);
}

/* Every count of a tally of ones holds: whatever its layout, what `following` asks of counts holds for it too. */
static void check_top(void)
{
    begin(24 * 8);
    memset(bytes(&tally), 0xFF, tally.length);
    EXPECT(tashmirok_count(the_tally(), 0) == UINT32_MAX && tashmirok_count(the_tally(), 16) == UINT32_MAX);
    refused_alike();
    hear(3, 2, 1, 0), FOLLOWS(DESK, TASHMIROK_ACCEPTED);
    hear(3, 2, 1, 0), FOLLOWS(DESK, TASHMIROK_LATE);
    tashmirok_clear_tally(the_tally());
    EXPECT(within(&tally) && tashmirok_count(the_tally(), 0) == 0 && tashmirok_count(the_tally(), 16) == 0);
}

/* ---- The shape of a take. */

/* The shape is given with that answer and these numbers, and the take stays. */
static void shaped(uint8_t due, uint32_t rate, uint32_t channels, uint32_t format, uint32_t frames, int line)
{
    static struct lent shape;
    const uint32_t four[4] = {rate, channels, format, frames};
    keep(&take);
    uint8_t answer = tashmirok_shape(the_take(), lend(&shape, sizeof four, 0));
    int same = memcmp(bytes(&shape), four, sizeof four) == 0;
    expect(answer == due && same && within(&shape) && stays(&take), "the shape of a take", line);
}
#define SHAPED(due, rate, channels, format, frames) shaped(due, rate, channels, format, frames, __LINE__)

/* Each byte of a begun take at its highest: the shape is refused where following refuses the take. */
static void broken_shapes(void)
{
    uint8_t whole[MOST];
    memcpy(whole, bytes(&take), take.length);
    unsigned refused = 0;
    for (size_t i = 0; i < take.length; i++) {
        static struct lent shape;
        bytes(&take)[i] = 0xFF;
        uint8_t answer = tashmirok_shape(the_take(), lend(&shape, 4 * sizeof(uint32_t), 0));
        lend(&heard, 0, 0), FOLLOWS(DESK, answer == TASHMIROK_STATE ? TASHMIROK_STATE : TASHMIROK_SHORT);
        EXPECT(answer == TASHMIROK_STATE ? zero(&shape) : answer == 0 && !zero(&shape));
        refused += answer == TASHMIROK_STATE;
        memcpy(bytes(&take), whole, take.length);
    }
    EXPECT(refused >= 4 && refused < take.length); /* of rate, channels, type and N at least one byte each */
}

/* A take that was never opened, one that a bad name closed, one not begun, and one begun. */
static void check_shape(void)
{
    begin(24 * 300);
    SHAPED(TASHMIROK_ACCEPTED, 0, 0, 0, 0);
    refused_alike();
    SHAPED(TASHMIROK_ACCEPTED, 0, 0, 0, 0);
    hear(256, 2, 1, 7), FOLLOWS(DESK, TASHMIROK_ACCEPTED);
    SHAPED(TASHMIROK_ACCEPTED, 3, 2, 1, 256);
    hear(5, 2, 1, 8), FOLLOWS(DESK, TASHMIROK_ACCEPTED); /* a short last packet */
    SHAPED(TASHMIROK_ACCEPTED, 3, 2, 1, 256);
    broken_shapes();
    memset(bytes(&take), 0, take.length);
    SHAPED(TASHMIROK_STATE, 0, 0, 0, 0);
    EXPECT(opening(BAD_NAME, DESK, 24) == TASHMIROK_NAME);
    SHAPED(TASHMIROK_STATE, 0, 0, 0, 0);
    begin(24 * 8);
    hear(3, 8, 3, 0), bytes(&heard)[4] = 20, FOLLOWS(DESK, TASHMIROK_ACCEPTED);
    SHAPED(TASHMIROK_ACCEPTED, 20, 8, 3, 3);
}

int main(void)
{
    check_constants();
    check_numbers();
    check_rate();
    check_convert();
    check_largest();
    check_read();
    check_read_lengths();
    check_write();
    check_cut();
    check_most_packets();
    check_sizes();
    check_open();
    check_listing();
    check_refusals();
    check_longest();
    check_state();
    check_top();
    check_shape();
    printf("%u passed, %u failed\n", passed, failed);
    return failed != 0 || passed == 0;
}
