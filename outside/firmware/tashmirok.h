/* tashmirok.h: the recorder box's library for C and C++.
 *
 * The box hears VBAN audio datagrams and lays one stream (a take) down as a track. This library decides: it gets
 * bytes and gives bytes. It opens no socket, allocates nothing and keeps nothing between calls.
 *
 * Answers. Every call but sizes, count and clear gets one: 0, or the number of the first check that refuses, in the
 * order that stands at the function. A refusal puts zeros into every output named "gives", and leaves take, track and
 * out as they were, but for two: opening's refusal gives a closed take, and in following the tally moves. No caller
 * has to look first: every number and every byte may be handed in.
 *
 * What the caller owes:
 * - Every pointer is good, also where the length beside it is 0, and has as many bytes or elements behind it as the
 *   length or the array says. It is aligned as its type asks; bytes and takes may stand anywhere, a tally on 4.
 * - What a call writes overlaps nothing else that is handed to the same call.
 * - No other thread writes what a call reads, or reads what it writes, while the call lasts.
 *
 * Takes and tallies are plain bytes: copy and keep them as you like, for the same version of the library only.
 *
 * A track is records of 24 bytes, one a frame: eight slots of three bytes, signed 24-bit, little-endian; slots past
 * the stream's channels are zero. A lent track holds as many records as its length divided by 24, rounded down; bytes
 * past the last whole record are never written.
 *
 * Data types ("format"): 0 unsigned 8-bit, 1, 2 and 3 signed 16, 24 and 32-bit. A name is 16 bytes: 1 to 16
 * characters, each 20 to 7E hex, ended by a zero byte if there are fewer than 16; what follows that does not count.
 */
#ifndef TASHMIROK_H
#define TASHMIROK_H

#include <stddef.h>
#include <stdint.h>

#ifdef __cplusplus
extern "C" {
#endif

enum {
    TASHMIROK_RECORD = 24,    /* bytes of a frame in a track */
    TASHMIROK_HEADER = 28,    /* bytes before a datagram's data */
    TASHMIROK_LONGEST = 1464, /* bytes of the longest datagram */
    TASHMIROK_TAKE_SIZE = 40, /* bytes of a take */
    TASHMIROK_TALLY_SIZE = 68 /* bytes of a tally */
};

/* The answers' numbers; tashmirok_words.h says each in words. 0 to 16 have a count in the tally. */
enum tashmirok_answer {
    TASHMIROK_ACCEPTED = 0,
    TASHMIROK_SHORT = 1,
    TASHMIROK_LONG = 2,
    TASHMIROK_FOREIGN = 3,
    TASHMIROK_NAME = 4,
    TASHMIROK_OTHER_STREAM = 5,
    TASHMIROK_SUB_PROTOCOL = 6,
    TASHMIROK_CODEC = 7,
    TASHMIROK_RESERVED = 8,
    TASHMIROK_RATE = 9,
    TASHMIROK_DATA_TYPE = 10,
    TASHMIROK_LENGTH = 11,
    TASHMIROK_CHANNELS = 12,
    TASHMIROK_SHAPE = 13,
    TASHMIROK_LATE = 14,
    TASHMIROK_BEYOND = 15,
    TASHMIROK_STATE = 16,
    TASHMIROK_FORM = 20,
    TASHMIROK_BIG = 21,
    TASHMIROK_DATA = 22,
    TASHMIROK_ROOM = 23,
    TASHMIROK_NUMBER = 24,
    TASHMIROK_SAMPLE = 26
};

/* A take is one stream being followed; a tally has one count for each answer of following. Both are opaque: give each
 * as many bytes as its size says, the tally aligned to 4. Later versions may need more bytes: the functions say what
 * the archive needs, the constants above what it needed when this header was written.
 * A take of all zero bytes is closed, and following answers 16. Bytes that were never opened may look like any take:
 * zero them first. */
typedef struct tashmirok_take tashmirok_take;
typedef struct tashmirok_tally tashmirok_tally;

size_t tashmirok_take_size(void);
size_t tashmirok_tally_size(void);

/* Opens a take for a stream's name and its sender's address, and clears every whole record of the track. The address
 * is the four bytes of the IPv4 address, read in whichever order you always read them.
 * Answers: 4 for a bad name; the take is then all zero bytes and the track stays. Otherwise 0. */
uint8_t tashmirok_open(tashmirok_take *take, const uint8_t name[16], uint32_t address,
                       uint8_t *track, size_t track_length);

/* What following tells of a packet that is accepted. Later versions name more of its words. */
typedef struct tashmirok_laid {
    uint64_t place;     /* the first frame's place in the track */
    uint64_t frames;    /* the number of frames */
    uint64_t skipped;   /* the packets skipped before it */
    uint64_t spare[5];  /* zero */
} tashmirok_laid;

/* Follows one datagram of any length from an address. Where it is accepted, its frames are laid into the track and
 * the take goes on; hand in the track that the take was opened on. One count of the tally is raised, the answer's,
 * which holds at 4,294,967,295.
 * Gives laid.
 * Answers: 16, then 1 to 15 in order, else 0. */
uint8_t tashmirok_follow(tashmirok_take *take, tashmirok_tally *tally, uint32_t address,
                         const uint8_t *datagram, size_t length,
                         uint8_t *track, size_t track_length, tashmirok_laid *laid);

/* Sets every count of a tally to 0. One that was never cleared counts on from whatever stood there. */
void tashmirok_clear_tally(tashmirok_tally *tally);

/* The count of an answer's number; 0 for a number that has none. */
uint32_t tashmirok_count(const tashmirok_tally *tally, uint8_t number);

/* Reads one datagram of any length, for whichever stream.
 * Gives fields: rate index, frames, channels, data type, counter; the name, zeros filling it; and size, the number
 * of data bytes, which start at byte 28.
 * Answers: 1 to 4, then 6 to 11 in order, else 0. */
uint8_t tashmirok_read(const uint8_t *datagram, size_t length,
                       uint32_t fields[5], uint8_t name[16], size_t *size);

/* Writes one packet at the start of out; bytes past it stay. Samples are the data as they are sent.
 * Gives written: the packet's length.
 * Answers: 20 (rate over 20, type over 3, frames or channels outside 1 to 256, bad name), 21, 22, 23, else 0. */
uint8_t tashmirok_write(uint8_t rate, uint16_t frames, uint16_t channels, uint8_t format,
                        const uint8_t name[16], uint32_t counter,
                        const uint8_t *samples, size_t samples_length,
                        uint8_t *out, size_t out_length, size_t *written);

/* Cuts packet k, counted from 0, of a track into packets of so many frames, the last with what is left, and writes it
 * at the start of out; bytes past it stay. Its counter is start + k, modulo 2^32. Each sample is the nearest that the
 * data type has, the even one at a tie.
 * Gives written: the packet's length; TASHMIROK_LONGEST bytes are always room enough.
 * Answers: 20 (as in writing; channels over 8; frames over the largest), 22, 24, 23, else 0. */
uint8_t tashmirok_cut(uint8_t rate, uint16_t frames, uint16_t channels, uint8_t format,
                      const uint8_t name[16], uint32_t start,
                      const uint8_t *track, size_t track_length, uint32_t k,
                      uint8_t *out, size_t out_length, size_t *written);

/* Gives the most frames that a packet of a data type and so many channels can have.
 * Answers: 20 for a type over 3 or channels outside 1 to 256, else 0. */
uint8_t tashmirok_largest(uint8_t format, uint16_t channels, uint16_t *frames);

/* Gives the rate of an index, in Hz. Answers: 9 for an index over 20, else 0. */
uint8_t tashmirok_rate(uint8_t index, uint32_t *hertz);

/* Gives a number of one data type as the nearest number of another, the even one at a tie.
 * Answers: 20 for a type over 3, then 26 for a number that its type does not have, else 0. */
uint8_t tashmirok_convert(uint8_t from, uint8_t to, int64_t number, int64_t *converted);

/* Gives what a take's first packet has fixed: rate index, channels, data type and N, the frames of that packet. All
 * four are 0 before the first packet is accepted, and N never after it.
 * Answers: 16, else 0. */
uint8_t tashmirok_shape(const tashmirok_take *take, uint32_t shape[4]);

#ifdef __cplusplus
}
#endif

#endif
