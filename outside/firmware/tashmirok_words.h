/* tashmirok_words.h: what each answer says in words. A list of number, name and meaning, to be expanded by a macro of
 * your own; nothing of it is in the archive, so a box that does not speak has no room to give for it.
 *
 *     #define NAMED(number, name, meaning) case number: return name;
 *     switch (answer) { TASHMIROK_WORDS(NAMED) }
 */
#ifndef TASHMIROK_WORDS_H
#define TASHMIROK_WORDS_H

#define TASHMIROK_WORDS(ANSWER)                                                                           \
    ANSWER(0, "Accepted", "done as asked; a packet lies at its place in the track")                       \
    ANSWER(1, "Short", "under 28 bytes, too short for a header")                                          \
    ANSWER(2, "Long", "over 1,464 bytes")                                                                 \
    ANSWER(3, "Foreign", "does not start with the letters VBAN")                                          \
    ANSWER(4, "Name", "its stream name breaks the rule")                                                  \
    ANSWER(5, "Other stream", "not our name or not our address")                                          \
    ANSWER(6, "Sub protocol", "VBAN, but not audio")                                                      \
    ANSWER(7, "Codec", "not plain PCM samples")                                                           \
    ANSWER(8, "Reserved", "a bit is set that has to be zero")                                             \
    ANSWER(9, "Rate", "no such sample rate")                                                              \
    ANSWER(10, "Data type", "samples of a type that is not handled")                                      \
    ANSWER(11, "Length", "not as long as its header says")                                                \
    ANSWER(12, "Channels", "more than 8 channels")                                                        \
    ANSWER(13, "Shape", "rate, channels or type changed, or more frames")                                 \
    ANSWER(14, "Late", "not newer than the newest one laid down")                                         \
    ANSWER(15, "Beyond", "past the end of the track")                                                     \
    ANSWER(16, "State", "the take is closed, or has a name or a shape that no stream has")                \
    ANSWER(20, "Form", "a rate, type, frame or channel count, or name that no packet has")                \
    ANSWER(21, "Big", "over 1,436 data bytes")                                                            \
    ANSWER(22, "Data", "samples not of the size that the counts say, or a track not of whole records")    \
    ANSWER(23, "Room", "the output is too short")                                                         \
    ANSWER(24, "Number", "no frames, more than 2^31 packets, or no packet of that number")                \
    ANSWER(26, "Sample", "a number that its data type does not have")

#endif
