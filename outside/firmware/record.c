/* A box on a loopback network: hears datagrams on a UDP port, follows one stream, and says what came of it.
 *
 *     record NAME ADDRESS SECONDS FILE
 *
 * It prints the port that it was given, follows the stream of that name from that address until nothing comes for so
 * many seconds, prints how often each answer came, and writes the track as far as it was laid down. */
#define _DEFAULT_SOURCE /* sockets and their times */
#include <arpa/inet.h>
#include <errno.h>
#include <stdio.h>
#include <stdlib.h>
#include <string.h>
#include <sys/socket.h>
#include <sys/time.h>

#include "tashmirok_words.h"

/* README.md shows what follows. */
#include "tashmirok.h"

static uint8_t track[48000 * 60 * TASHMIROK_RECORD];     /* a minute at 48,000 Hz */
static uint8_t take_room[TASHMIROK_TAKE_SIZE];
static uint32_t tally_room[TASHMIROK_TALLY_SIZE / 4];
static tashmirok_take *const take = (tashmirok_take *)take_room;
static tashmirok_tally *const tally = (tashmirok_tally *)tally_room;

/* Follows one stream until no datagram comes; gives the number of frames up to the last that was laid down. */
static uint64_t record(int hall, const uint8_t name[16], uint32_t desk)
{
    uint8_t datagram[TASHMIROK_LONGEST + 1];             /* with room for one byte too many, so that 2 can be told */
    struct sockaddr_in sender;
    socklen_t size = sizeof sender;
    tashmirok_laid laid;                                 /* place, frames, packets skipped before */
    uint64_t end = 0;

    tashmirok_clear_tally(tally);
    if (tashmirok_open(take, name, desk, track, sizeof track) != TASHMIROK_ACCEPTED)
        return 0;                                        /* no stream can have that name */
    for (;;) {
        ssize_t length = recvfrom(hall, datagram, sizeof datagram, 0, (struct sockaddr *)&sender, &size);
        if (length < 0 && errno == EINTR)
            continue;                                    /* a signal came, and the talk goes on */
        if (length < 0)
            return end;
        if (tashmirok_follow(take, tally, sender.sin_addr.s_addr, datagram, (size_t)length,
                             track, sizeof track, &laid) == TASHMIROK_ACCEPTED)
            end = laid.place + laid.frames;
    }
}
/* README.md shows what stands before this. */

/* A socket on a port of the system's choice, which gives up after so many seconds in which nothing comes. */
static int listening(time_t seconds)
{
    int hall = socket(AF_INET, SOCK_DGRAM, 0);
    struct sockaddr_in here = {.sin_family = AF_INET, .sin_addr.s_addr = htonl(INADDR_LOOPBACK)};
    struct timeval quiet = {.tv_sec = seconds};
    socklen_t size = sizeof here;
    if (hall < 0 || bind(hall, (struct sockaddr *)&here, size) != 0 ||
        setsockopt(hall, SOL_SOCKET, SO_RCVTIMEO, &quiet, sizeof quiet) != 0 ||
        getsockname(hall, (struct sockaddr *)&here, &size) != 0)
        return -1;
    printf("port %u\n", ntohs(here.sin_port));
    fflush(stdout);
    return hall;
}

static void say(uint8_t number, const char *name, const char *meaning)
{
    uint32_t times = tashmirok_count(tally, number);
    if (times != 0)
        printf("%2u %-12s %6u  %s\n", number, name, times, meaning);
}

int main(int count, char **words)
{
    uint8_t name[16] = {0};
    if (count != 5 || strlen(words[1]) > sizeof name)
        return 2;
    memcpy(name, words[1], strlen(words[1]));
    int hall = listening(atoi(words[3]));
    FILE *file = fopen(words[4], "wb");
    if (hall < 0 || file == NULL)
        return 1;
    uint64_t end = record(hall, name, inet_addr(words[2]));
    size_t written = fwrite(track, TASHMIROK_RECORD, end, file);
#define SAY(number, name, meaning) say(number, name, meaning);
    TASHMIROK_WORDS(SAY)
    return fclose(file) != 0 || written != end;
}
