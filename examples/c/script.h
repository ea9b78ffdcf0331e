/* A script for the examples in C, from standard input. The library judges it, and its faults are told as `ucl_night` tells them, with its status. */
#ifndef SCRIPT_H
#define SCRIPT_H

#include "uclboard.h"
#include <inttypes.h>
#include <stdio.h>
#include <stdlib.h>
#include <string.h>

#define MOST_BYTES 4194304
#define REPORTERS 2
#define END_WITH(status, ...) (fprintf(stderr, __VA_ARGS__), exit(status))

typedef struct {
    uint32_t reporter, match, expected, kind;
} event;

static char script[MOST_BYTES + 2]; /* one byte more than a script may have, so that a longer one is refused, and a zero */
static uclboard_club clubs[UCLBOARD_CLUBS];
static uint64_t played[UCLBOARD_WORDS]; /* the board after the events in turn */
static uclboard_reply *replies;         /* what became of each event in turn */
static event *events;
static size_t events_length;

/* Ends the program where a call was not done, by the name of its status. */
static inline void need(uclboard_status status) {
    char name[UCLBOARD_NAME_ROOM] = "?";
    size_t length;
    if (status == UCLBOARD_DONE) return;
    if (uclboard_text_of_status(status, name, sizeof name, &length) != UCLBOARD_DONE) name[0] = '?';
    END_WITH(1, "%" PRIu32 " %s\n", status, name);
}

static inline void *room_for(size_t count, size_t size) {
    void *room = malloc(count * size);
    if (room == NULL) END_WITH(5, "out of memory 23\n");
    return room;
}

/* Plays the script: a script has at most one event more than it has line feeds and carriage returns. */
static inline void read_script(void) {
    uint32_t at = 0;
    size_t room = 1;
    const size_t length = fread(script, 1, MOST_BYTES + 1, stdin);
    if (ferror(stdin)) END_WITH(4, "reading failed 22: after %zu bytes\n", length);
    for (size_t i = 0; i < length; i++) room += script[i] == '\n' || script[i] == '\r';
    replies = room_for(room, sizeof *replies);
    uclboard_status status =
        uclboard_script(script, length, clubs, UCLBOARD_CLUBS, played, UCLBOARD_WORDS, replies, room, &events_length, &at);
    if (status == UCLBOARD_BAD_ROW) END_WITH(3, "input refused 20: row %" PRIu32 "\n", at);
    if (status == UCLBOARD_BAD_ROSTER) END_WITH(3, "input refused 21: slot %" PRIu32 "\n", at);
    if (status == UCLBOARD_TOO_LONG) END_WITH(3, "input refused 24: too long\n");
    if (status == UCLBOARD_OUT_OF_MEMORY) END_WITH(5, "out of memory 23\n");
    need(status);
}

static inline uint32_t kind_of(const char *word) {
    static const char *const kinds[] = {"kickoff",       "goal-home",          "goal-away",          "disallow-home", "disallow-away",
                                        "yellow-home",   "yellow-away",        "second-yellow-home", "second-yellow-away",
                                        "red-home",      "red-away",           "fulltime",           "reopen"};
    uint32_t kind = 0;
    while (kind < sizeof kinds / sizeof *kinds && strcmp(kinds[kind], word) != 0) kind++;
    return kind; /* one that is not here is refused by the library as no kind */
}

/* The event of a good row, which has no quote but those around a field. */
static inline event event_of(char *row) {
    event made = {0};
    char word[20] = "", *end = row;
    for (const char *from = row; *from != 0; from++)
        if (*from != '"') *end++ = *from;
    *end = 0;
    if (sscanf(row, "%" SCNu32 ",%" SCNu32 ",%" SCNu32 ",%19s", &made.reporter, &made.match, &made.expected, word) != 4) abort();
    made.kind = kind_of(word);
    return made;
}

/* The script, and its events one by one, all of which are of reporters 1 and 2. A good row has no line end within it. */
static inline void read_night(void) {
    size_t row = 0;
    read_script();
    events = room_for(events_length + 1, sizeof *events);
    for (char *line = strtok(script + 3 * !strncmp(script, "\xef\xbb\xbf", 3), "\r\n"); line; line = strtok(NULL, "\r\n"), row++)
        if (row >= UCLBOARD_CLUBS) events[row - UCLBOARD_CLUBS] = event_of(line);
    for (size_t i = 0; i < events_length; i++)
        if (events[i].reporter > REPORTERS) END_WITH(3, "input refused 25: row %" PRIu32 "\n", replies[i].row);
}

#endif
