/* What calls of the library take: the least time of a round of them, again and again.
 *
 *     calls run library NAME MS FILE    board_version, standings, screen or screen_json of each board of a file
 *     calls run c next_word MS          a plain C function with the checks of uclboard_next_word, on random events
 *     calls run library next_word MS    the call on the same events
 *
 * Prints a line of JSON: how many calls a round has, the nanoseconds of the least round, and the sum of what a round answers.
 */
#define _POSIX_C_SOURCE 199309L
#include "uclboard.h"
#include "next_word.h"
#include <inttypes.h>
#include <stdio.h>
#include <stdlib.h>
#include <string.h>
#include <time.h>

enum { MOST_BOARDS = 1000 };

/* On the heap, as those of `ucl_bench` are: if nothing else is there, a call that frees all that it has asked for leaves malloc more to do. */
static uint64_t (*boards)[UCLBOARD_WORDS];
static size_t count;
static const uclboard_club clubs[UCLBOARD_CLUBS] = {{"Alpha", 5, 60000}, {"Bravo", 5, 95000}, {"Charlie", 7, 60000}, {"Delta", 5, 81500}};
static char text[4096];
static size_t length;
static uint32_t at;

static void need(uclboard_status status) {
    if (status == UCLBOARD_DONE) return;
    fprintf(stderr, "calls: status %" PRIu32 "\n", status);
    exit(1);
}

static uint64_t version_of(const uint64_t *words) {
    uint32_t version;
    need(uclboard_board_version(words, UCLBOARD_WORDS, &version, &at));
    return version;
}

static uint64_t table_of(const uint64_t *words) {
    static const uint32_t coefficients[UCLBOARD_CLUBS] = {60000, 95000, 60000, 81500};
    uclboard_row rows[UCLBOARD_CLUBS];
    need(uclboard_standings(words, UCLBOARD_WORDS, coefficients, UCLBOARD_CLUBS, UCLBOARD_UEFA, rows, UCLBOARD_CLUBS, &at));
    return rows[0].slot;
}

static uint64_t screen_of(const uint64_t *words) {
    need(uclboard_screen(words, UCLBOARD_WORDS, clubs, UCLBOARD_CLUBS, 'A', UCLBOARD_UEFA, text, sizeof text, &length, &at));
    return length;
}

static uint64_t json_of(const uint64_t *words) {
    need(uclboard_screen_json(9, words, UCLBOARD_WORDS, clubs, UCLBOARD_CLUBS, 'A', UCLBOARD_UEFA, text, sizeof text, &length, &at));
    return length;
}

static uint64_t (*call)(const uint64_t *);

static uint64_t over_boards(void) {
    uint64_t sum = 0;
    for (size_t i = 0; i < count; i++) sum += call(boards[i]);
    return sum;
}

static uint64_t of_plain(void) { return entered(plain_next_word); }

static uint64_t of_library(void) { return entered(uclboard_next_word); }

static void read_boards(const char *path) {
    FILE *file = fopen(path, "r");
    boards = malloc(MOST_BOARDS * sizeof *boards);
    if (file == NULL || boards == NULL) exit(1);
    for (size_t i = 0; i < MOST_BOARDS * UCLBOARD_WORDS; i++)
        if (fscanf(file, "%" SCNx64, &boards[i / UCLBOARD_WORDS][i % UCLBOARD_WORDS]) != 1) exit(1);
    count = MOST_BOARDS;
    fclose(file);
}

static uint64_t nanoseconds(void) {
    struct timespec now;
    clock_gettime(CLOCK_MONOTONIC, &now);
    return (uint64_t)now.tv_sec * UINT64_C(1000000000) + (uint64_t)now.tv_nsec;
}

static int measure(uint64_t (*round)(void), size_t calls, uint64_t millis) {
    uint64_t least = UINT64_MAX, sum, end = nanoseconds() + millis * UINT64_C(1000000);
    do {
        uint64_t begun = nanoseconds(), took;
        sum = round();
        took = nanoseconds() - begun;
        if (took < least) least = took;
    } while (nanoseconds() < end);
    printf("{\"calls\":%zu,\"least_ns\":%" PRIu64 ",\"answers\":%" PRIu64 "}\n", calls, least, sum);
    return 0;
}

int main(int argc, char **argv) {
    static const struct {
        const char *name;
        uint64_t (*call)(const uint64_t *);
    } calls[] = {{"board_version", version_of}, {"standings", table_of}, {"screen", screen_of}, {"screen_json", json_of}};
    if (argc < 5) return 2;
    if (strcmp(argv[3], "next_word") == 0) {
        make_events();
        return measure(strcmp(argv[2], "c") == 0 ? of_plain : of_library, EVENTS, strtoull(argv[4], NULL, 10));
    }
    for (size_t i = 0; i < sizeof calls / sizeof *calls; i++)
        if (argc == 6 && strcmp(calls[i].name, argv[3]) == 0) {
            call = calls[i].call;
            read_boards(argv[5]);
            return measure(over_boards, count, strtoull(argv[4], NULL, 10));
        }
    return 2;
}
