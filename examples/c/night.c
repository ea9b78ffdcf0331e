/* A night in C11: two reporters and two screens in threads of their own, over twelve words in atomics.
 *
 *     cc -std=c11 -pthread night.c -I FOLDER FOLDER/libuclboard.a -o night && ./night A < ../first_night.csv
 *
 * It reads a script, and writes the closing screen, as `ucl_night night` does. The library answers the next word of a match. The loop that
 * exchanges a word, and the two equal rounds of a reading, stand here, and nothing is proved of them.
 */
#include "script.h"
#include <pthread.h>
#include <stdatomic.h>

#define READINGS 50

static _Atomic uint64_t board[UCLBOARD_WORDS];
static uint32_t group = 'A', profile = UCLBOARD_UEFA;

/* Enters an event: where another thread has changed the word in between, it is judged again on the word that is there now. */
static uclboard_status report(const event *what) {
    _Atomic uint64_t *place = &board[what->match - 1];
    uint64_t word = atomic_load(place), next = 0;
    uint32_t found = 0;
    for (;;) {
        uclboard_status status = uclboard_next_word(word, what->reporter, what->expected, what->kind, &next, &found);
        if (status != UCLBOARD_DONE || atomic_compare_exchange_strong(place, &word, next)) return status;
    }
}

static void *reporter(void *number) {
    for (size_t i = 0; i < events_length; i++)
        if (events[i].reporter == *(const uint32_t *)number) {
            const uclboard_status status = report(&events[i]);
            if (status > UCLBOARD_NOT_FINISHED) need(status);
        }
    return NULL;
}

/* Reads all twelve words until two rounds after one another are equal: then the words are those of one moment. */
static void collect(uint64_t *words) {
    uint64_t again[UCLBOARD_WORDS];
    do {
        for (size_t i = 0; i < UCLBOARD_WORDS; i++) words[i] = atomic_load(&board[i]);
        for (size_t i = 0; i < UCLBOARD_WORDS; i++) again[i] = atomic_load(&board[i]);
    } while (memcmp(words, again, sizeof again) != 0);
}

/* Writes the screen of the board as it is now, and returns its version. */
static uint32_t screen(char *text) {
    uint64_t words[UCLBOARD_WORDS];
    uint32_t version, at;
    size_t length;
    collect(words);
    need(uclboard_screen(words, UCLBOARD_WORDS, clubs, UCLBOARD_CLUBS, group, profile, text, UCLBOARD_SCREEN_ROOM, &length, &at));
    need(uclboard_board_version(words, UCLBOARD_WORDS, &version, &at));
    return version;
}

static void *reader(void *unused) {
    char text[UCLBOARD_SCREEN_ROOM];
    uint32_t seen = 0;
    for (int i = 0; i < READINGS; i++) {
        uint32_t version = screen(text);
        if (version < seen) END_WITH(1, "a version has fallen\n");
        seen = version;
    }
    return unused;
}

int main(int argc, char **argv) {
    static uint32_t numbers[2] = {1, 2};
    pthread_t threads[4];
    char text[UCLBOARD_SCREEN_ROOM];
    if (argc > 1) group = (unsigned char)argv[1][0];
    if (argc > 2 && strcmp(argv[2], "away-in-tie") == 0) profile = UCLBOARD_AWAY_IN_TIE;
    if (uclboard_version() / 1000000 != UCLBOARD_VERSION_NUMBER / 1000000) END_WITH(1, "another version of the library\n");
    for (size_t i = 0; i < UCLBOARD_WORDS; i++) atomic_init(&board[i], UCLBOARD_SCHEDULED_WORD);
    read_night();
    for (size_t i = 0; i < 2; i++)
        if (pthread_create(&threads[i], NULL, reporter, &numbers[i]) || pthread_create(&threads[i + 2], NULL, reader, NULL))
            END_WITH(5, "no thread 27\n");
    for (size_t i = 0; i < 4; i++) pthread_join(threads[i], NULL);
    screen(text);
    printf("FINAL\n%s", text);
    return 0;
}
