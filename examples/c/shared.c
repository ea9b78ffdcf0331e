/* A night in C11 on a board of the library's: two reporters and two screens in threads of their own, each with a handle.
 *
 *     cc -std=c11 -pthread shared.c -I FOLDER FOLDER/libuclboard.a -o shared && ./shared A < ../first_night.csv
 *
 * It reads a script, and writes the closing screen, as `ucl_night night` does. Reports and readings are the library's, and proved. `night.c` does
 * the same over twelve words of its own.
 */
#include "script.h"
#include <pthread.h>

#define READINGS 50
#define SCREENS 2

static uclboard_pass *reporters[REPORTERS], *screens[SCREENS];
static uint32_t group = 'A', profile = UCLBOARD_UEFA;

/* Enters the events of one reporter, in turn, by its handle. An event that the rules refuse is not entered again. */
static void *reporter(void *which) {
    const size_t i = *(const size_t *)which;
    uint32_t number = 0;
    for (size_t k = 0; k < events_length; k++)
        if (events[k].reporter == i + 1) {
            uclboard_status status = uclboard_pass_report(&reporters[i], events[k].match, events[k].expected, events[k].kind, &number);
            if (status > UCLBOARD_NOT_FINISHED) need(status);
        }
    return NULL;
}

/* Writes the screen of the board as a handle reads it now, and returns its version. */
static uint32_t screen(uclboard_pass **pass, char *text) {
    uint64_t words[UCLBOARD_WORDS];
    uint32_t version, sum, at;
    size_t length;
    need(uclboard_pass_read(pass, words, UCLBOARD_WORDS, &version));
    need(uclboard_board_version(words, UCLBOARD_WORDS, &sum, &at));
    if (sum != version) END_WITH(1, "words of no one moment\n");
    need(uclboard_screen(words, UCLBOARD_WORDS, clubs, UCLBOARD_CLUBS, group, profile, text, UCLBOARD_SCREEN_ROOM, &length, &at));
    return version;
}

static void *reader(void *which) {
    char text[UCLBOARD_SCREEN_ROOM];
    uint32_t seen = 0;
    for (int i = 0; i < READINGS; i++) {
        uint32_t version = screen(&screens[*(const size_t *)which], text);
        if (version < seen) END_WITH(1, "a version has fallen\n");
        seen = version;
    }
    return NULL;
}

/* A new board, and the handles of its threads. */
static void open_board(uclboard_pass **first) {
    need(uclboard_open(first));
    for (size_t i = 0; i < REPORTERS; i++) need(uclboard_pass_enlist(first, &reporters[i]));
    for (size_t i = 0; i < SCREENS; i++) need(uclboard_pass_split(first, &screens[i]));
}

static void close_board(uclboard_pass **first) {
    for (size_t i = 0; i < REPORTERS; i++) uclboard_pass_drop(&reporters[i]);
    for (size_t i = 0; i < SCREENS; i++) uclboard_pass_drop(&screens[i]);
    uclboard_pass_drop(first);
}

int main(int argc, char **argv) {
    static const size_t places[] = {0, 1};
    uclboard_pass *first = NULL;
    pthread_t threads[REPORTERS + SCREENS];
    char text[UCLBOARD_SCREEN_ROOM];
    if (argc > 1) group = (unsigned char)argv[1][0];
    if (argc > 2 && strcmp(argv[2], "away-in-tie") == 0) profile = UCLBOARD_AWAY_IN_TIE;
    if (uclboard_version() / 1000000 != UCLBOARD_VERSION_NUMBER / 1000000) END_WITH(1, "another version of the library\n");
    read_night();
    open_board(&first);
    for (size_t i = 0; i < REPORTERS; i++)
        if (pthread_create(&threads[i], NULL, reporter, (void *)&places[i])) END_WITH(5, "no thread 27\n");
    for (size_t i = 0; i < SCREENS; i++)
        if (pthread_create(&threads[REPORTERS + i], NULL, reader, (void *)&places[i])) END_WITH(5, "no thread 27\n");
    for (size_t i = 0; i < REPORTERS + SCREENS; i++) pthread_join(threads[i], NULL);
    screen(&first, text);
    printf("FINAL\n%s", text);
    close_board(&first);
    return 0;
}
