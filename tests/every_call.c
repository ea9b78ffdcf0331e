/* Makes each call of the library once, on the script that standard input has, and tells what it gives. It is a program in C and one in C++;
   `every_call.rs` and `test_interface.py` make the same calls in Rust and in Python. */
#include "uclboard.h"
#include <inttypes.h>
#include <stdio.h>
#include <stdlib.h>

/* Ends the program where a call was not done as it has to be. */
static void need(uclboard_status status, uclboard_status wanted) {
    if (status == wanted) return;
    printf("status %" PRIu32 "\n", status);
    exit(1);
}

static void of_a_match(void) {
    uint64_t next = 0, read = 0;
    uint32_t found = 0;
    uclboard_match it;
    need(uclboard_next_word(UCLBOARD_SCHEDULED_WORD, 2, 0, UCLBOARD_KICK_OFF, &next, &found), UCLBOARD_DONE);
    need(uclboard_next_word(next, 2, 9, UCLBOARD_GOAL_AWAY, &next, &found), UCLBOARD_STALE);
    need(uclboard_read_word(UINT64_C(0x003ffffffffffbff), &read), UCLBOARD_DONE);
    need(uclboard_match_of(read, &it), UCLBOARD_DONE);
    printf("next %016" PRIx64 " found %" PRIu32 "\nread %016" PRIx64 " %" PRIu32 " %" PRIu32 "\n", next, found, read, it.number, it.reporter);
}

static void of_words(const uint64_t *words, const uclboard_club *clubs) {
    uint32_t version = 0, at = 0, coefficients[4];
    uclboard_row rows[4];
    char text[UCLBOARD_SCREEN_ROOM], line[UCLBOARD_JSON_ROOM];
    size_t length = 0;
    for (int i = 0; i < 4; i++) coefficients[i] = clubs[i].coefficient;
    need(uclboard_board_version(words, 12, &version, &at), UCLBOARD_DONE);
    printf("version %" PRIu32 "\n", version);
    need(uclboard_standings(words, 12, coefficients, 4, UCLBOARD_AWAY_IN_TIE, rows, 4, &at), UCLBOARD_DONE);
    for (int i = 0; i < 4; i++) printf("row %" PRIu32 " %" PRIu32 "\n", rows[i].slot, rows[i].points);
    need(uclboard_screen_length(words, 12, clubs, 4, 'C', UCLBOARD_AWAY_IN_TIE, &length, &at), UCLBOARD_DONE);
    printf("length %zu\n", length);
    need(uclboard_screen(words, 12, clubs, 4, 'C', UCLBOARD_AWAY_IN_TIE, text, sizeof text, &length, &at), UCLBOARD_DONE);
    printf("%zu %s", length, text);
    need(uclboard_screen_json(77, words, 12, clubs, 4, 'C', UCLBOARD_AWAY_IN_TIE, line, sizeof line, &length, &at), UCLBOARD_DONE);
    printf("%zu %s", length, line);
}

static void of_a_script(void) {
    static char script[1 << 20];
    static uclboard_reply replies[1000];
    const size_t size = fread(script, 1, sizeof script, stdin);
    uclboard_club clubs[4];
    uint64_t words[12];
    size_t count = 0;
    uint32_t at = 0;
    need(uclboard_script(script, size, clubs, 4, words, 12, replies, 1000, &count, &at), UCLBOARD_DONE);
    for (int i = 0; i < 4; i++) printf("club %.*s %" PRIu32 "\n", (int)clubs[i].length, clubs[i].name, clubs[i].coefficient);
    const uclboard_reply it = replies[count - 1];
    printf("reply %" PRIu32 " %" PRIu32 " %" PRIu32 " %" PRIu32 " %" PRIu32 "\n", it.row, it.match_number, it.status, it.event_number, it.version);
    of_words(words, clubs);
}

static void of_a_shared_board(void) {
    uclboard_pass *first = NULL, *screen = NULL, *reporters[2] = {NULL, NULL};
    uint64_t words[12];
    uint32_t number = 0, event = 0, version = 0;
    need(uclboard_open(&first), UCLBOARD_DONE);
    need(uclboard_pass_split(&first, &screen), UCLBOARD_DONE);
    for (int i = 0; i < 2; i++) need(uclboard_pass_enlist(&first, &reporters[i]), UCLBOARD_DONE);
    uclboard_pass_drop(&first);
    need(uclboard_pass_number(&reporters[1], &number), UCLBOARD_DONE);
    need(uclboard_pass_report(&reporters[1], 3, 0, UCLBOARD_KICK_OFF, &event), UCLBOARD_DONE);
    need(uclboard_pass_read(&screen, words, 12, &version), UCLBOARD_DONE);
    printf("shared %d %" PRIu32 " %" PRIu32 " %016" PRIx64 " %" PRIu32 "\n", first == NULL, number, event, words[2], version);
    for (int i = 0; i < 2; i++) uclboard_pass_drop(&reporters[i]);
    uclboard_pass_drop(&screen);
}

int main(void) {
    char name[UCLBOARD_NAME_ROOM];
    size_t length = 0;
    need(uclboard_text_of_status(UCLBOARD_LIMIT_REACHED, name, sizeof name, &length), UCLBOARD_DONE);
    printf("library %" PRIu32 "\nname %zu %s\n", uclboard_version(), length, name);
    of_a_match();
    of_a_script();
    of_a_shared_board();
    return 0;
}
