/* What `ucl_night feed` writes for a script, in C: a reply for each event, and then the twelve words.
 *
 *     cc -std=c11 feed.c -I FOLDER FOLDER/libuclboard.a -o feed && ./feed < ../one_goal.csv
 */
#include "script.h"

static void write_reply(const uclboard_reply *reply) {
    char name[UCLBOARD_NAME_ROOM] = "";
    size_t length;
    if (reply->status == UCLBOARD_DONE) {
        printf("%" PRIu32 " ok %" PRIu32 " %" PRIu32 " %" PRIu32 "\n", reply->row, reply->match_number, reply->event_number, reply->version);
        return;
    }
    need(uclboard_text_of_status(reply->status, name, sizeof name, &length));
    printf("%" PRIu32 " refused %" PRIu32 " %s", reply->row, reply->status, name);
    if (reply->status == UCLBOARD_STALE) printf(" %" PRIu32, reply->event_number);
    printf("\n");
}

int main(void) {
    read_script();
    for (size_t i = 0; i < events_length; i++) write_reply(&replies[i]);
    for (size_t i = 0; i < UCLBOARD_WORDS; i++) printf("word,%zu,%016" PRIx64 ",\n", i + 1, played[i]);
    return 0;
}
