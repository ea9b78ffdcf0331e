/* Two programs for valgrind's helgrind, which reads machine code and so sees within the library. `sound`: two reporters and two screens on one
   board, each with a handle of its own. `racy`: both report by one handle at once, so that helgrind has to find a race. */
#include "uclboard.h"
#include <pthread.h>
#include <string.h>

static uclboard_pass *first, *reporters[2], *screens[2];
static int is_racy, failed[4];

/* Every other match: goals that are given and taken back. */
static void *reports(void *place) {
    const int i = *(const int *)place;
    for (uint32_t game = 1 + (uint32_t)i; game <= UCLBOARD_WORDS; game += 2) {
        uint32_t number = 0;
        uclboard_pass **pass = &reporters[is_racy ? 0 : i];
        uclboard_status status = uclboard_pass_report(pass, game, 0, UCLBOARD_KICK_OFF, &number);
        for (int k = 0; k < 100 && status == UCLBOARD_DONE; k++)
            status = uclboard_pass_report(pass, game, number, k % 2 ? UCLBOARD_DISALLOW_HOME : UCLBOARD_GOAL_HOME, &number);
        failed[i] |= status != UCLBOARD_DONE;
    }
    return NULL;
}

static void *reads(void *place) {
    const int i = *(const int *)place;
    uint64_t words[UCLBOARD_WORDS];
    for (uint32_t k = 0, version = 0, last = 0; k < 40; k++, last = version)
        failed[2 + i] |= uclboard_pass_read(&screens[i], words, UCLBOARD_WORDS, &version) != UCLBOARD_DONE || version < last;
    return NULL;
}

int main(int argc, char **argv) {
    static int places[] = {0, 1};
    pthread_t threads[4];
    is_racy = argc > 1 && strcmp(argv[1], "racy") == 0;
    uint32_t wrong = uclboard_open(&first);
    for (int i = 0; i < 2; i++) wrong |= uclboard_pass_enlist(&first, &reporters[i]) | uclboard_pass_split(&first, &screens[i]);
    for (int i = 0; i < 4; i++) wrong |= (uint32_t)pthread_create(&threads[i], NULL, i < 2 ? reports : reads, &places[i % 2]);
    for (int i = 0; i < 4; i++) wrong |= (uint32_t)pthread_join(threads[i], NULL);
    for (int i = 0; i < 2; i++) uclboard_pass_drop(&reporters[i]), uclboard_pass_drop(&screens[i]);
    uclboard_pass_drop(&first);
    return wrong || failed[0] || failed[1] || failed[2] || failed[3];
}
