/* A plain C function with the checks of uclboard_next_word, and random events on twelve words that both are called with. */
#include "uclboard.h"

enum { EVENTS = 1 << 20 };

typedef struct {
    uint32_t match, reporter, wrong, kind;
} event;

static event events[EVENTS];

static uint64_t of(uint64_t word, int low, int width) { return word >> low & ((UINT64_C(1) << width) - 1); }

static int is_word(uint64_t word) {
    uint64_t number = of(word, 0, 12), state = of(word, 12, 2);
    if (word >> 56 != 0x20 || state == 3) return 0;
    if (state == 0) return word == UCLBOARD_SCHEDULED_WORD;
    return number >= state && number <= (state == 1 ? 4094 : 4095) && of(word, 48, 8) != 0;
}

static uint32_t raised(uint64_t *word, int low, int width, uint64_t most) {
    if (of(*word, low, width) >= most) return UCLBOARD_LIMIT_REACHED;
    *word += UINT64_C(1) << low;
    return UCLBOARD_DONE;
}

static uint32_t lowered(uint64_t *word, int low, int width, uint32_t missing) {
    if (of(*word, low, width) == 0) return missing;
    *word -= UINT64_C(1) << low;
    return UCLBOARD_DONE;
}

static uint32_t changed(uint64_t *word, uint32_t kind) {
    int away = kind % 2 == 0;
    uint32_t status;
    switch (kind) {
    case UCLBOARD_GOAL_HOME:
    case UCLBOARD_GOAL_AWAY: return raised(word, away ? 20 : 14, 6, 63);
    case UCLBOARD_DISALLOW_HOME:
    case UCLBOARD_DISALLOW_AWAY: return lowered(word, away ? 20 : 14, 6, UCLBOARD_NO_GOAL);
    case UCLBOARD_YELLOW_HOME:
    case UCLBOARD_YELLOW_AWAY: return raised(word, away ? 32 : 26, 6, 63);
    case UCLBOARD_SECOND_YELLOW_HOME:
    case UCLBOARD_SECOND_YELLOW_AWAY:
        status = lowered(word, away ? 32 : 26, 6, UCLBOARD_NO_CAUTION);
        return status ? status : raised(word, away ? 43 : 38, 5, 31);
    case UCLBOARD_RED_HOME:
    case UCLBOARD_RED_AWAY: return raised(word, away ? 43 : 38, 5, 31);
    case UCLBOARD_REOPEN: *word -= UINT64_C(1) << 12; return UCLBOARD_DONE;
    default: *word += UINT64_C(1) << 12; return UCLBOARD_DONE;
    }
}

static __attribute__((noinline)) uint32_t plain_next_word(uint64_t word, uint32_t reporter, uint32_t expected, uint32_t kind, uint64_t *next, uint32_t *found) {
    uint64_t number = of(word, 0, 12), state = of(word, 12, 2), wanted = kind == 0 ? 0 : kind == UCLBOARD_REOPEN ? 2 : 1;
    uint32_t status;
    if (reporter < 1 || reporter > 255) return UCLBOARD_NO_REPORTER;
    if (kind > UCLBOARD_REOPEN) return UCLBOARD_NO_KIND;
    if (!is_word(word)) return UCLBOARD_BAD_WORD;
    if (expected != number) {
        *found = (uint32_t)number;
        return UCLBOARD_STALE;
    }
    if (state != wanted) {
        if (state == 2) return UCLBOARD_FINISHED;
        if (kind == UCLBOARD_REOPEN) return UCLBOARD_NOT_FINISHED;
        return state == 0 ? UCLBOARD_NOT_STARTED : UCLBOARD_ALREADY_STARTED;
    }
    if (number >= 4094 && kind != UCLBOARD_FULL_TIME) return UCLBOARD_NUMBER_FULL;
    status = changed(&word, kind);
    if (status) return status;
    *next = ((word + 1) & ~(UINT64_C(255) << 48)) | (uint64_t)reporter << 48;
    return UCLBOARD_DONE;
}

typedef uint32_t next_word(uint64_t, uint32_t, uint32_t, uint32_t, uint64_t *, uint32_t *);

/* Enters all events, and answers a sum over what came. */
static uint64_t entered(next_word *by) {
    uint64_t words[UCLBOARD_WORDS], sum = 0;
    uint32_t found = 0;
    for (size_t i = 0; i < UCLBOARD_WORDS; i++) words[i] = UCLBOARD_SCHEDULED_WORD;
    for (size_t i = 0; i < EVENTS; i++) {
        uint64_t *word = &words[events[i].match];
        uint32_t expected = (uint32_t)of(*word, 0, 12) + events[i].wrong;
        if (of(*word, 0, 12) > 4000) *word = UCLBOARD_SCHEDULED_WORD;
        sum = sum * 31 + by(*word, events[i].reporter, expected, events[i].kind, word, &found) + found;
    }
    for (size_t i = 0; i < UCLBOARD_WORDS; i++) sum = sum * 31 + words[i];
    return sum;
}

static void make_events(void) {
    uint64_t chance = 1;
    for (size_t i = 0; i < EVENTS; i++) {
        chance = chance * UINT64_C(6364136223846793005) + UINT64_C(1442695040888963407);
        uint32_t kind = (uint32_t)(chance >> 40) % 14;
        events[i] = (event){(uint32_t)(chance >> 33) % 12, 1 + (uint32_t)(chance >> 50) % 255, (chance >> 60) == 0, kind == 11 ? 1 : kind};
    }
}
