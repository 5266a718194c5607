/* A part of second/step.c: what must have occurred. */

/* A table of so many records counts as large, so many records as many. */
#define LARGE 1000
#define MANY 4
/* So many calls must have been stepped. */
#define LEAST_SWAPS 30
#define LEAST_SLICES 3

/* The shapes of swaps that must have occurred. */

enum shape {
    ORDER_ALONE,
    ONE_CROSSING,
    MANY_CROSSING,
    FREED,
    FILLED,
    FREED_AND_FILLED,
    REUSED,
    REUSED_AND_FREED,
    ON_A_LARGE_TABLE,
    SHAPES
};

static const char *const shape_names[SHAPES] = {
    "nothing but the order",
    "one crossing record",
    "many crossing records",
    "records freed",
    "free records filled",
    "freed and filled",
    "dying records reused",
    "reused and freed",
    "on a large table",
};

static unsigned long shapes[SHAPES];

static void classify(const struct store *store, const uint8_t *before,
                     const uint8_t *after)
{
    const uint8_t *order = before + store->table;
    size_t level = pair(store, before, after);
    uint8_t x = order[level], y = order[level + 1];
    unsigned crossing = 0, freed = 0, filled = 0, reused = 0;
    size_t at;

    for (at = 0; at < store->table; at += RELAY_RECORD_SIZE) {
        uint8_t was = before[at], is = after[at];
        crossing += was == x && is == y;
        reused += was == y && is == x;
        freed += was != RELAY_FREE && is == RELAY_FREE;
        filled += was == RELAY_FREE && is != RELAY_FREE;
    }
    shapes[ORDER_ALONE] += memcmp(before, after, store->table) == 0;
    shapes[ONE_CROSSING] += crossing == 1;
    shapes[MANY_CROSSING] += crossing >= MANY;
    shapes[FREED] += freed > 0;
    shapes[FILLED] += filled > 0;
    shapes[FREED_AND_FILLED] += freed > 0 && filled > 0;
    shapes[REUSED] += reused > 0;
    shapes[REUSED_AND_FREED] += reused > 0 && freed > 0;
    shapes[ON_A_LARGE_TABLE] += crossing > 0 && records(store) >= LARGE;
}

/* The answers of slices of two swaps or more that must have occurred, and the
 * plans by which such slices went. */

enum ending { ENDS_DONE, ENDS_WITHOUT_ROOM, ENDS_LOG_SHORT, ENDS_PAUSED, ENDINGS };

static const char *const ending_names[ENDINGS] = {
    "done", "no room", "log short", "paused"};

static unsigned long endings[ENDINGS];

#define PLANS 4

static const char *const plan_names[PLANS] = {
    "Bring Up", "Sink Down", "Lowest Inversion", "Highest Inversion"};

static unsigned long plans[PLANS];

static void count_ending(const struct call *call)
{
    if (call->answer[1] < 2) {
        return;
    }
    plans[call->number]++;
    switch (call->answer[0]) {
    case RELAY_DONE:
        endings[ENDS_DONE]++;
        break;
    case RELAY_NO_ROOM:
        endings[ENDS_WITHOUT_ROOM]++;
        break;
    case RELAY_LOG_SHORT:
        endings[ENDS_LOG_SHORT]++;
        break;
    case RELAY_PAUSED:
        endings[ENDS_PAUSED]++;
        break;
    }
}
