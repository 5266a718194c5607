/* A part of second/step.c: a store as it is lent, and the calls on it. */

#define MOST_TABLE (RELAY_MOST_RECORDS * RELAY_RECORD_SIZE)
#define MOST_LOG (RELAY_MOST_LOG_RECORDS * RELAY_LOG_RECORD_SIZE)
#define MOST_KEPT (MOST_TABLE + RELAY_MOST_VARIABLES)
#define MOST_WHOLE (MOST_KEPT + MOST_LOG)

/* A store as it is lent: table, order and log lie one behind the other. */
struct store {
    size_t table; /* how many bytes each has */
    size_t levels;
    size_t log;
    size_t roots_length;
    uint8_t roots[RELAY_MOST_ROOTS * RELAY_ROOT_SIZE];
    uint8_t bytes[MOST_WHOLE];
};

/* What must be kept: table and order. */
static size_t kept(const struct store *store)
{
    return store->table + store->levels;
}

static size_t whole(const struct store *store)
{
    return kept(store) + store->log;
}

/* Where byte 0 of the seal lies. */
static size_t seal(const struct store *store)
{
    return whole(store) - RELAY_LOG_RECORD_SIZE;
}

static size_t records(const struct store *store)
{
    return store->table / RELAY_RECORD_SIZE;
}

enum entry { SWAP, RUN, RECOVER };

struct call {
    enum entry entry;
    uint32_t number; /* the level, or the plan */
    uint32_t budget;
    const uint8_t *target;
    size_t written;
    uint32_t answer[RELAY_MOST_NUMBERS];
};

static void make(struct call *call, const struct store *store, uint8_t *bytes)
{
    uint8_t *order = bytes + store->table;
    uint8_t *log = bytes + kept(store);

    switch (call->entry) {
    case SWAP:
        call->written = relay_swap(
            bytes, store->table, store->roots, store->roots_length, order,
            store->levels, log, store->log, call->number, call->answer,
            RELAY_MOST_NUMBERS);
        break;
    case RUN:
        call->written = relay_run(
            bytes, store->table, store->roots, store->roots_length, order,
            store->levels, call->target, store->levels, log, store->log,
            call->number, call->budget, call->answer, RELAY_MOST_NUMBERS);
        break;
    case RECOVER:
        call->written =
            relay_recover(bytes, store->table, order, store->levels, log,
                          store->log, call->answer, RELAY_MOST_NUMBERS);
        break;
    }
}
