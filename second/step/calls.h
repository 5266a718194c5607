/* A part of second/step.c: a call and its recoveries, stepped and compared with
 * what they leave without stepping. */

static void step(struct call *call)
{
    const struct store *store = watch.store;

    watch.tally->calls++;
    memcpy(lent, store->bytes, whole(store));
    memcpy(watch.last, store->bytes, whole(store));
    cut(lent); /* before the first store */
    way->step(call);
}

/* Recovers a torn state of the call that was stepped, with as many cuts. */
static void step_recovery(const struct torn *state, const struct store *as_lent)
{
    static struct store store;
    const uint8_t *stages = watch.stages;
    struct call call = {RECOVER, 0, 0, NULL, 0, {0}};

    store = *as_lent;
    memcpy(store.bytes, state->bytes, whole(&store));
    watch.store = &store;
    watch.stages = stage(state->made);
    watch.swaps = 0;
    watch.made = 0;
    watch.entries = state->entries;
    watch.recovering = 1;
    watch.tally = &recoveries_seen;
    step(&call);
    store.bytes[seal(&store)] = 0;
    if (call.written != 2 || call.answer[0] != RELAY_PUT_BACK ||
        call.answer[1] != state->entries) {
        fail("recovery answers %" PRIu32 " %" PRIu32 ", expected 0 %zu",
             call.answer[0], call.answer[1], state->entries);
    }
    if (memcmp(lent, watch.stages, kept(&store)) != 0 ||
        memcmp(lent + kept(&store), store.bytes + kept(&store), store.log) !=
            0) {
        fail("recovery leaves something else than the store before");
    }
    watch.recovering = 0;
    watch.stages = stages;
}

static void step_recoveries(const struct store *store)
{
    size_t number;

    for (number = 0; number < torn_count; number++) {
        step_recovery(&torn[number], store);
        free(torn[number].bytes);
    }
    torn_count = 0;
}

/* How many swaps an answer tells of. */
static size_t swaps_of(const struct call *call)
{
    return call->entry == RUN ? call->answer[1] : call->answer[0] == RELAY_MADE;
}

/* The call as it goes without stepping, on a copy. It must not be refused. */
static struct call unstepped(const struct store *store, struct call call)
{
    static uint8_t bytes[MOST_WHOLE];

    memcpy(bytes, store->bytes, whole(store));
    make(&call, store, bytes);
    if (call.written == 0 ||
        (call.answer[0] != 0 && call.answer[0] < RELAY_NO_ROOM)) {
        watch.store = NULL;
        fail("refused: %" PRIu32 " place %" PRIu32, call.answer[0],
             call.answer[1]);
    }
    return call;
}

/* What is kept after 0, 1, ... swaps of a call that makes so many. */
static uint8_t *stages_of(const struct store *store, struct call call,
                          size_t swaps)
{
    static uint8_t bytes[MOST_WHOLE];
    uint8_t *stages = malloc((swaps + 1) * kept(store));
    size_t number;

    if (!stages) {
        watch.store = NULL;
        fail("no memory for the stages");
    }
    for (number = 0; number <= swaps; number++) {
        call.budget = (uint32_t)number;
        memcpy(bytes, store->bytes, whole(store));
        if (number > 0) {
            make(&call, store, bytes);
        }
        memcpy(stages + number * kept(store), bytes, kept(store));
    }
    return stages;
}

static void begin_watch(const struct store *store, enum entry entry,
                        const uint8_t *stages, size_t swaps)
{
    watch.store = store;
    watch.stages = stages;
    watch.swaps = swaps;
    watch.made = 0;
    watch.tally = entry == SWAP ? &swaps_seen : &slices_seen;
    if (swaps == 0) {
        watch.tally = &others_seen;
    }
    memcpy(watch.log, store->bytes + kept(store), store->log);
    if (swaps > 0) {
        expect_log();
    }
}

static void end_watch(const struct call *call, const struct call *expected)
{
    const struct store *store = watch.store;

    if (watch.made != watch.swaps) {
        fail("%zu swaps, but the seal was cleared %zu times", watch.swaps,
             watch.made);
    }
    if (call->written != expected->written ||
        memcmp(call->answer, expected->answer, sizeof call->answer) != 0) {
        fail("another answer than without stepping");
    }
    if (memcmp(lent, stage(watch.swaps), kept(store)) != 0 ||
        memcmp(lent + kept(store), watch.log, store->log) != 0) {
        fail("another store or log at the end than there should be");
    }
}

/* Steps a call, and the recoveries of some states that a cut may leave. Answers
 * the stages, which the caller frees. */
static uint8_t *try_call(const struct store *store, struct call *call)
{
    struct call expected = unstepped(store, *call);
    size_t swaps = swaps_of(&expected);
    uint8_t *stages = stages_of(store, *call, swaps);

    begin_watch(store, call->entry, stages, swaps);
    step(call);
    end_watch(call, &expected);
    step_recoveries(store);
    return stages;
}
