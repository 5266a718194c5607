/* A part of second/step.c: the diagrams that are swapped. */

/* Numbers that look random, the same in each run. */
static uint32_t any(void)
{
    static uint64_t state = UINT64_C(0x9E3779B97F4A7C15);

    state ^= state >> 12;
    state ^= state << 25;
    state ^= state >> 27;
    return (uint32_t)((state * UINT64_C(0x2545F4914F6CDD1D)) >> 33);
}

/* A log that is empty, whatever else stands there. */
static void lend_log(struct store *store, size_t log_records)
{
    size_t at;

    store->log = log_records * RELAY_LOG_RECORD_SIZE;
    for (at = kept(store); at < whole(store); at++) {
        store->bytes[at] = (uint8_t)any();
    }
    store->bytes[seal(store)] = 0;
}

/* As many log records as any swap needs: one for each record, one for the pair
 * and the seal. */
static size_t enough(const struct store *store)
{
    size_t needed = records(store) + 2;

    return needed < RELAY_MOST_LOG_RECORDS ? needed : RELAY_MOST_LOG_RECORDS;
}

/* Diagrams, made from functions that are easily told. Variable v stands at
 * level v, and input v is bit v. */

typedef unsigned function(unsigned inputs, size_t levels);

static unsigned pairs(unsigned inputs, size_t levels)
{
    (void)levels;
    return (inputs & (inputs >> 1) & 0x5555u) != 0;
}

static unsigned first_pairs(unsigned inputs, size_t levels)
{
    return pairs(inputs & 0xFu, levels);
}

static unsigned last_pairs(unsigned inputs, size_t levels)
{
    return pairs(inputs & ~0xFu, levels);
}

static unsigned total(unsigned inputs)
{
    unsigned sum = 0;

    for (; inputs != 0; inputs >>= 1) {
        sum += inputs & 1u;
    }
    return sum;
}

static unsigned parity(unsigned inputs, size_t levels)
{
    (void)levels;
    return total(inputs) & 1u;
}

static unsigned majority(unsigned inputs, size_t levels)
{
    return 2 * total(inputs) > levels;
}

/* The even inputs and the odd ones are two numbers, input 0 and 1 their highest
 * digits: is the first above the second? */
static unsigned above(unsigned inputs, size_t levels)
{
    size_t level;

    for (level = 0; level + 1 < levels; level += 2) {
        unsigned first = inputs >> level & 1u, second = inputs >> (level + 1) & 1u;
        if (first != second) {
            return first;
        }
    }
    return 0;
}

static unsigned equal(unsigned inputs, size_t levels)
{
    (void)levels;
    return ((inputs ^ inputs >> 1) & 0x5555u) == 0;
}

static unsigned scrambled(unsigned inputs, size_t levels)
{
    uint32_t number = inputs + (uint32_t)levels * 77u + 1;

    number *= UINT32_C(2654435761);
    number ^= number >> 15;
    number *= UINT32_C(2246822519);
    number ^= number >> 13;
    return number >> 7 & 1u;
}

static unsigned scrambled_otherwise(unsigned inputs, size_t levels)
{
    return scrambled(inputs ^ 0x10000u, levels);
}

static unsigned first_input(unsigned inputs, size_t levels)
{
    (void)levels;
    return inputs & 1u;
}

static unsigned fourth_input(unsigned inputs, size_t levels)
{
    (void)levels;
    return inputs >> 3 & 1u;
}

#define MOST_FUNCTIONS 3

struct recipe {
    const char *name;
    size_t levels;
    function *roots[MOST_FUNCTIONS];
};

enum {
    INPUTS,
    PAIRS,
    PAIRS_AND_PARTS,
    PARITY,
    COMPARATOR,
    MAJORITY_AND_PARITY,
    SCRAMBLED,
    RECIPES
};

static const struct recipe recipes[RECIPES] = {
    [INPUTS] = {"inputs", 5, {first_input, fourth_input, NULL}},
    [PAIRS] = {"pairs", 8, {pairs, NULL, NULL}},
    [PAIRS_AND_PARTS] = {"pairs and parts", 8, {first_pairs, pairs, last_pairs}},
    [PARITY] = {"parity", 6, {parity, NULL, NULL}},
    [COMPARATOR] = {"comparator", 8, {above, equal, NULL}},
    [MAJORITY_AND_PARITY] = {"majority and parity", 7, {majority, parity, NULL}},
    [SCRAMBLED] = {"scrambled", 6, {scrambled, pairs, scrambled_otherwise}},
};

static const struct recipe large = {
    "large", 12, {scrambled, scrambled_otherwise, parity}};

struct record {
    size_t variable, low, high;
};

static struct record built[RELAY_MOST_RECORDS];
static size_t built_count;

static size_t reference(size_t variable, size_t low, size_t high)
{
    size_t number;

    for (number = 0; number < built_count; number++) {
        const struct record *record = &built[number];
        if (record->variable == variable && record->low == low &&
            record->high == high) {
            return number + RELAY_FIRST_RECORD;
        }
    }
    if (built_count == RELAY_MOST_RECORDS) {
        fail("a diagram is too large");
    }
    built[built_count++] = (struct record){variable, low, high};
    return number + RELAY_FIRST_RECORD;
}

static size_t build(const struct recipe *recipe, function *value, size_t level,
                    unsigned inputs)
{
    size_t low, high;

    if (level == recipe->levels) {
        return value(inputs, recipe->levels);
    }
    low = build(recipe, value, level + 1, inputs);
    high = build(recipe, value, level + 1, inputs | 1u << level);
    return low == high ? low : reference(level, low, high);
}

static void put_reference(uint8_t *bytes, size_t number, const size_t *places)
{
    if (number >= RELAY_FIRST_RECORD) {
        number = places[number - RELAY_FIRST_RECORD] + RELAY_FIRST_RECORD;
    }
    bytes[0] = (uint8_t)number;
    bytes[1] = (uint8_t)(number >> 8);
}

/* The records that were built at places that look random among so many. */
static void place(struct store *store, size_t count)
{
    static size_t places[RELAY_MOST_RECORDS];
    size_t number, root;

    for (number = 0; number < count; number++) {
        size_t other = any() % (number + 1);
        places[number] = places[other];
        places[other] = number;
    }
    memset(store->bytes, 0, sizeof store->bytes);
    store->table = count * RELAY_RECORD_SIZE;
    for (number = 0; number < count; number++) {
        uint8_t *bytes = store->bytes + RELAY_RECORD_SIZE * places[number];
        bytes[0] = RELAY_FREE;
        if (number < built_count) {
            bytes[0] = (uint8_t)built[number].variable;
            put_reference(bytes + 2, built[number].low, places);
            put_reference(bytes + 4, built[number].high, places);
        }
    }
    for (root = 0; root < store->roots_length; root += RELAY_ROOT_SIZE) {
        put_reference(store->roots + root,
                      store->roots[root] + 256u * store->roots[root + 1], places);
    }
    for (number = 0; number < store->levels; number++) {
        store->bytes[store->table + number] = (uint8_t)number;
    }
    lend_log(store, enough(store));
}

static void build_all(struct store *store, const struct recipe *recipe)
{
    size_t root;

    built_count = 0;
    store->roots_length = 0;
    for (root = 0; root < MOST_FUNCTIONS && recipe->roots[root]; root++) {
        size_t made = build(recipe, recipe->roots[root], 0, 0);
        store->roots[store->roots_length++] = (uint8_t)made;
        store->roots[store->roots_length++] = (uint8_t)(made >> 8);
    }
}

/* With so many free records. */
static void prepare(struct store *store, const struct recipe *recipe,
                    size_t spare)
{
    build_all(store, recipe);
    store->levels = recipe->levels;
    place(store, built_count + spare);
}

/* As many records and levels as there may be; those below have no record. */
static void prepare_largest(struct store *store, const struct recipe *recipe)
{
    build_all(store, recipe);
    store->levels = RELAY_MOST_VARIABLES;
    place(store, RELAY_MOST_RECORDS);
}
