/* Asks the library questions that come on standard input, one after the other, and tells on standard output what it wrote and what it left in
 * every buffer. So the second program, which puts the questions, runs on any machine, and the library in a process of its own.
 *
 * A question: eleven 32-bit numbers (which entry; the lengths of table, roots, order, of one buffer more, the inputs or the target, and of the log;
 * the number asked for: position, level, plan or variable; the budget; how many entries are lent of the list, of the places for a count and of
 * those for a share), the list, both rows of places, and the five buffers. Where a label is asked for, the first two of these are the site's list
 * and the factory's, and the others are empty.
 * The answer: the number of numbers written, the list, the places and the five buffers, each whole. Where WATCHED is added to the entry, there
 * follow the number of bytes that the call changed in table, order and log, and for each, in turn, the number of the store, its place in these
 * three, one after the other, and the byte.
 */
#define _DEFAULT_SOURCE
#include <stdio.h>
#include <stdlib.h>
#include <string.h>
#include "relay.h"
#include "watch.h"

/* The list and the places that are lent for an answer lie at the start of this many entries. */
#define LIST 8
#define PLACES 2
/* Bytes before and after each buffer that nobody may write to, and what they hold: nothing that a seal, an entry or a record is likely to have. */
#define GUARD 16
#define GUARDED 0xC9

enum { CHECK, READ, SHOW, SWAP, RUN, COUNT, LABEL, RECOVER };
#define WATCHED 256

struct question {
    uint32_t entry, table, roots, order, more, log, number, budget, entries, counts, shares;
};

struct buffer {
    uint8_t *bytes;
    size_t length;
};

/* What an answer is written to. */
struct answer {
    struct buffer list, counts, shares;
};

static void fail(const char *why)
{
    fprintf(stderr, "ask: %s\n", why);
    exit(2);
}

static void take(void *bytes, size_t length)
{
    if (fread(bytes, 1, length, stdin) != length)
        fail("a question ended too soon");
}

static void tell(const void *bytes, size_t length)
{
    if (fwrite(bytes, 1, length, stdout) != length)
        fail("nobody takes the answer");
}

/* As far from the start of an allocation as GUARD, a buffer is aligned for numbers of any kind. */
static struct buffer lend(size_t length)
{
    uint8_t *bytes = malloc(length + 2 * GUARD);
    if (!bytes)
        fail("no memory");
    memset(bytes, GUARDED, length + 2 * GUARD);
    take(bytes + GUARD, length);
    return (struct buffer){bytes + GUARD, length};
}

static void give_back(struct buffer b)
{
    const uint8_t *before = b.bytes - GUARD, *after = b.bytes + b.length;
    for (size_t i = 0; i < GUARD; i++)
        if (before[i] != GUARDED || after[i] != GUARDED)
            fail("the library wrote outside a buffer");
    tell(b.bytes, b.length);
    free(b.bytes - GUARD);
}

static size_t ask(const struct question *q, struct buffer t, struct buffer r, struct buffer o, struct buffer m, struct buffer l, struct answer a)
{
    uint32_t *list = (uint32_t *)a.list.bytes;
    uint64_t *counts = (uint64_t *)a.counts.bytes;
    double *shares = (double *)a.shares.bytes;
    switch (q->entry) {
    case CHECK:
        return relay_check(t.bytes, t.length, r.bytes, r.length, o.bytes, o.length, list, q->entries);
    case READ:
        return relay_read(t.bytes, t.length, r.bytes, r.length, o.bytes, o.length, q->number, m.bytes, m.length, list, q->entries);
    case SHOW:
        return relay_show(t.bytes, t.length, r.bytes, r.length, o.bytes, o.length, q->number, list, q->entries);
    case SWAP:
        return relay_swap(t.bytes, t.length, r.bytes, r.length, o.bytes, o.length, l.bytes, l.length, q->number, list, q->entries);
    case RUN:
        return relay_run(t.bytes, t.length, r.bytes, r.length, o.bytes, o.length, m.bytes, m.length, l.bytes, l.length, q->number, q->budget, list,
                         q->entries);
    case COUNT:
        return relay_count(t.bytes, t.length, r.bytes, r.length, o.bytes, o.length, q->number, counts, q->counts, shares, q->shares, list, q->entries);
    case LABEL:
        return relay_label(t.bytes, t.length, r.bytes, r.length, q->number, list, q->entries);
    case RECOVER:
        return relay_recover(t.bytes, t.length, o.bytes, o.length, l.bytes, l.length, list, q->entries);
    default:
        fail("no such entry");
        return 0;
    }
}

/* The same with table, order and log in the pages that are watched, one after the other. */
static size_t ask_watched(struct question *q, struct buffer t, struct buffer r, struct buffer o, struct buffer m, struct buffer l, struct answer a)
{
    size_t all = t.length + o.length + l.length, written;
    uint8_t *pages = watch_pages();
    if (!pages || all > WATCH_BYTES)
        fail("no pages to watch");
    struct buffer table = {pages, t.length}, order = {pages + t.length, o.length}, log = {pages + t.length + o.length, l.length};
    memcpy(table.bytes, t.bytes, t.length);
    memcpy(order.bytes, o.bytes, o.length);
    memcpy(log.bytes, l.bytes, l.length);
    q->entry -= WATCHED;
    watch_begin(all);
    written = ask(q, table, r, order, m, log, a);
    watch_end();
    q->entry += WATCHED;
    memcpy(t.bytes, table.bytes, t.length);
    memcpy(o.bytes, order.bytes, o.length);
    memcpy(l.bytes, log.bytes, l.length);
    return written;
}

int main(void)
{
    struct question q;
    while (fread(&q, sizeof q, 1, stdin) == 1) {
        if (q.entries > LIST || q.counts > PLACES || q.shares > PLACES)
            fail("a list too long");
        struct buffer list = lend(LIST * sizeof(uint32_t)), counts = lend(PLACES * sizeof(uint64_t)), shares = lend(PLACES * sizeof(double));
        struct buffer t = lend(q.table), r = lend(q.roots), o = lend(q.order), m = lend(q.more), l = lend(q.log);
        struct answer answer = {list, counts, shares};
        int is_watched = q.entry >= WATCHED;
        uint32_t written = (uint32_t)(is_watched ? ask_watched(&q, t, r, o, m, l, answer) : ask(&q, t, r, o, m, l, answer));
        tell(&written, sizeof written);
        give_back(list);
        give_back(counts);
        give_back(shares);
        give_back(t);
        give_back(r);
        give_back(o);
        give_back(m);
        give_back(l);
        if (is_watched) {
            tell(&change_count, sizeof change_count);
            tell(changes, change_count * sizeof changes[0]);
        }
        if (fflush(stdout) != 0)
            fail("nobody takes the answer");
    }
    return 0;
}
