/* A call of the library watched store by store: what it may change lies in pages that are for reading only, so that every instruction that
 * writes there is stopped, let through by itself, and what it has changed is noted. So the order in which the built library stores is seen, not
 * only what it leaves.
 */
#ifndef WATCH_H
#define WATCH_H

#include <signal.h>
#include <stddef.h>
#include <stdint.h>
#include <string.h>
#include <sys/mman.h>
#include <unistd.h>

#define WATCH_BYTES (256 * 1024)
#define WATCH_MOST (64 * 1024)

/* A byte that was changed, and by the how-manieth store. */
struct change {
    uint32_t store, position, byte;
};

static uint8_t *watched;
static uint8_t shadow[WATCH_BYTES];
static size_t watched_length;
static struct change changes[WATCH_MOST];
static uint32_t change_count, store_count;

/* The processor's flags at a signal: number 17 of the registers, which begin 40 bytes on (Linux on x86-64). Named here, since the headers of
 * plain C99 don't name them. Where the trap flag is set, it stops after one instruction. */
#define REGISTERS 40
#define FLAGS 17
#define TRAP UINT64_C(0x100)

static void set_trap(void *context, int on)
{
    uint8_t *place = (uint8_t *)context + REGISTERS + FLAGS * sizeof(uint64_t);
    uint64_t flags;
    memcpy(&flags, place, sizeof flags);
    flags = on ? flags | TRAP : flags & ~TRAP;
    memcpy(place, &flags, sizeof flags);
}

static void before_store(int number, siginfo_t *about, void *context)
{
    uint8_t *place = about->si_addr;
    if (place < watched || place >= watched + WATCH_BYTES) {
        signal(number, SIG_DFL);
        return;
    }
    mprotect(watched, WATCH_BYTES, PROT_READ | PROT_WRITE);
    set_trap(context, 1);
}

static void after_store(int number, siginfo_t *about, void *context)
{
    (void)number;
    (void)about;
    for (size_t i = 0; i < watched_length; i++)
        if (watched[i] != shadow[i]) {
            shadow[i] = watched[i];
            if (change_count < WATCH_MOST)
                changes[change_count++] = (struct change){store_count, (uint32_t)i, watched[i]};
        }
    store_count++;
    mprotect(watched, WATCH_BYTES, PROT_READ);
    set_trap(context, 0);
}

static void on_signal(int number, void (*handler)(int, siginfo_t *, void *))
{
    struct sigaction action;
    memset(&action, 0, sizeof action);
    action.sa_sigaction = handler;
    action.sa_flags = SA_SIGINFO;
    sigaction(number, &action, NULL);
}

/* The pages, once; NULL where there are none. */
static uint8_t *watch_pages(void)
{
    if (!watched) {
        void *pages = mmap(NULL, WATCH_BYTES, PROT_READ | PROT_WRITE, MAP_PRIVATE | MAP_ANONYMOUS, -1, 0);
        watched = pages == MAP_FAILED ? NULL : pages;
    }
    return watched;
}

/* From here on every store to the first so many bytes is noted. */
static void watch_begin(size_t length)
{
    watched_length = length;
    memcpy(shadow, watched, length);
    change_count = store_count = 0;
    on_signal(SIGSEGV, before_store);
    on_signal(SIGTRAP, after_store);
    mprotect(watched, WATCH_BYTES, PROT_READ);
}

static void watch_end(void)
{
    mprotect(watched, WATCH_BYTES, PROT_READ | PROT_WRITE);
    signal(SIGSEGV, SIG_DFL);
    signal(SIGTRAP, SIG_DFL);
}

#endif
