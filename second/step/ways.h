/* A part of second/step.c: the two ways of stepping. Each steps a call on the
 * lent memory, and looks at what one instruction left there before the next. */

struct way {
    const char *name;
    void (*prepare)(void);
    void (*step)(struct call *call);
    const char *looks_at; /* what the stores are that it counts */
    size_t torn_of_a_swap;
};

static const struct way *way;

/* Memory that a child process shares. */
static void *share(size_t size)
{
    void *memory = mmap(NULL, size, PROT_READ | PROT_WRITE,
                        MAP_SHARED | MAP_ANONYMOUS, -1, 0);

    if (memory == MAP_FAILED) {
        fail("no memory to lend");
    }
    return memory;
}

/* By faults. The handlers run between two instructions of the library. It has
 * no state of its own and no heap, so they may call it, and malloc too. */

/* The bit of the flags that makes the processor trap after one instruction. */
#define TRAP_FLAG 0x100

static void allow(int protection)
{
    if (mprotect(lent, MOST_WHOLE, protection) != 0) {
        fail("the memory's protection can't be changed");
    }
}

/* An instruction is about to store: it may, and is followed by a trap. */
static void on_store(int number, siginfo_t *information, void *context)
{
    uint8_t *address = information->si_addr;
    ucontext_t *at = context;

    (void)number;
    if (!watch.store || address < lent ||
        address >= lent + whole(watch.store)) {
        fail("memory that wasn't lent is touched");
    }
    allow(PROT_READ | PROT_WRITE);
    at->uc_mcontext.gregs[REG_EFL] |= TRAP_FLAG;
}

static void on_trap(int number, siginfo_t *information, void *context)
{
    ucontext_t *at = context;

    (void)number;
    (void)information;
    at->uc_mcontext.gregs[REG_EFL] &= ~(greg_t)TRAP_FLAG;
    allow(PROT_READ);
    look();
}

static void handle(int number, void (*handler)(int, siginfo_t *, void *))
{
    struct sigaction action;

    memset(&action, 0, sizeof action);
    action.sa_sigaction = handler;
    action.sa_flags = SA_SIGINFO;
    sigemptyset(&action.sa_mask);
    if (sigaction(number, &action, NULL) != 0) {
        fail("no handler for signal %d", number);
    }
}

static void prepare_faults(void)
{
    lent = share(MOST_WHOLE);
    handle(SIGSEGV, on_store);
    handle(SIGTRAP, on_trap);
}

static void step_by_faults(struct call *call)
{
    allow(PROT_READ);
    make(call, watch.store, lent);
    allow(PROT_READ | PROT_WRITE);
}

static const struct way faults = {"faults", prepare_faults, step_by_faults,
                                  "stores", 6};

/* By tracing. A child makes the call and is stopped after every instruction,
 * whatever that does: nothing depends on which of them store. */

/* What the child shares with its tracer besides the memory that is lent. */
struct shared {
    struct call call;
    volatile int refused; /* errno, where it can't be traced */
    volatile int begun, over;
};

static struct shared *shared;

static void prepare_tracing(void)
{
    lent = share(MOST_WHOLE);
    shared = share(sizeof *shared);
}

static void not_stepped(int reason)
{
    watch.store = NULL;
    fail("NOT STEPPED: a child process can't be traced here (ptrace: %s)",
         reason ? strerror(reason) : "it ended before it was stopped");
}

/* The child. Signals from the terminal aren't for it. */
static void be_traced(void)
{
    setpgid(0, 0);
    if (ptrace(PTRACE_TRACEME, 0, NULL, NULL) != 0) {
        shared->refused = errno;
        _exit(1);
    }
    raise(SIGSTOP);
    shared->begun = 1;
    make(&shared->call, watch.store, lent);
    shared->over = 1;
    _exit(0);
}

/* A child that stands before its call. It ends with its tracer. */
static pid_t begin_tracing(const struct call *call)
{
    pid_t child;
    int status = 0;

    *shared = (struct shared){*call, 0, 0, 0};
    fflush(stdout);
    child = fork();
    if (child == 0) {
        be_traced();
    }
    if (child < 0 || waitpid(child, &status, 0) != child) {
        not_stepped(errno);
    }
    if (!WIFSTOPPED(status)) {
        not_stepped(shared->refused);
    }
    if (ptrace(PTRACE_SETOPTIONS, child, NULL, PTRACE_O_EXITKILL) != 0) {
        not_stepped(errno);
    }
    return child;
}

/* Steps one instruction. 0 once the call is over. */
static int step_once(pid_t child)
{
    int status = 0;

    if (ptrace(PTRACE_SINGLESTEP, child, NULL, NULL) != 0 ||
        waitpid(child, &status, 0) != child) {
        not_stepped(errno);
    }
    if (!WIFSTOPPED(status) || WSTOPSIG(status) != SIGTRAP) {
        fail("the call is broken off: its process has status %04x",
             (unsigned)status);
    }
    return !shared->over;
}

static void end_tracing(pid_t child)
{
    int status = 0;

    if (ptrace(PTRACE_CONT, child, NULL, NULL) != 0 ||
        waitpid(child, &status, 0) != child || status != 0) {
        fail("the process of the call doesn't end, after its return");
    }
}

static void step_by_tracing(struct call *call)
{
    pid_t child = begin_tracing(call);

    while (step_once(child)) {
        watch.tally->instructions += shared->begun != 0;
        if (memcmp(lent, watch.last, whole(watch.store)) != 0) {
            look();
        }
    }
    end_tracing(child);
    *call = shared->call;
}

static const struct way traced = {"traced", prepare_tracing, step_by_tracing,
                                  "instructions that changed a byte", 0};
