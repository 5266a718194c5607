/* BuDDy's time for one reordering: reads the diagram that the bench writes
 * (see src/buddy.rs), builds it, and times bdd_setvarorder to the target.
 * Prints the least time in microseconds and the numbers of nodes before and
 * after. Its argument is the number of repetitions.
 */
#include "relay.h"
#include <bdd.h>
#include <stdio.h>
#include <stdlib.h>
#include <time.h>

enum { VARIABLES = RELAY_MOST_VARIABLES, RECORDS = RELAY_MOST_RECORDS, ROOTS = RELAY_MOST_ROOTS };

struct record {
    int variable, low, high;
};

static int order[VARIABLES], target[VARIABLES], roots[ROOTS];
static struct record records[RECORDS];
static BDD built[RECORDS + 2], built_roots[ROOTS];

static double now(void)
{
    struct timespec time;
    clock_gettime(CLOCK_MONOTONIC, &time);
    return time.tv_sec * 1e6 + time.tv_nsec * 1e-3;
}

/* A number from 0 to below the limit. */
static int number(int limit)
{
    int read;
    if (scanf("%d", &read) != 1 || read < 0 || read >= limit) {
        fprintf(stderr, "buddy: not a diagram of the bench\n");
        exit(1);
    }
    return read;
}

int main(int count, char **arguments)
{
    int repetitions = count == 2 ? atoi(arguments[1]) : 0;
    if (repetitions < 1) {
        fprintf(stderr, "usage: buddy REPETITIONS <DIAGRAM\n");
        return 2;
    }

    int n = number(VARIABLES + 1), used = number(RECORDS + 1), root_count = number(ROOTS + 1);
    for (int i = 0; i < n; i++)
        order[i] = number(n);
    for (int i = 0; i < n; i++)
        target[i] = number(n);
    for (int i = 0; i < used; i++) {
        records[i].variable = number(n);
        records[i].low = number(i + 2);
        records[i].high = number(i + 2);
    }
    for (int i = 0; i < root_count; i++)
        roots[i] = number(used + 2);

    double least = 1e300;
    int before = 0, after = 0;
    for (int repetition = 0; repetition < repetitions; repetition++) {
        bdd_init(5 * used, 10000); /* nodes, and entries of its cache */
        bdd_gbc_hook(NULL);
        bdd_resize_hook(NULL);
        bdd_reorder_hook(NULL);
        bdd_reorder_verbose(0);
        bdd_setvarnum(n);
        bdd_setvarorder(order);

        built[0] = bddfalse;
        built[1] = bddtrue;
        for (int i = 0; i < used; i++) {
            struct record r = records[i];
            built[i + 2] = bdd_addref(bdd_ite(bdd_ithvar(r.variable), built[r.high], built[r.low]));
        }
        for (int i = 0; i < root_count; i++)
            built_roots[i] = bdd_addref(built[roots[i]]);
        for (int i = 0; i < used; i++)
            bdd_delref(built[i + 2]);
        bdd_gbc();

        before = bdd_anodecount(built_roots, root_count);
        double start = now();
        bdd_setvarorder(target);
        double time = now() - start;
        if (time < least)
            least = time;
        after = bdd_anodecount(built_roots, root_count);
        bdd_done();
    }
    printf("%.3f %d %d\n", least, before, after);
    return 0;
}
