/* Every call of two states of the project in one run: before FOLDER FOLDER RECORDING... loads the calls of
 * both (timed.so and hidzvoma.so in each folder, the state before and the one after), calls them in turn, and
 * prints for each call how long it takes after / before over the recordings: geometric mean, least and most;
 * and for each recording the geometric mean of its listings with sizes 2, 4 and 16.
 * A recording that one of the states refuses is left out. */
#include <math.h>

#include "calls.h"
#include "timing.h"

enum { ROUNDS = 15, MOST_CALLS = 5000 };

/* Microseconds of so many calls. */
static double batch(const struct call *c, void *f, struct lent *l, int count) {
    double start = now();
    for (int i = 0; i < count; i++) sum += c->run(f, l);
    return now() - start;
}

/* After / before: the median over rounds of batches of about five milliseconds, both states in turn. */
static double ratio(const struct call *c, void *const states[2], struct lent *l) {
    double once = batch(c, states[0], l, 1), ratios[ROUNDS];
    int count = once > 5000 ? 1 : once * MOST_CALLS < 5000 ? MOST_CALLS : (int)(5000 / once);
    for (int i = 0; i < ROUNDS; i++) {
        double times[2];
        times[i % 2] = batch(c, states[i % 2], l, count);
        times[1 - i % 2] = batch(c, states[1 - i % 2], l, count);
        ratios[i] = times[1] / times[0];
    }
    qsort(ratios, ROUNDS, sizeof *ratios, ascending);
    return ratios[ROUNDS / 2];
}

/* Measures a call over the recordings and prints its line. */
static void measure(const struct call *c, void *const states[2], struct lent *lent, int recordings) {
    double logs = 0, least = INFINITY, most = 0;
    int measured = 0, differ = 0;
    for (int i = 0; i < recordings; i++) {
        if (c->pattern && !lent[i].listed) continue;
        differ += c->run(states[0], &lent[i]) != c->run(states[1], &lent[i]);
        double r = ratio(c, states, &lent[i]);
        logs += log(r);
        least = fmin(least, r);
        most = fmax(most, r);
        measured++;
        if (c->listing) {
            lent[i].listing_logs += log(r);
            lent[i].listings++;
        }
    }
    printf("| %s | %.2f (%.2f to %.2f) | %d | %d |\n", c->name, exp(logs / measured), least, most, measured,
           differ);
}

/* Prints for each recording how long its listings take after / before. */
static void print_listings(const struct lent *lent, int recordings) {
    printf("\n| Recording | listing, after / before: geometric mean of sizes 2, 4 and 16 |\n|---|---|\n");
    for (int i = 0; i < recordings; i++) {
        const char *slash = strrchr(lent[i].name, '/');
        const char *name = slash == NULL ? lent[i].name : slash + 1;
        if (lent[i].listings > 0) printf("| %s | %.3f |\n", name, exp(lent[i].listing_logs / lent[i].listings));
    }
}

int main(int count, char **words) {
    if (count < 4) fail("usage", "before FOLDER FOLDER RECORDING...");
    int recordings = count - 3;
    struct lent *lent = calloc((size_t)recordings, sizeof *lent);
    if (lent == NULL) fail("no memory", "recordings");
    int accepted = 0;
    for (int i = 0; i < recordings; i++) {
        read_recording(&lent[accepted], words[i + 3], words[2]);
        if (refused(words[1], &lent[accepted]) || refused(words[2], &lent[accepted]))
            fprintf(stderr, "before: %s is refused in one state and left out\n", words[i + 3]);
        else
            accepted++;
    }
    printf("| Call | after / before: geometric mean (least to most) | Recordings | Answers that differ |\n"
           "|---|---|---|---|\n");
    for (int i = 0; i < CALLS; i++) {
        const struct call *c = &calls[i];
        void *states[2];
        for (int s = 0; s < 2; s++) states[s] = find(words[s + 1], c->library, c->symbol);
        if (states[0] == NULL || states[1] == NULL)
            printf("| %s | in one state only | | |\n", c->name);
        else
            measure(c, states, lent, accepted);
    }
    print_listings(lent, accepted);
    free(lent);
    return 0;
}
