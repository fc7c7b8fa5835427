/* One call of one state, for callgrind to count: counts BEFORE AFTER STATE CALL RECORDING makes the call of
 * number CALL twice with the state in the folder STATE, which is one of the two others, the second time in
 * `counted`; with the first two words alone it prints the calls' numbers and names, and whether each counts as
 * a listing. It ends with 3 where the call cannot be compared: a state has none of that name or refuses the
 * recording, or there is no pattern to lend. */
#include "calls.h"

/* What is counted: one call. */
__attribute__((noinline)) uint64_t counted(const struct call *c, void *f, struct lent *l) {
    return c->run(f, l);
}

int main(int count, char **words) {
    static struct lent lent;
    if (count == 3) {
        for (int i = 0; i < CALLS; i++) printf("%d\t%s\t%d\n", i, calls[i].name, calls[i].listing);
        return 0;
    }
    if (count != 6) fail("usage", "counts BEFORE AFTER STATE CALL RECORDING");
    const struct call *c = &calls[atoi(words[4]) % CALLS];
    read_recording(&lent, words[5], words[2]);
    void *f = find(words[3], c->library, c->symbol);
    for (int i = 1; i < 3; i++)
        if (refused(words[i], &lent) || find(words[i], c->library, c->symbol) == NULL) return 3;
    if (c->pattern && !lent.listed) return 3;
    uint64_t first = c->run(f, &lent);
    if (counted(c, f, &lent) != first) fail("answers twice differently", c->name);
    return 0;
}
