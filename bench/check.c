/* Times the check of recordings, and the filling of their tables, against a plain C loop that does the same
 * as the check: holder and depth of each lock, latest write of each variable, tasks begun and tasks joined,
 * each event unpacked by shifts. Recordings are read from the files given as arguments. First sees that the
 * answers agree, on every beginning of a recording and with a bit of each byte turned; then measures all
 * three in turn, and prints medians. */
#include <stdint.h>
#include <stdio.h>
#include <stdlib.h>
#include <string.h>

#include "timing.h"

enum { LARGEST = 8192, BATCHES = 101, CALLS = 20 };

typedef uint64_t call(const uint8_t *recording, size_t length);

/* The proved calls: a recording's refusal; of an accepted one timed_tables returns a number to 4 instead. */
call timed_check, timed_tables;

struct outcome {
    uint64_t refusal, event;
};

/* Questions 1 to 7, 15 and 16. A task has begun with its start or its first event. */
__attribute__((noipa)) static struct outcome check(const uint8_t *recording, size_t length) {
    if (length < 2)
        return (struct outcome){1, 0};
    if (recording[0] >> 4 != 1)
        return (struct outcome){2, 0};
    size_t n = (size_t)(recording[0] & 15) << 8 | recording[1];
    if (length != 2 + 2 * n)
        return (struct outcome){3, 0};
    uint8_t holders[64] = {0};
    uint16_t depths[64] = {0};
    uint16_t writes[1024] = {0};
    unsigned begun = 0, joined = 0;
    for (size_t e = 1; e <= n; e++) {
        unsigned op = recording[2 * e] >> 6;
        unsigned task = recording[2 * e] >> 2 & 15;
        unsigned object = (recording[2 * e] & 3) << 8 | recording[2 * e + 1];
        if (op == 0) {
            if (writes[object] == 0)
                return (struct outcome){7, e};
        } else if (op == 1) {
            writes[object] = (uint16_t)e;
        } else if (object > 79) {
            return (struct outcome){4, e};
        } else if (object > 63) {
            unsigned other = object - 64;
            if (op == 2) {
                if (other == task || ((begun | joined) >> other & 1) != 0)
                    return (struct outcome){15, e};
                begun |= 1u << other;
            } else {
                if (other == task)
                    return (struct outcome){16, e};
                joined |= 1u << other;
            }
        } else if (op == 2) {
            if (holders[object] != 0 && holders[object] != task + 1)
                return (struct outcome){5, e};
            holders[object] = (uint8_t)(task + 1);
            depths[object]++;
        } else {
            if (holders[object] != task + 1)
                return (struct outcome){6, e};
            if (--depths[object] == 0)
                holders[object] = 0;
        }
        if ((joined >> task & 1) != 0)
            return (struct outcome){16, e};
        begun |= 1u << task;
    }
    return (struct outcome){0, 0};
}

__attribute__((noipa)) static uint64_t c_check(const uint8_t *recording, size_t length) {
    return check(recording, length).refusal;
}

/* What timed_tables has to return for an accepted recording of n events: the relations of the last one, each
 * searched for by its definition, and compared as there; an inner acquire or release, a start and a join
 * have their own number as the match in their row. With no event, every table has 0. */
static uint64_t last_entries(const uint8_t *recording, size_t n) {
    unsigned first = n == 0 ? 0 : recording[2 * n];
    unsigned op = first >> 6, task = first >> 2 & 15;
    unsigned object = n == 0 ? 0 : (first & 3) << 8 | recording[2 * n + 1];
    size_t predecessor = 0, writer = 0, outer = 0;
    unsigned depths[64] = {0};
    uint64_t held = 0;
    for (size_t e = 1; e < n; e++) {
        unsigned other = recording[2 * e], o = (other & 3) << 8 | recording[2 * e + 1];
        int own = (other >> 2 & 15) == task;
        if (own || (other >> 6 == 2 && o == 64 + task))
            predecessor = e;
        if (op == 0 && other >> 6 == 1 && o == object)
            writer = e;
        if (own && other >> 6 == 2 && o < 64 && depths[o]++ == 0) {
            held |= (uint64_t)1 << o;
            if (o == object)
                outer = e;
        }
        if (own && other >> 6 == 3 && o < 64 && --depths[o] == 0)
            held &= ~((uint64_t)1 << o);
    }
    size_t match = 0;
    if (op == 2 && (object > 63 || depths[object] != 0))
        match = n;
    if (op == 3)
        match = object < 64 && depths[object] == 1 ? outer : n;
    return op == task ? 1 : object == match ? 2 : predecessor == writer ? 3 : held == 0 ? 4 : 0;
}

/* Sees that the answers about one recording agree. */
static void agree(const uint8_t *recording, size_t length) {
    uint64_t refusal = c_check(recording, length);
    uint64_t number = refusal != 0 ? refusal : last_entries(recording, length / 2 - 1);
    if (timed_check(recording, length) != refusal || timed_tables(recording, length) != number) {
        printf("the answers differ\n");
        exit(1);
    }
}

/* Sees that they agree on every beginning of the recording, and with one bit of each byte turned. */
static void compare(uint8_t *recording, size_t length) {
    uint8_t copy[LARGEST];
    memcpy(copy, recording, length);
    for (size_t n = 0; 2 + 2 * n <= length; n++) {
        copy[0] = (uint8_t)(16 | n >> 8);
        copy[1] = (uint8_t)n;
        agree(copy, 2 + 2 * n);
    }
    for (size_t i = 0; i < length; i++) {
        recording[i] ^= (uint8_t)(1 << i / 2 % 8);
        agree(recording, length);
        recording[i] ^= (uint8_t)(1 << i / 2 % 8);
    }
    for (size_t short_length = 0; short_length < 4; short_length++)
        agree(recording, short_length);
}

/* Microseconds of one call, over a batch; of a short recording the batch has more calls. */
static double batch(call *f, const uint8_t *recording, size_t length) {
    size_t calls = CALLS * (LARGEST / (length + 1) + 1);
    double start = now();
    for (size_t i = 0; i < calls; i++)
        sum += f(recording, length);
    return (now() - start) / (double)calls;
}

int main(int count, char **files) {
    call *const calls[] = {c_check, timed_check, timed_tables};
    printf("Microseconds of a call: median (least to most) of %d batches.\n\n"
           "| Recording | Events | C loop | check | check and tables | check / C "
           "| tables / check | (check and tables) / check |\n"
           "|---|---|---|---|---|---|---|---|\n",
           BATCHES);
    for (int i = 1; i < count; i++) {
        static uint8_t recording[LARGEST];
        FILE *file = fopen(files[i], "rb");
        if (file == NULL) {
            printf("cannot read %s\n", files[i]);
            return 1;
        }
        size_t length = fread(recording, 1, LARGEST, file);
        fclose(file);
        compare(recording, length);

        double times[3][BATCHES];
        for (int c = 0; c < 3; c++)
            batch(calls[c], recording, length);
        for (int b = 0; b < BATCHES; b++)
            for (int c = 0; c < 3; c++)
                times[c][b] = batch(calls[c], recording, length);
        const char *name = strrchr(files[i], '/');
        printf("| %s | %zu |", name == NULL ? files[i] : name + 1, length / 2 - 1);
        double median[3];
        for (int c = 0; c < 3; c++) {
            qsort(times[c], BATCHES, sizeof(double), ascending);
            median[c] = times[c][BATCHES / 2];
            printf(" %.2f (%.2f to %.2f) |", median[c], times[c][0], times[c][BATCHES - 1]);
        }
        printf(" %.2f | %.2f | %.2f |\n", median[1] / median[0], (median[2] - median[1]) / median[1],
               median[2] / median[1]);
    }
    return 0;
}
