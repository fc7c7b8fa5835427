/* The calls of a state of the project, off its shared objects timed.so and hidzvoma.so, and what they are
 * lent. bench/before.c measures them, bench/counts.c counts their instructions. A call takes the same
 * arguments in every state, which nothing checks: one that changes them needs a line of its own. */
#ifndef CALLS_H
#define CALLS_H

#include <dlfcn.h>
#include <stdbool.h>
#include <stdint.h>
#include <stdio.h>
#include <stdlib.h>
#include <string.h>

enum { LARGEST = 8192, ROOM = 65536 };

/* What the calls are lent: a recording, the middle entry of its listing of pairs, if it has any, and a
 * schedule for that; and bytes to write to. Beside it what was measured of its listings: the sum of the
 * ratios' logarithms, and how many they are. */
struct lent {
    const char *name;
    double listing_logs;
    int listings;
    uint8_t recording[LARGEST], pattern[4], schedule[LARGEST], out[ROOM];
    size_t length, events, schedule_length;
    bool listed;
};

/* ---- the calls */

typedef uint64_t plain(const uint8_t *, size_t);
typedef uint64_t numbered(const uint8_t *, size_t, uint64_t);
typedef uint64_t writing(const uint8_t *, size_t, uint8_t *, size_t);
typedef uint64_t listing(const uint8_t *, size_t, uint64_t, uint8_t *, size_t);
typedef uint64_t patterned(const uint8_t *, size_t, const uint8_t *, size_t);
typedef uint64_t witnessing(const uint8_t *, size_t, const uint8_t *, size_t, uint8_t *, size_t);
typedef uint64_t scheduled(const uint8_t *, size_t, const uint8_t *, size_t, const uint8_t *, size_t);

static uint64_t on_recording(void *f, struct lent *l) { return ((plain *)f)(l->recording, l->length); }

/* The middle event. */
static uint64_t on_event(void *f, struct lent *l) {
    return ((numbered *)f)(l->recording, l->length, l->events / 2);
}

static uint64_t on_lock(void *f, struct lent *l) { return ((numbered *)f)(l->recording, l->length, 1); }

/* The closure of the last event. */
static uint64_t on_set(void *f, struct lent *l) {
    size_t length = (l->events + 7) / 8;
    memset(l->out, 0, length);
    l->out[(l->events - 1) / 8] = (uint8_t)(128 >> (l->events - 1) % 8);
    return ((writing *)f)(l->recording, l->length, l->out, length);
}

static uint64_t list(void *f, struct lent *l, uint64_t largest) {
    return ((listing *)f)(l->recording, l->length, largest, l->out, ROOM);
}

static uint64_t list_pairs(void *f, struct lent *l) { return list(f, l, 2); }
static uint64_t list_to_four(void *f, struct lent *l) { return list(f, l, 4); }
static uint64_t list_to_sixteen(void *f, struct lent *l) { return list(f, l, 16); }
/* Before request 5, 0 stood for 2: beside such a state this is no ratio of one and the same answer. */
static uint64_t list_by_default(void *f, struct lent *l) { return list(f, l, 0); }

static uint64_t on_pattern(void *f, struct lent *l) {
    return ((patterned *)f)(l->recording, l->length, l->pattern, 4);
}

static uint64_t to_witness(void *f, struct lent *l) {
    return ((witnessing *)f)(l->recording, l->length, l->pattern, 4, l->out, ROOM);
}

static uint64_t on_schedule(void *f, struct lent *l) {
    return ((scheduled *)f)(l->recording, l->length, l->pattern, 4, l->schedule, l->schedule_length);
}

static const struct call {
    const char *name, *library, *symbol;
    uint64_t (*run)(void *, struct lent *);
    /* It takes a pattern; it counts as a listing of its recording, which size 0, being 16, does not again. */
    bool pattern, listing;
} calls[] = {
    {"check", "timed", "timed_check", on_recording, false, false},
    {"check and tables", "timed", "timed_tables", on_recording, false, false},
    {"relations", "timed", "timed_relations", on_event, false, false},
    {"load", "timed", "timed_load", on_lock, false, false},
    {"close", "timed", "timed_close", on_set, false, false},
    {"list, size 2", "hidzvoma", "hidzvoma_list", list_pairs, false, true},
    {"list, size 4", "hidzvoma", "hidzvoma_list", list_to_four, false, true},
    {"list, size 16", "hidzvoma", "hidzvoma_list", list_to_sixteen, false, true},
    {"list, size 0", "hidzvoma", "hidzvoma_list", list_by_default, false, false},
    {"verdict", "hidzvoma", "hidzvoma_verdict", on_pattern, true, false},
    {"witness", "timed", "timed_witness", to_witness, true, false},
    {"schedule", "timed", "timed_schedule", on_schedule, true, false},
};
enum { CALLS = sizeof calls / sizeof *calls };

/* ---- what is loaded and read */

static void fail(const char *what, const char *name) {
    fprintf(stderr, "%s: %s\n", what, name);
    exit(1);
}

/* A function of a library in the folder; null where the library has none of that name. */
static void *find(const char *folder, const char *library, const char *symbol) {
    char path[4096];
    snprintf(path, sizeof path, "%s/%s.so", folder, library);
    void *loaded = dlopen(path, RTLD_NOW | RTLD_LOCAL);
    if (loaded == NULL) fail("cannot be loaded", dlerror());
    return dlsym(loaded, symbol);
}

/* Reads a recording, and finds a pattern of it and a schedule by the calls of the state in the folder. */
static void read_recording(struct lent *l, const char *path, const char *folder) {
    void *list_call = find(folder, "hidzvoma", "hidzvoma_list");
    void *witness_call = find(folder, "timed", "timed_witness");
    if (list_call == NULL || witness_call == NULL) fail("no call for patterns and schedules in", folder);
    l->name = path;
    FILE *file = fopen(path, "rb");
    if (file == NULL) fail("cannot be read", path);
    l->length = fread(l->recording, 1, LARGEST, file);
    fclose(file);
    if (l->length < 4) fail("no events", path);
    l->events = l->length / 2 - 1;
    uint64_t bytes = list_pairs(list_call, l);
    l->listed = bytes % 2 == 0 && bytes > 0;
    if (!l->listed) return;
    memcpy(l->pattern, l->out + bytes / 12 * 6 + 2, 4);
    l->schedule_length = to_witness(witness_call, l);
    memcpy(l->schedule, l->out, l->schedule_length);
}

/* The state in the folder refuses the recording. */
static bool refused(const char *folder, struct lent *l) {
    void *check_call = find(folder, "timed", "timed_check");
    if (check_call == NULL) fail("no check in", folder);
    return on_recording(check_call, l) != 0;
}

#endif
