/* Fuzzes the entries for C: calls them with random and damaged bytes, and sees that every call keeps what
 * include/hidzvoma.h promises.
 *
 *     fuzz SEED ROUNDS EVENTS
 *
 * A round makes a recording of at most EVENTS events, damages it in about half of the cases, lists it, and
 * asks for the verdicts of patterns. The same arguments give the same calls. Each call is made three times,
 * and has to give the same answer: with bytes that end where a page begins that cannot be touched, with bytes
 * that begin where such a page ends, and with bytes of exactly their length from malloc, which valgrind
 * watches. What is lent for reading only lies in pages that cannot be written. Questions 1 to 8, 10, 13, 15
 * and 16 are answered here once more; listing and verdict are held against each other. Prints how often each
 * answer came; the exit status is 1 where a promise is not kept, and where an answer never came. */
#include "hidzvoma.h"

#include <stdbool.h>
#include <stdio.h>
#include <stdlib.h>
#include <string.h>
#include <sys/mman.h>
#include <unistd.h>

enum { TASKS = 16, LOCKS = 64, VARIABLES = 1024, EVENTS = 4095 };

/* The most bytes that are lent: more than a recording and a pattern can have. */
enum { RECORDING = 9000, PATTERN = 100, OUT = 70000 };

/* The most acquires of a task in a walk that are not released. */
enum { MOST_HELD = 300 };

enum { READ, WRITE, ACQUIRE, RELEASE };

struct bytes {
    uint8_t *at;
    size_t length;
};

/* What is being tried: the recording, its refusal by questions 1 to 7, 15 and 16 or 0, and the call's
 * arguments. */
static struct {
    uint64_t seed, round, refusal, largest;
    struct bytes recording, pattern;
    size_t out_length;
} tried;

/* The locks that the task of each event holds right before it, the latest event of each task that is the
 * event or comes before it by task order, starts and joins, and how many inner acquires, starts and joins
 * there are, if the recording tried is well-formed. */
static uint64_t held[EVENTS + 1];
static uint16_t earlier[EVENTS + 1][TASKS];
static size_t inner_acquires, starts, joins;

static void print_bytes(const char *name, struct bytes bytes) {
    printf("%s, %zu bytes:", name, bytes.length);
    for (size_t i = 0; i < bytes.length; i++)
        printf(" %02X", bytes.at[i]);
    printf("\n");
}

/* Ends the program with a message about the call that is being tried. */
static void fail(const char *message) {
    print_bytes("recording", tried.recording);
    print_bytes("pattern", tried.pattern);
    printf("largest %llu, output of %zu bytes\n", (unsigned long long)tried.largest, tried.out_length);
    printf("fuzz: seed %llu, round %llu: %s\n", (unsigned long long)tried.seed,
           (unsigned long long)tried.round, message);
    exit(1);
}

static void expect(bool holds, const char *message) {
    if (!holds)
        fail(message);
}

/* ---- random numbers */

static uint64_t random_state;

/* The generator splitmix64. */
static uint64_t next_random(void) {
    uint64_t n = random_state += 0x9e3779b97f4a7c15;
    n = (n ^ n >> 30) * 0xbf58476d1ce4e5b9;
    n = (n ^ n >> 27) * 0x94d049bb133111eb;
    return n ^ n >> 31;
}

/* A number less than the limit, which is not 0. */
static size_t below(size_t limit) {
    return (size_t)(next_random() % limit);
}

/* A number from the first to the last, both included. */
static size_t between(size_t first, size_t last) {
    return first + below(last - first + 1);
}

/* True in so many per cent of the cases. */
static bool chance(size_t percent) {
    return below(100) < percent;
}

static void fill_randomly(struct bytes bytes) {
    for (size_t i = 0; i < bytes.length; i++)
        bytes.at[i] = (uint8_t)next_random();
}

/* ---- two-byte numbers, and recordings */

static unsigned number(const uint8_t *at) {
    return (unsigned)at[0] << 8 | at[1];
}

static void put_number(uint8_t *at, size_t n) {
    at[0] = (uint8_t)(n >> 8);
    at[1] = (uint8_t)n;
}

static void put_header(struct bytes recording, size_t events) {
    put_number(recording.at, 0x1000 + events);
}

/* The events that a recording of this length has room for, which is all of them if it is well-formed. */
static size_t count_events(struct bytes recording) {
    return recording.length < 2 ? 0 : recording.length / 2 - 1;
}

static unsigned operation(struct bytes recording, size_t event) {
    return recording.at[2 * event] >> 6;
}

static unsigned task(struct bytes recording, size_t event) {
    return recording.at[2 * event] >> 2 & 15;
}

static unsigned object(struct bytes recording, size_t event) {
    return number(recording.at + 2 * event) & 1023;
}

/* Whether a mask has a bit. */
static bool has(uint64_t mask, unsigned bit) {
    return (mask >> bit & 1) == 1;
}

/* ---- the questions, answered once more */

/* A refusal as the calls return it. */
static uint64_t refused(uint64_t refusal, uint64_t event) {
    return 2 * (65536 * refusal + event) + 1;
}

/* Whether an event starts or joins a task. */
static bool names_task(struct bytes recording, size_t event) {
    unsigned op = operation(recording, event), x = object(recording, event);
    return (op == ACQUIRE || op == RELEASE) && LOCKS <= x && x < LOCKS + TASKS;
}

/* Puts another event, or none for 0, and what comes before it, before an event. */
static void put_earlier(size_t event, size_t other) {
    for (size_t t = 0; t < TASKS; t++)
        if (earlier[event][t] < earlier[other][t])
            earlier[event][t] = earlier[other][t];
}

/* What the events so far say of each task: its start and its latest event, or 0, and whether it is joined. */
struct tasks {
    size_t start[TASKS], latest[TASKS];
    bool is_joined[TASKS];
};

/* Whether a task is started or has an event. */
static bool has_begun(const struct tasks *tasks, size_t t) {
    return tasks->start[t] != 0 || tasks->latest[t] != 0;
}

/* Questions 15 and 16 of an event: the refusal, or 0. Fills in what comes before it, and counts starts and
 * joins. */
static uint64_t walk_tasks(struct bytes recording, size_t e, struct tasks *tasks) {
    unsigned t = task(recording, e), other = object(recording, e) % LOCKS;
    bool is_start = names_task(recording, e) && operation(recording, e) == ACQUIRE;
    bool is_join = names_task(recording, e) && operation(recording, e) == RELEASE;
    if (is_start && (other == t || has_begun(tasks, other) || tasks->is_joined[other]))
        return refused(15, e);
    if ((is_join && other == t) || tasks->is_joined[t])
        return refused(16, e);
    memset(earlier[e], 0, sizeof earlier[e]);
    put_earlier(e, tasks->start[t]);
    put_earlier(e, tasks->latest[t]);
    earlier[e][t] = (uint16_t)e;
    tasks->latest[t] = e;
    if (is_start)
        tasks->start[other] = e;
    if (is_join) {
        tasks->is_joined[other] = true;
        put_earlier(e, tasks->start[other]);
        put_earlier(e, tasks->latest[other]);
    }
    starts += is_start;
    joins += is_join;
    return 0;
}

/* Questions 5 and 6 of an acquire or release: the refusal, or 0. Takes note of the event: the locks of its
 * task, and the depth in its lock. */
static uint64_t walk_locks(struct bytes recording, size_t e, uint64_t *own, unsigned depths[LOCKS]) {
    unsigned op = operation(recording, e), x = object(recording, e);
    if (op == ACQUIRE && depths[x] != 0 && !has(*own, x))
        return refused(5, e);
    if (op == RELEASE && !has(*own, x))
        return refused(6, e);
    inner_acquires += op == ACQUIRE && depths[x] != 0;
    if (op == ACQUIRE ? depths[x]++ == 0 : --depths[x] == 0)
        *own ^= (uint64_t)1 << x;
    return 0;
}

/* Questions 4 to 7, 15 and 16, event by event: the refusal, or 0. Fills in the held locks and what comes
 * before each event, and counts inner acquires, starts and joins. */
static uint64_t walk_events(struct bytes recording) {
    uint64_t own[TASKS] = {0};
    unsigned depths[LOCKS] = {0};
    bool is_written[VARIABLES] = {false};
    struct tasks tasks = {0};
    inner_acquires = starts = joins = 0;
    for (size_t e = 1; e <= count_events(recording); e++) {
        unsigned op = operation(recording, e), t = task(recording, e), x = object(recording, e);
        uint64_t refusal = 0;
        held[e] = own[t];
        if ((op == ACQUIRE || op == RELEASE) && LOCKS + TASKS <= x)
            refusal = refused(4, e);
        else if ((op == ACQUIRE || op == RELEASE) && x < LOCKS)
            refusal = walk_locks(recording, e, &own[t], depths);
        else if (op == READ && !is_written[x])
            refusal = refused(7, e);
        else if (op == WRITE)
            is_written[x] = true;
        if (refusal == 0)
            refusal = walk_tasks(recording, e, &tasks);
        if (refusal != 0)
            return refusal;
    }
    return 0;
}

/* Questions 1 to 7, 15 and 16: the refusal, or 0. */
static uint64_t check_recording(struct bytes recording) {
    if (recording.length < 2)
        return refused(1, 0);
    if (recording.at[0] >> 4 != 1)
        return refused(2, 0);
    if (recording.length != 2 + 2 * (number(recording.at) & (size_t)4095))
        return refused(3, 0);
    return walk_events(recording);
}

/* Question 8. */
static bool is_size(uint64_t largest) {
    return largest == 0 || (2 <= largest && largest <= 16);
}

/* How many events an entry may have: 0 stands for 16. */
static size_t most_of_entry(uint64_t largest) {
    return largest == 0 ? 16 : (size_t)largest;
}

/* Question 10, of a well-formed recording. */
static bool is_pattern(struct bytes recording, struct bytes pattern) {
    uint64_t tasks = 0, locks = 0, all_held = 0;
    if (pattern.length % 2 == 1 || pattern.length < 4 || 32 < pattern.length)
        return false;
    for (size_t i = 0; i < pattern.length; i += 2) {
        unsigned e = number(pattern.at + i), next = number(pattern.at + (i + 2) % pattern.length);
        if (e == 0 || count_events(recording) < e || next == 0 || count_events(recording) < next)
            return false;
        unsigned t = task(recording, e), lock = object(recording, e);
        if (operation(recording, e) != ACQUIRE || names_task(recording, e) || has(held[e], lock))
            return false;
        if (e < number(pattern.at) || !has(held[next], lock))
            return false;
        if (has(tasks, t) || has(locks, lock) || (all_held & held[e]) != 0)
            return false;
        tasks |= (uint64_t)1 << t;
        locks |= (uint64_t)1 << lock;
        all_held |= held[e];
    }
    return true;
}

/* Whether starts and joins part a pattern: one of its events comes before another one. */
static bool is_parted(struct bytes recording, struct bytes pattern) {
    for (size_t i = 0; i < pattern.length; i += 2)
        for (size_t j = 0; j < pattern.length; j += 2) {
            unsigned e = number(pattern.at + i), f = number(pattern.at + j);
            if (e != f && e <= earlier[f][task(recording, e)])
                return true;
        }
    return false;
}

/* ---- well-formed recordings by a random walk */

/* How tasks walk, with chances in per cent. */
struct walk {
    size_t tasks, locks, variables;
    /* A task takes a free lock where fewer of its acquires than these are not released. */
    size_t depth;
    /* The chance that a task that holds a lock takes its newest one again. */
    size_t again;
    /* The chance that a task takes a lock that it can take, and that after a release it takes none. */
    size_t take, leave;
    /* The chance that a task that holds a lock goes on. */
    size_t stay;
    /* The chance that a task takes the lock after its newest one, and as its first one its own. */
    size_t follow;
    /* The chance of a read or a write. */
    size_t access;
    /* The chance that a task waits for its start, and that one starts another where it can. */
    size_t wait, start;
    /* About how many joins there are. */
    size_t join;
    /* Whether the tasks come in turn, and not at random. */
    bool in_turn;
    /* What is added to every task and lock, modulo 16 and 64. */
    size_t shift;
};

/* Where a walk is: which locks are held, those of each task, the newest last and as often as it holds them,
 * which variables are written, and which tasks release all their locks, wait for their start, were started or
 * have an event, and were joined. */
struct state {
    bool is_held[LOCKS], is_written[VARIABLES], is_leaving[TASKS];
    bool is_waiting[TASKS], has_begun[TASKS], is_joined[TASKS];
    uint8_t held[TASKS][MOST_HELD];
    size_t count[TASKS];
};

/* Walks of a few tasks or many. */
static struct walk any_walk(void) {
    struct walk walk = {.take = 70, .leave = 30};
    walk.tasks = chance(60) ? between(2, 4) : between(1, TASKS);
    walk.locks = chance(60) ? between(2, 5) : between(1, LOCKS);
    walk.variables = chance(80) ? between(1, 4) : VARIABLES;
    walk.depth = between(1, 4);
    walk.stay = chance(40) ? 100 : between(20, 95);
    walk.follow = chance(50) ? 0 : between(1, 100);
    walk.again = chance(50) ? 0 : between(1, 60);
    walk.access = chance(60) ? 0 : between(1, 50);
    walk.start = chance(50) ? 0 : between(1, 60);
    walk.wait = walk.start == 0 ? 0 : between(0, 100);
    walk.join = chance(50) ? 0 : between(1, 6);
    walk.shift = below(LOCKS);
    return walk;
}

/* Walks in which each task takes its own lock and then mostly the next task's. */
static struct walk any_ring(void) {
    struct walk walk = any_walk();
    walk.tasks = walk.locks = between(2, TASKS);
    walk.depth = 2;
    walk.take = walk.leave = walk.stay = 100;
    walk.follow = chance(50) ? 100 : between(90, 99);
    walk.in_turn = chance(80);
    return walk;
}

static size_t read_or_write(const struct walk *walk, struct state *state) {
    size_t variable = below(walk->variables);
    if (state->is_written[variable] && chance(60))
        return READ << 14 | variable;
    state->is_written[variable] = true;
    return WRITE << 14 | variable;
}

/* The lock that a task tries to take. */
static size_t next_lock(const struct walk *walk, const struct state *state, size_t t) {
    size_t count = state->count[t];
    if (!chance(walk->follow))
        return below(walk->locks);
    return (count == 0 ? t : state->held[t][count - 1] + (size_t)1) % walk->locks;
}

/* One event of a task, but for its task: it takes a free lock, its newest one again, releases one, or reads
 * or writes. */
static size_t step(const struct walk *walk, struct state *state, size_t t) {
    uint8_t *own = state->held[t];
    size_t lock = next_lock(walk, state, t);
    if (0 < state->count[t] && state->count[t] < MOST_HELD && chance(walk->again)) {
        lock = own[state->count[t] - 1];
        own[state->count[t]++] = (uint8_t)lock;
        return ACQUIRE << 14 | (lock + walk->shift) % LOCKS;
    }
    bool can_take = state->count[t] < walk->depth && !state->is_held[lock] && !state->is_leaving[t];
    if (chance(walk->access))
        return read_or_write(walk, state);
    if (can_take && chance(walk->take)) {
        own[state->count[t]++] = (uint8_t)lock;
        state->is_held[lock] = true;
        return ACQUIRE << 14 | (lock + walk->shift) % LOCKS;
    }
    if (state->count[t] == 0)
        return read_or_write(walk, state);
    size_t i = chance(85) ? state->count[t] - 1 : below(state->count[t]);
    lock = own[i];
    memmove(own + i, own + i + 1, --state->count[t] - i);
    state->is_held[lock] = memchr(own, (int)lock, state->count[t]) != NULL;
    state->is_leaving[t] = state->count[t] > 0 && chance(walk->leave);
    return RELEASE << 14 | (lock + walk->shift) % LOCKS;
}

/* A start or join by a task in a walk of so many events, but for its task; or 0, which is neither. A task is
 * mostly joined without locks, as one that ends with some keeps them from the others. */
static size_t start_or_join(const struct walk *walk, struct state *state, size_t t, size_t events) {
    size_t other = below(chance(80) ? walk->tasks : TASKS);
    size_t named = LOCKS + (other + walk->shift) % TASKS;
    if (other == t)
        return 0;
    if (!state->has_begun[other] && !state->is_joined[other] && chance(walk->start)) {
        state->has_begun[other] = true;
        state->is_waiting[other] = false;
        return ACQUIRE << 14 | named;
    }
    if ((state->count[other] == 0 || chance(5)) && below(events) < walk->join) {
        state->is_joined[other] = true;
        return RELEASE << 14 | named;
    }
    return 0;
}

/* The task of the next event: that of the last one, if it holds a lock and goes on, or any that neither waits
 * nor was joined. That of the last one is such a task, so there always is one. */
static size_t next_task(const struct walk *walk, const struct state *state, size_t t) {
    if (state->count[t] > 0 && chance(walk->stay))
        return t;
    do
        t = walk->in_turn ? (t + 1) % walk->tasks : below(walk->tasks);
    while (state->is_waiting[t] || state->is_joined[t]);
    return t;
}

/* Makes a well-formed recording with so many events. */
static void make_recording(struct bytes *recording, size_t events) {
    struct walk walk = chance(30) ? any_ring() : any_walk();
    struct state state = {0};
    size_t first = below(walk.tasks), t = first;
    for (size_t other = 0; other < walk.tasks; other++)
        state.is_waiting[other] = other != first && chance(walk.wait);
    recording->length = 2 + 2 * events;
    put_header(*recording, events);
    for (size_t e = 1; e <= events; e++) {
        t = next_task(&walk, &state, t);
        state.has_begun[t] = true;
        size_t event = start_or_join(&walk, &state, t, events);
        if (event == 0)
            event = step(&walk, &state, t);
        put_number(recording->at + 2 * e, event | (t + walk.shift) % TASKS << 10);
    }
}

/* ---- damage */

static void flip_bits(struct bytes bytes) {
    for (size_t left = bytes.length == 0 ? 0 : between(1, 3); left > 0; left--) {
        size_t bit = below(8 * bytes.length);
        bytes.at[bit / 8] ^= (uint8_t)(1 << bit % 8);
    }
}

/* Adds up to so many random bytes, as far as the memory goes. */
static void extend(struct bytes *bytes, size_t most, size_t memory) {
    size_t added = between(1, most);
    if (bytes->length + added > memory)
        added = memory - bytes->length;
    fill_randomly((struct bytes){bytes->at + bytes->length, added});
    bytes->length += added;
}

static size_t any_event(void) {
    return below(64) << 10 | below(chance(50) ? VARIABLES : LOCKS + TASKS + 6);
}

static size_t any_start_or_join(void) {
    return between(ACQUIRE, RELEASE) << 14 | below(TASKS) << 10 | (LOCKS + below(TASKS));
}

/* Puts an event in the place of another. */
static void replace_event(struct bytes recording, size_t event) {
    if (count_events(recording) > 0)
        put_number(recording.at + 2 * between(1, count_events(recording)), event);
}

static void swap_events(struct bytes recording) {
    size_t events = count_events(recording);
    if (events == 0)
        return;
    uint8_t *one = recording.at + 2 * between(1, events);
    uint8_t *other = recording.at + 2 * between(1, events);
    unsigned n = number(one);
    put_number(one, number(other));
    put_number(other, n);
}

static void make_any_bytes(struct bytes *recording) {
    recording->length = chance(80) ? below(100) : below(RECORDING + 1);
    fill_randomly(*recording);
    if (recording->length >= 2 && chance(50))
        put_header(*recording, count_events(*recording) % (EVENTS + 1));
}

/* Changes the bytes of a recording in one of many ways. */
static void damage_recording(struct bytes *recording) {
    switch (below(11)) {
    case 0: flip_bits(*recording); break;
    case 1: recording->length = below(recording->length + 1); break;
    case 2: recording->length = below(4); break;
    case 3: extend(recording, chance(80) ? 4 : RECORDING, RECORDING); break;
    case 4: put_header(*recording, below(EVENTS + 1)); break;
    case 5: recording->at[0] ^= (uint8_t)(between(1, 15) << 4); break;
    case 6: replace_event(*recording, any_event()); break;
    case 7: swap_events(*recording); break;
    case 8:
    case 9: replace_event(*recording, any_start_or_join()); break;
    default: make_any_bytes(recording);
    }
}

/* ---- the calls, each in three places */

/* Pages that can be written, with a page on each side that cannot be touched. */
struct pages {
    uint8_t *first;
    size_t length;
};

static struct pages recording_pages, pattern_pages, out_pages;

static struct pages make_pages(size_t length) {
    size_t page = (size_t)sysconf(_SC_PAGESIZE);
    size_t inner = (length + page - 1) / page * page;
    uint8_t *memory = mmap(NULL, inner + 2 * page, PROT_NONE, MAP_PRIVATE | MAP_ANONYMOUS, -1, 0);
    expect(memory != MAP_FAILED, "no memory");
    expect(mprotect(memory + page, inner, PROT_READ | PROT_WRITE) == 0, "pages cannot be made writable");
    return (struct pages){memory + page, inner};
}

enum place { AT_END, AT_BEGINNING, ALLOCATED, PLACES };

/* A copy of bytes in a place. */
static struct bytes lay(enum place place, struct pages pages, struct bytes bytes) {
    uint8_t *at = place == AT_END         ? pages.first + pages.length - bytes.length
                  : place == AT_BEGINNING ? pages.first
                                          : malloc(bytes.length);
    expect(at != NULL, "no memory");
    memcpy(at, bytes.at, bytes.length);
    return (struct bytes){at, bytes.length};
}

/* Lays a copy of bytes that are only read. */
static struct bytes lay_input(enum place place, struct pages pages, struct bytes bytes) {
    struct bytes laid = lay(place, pages, bytes);
    expect(mprotect(pages.first, pages.length, PROT_READ) == 0, "pages cannot be made read-only");
    return laid;
}

/* Takes the copy away, which has to be unchanged. */
static void take_input(enum place place, struct pages pages, struct bytes laid, struct bytes bytes) {
    expect(memcmp(laid.at, bytes.at, bytes.length) == 0, "an input has changed");
    expect(mprotect(pages.first, pages.length, PROT_READ | PROT_WRITE) == 0, "pages cannot be made writable");
    if (place == ALLOCATED)
        free(laid.at);
}

static uint64_t list_in(enum place place, struct bytes recording, uint64_t largest, struct bytes out) {
    struct bytes laid = lay_input(place, recording_pages, recording), laid_out = lay(place, out_pages, out);
    uint64_t n = hidzvoma_list(laid.at, laid.length, largest, laid_out.at, laid_out.length);
    take_input(place, recording_pages, laid, recording);
    memcpy(out.at, laid_out.at, out.length);
    if (place == ALLOCATED)
        free(laid_out.at);
    return n;
}

static uint64_t verdict_in(enum place place, struct bytes recording, struct bytes pattern) {
    struct bytes laid = lay_input(place, recording_pages, recording);
    struct bytes laid_pattern = lay_input(place, pattern_pages, pattern);
    uint64_t n = hidzvoma_verdict(laid.at, laid.length, laid_pattern.at, laid_pattern.length);
    take_input(place, recording_pages, laid, recording);
    take_input(place, pattern_pages, laid_pattern, pattern);
    return n;
}

/* ---- what every answer has to be */

/* How often each refusal came, with 0 for none; how often the verdicts "not" and deadlock; and how often a
 * pattern was tried that starts and joins part. */
static size_t list_answers[17], verdict_answers[17], verdicts[2], parted;

/* Lists into the output, which begins as random bytes, in each place; sees that the answers are equal, and
 * that no byte has changed but for those said to be written. */
static uint64_t list(struct bytes recording, uint64_t largest, struct bytes out) {
    static uint8_t before[OUT], again[OUT];
    uint64_t n = 0;
    tried.largest = largest;
    tried.out_length = out.length;
    fill_randomly(out);
    memcpy(before, out.at, out.length);
    for (enum place place = 0; place < PLACES; place++) {
        memcpy(again, before, out.length);
        uint64_t m = list_in(place, recording, largest, (struct bytes){again, out.length});
        if (place == 0) {
            n = m;
            memcpy(out.at, again, out.length);
        }
        expect(m == n && memcmp(out.at, again, out.length) == 0, "two listings differ");
    }
    if (tried.refusal != 0)
        expect(n == tried.refusal, "a listing that answers questions 1 to 7, 15 and 16 in another way");
    else if (!is_size(largest))
        expect(n == refused(8, 0), "a listing that answers question 8 in another way");
    else
        expect(n == refused(13, 0) || (n % 2 == 0 && n <= out.length), "a listing with an impossible number");
    size_t written = n % 2 == 1 ? 0 : n;
    expect(memcmp(out.at + written, before + written, out.length - written) == 0,
           "an unwritten byte changed");
    list_answers[hidzvoma_refusal(n)]++;
    return n;
}

/* Decides on a pattern in each place; sees that the answers are equal. */
static uint64_t verdict(struct bytes recording, struct bytes pattern) {
    uint64_t n = 0;
    tried.pattern = pattern;
    for (enum place place = 0; place < PLACES; place++) {
        uint64_t m = verdict_in(place, recording, pattern);
        if (place == 0)
            n = m;
        expect(m == n, "two verdicts differ");
    }
    if (tried.refusal != 0)
        expect(n == tried.refusal, "a verdict that answers questions 1 to 7, 15 and 16 in another way");
    else if (!is_pattern(recording, pattern))
        expect(n == refused(10, 0), "a verdict that answers question 10 in another way");
    else
        expect(n == 0 || n == 2, "a verdict with an impossible number");
    verdict_answers[hidzvoma_refusal(n)]++;
    if (n % 2 == 0) {
        verdicts[n / 2]++;
        expect(n == 0 || !is_parted(recording, pattern), "a deadlock of events that starts and joins part");
        parted += is_parted(recording, pattern);
    }
    return n;
}

/* ---- listings */

/* How many entries of each size were listed, how many of them of more than two events with size 0, and how
 * many in recordings with inner acquires, with starts and with joins. */
static size_t entries[17], larger_with_0, entries_with_inner, entries_with_starts, entries_with_joins;

/* Sees that a listing is patterns of permitted sizes in ascending order, each with the verdict deadlock, and
 * nothing behind the last one. */
static void check_listing(struct bytes recording, uint64_t largest, struct bytes listing) {
    struct bytes last = {NULL, 0};
    for (size_t at = 0; at < listing.length; at += 2 + last.length) {
        expect(listing.length - at >= 2, "a listing with bytes behind its last entry");
        size_t size = number(listing.at + at);
        struct bytes pattern = {listing.at + at + 2, 2 * size};
        expect(2 <= size && size <= most_of_entry(largest), "an entry of a size that is not permitted");
        expect(2 + pattern.length <= listing.length - at, "a listing that ends within an entry");
        tried.pattern = pattern;
        expect(is_pattern(recording, pattern), "an entry that is no pattern");
        size_t shorter = last.length < pattern.length ? last.length : pattern.length;
        expect(at == 0 || memcmp(last.at, pattern.at, shorter) < 0, "entries that are not in order");
        expect(hidzvoma_verdict(recording.at, recording.length, pattern.at, pattern.length) == 2,
               "an entry whose verdict is not deadlock");
        expect(!is_parted(recording, pattern), "an entry of events that starts and joins part");
        entries[size]++;
        larger_with_0 += largest == 0 && size > 2;
        entries_with_inner += inner_acquires > 0;
        entries_with_starts += starts > 0;
        entries_with_joins += joins > 0;
        last = pattern;
    }
}

/* Sees that the output of a listing needs its length: exactly so much is enough, and less gives 13. */
static void check_room(struct bytes recording, uint64_t largest, struct bytes listing) {
    static uint8_t memory[OUT];
    expect(list(recording, largest, (struct bytes){memory, listing.length}) == listing.length,
           "a listing that does not fit its own length");
    expect(memcmp(memory, listing.at, listing.length) == 0, "a listing that depends on the output's length");
    for (size_t less = 1; less <= 2 && less <= listing.length; less++)
        expect(list(recording, largest, (struct bytes){memory, listing.length - less}) == refused(13, 0),
               "a listing that fits less than its length");
}

/* Sees that 0 and 16 are answered alike: by the same number, with the same bytes. */
static void check_default(struct bytes recording, struct bytes listing, uint64_t n, size_t length) {
    static uint8_t memory[OUT];
    expect(list(recording, 16, (struct bytes){memory, length}) == n, "a size 0 that does not stand for 16");
    expect(n % 2 == 1 || memcmp(memory, listing.at, n) == 0, "a listing with 0 that is not the one with 16");
}

/* A largest size, mostly a permitted one; a small one for a long walk, of which larger patterns take long to
 * list. */
static uint64_t any_largest(size_t events) {
    static const uint64_t wrong[] = {
        1, 17, 18, 256, 258, 65536, 65538, (uint64_t)1 << 32, (uint64_t)1 << 32 | 2, UINT64_MAX,
    };
    if (chance(8))
        return wrong[below(sizeof wrong / sizeof *wrong)];
    if (events > 400)
        return between(2, 3);
    return chance(30) ? 0 : chance(20) ? 16 : between(2, 15);
}

static size_t any_length(void) {
    switch (below(5)) {
    case 0: return below(3);
    case 1: return below(100);
    case 2: return below(OUT) | 1;
    default: return below(OUT + 1);
    }
}

/* Lists a recording into an output of any length, and where that is refused with 13, into the longest one;
 * sees that the listing, if there is one, is right, and needs its length, and that 0 stands for 16. Returns
 * the last number; the listing becomes the bytes written. */
static uint64_t try_listing(struct bytes recording, uint64_t largest, struct bytes *listing) {
    size_t length = any_length();
    uint64_t n = list(recording, largest, (struct bytes){listing->at, length});
    if (n == refused(13, 0)) {
        size_t short_length = length;
        length = OUT;
        n = list(recording, largest, (struct bytes){listing->at, length});
        expect(n % 2 == 1 || n > short_length, "a 13 for a listing that fits");
    }
    if (largest == 0)
        check_default(recording, *listing, n, length);
    listing->length = n % 2 == 1 ? 0 : n;
    if (n % 2 == 0) {
        check_listing(recording, largest, *listing);
        check_room(recording, largest, *listing);
    }
    return n;
}

/* ---- patterns */

/* Whether a listing has a pattern. */
static bool lists(struct bytes listing, struct bytes pattern) {
    for (size_t at = 0; at < listing.length; at += 2 * (number(listing.at + at) + 1))
        if (2 * number(listing.at + at) == pattern.length &&
            memcmp(listing.at + at + 2, pattern.at, pattern.length) == 0)
            return true;
    return false;
}

/* Puts an entry of a listing, which is not empty, as a pattern. */
static void put_entry(struct bytes listing, struct bytes *pattern) {
    const uint8_t *entry = listing.at;
    for (size_t left = below(listing.length / 6 + 1); left > 0; left--) {
        const uint8_t *next = entry + 2 * (number(entry) + 1);
        entry = next < listing.at + listing.length ? next : listing.at;
    }
    pattern->length = 2 * number(entry);
    memcpy(pattern->at, entry + 2, pattern->length);
}

/* Puts a chain as a pattern, its smallest event first. */
static void put_chain(const size_t chain[16], size_t size, struct bytes *pattern) {
    size_t first = 0;
    for (size_t i = 1; i < size; i++)
        if (chain[i] < chain[first])
            first = i;
    pattern->length = 2 * size;
    for (size_t i = 0; i < size; i++)
        put_number(pattern->at + 2 * i, chain[(first + i) % size]);
}

/* An acquire at which the lock of the given event is held, found from any event on; or 0. */
static size_t follower(struct bytes recording, size_t event) {
    size_t events = count_events(recording), start = below(events);
    for (size_t i = 0; i < events; i++) {
        size_t e = (start + i) % events + 1;
        if (operation(recording, e) == ACQUIRE && has(held[e], object(recording, event) % LOCKS))
            return e;
    }
    return 0;
}

/* Puts a chain in which each lock is held at the next event, if one of some tries finds it a pattern. */
static void put_any_chain(struct bytes recording, struct bytes *pattern) {
    for (size_t left = 20; left > 0; left--) {
        size_t chain[16], size = 0;
        size_t e = between(1, count_events(recording));
        while (e != 0 && size < 16) {
            chain[size++] = e;
            put_chain(chain, size, pattern);
            if (is_pattern(recording, *pattern))
                return;
            e = follower(recording, e);
        }
    }
}

/* Puts up to 17 event numbers, now and then one that no event has. */
static void put_any_events(struct bytes recording, struct bytes *pattern) {
    pattern->length = 2 * (chance(60) ? between(2, 3) : below(18));
    for (size_t i = 0; i < pattern->length; i += 2)
        put_number(pattern->at + i, below(count_events(recording) + (chance(95) ? 1 : 3)));
}

static void rotate(struct bytes pattern) {
    uint8_t first[2] = {pattern.at[0], pattern.at[1]};
    memmove(pattern.at, pattern.at + 2, pattern.length - 2);
    memcpy(pattern.at + pattern.length - 2, first, 2);
}

/* Changes the bytes of a pattern, which has some, in one of many ways. */
static void damage_pattern(struct bytes recording, struct bytes *pattern) {
    size_t event = between(1, count_events(recording));
    switch (below(6)) {
    case 0: flip_bits(*pattern); break;
    case 1: pattern->length = below(pattern->length); break;
    case 2: extend(pattern, 4, PATTERN); break;
    case 3: extend(pattern, PATTERN, PATTERN); break;
    case 4: rotate(*pattern); break;
    default: put_number(pattern->at + 2 * below(pattern->length / 2), event);
    }
}

/* Puts a pattern of any kind. */
static void put_pattern(struct bytes recording, struct bytes listing, struct bytes *pattern) {
    size_t kind = below(5);
    if (kind == 0) {
        pattern->length = below(PATTERN + 1);
        fill_randomly(*pattern);
    } else if (kind == 1 && tried.refusal == 0 && count_events(recording) > 0) {
        put_any_chain(recording, pattern);
    } else if (kind <= 3 && listing.length > 0) {
        put_entry(listing, pattern);
        if (kind == 3)
            damage_pattern(recording, pattern);
    } else {
        put_any_events(recording, pattern);
    }
}

/* Asks for the verdicts of some patterns. Where all patterns up to their size are listed, which is so if the
 * number is even, these are the ones whose verdict is deadlock. */
static void try_patterns(struct bytes recording, uint64_t largest, uint64_t listed, struct bytes listing) {
    static uint8_t memory[PATTERN];
    struct bytes pattern = {memory, 0};
    for (size_t left = 4; left > 0; left--) {
        put_pattern(recording, listing, &pattern);
        uint64_t n = verdict(recording, pattern);
        if (listed % 2 == 0 && pattern.length <= 2 * most_of_entry(largest))
            expect((n == 2) == lists(listing, pattern), "a verdict that the listing contradicts");
    }
}

/* Sees that a complete listing of a short recording has each pair whose verdict is deadlock, and no other. */
static void check_pairs(struct bytes recording, struct bytes listing) {
    static uint8_t memory[4];
    struct bytes pair = {memory, 4};
    size_t events = count_events(recording);
    tried.pattern = pair;
    for (size_t e = 1; e < events && events <= 80; e++)
        for (size_t f = e + 1; f <= events; f++) {
            put_number(pair.at, e);
            put_number(pair.at + 2, f);
            if (!is_pattern(recording, pair))
                continue;
            expect((hidzvoma_verdict(recording.at, recording.length, pair.at, pair.length) == 2) ==
                       lists(listing, pair),
                   "a pair whose verdict the listing contradicts");
            parted += is_parted(recording, pair);
        }
}

/* Asks for the verdict of a pattern that is a part of the recording itself, and not only a copy of that. */
static void try_overlap(struct bytes recording) {
    static uint8_t memory[PATTERN];
    size_t start = below(recording.length + 1);
    size_t length = below((recording.length - start < PATTERN ? recording.length - start : PATTERN) + 1);
    memcpy(memory, recording.at + start, length);
    uint64_t n = verdict(recording, (struct bytes){memory, length});
    expect(hidzvoma_verdict(recording.at, recording.length, recording.at + start, length) == n,
           "a verdict that depends on where the pattern lies");
}

/* ---- rounds */

/* A number of events, mostly small, and at most the given one. */
static size_t any_events(size_t most) {
    size_t kind = below(100);
    size_t limit = kind < 10 ? 4 : kind < 75 ? 80 : kind < 95 ? 400 : EVENTS;
    size_t events = kind == 99 ? EVENTS : below(limit + 1);
    return events < most ? events : most;
}

static void try_round(size_t most_events) {
    static uint8_t memory[RECORDING], list_memory[OUT];
    struct bytes recording = {memory, 0}, listing = {list_memory, 0};
    size_t events = any_events(most_events);
    make_recording(&recording, events);
    tried.recording = recording;
    expect(check_recording(recording) == 0, "a walk that is not well-formed");
    for (bool more = chance(50); more && recording.length >= 2; more = chance(30))
        damage_recording(&recording);
    tried.recording = recording;
    tried.pattern.length = 0;
    tried.refusal = check_recording(recording);
    uint64_t largest = any_largest(events);
    uint64_t listed = try_listing(recording, largest, &listing);
    try_patterns(recording, largest, listed, listing);
    if (listed % 2 == 0)
        check_pairs(recording, listing);
    try_overlap(recording);
}

/* Prints how often a call was answered, and how often it was refused with each number that it may give;
 * returns how many of these never came. */
static size_t print_answers(const char *call, const size_t answers[17], const char *may_give) {
    size_t missing = answers[0] == 0;
    printf("%s: answered %zu, refused", call, answers[0]);
    for (size_t i = 1; i < 17; i++)
        if (may_give[i] == 'x') {
            printf("%s %zu: %zu", i == 1 ? "" : ",", i, answers[i]);
            missing += answers[i] == 0;
        }
    printf("\n");
    return missing;
}

int main(int argc, char **argv) {
    if (argc != 4) {
        fprintf(stderr, "usage: fuzz SEED ROUNDS EVENTS\n");
        return 2;
    }
    random_state = tried.seed = strtoull(argv[1], NULL, 10);
    uint64_t rounds = strtoull(argv[2], NULL, 10);
    size_t most_events = strtoull(argv[3], NULL, 10);
    recording_pages = make_pages(RECORDING);
    pattern_pages = make_pages(PATTERN);
    out_pages = make_pages(OUT);
    for (tried.round = 1; tried.round <= rounds; tried.round++)
        try_round(most_events < EVENTS ? most_events : EVENTS);
    size_t missing = print_answers("list", list_answers, "-xxxxxxxx----x-xx");
    missing += print_answers("verdict", verdict_answers, "-xxxxxxx--x----xx");
    missing += verdicts[0] == 0;
    missing += verdicts[1] == 0;
    printf("verdicts: deadlock %zu, not %zu\nentries of sizes 2 to 16:", verdicts[1], verdicts[0]);
    for (size_t size = 2; size <= 16; size++)
        printf(" %zu", entries[size]);
    printf("\nentries of more than two events with size 0: %zu\n", larger_with_0);
    printf("entries in recordings with inner acquires: %zu, with starts: %zu, with joins: %zu\n",
           entries_with_inner, entries_with_starts, entries_with_joins);
    printf("patterns that starts and joins part: %zu\n", parted);
    missing += larger_with_0 == 0;
    missing += entries_with_inner == 0;
    missing += entries_with_starts == 0;
    missing += entries_with_joins == 0;
    missing += parted == 0;
    if (missing > 0)
        printf("fuzz: %zu answers never came\n", missing);
    return missing == 0 ? 0 : 1;
}
