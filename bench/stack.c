/* How much stack the entries for C take: each call runs on a thread whose stack was painted before, and the
 * painted bytes that are left are counted from its far end. */
#include <pthread.h>
#include <stdint.h>
#include <stdio.h>
#include <stdlib.h>
#include <string.h>

#include "../include/hidzvoma.h"

enum { STACK = 1 << 20, PAINT = 0xA5, ROOM = 65536 };

static uint8_t recording[8200], out[ROOM];
static size_t length;
static uint64_t largest;

static void *list(void *unused) {
    hidzvoma_list(recording, length, largest, out, ROOM);
    return unused;
}

static void *verdict(void *unused) {
    static const uint8_t pattern[4] = {0, 2, 0, 6};
    hidzvoma_verdict(recording, length, pattern, sizeof pattern);
    return unused;
}

static void *nothing(void *unused) { return unused; }

/* The bytes of stack that the thread touched. */
static size_t touched(void *(*run)(void *), uint8_t *stack) {
    pthread_attr_t attributes;
    pthread_t thread;
    size_t left = 0;
    memset(stack, PAINT, STACK);
    pthread_attr_init(&attributes);
    pthread_attr_setstack(&attributes, stack, STACK);
    if (pthread_create(&thread, &attributes, run, NULL) != 0) exit(1);
    pthread_join(thread, NULL);
    pthread_attr_destroy(&attributes);
    while (left < STACK && stack[left] == PAINT) left++;
    return STACK - left;
}

int main(int count, char **names) {
    uint8_t *stack = aligned_alloc(4096, STACK);
    size_t most = 0, decided = 0;
    if (stack == NULL) return 1;
    for (int i = 1; i < count; i++) {
        FILE *file = fopen(names[i], "rb");
        if (file == NULL) return 1;
        length = fread(recording, 1, sizeof recording, file);
        fclose(file);
        for (largest = 0; largest <= 2; largest += 2) {
            size_t used = touched(list, stack);
            if (most < used) most = used;
        }
        size_t used = touched(verdict, stack);
        if (decided < used) decided = used;
    }
    printf("stack: hidzvoma_list %zu bytes, hidzvoma_verdict %zu, of them %zu a thread's own\n", most, decided,
           touched(nothing, stack));
    free(stack);
    return 0;
}
