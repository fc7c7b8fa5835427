/* A station's linking program in miniature: for each recording it prints the guards that it would put, one
 * for each deadlock pattern that hidzvoma_list gives, after asking hidzvoma_verdict for that pattern.
 *
 *     linker [-k SIZE] [-o BYTES] RECORDING...
 *
 * -k gives the largest size of a pattern (without it 0, which stands for 16: patterns of all sizes), -o the
 * length of the listing's output (65,536). The exit status is 1 where the verdict of a listed pattern is not
 * deadlock, and 2 for wrong arguments or a file that cannot be read. */
#include "hidzvoma.h"

#include <stdio.h>
#include <stdlib.h>
#include <string.h>

/* One byte more than a recording can have: a longer file is refused, too. */
enum { INPUT = 8193 };

struct bytes {
    uint8_t *at;
    size_t length;
};

/* The number in two bytes, the high byte first. */
static unsigned number(const uint8_t *at) {
    return (unsigned)at[0] << 8 | at[1];
}

/* Ends the program with the given status and a message about something named. */
static void fail(int status, const char *message, const char *name) {
    fflush(stdout);
    fprintf(stderr, "linker: %s: %s\n", name, message);
    exit(status);
}

/* The decimal number in an option's argument, at most 2 to the 30. */
static size_t argument(const char *text) {
    char *end;
    unsigned long long n = strtoull(text, &end, 10);
    if (*text < '0' || '9' < *text || *end != '\0' || n > 1u << 30)
        fail(2, "no number, or too large", text);
    return (size_t)n;
}

/* The part of a path behind its last slash. */
static const char *base_name(const char *path) {
    const char *slash = strrchr(path, '/');
    return slash == NULL ? path : slash + 1;
}

/* Reads a file into the given memory, as far as it fits there. */
static struct bytes read_file(const char *path, uint8_t *memory) {
    FILE *file = fopen(path, "rb");
    if (file == NULL)
        fail(2, "cannot be opened", path);
    struct bytes recording = {memory, fread(memory, 1, INPUT, file)};
    if (ferror(file))
        fail(2, "cannot be read", path);
    fclose(file);
    return recording;
}

/* Prints the guard for an entry's pattern, whose verdict must be deadlock; returns the entry's length. */
static size_t put_guard(const char *path, struct bytes recording, const uint8_t *entry) {
    size_t size = number(entry);
    if (hidzvoma_verdict(recording.at, recording.length, entry + 2, 2 * size) != 2)
        fail(1, "the verdict of a listed pattern is not deadlock", path);
    printf("guard");
    for (size_t i = 1; i <= size; i++)
        printf(" %u", number(entry + 2 * i));
    printf("\n");
    return 2 * (size + 1);
}

/* Prints the guards of one recording, or its refusal, and then how many guards there are. */
static void put_guards(const char *path, struct bytes recording, uint64_t largest, struct bytes out) {
    uint64_t n = hidzvoma_list(recording.at, recording.length, largest, out.at, out.length);
    size_t guards = 0;
    if (hidzvoma_refusal(n) != 0) {
        printf("refused %u at %u\n", hidzvoma_refusal(n), hidzvoma_event(n));
    } else {
        for (size_t at = 0; at < n; guards++)
            at += put_guard(path, recording, out.at + at);
    }
    printf("guards %zu\n", guards);
}

int main(int argc, char **argv) {
    uint64_t largest = 0;
    struct bytes out = {NULL, 65536};
    int i = 1;
    for (; i + 1 < argc && argv[i][0] == '-'; i += 2) {
        if (strcmp(argv[i], "-k") == 0)
            largest = argument(argv[i + 1]);
        else if (strcmp(argv[i], "-o") == 0)
            out.length = argument(argv[i + 1]);
        else
            fail(2, "no such option", argv[i]);
    }
    if (i == argc)
        fail(2, "no recording is given", "arguments");
    /* One byte more, so that an output of no bytes has a pointer that is not null. */
    out.at = malloc(out.length + 1);
    if (out.at == NULL)
        fail(2, "no memory", "output");
    for (; i < argc; i++) {
        uint8_t memory[INPUT];
        printf("%s\n", base_name(argv[i]));
        put_guards(argv[i], read_file(argv[i], memory), largest, out);
    }
    free(out.at);
    return 0;
}
