/* Times the calls of two libraries in turn on the sheets of standard input; see `run`. A line is a call, a shape, a size, the lengths to lend and the
 * words of a sheet, with tabs between them. For each it prints the first three and the time of the second library over that of the first. */
#include "suhkelva.h"
#include <stdio.h>
#include <stdlib.h>
#include <string.h>
#include <time.h>

#define MOST_LENT 8
#define TURNS 31
#define LONG_ENOUGH 500e-6

SuhkelvaWritten before_suhkelva_build(const uint32_t *, size_t, uint32_t *, size_t, uint32_t *, size_t);
SuhkelvaLists before_suhkelva_expand_constraints(
    const uint32_t *, size_t, uint32_t *, size_t, uint32_t *, size_t, uint32_t *, size_t, uint32_t *, size_t, uint32_t *, size_t);
SuhkelvaInteractionLists before_suhkelva_expand_interactions(
    const uint32_t *, size_t, uint32_t *, size_t, uint32_t *, size_t, uint32_t *, size_t, uint32_t *, size_t, uint32_t *, size_t,
    uint32_t *, size_t, uint32_t *, size_t, uint32_t *, size_t);

typedef struct {
    const char *call;
    uint32_t *words;
    size_t words_len;
    uint32_t *lent[MOST_LENT];
    size_t lent_len[MOST_LENT];
    size_t count;
} Sheet;

#define REPLY 10

/* A call of one of the libraries, which must be accepted; the fields of its reply. */
static void call(const Sheet *x, int before, uint64_t reply[REPLY]) {
    memset(reply, 0, REPLY * sizeof *reply);
#define LENT(k) x->lent[k], x->lent_len[k]
#define THREE(k) LENT(k), LENT(k + 1), LENT(k + 2)
#define EITHER(name, ...) (before ? before_suhkelva_##name : suhkelva_##name)(x->words, x->words_len, __VA_ARGS__)
    if (strcmp(x->call, "build") == 0) {
        SuhkelvaWritten r = EITHER(build, LENT(0), LENT(1));
        reply[0] = r.number, reply[1] = r.place, reply[2] = r.count;
    } else if (strcmp(x->call, "expand_constraints") == 0) {
        SuhkelvaLists r = EITHER(expand_constraints, LENT(0), LENT(1), THREE(2));
        reply[0] = r.number, reply[1] = r.place, reply[2] = r.headers, reply[3] = r.variables, reply[4] = r.terms;
    } else {
        SuhkelvaInteractionLists r = EITHER(expand_interactions, LENT(0), LENT(1), THREE(2), THREE(5));
        reply[0] = r.number, reply[1] = r.place, reply[2] = r.headers, reply[3] = r.variables, reply[4] = r.terms;
        reply[5] = r.denom_headers, reply[6] = r.denom_variables, reply[7] = r.denom_terms;
        reply[8] = r.num_interactions, reply[9] = r.max_fields_len;
    }
    if (reply[0] != 0) {
        fprintf(stderr, "%s: refused by %u\n", x->call, (unsigned)reply[0]);
        exit(1);
    }
}

/* What was lent, filled before a call. */
static void fill(const Sheet *x, int byte) {
    for (size_t k = 0; k < x->count; k++) memset(x->lent[k], byte, 4 * x->lent_len[k]);
}

static double now(void) {
    struct timespec t;
    clock_gettime(CLOCK_THREAD_CPUTIME_ID, &t);
    return (double)t.tv_sec + 1e-9 * (double)t.tv_nsec;
}

static double timed(const Sheet *x, int before, int runs) {
    uint64_t reply[REPLY];
    double start = now();
    for (int k = 0; k < runs; k++) call(x, before, reply);
    return (now() - start) / runs;
}

static int by_size(const void *a, const void *b) {
    double x = *(const double *)a, y = *(const double *)b;
    return (x > y) - (x < y);
}

static double median(double *values, int count) {
    qsort(values, (size_t)count, sizeof *values, by_size);
    return values[count / 2];
}

/* The median time of the second library over that of the first. The replies, and every word that was lent, are compared first. */
static double ratio(const Sheet *x) {
    double times[2][TURNS];
    uint32_t *first[MOST_LENT];
    uint64_t replies[2][REPLY];
    int runs = 1;
    fill(x, 0x55);
    call(x, 1, replies[1]);
    for (size_t k = 0; k < x->count; k++) {
        first[k] = malloc(4 * x->lent_len[k] + 4);
        memcpy(first[k], x->lent[k], 4 * x->lent_len[k]);
    }
    fill(x, 0xaa);
    call(x, 0, replies[0]);
    if (memcmp(replies[0], replies[1], sizeof replies[0]) != 0) {
        fprintf(stderr, "%s: the replies differ\n", x->call);
        exit(1);
    }
    for (size_t k = 0; k < x->count; k++) {
        if (memcmp(first[k], x->lent[k], 4 * x->lent_len[k]) != 0) {
            fprintf(stderr, "%s: slice %u differs\n", x->call, (unsigned)k);
            exit(1);
        }
        free(first[k]);
    }
    while (timed(x, 1, runs) * runs < LONG_ENOUGH) runs *= 2;
    for (int turn = 0; turn < TURNS; turn++) {
        times[0][turn] = timed(x, 1, runs);
        times[1][turn] = timed(x, 0, runs);
    }
    return median(times[1], TURNS) / median(times[0], TURNS);
}

/* The numbers of a field, and how many. */
static size_t numbers(char *field, uint32_t **made) {
    size_t count = 0, room = strlen(field) / 2 + 1;
    *made = malloc(4 * room);
    for (char *at = strtok(field, " "); at; at = strtok(NULL, " ")) (*made)[count++] = (uint32_t)strtoul(at, NULL, 10);
    return count;
}

int main(void) {
    char *line = NULL;
    size_t room = 0;
    while (getline(&line, &room, stdin) > 0) {
        char *fields[5], *at = line;
        uint32_t *lengths;
        Sheet x;
        for (int k = 0; k < 5; k++) {
            fields[k] = at;
            at += strcspn(at, "\t\n");
            *at++ = 0;
        }
        x.call = fields[0];
        x.count = numbers(fields[3], &lengths);
        x.words_len = numbers(fields[4], &x.words);
        for (size_t k = 0; k < x.count; k++) {
            x.lent_len[k] = lengths[k];
            x.lent[k] = malloc(4 * x.lent_len[k] + 4);
        }
        printf("%s\t%s\t%s\t%.4f\n", fields[0], fields[1], fields[2], ratio(&x));
        for (size_t k = 0; k < x.count; k++) free(x.lent[k]);
        free(lengths);
        free(x.words);
    }
    free(line);
    return 0;
}
