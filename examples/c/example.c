/* From blocks on standard input to the monomials of their graph, printed. Every call is asked for its number before its answer is used. */
#include <inttypes.h>
#include <stdio.h>
#include <stdlib.h>

#include "suhkelva.h"

/* Room for sheets of up to eight blocks. Where a sheet needs more, the call says so, and which room was too small. */
#define BYTES (8 * SUHKELVA_BLOCK_BYTES)
#define WORDS (8 * SUHKELVA_BLOCK_WORDS)
#define POOL 4096
#define LIST 1024

static uint8_t bytes[BYTES + 1]; /* one more, so that a longer input is refused and not cut */
static uint32_t sheet[WORDS], scratch[WORDS], graph[WORDS];
static uint32_t work[SUHKELVA_WORK_WORDS], pool[POOL];
static uint32_t headers[LIST], variables[LIST], terms[LIST];
static uint32_t denom_headers[LIST], denom_variables[LIST], denom_terms[LIST];

/* Goes on after an accepted call only. */
static void accepted(const char *call, uint32_t number, uint64_t place)
{
    if (number != SUHKELVA_ACCEPTED) {
        printf("%s: refused, number %" PRIu32 ", place %" PRIu64 "\n", call, number, place);
        exit(EXIT_FAILURE);
    }
}

/* A coefficient nearer to the prime than to 0 reads better as a negative number. */
static int64_t readable(uint32_t coefficient)
{
    const int64_t prime = 2013265921;
    return coefficient > prime / 2 ? coefficient - prime : coefficient;
}

static void print_variable(uint32_t packed)
{
    static const char *const entries[] = {"preprocessed", "main", "challenge", "public"};
    SuhkelvaRecord r = suhkelva_unpack(packed);
    accepted("unpack", r.number, r.place);
    switch (r.kind) {
    case SUHKELVA_IS_FIRST_ROW: printf(" is_first_row"); break;
    case SUHKELVA_IS_LAST_ROW: printf(" is_last_row"); break;
    case SUHKELVA_IS_TRANSITION: printf(" is_transition"); break;
    default: printf(" %s(part %" PRIu32 ", offset %" PRIu32 ", column %" PRIu32 ")", entries[r.a], r.b, r.c, r.d);
    }
}

/* A header is four words: where its variables and its terms start, and how many there are. */
static void print_variables(const uint32_t *header, const uint32_t *of)
{
    uint32_t k;
    printf(header[2] == 0 ? "  1" : " ");
    for (k = 0; k < header[2]; k++) {
        print_variable(of[header[0] + k]);
    }
    printf("\n");
}

static void print_constraints(SuhkelvaLists r)
{
    uint64_t at;
    uint32_t k;
    printf("constraints\n");
    for (at = 0; at < r.headers; at += SUHKELVA_HEADER_WORDS) {
        const uint32_t *header = headers + at;
        print_variables(header, variables);
        for (k = 0; k < header[3]; k++) {
            const uint32_t *term = terms + SUHKELVA_TERM_WORDS * (header[1] + k);
            printf("    constraint %" PRIu32 ": %" PRId64 "\n", term[0], readable(term[1]));
        }
    }
}

/* Numerators and denominators alike; a numerator's field is 0. */
static void print_interactions(const char *what, uint64_t words, const uint32_t *heads, const uint32_t *vars, const uint32_t *of)
{
    uint64_t at;
    uint32_t k;
    printf("%s\n", what);
    for (at = 0; at < words; at += SUHKELVA_HEADER_WORDS) {
        const uint32_t *header = heads + at;
        print_variables(header, vars);
        for (k = 0; k < header[3]; k++) {
            const uint32_t *term = of + SUHKELVA_INTERACTION_TERM_WORDS * (header[1] + k);
            printf("    interaction %" PRIu32 ", field %" PRIu32 ": %" PRId64 "\n", term[1], term[2], readable(term[0]));
        }
    }
}

int main(void)
{
    size_t length = fread(bytes, 1, sizeof bytes, stdin);
    SuhkelvaWritten read = suhkelva_read_blocks(bytes, length, sheet, WORDS);
    SuhkelvaWritten built;
    SuhkelvaSheet checked;
    SuhkelvaLists lists;
    SuhkelvaInteractionLists interactions;
    accepted("read_blocks", read.number, read.place);

    built = suhkelva_build(sheet, read.count, scratch, WORDS, graph, WORDS);
    accepted("build", built.number, built.place);

    checked = suhkelva_check_sheet(graph, built.count);
    accepted("check_sheet", checked.number, checked.place);
    printf("graph: nodes %" PRIu64 ", constraints %" PRIu64 ", interactions %" PRIu64 "\n", checked.records, checked.constraints, checked.interactions);

    lists = suhkelva_expand_constraints(
        graph, built.count, work, SUHKELVA_WORK_WORDS, pool, POOL, headers, LIST, variables, LIST, terms, LIST);
    accepted("expand_constraints", lists.number, lists.place);
    print_constraints(lists);

    interactions = suhkelva_expand_interactions(
        graph, built.count, work, SUHKELVA_WORK_WORDS, pool, POOL, headers, LIST, variables, LIST, terms, LIST,
        denom_headers, LIST, denom_variables, LIST, denom_terms, LIST);
    accepted("expand_interactions", interactions.number, interactions.place);
    print_interactions("numerators", interactions.headers, headers, variables, terms);
    print_interactions("denominators", interactions.denom_headers, denom_headers, denom_variables, denom_terms);
    return EXIT_SUCCESS;
}
