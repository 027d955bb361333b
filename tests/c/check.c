/* Checks the C library against the examples of document 01. C99, and C++ too. Prints how many checks passed; ends with 1 on a failure. */
#include <stdio.h>
#include <string.h>

#include "suhkelva.h"

static unsigned passed = 0;
static unsigned failed = 0;

static void check(int holds, const char *what)
{
    if (holds) {
        passed++;
    } else {
        failed++;
        printf("failed: %s\n", what);
    }
}

/* ---- Packing ---- */

/* A record and what packing answers: the number and place of a refusal, or 0, 0 and the packed number. */
typedef struct {
    const char *what;
    uint32_t words[5];
    uint32_t number;
    uint32_t place;
    uint32_t packed;
} Packing;

static const Packing packings[] = {
    /* examples of document 01 */
    {"v", {1, 1, 0, 0, 0}, 0, 0, 0x00000001u},
    {"part 255, offset 15, column 65,535", {1, 1, 255, 15, 65535}, 0, 0, 0xfffffff1u},
    {"public column 3", {1, 3, 0, 0, 3}, 0, 0, 0x00030003u},
    {"offset 16", {1, 1, 0, 16, 0}, 11, 0, 0},
    {"part 256", {1, 1, 256, 0, 0}, 10, 0, 0},
    {"column 65,536", {1, 1, 0, 0, 65536}, 8, 0, 0},
    {"a challenge", {1, 2, 0, 0, 0}, 9, 0, 0},
    /* each type, and its bounds */
    {"w", {1, 1, 0, 0, 1}, 0, 0, 0x00010001u},
    {"main offset 1", {1, 1, 0, 1, 0}, 0, 0, 0x00001001u},
    {"preprocessed", {1, 0, 0, 0, 0}, 0, 0, 0x00000000u},
    {"preprocessed offset 15, column 65,535", {1, 0, 0, 15, 65535}, 0, 0, 0xfffff000u},
    {"public column 65,535", {1, 3, 0, 0, 65535}, 0, 0, 0xffff0003u},
    {"first row", {2, 0, 0, 0, 0}, 0, 0, 8},
    {"last row", {3, 0, 0, 0, 0}, 0, 0, 9},
    {"transition", {4, 0, 0, 0, 0}, 0, 0, 10},
    /* nothing wraps */
    {"offset 256", {1, 1, 0, 256, 0}, 11, 0, 0},
    {"preprocessed offset 16", {1, 0, 0, 16, 0}, 11, 0, 0},
    {"part 2^32 - 1", {1, 1, 0xffffffffu, 0, 0}, 10, 0, 0},
    {"offset 2^32 - 1", {1, 1, 0, 0xffffffffu, 0}, 11, 0, 0},
    {"column 2^32 - 1", {1, 1, 0, 0, 0xffffffffu}, 8, 0, 0},
    {"public column 65,536", {1, 3, 0, 0, 65536}, 8, 0, 0},
    /* the lowest number is sent */
    {"a challenge in column 65,536", {1, 2, 0, 0, 65536}, 8, 0, 0},
    {"part 256 and offset 16", {1, 1, 256, 16, 0}, 10, 0, 0},
    {"column 65,536, part 256, offset 16", {1, 1, 256, 16, 65536}, 8, 0, 0},
    /* wrong kinds */
    {"kind 0", {0, 0, 0, 0, 0}, 5, 0, 0},
    {"a constant", {5, 7, 0, 0, 0}, 5, 0, 0},
    {"kind 9", {9, 0, 0, 0, 0}, 5, 0, 0},
    {"kind 10", {10, 0, 0, 0, 0}, 5, 0, 0},
    {"kind 2^32 - 1, all words wrong", {0xffffffffu, 9, 9, 9, 9}, 5, 0, 0},
    /* wrong words, the first decides */
    {"entry 4", {1, 4, 0, 0, 0}, 5, 1, 0},
    {"entry 4 with a part", {1, 4, 1, 1, 65536}, 5, 1, 0},
    {"preprocessed with a part", {1, 0, 1, 16, 65536}, 5, 2, 0},
    {"a challenge with a part", {1, 2, 1, 0, 0}, 5, 2, 0},
    {"a public variable with a part", {1, 3, 1, 1, 0}, 5, 2, 0},
    {"a challenge with an offset", {1, 2, 0, 1, 65536}, 5, 3, 0},
    {"a public variable with an offset", {1, 3, 0, 1, 0}, 5, 3, 0},
    {"first row with word a", {2, 1, 1, 1, 1}, 5, 1, 0},
    {"last row with word b", {3, 0, 1, 1, 1}, 5, 2, 0},
    {"transition with word c", {4, 0, 0, 1, 1}, 5, 3, 0},
    {"first row with word d", {2, 0, 0, 0, 1}, 5, 4, 0},
};

static int is_record(SuhkelvaRecord r, const uint32_t words[5])
{
    return r.number == 0 && r.place == 0 && r.kind == words[0] && r.a == words[1] && r.b == words[2] && r.c == words[3]
        && r.d == words[4];
}

/* A refusal has nothing but its number and place. */
static int is_no_record(SuhkelvaRecord r)
{
    return r.number == 5 && r.place == 0 && r.kind == 0 && r.a == 0 && r.b == 0 && r.c == 0 && r.d == 0;
}

static void check_packing(void)
{
    size_t k;
    for (k = 0; k < sizeof packings / sizeof packings[0]; k++) {
        const Packing *p = &packings[k];
        SuhkelvaPacked r = suhkelva_pack(p->words[0], p->words[1], p->words[2], p->words[3], p->words[4]);
        check(r.number == p->number && r.place == p->place && r.packed == p->packed, p->what);
        if (p->number == SUHKELVA_ACCEPTED) {
            check(is_record(suhkelva_unpack(r.packed), p->words), p->what);
        }
    }
}

/* Numbers that no packing hands out: 2, 4 to 7 and 11 to 15 are no type, and some types leave bits unused. */
static const uint32_t not_handed_out[] = {
    0x00000002u, 0x00000004u, 0x00000007u, 0x0000000bu, 0x0000000fu,
    0x00000010u, 0x00000ff0u, /* preprocessed with a part */
    0x00000013u, 0x00001003u, /* public with a part, with an offset */
    0x00000018u, 0x00001009u, 0x0001000au, 0xfffffff8u, 0xffffffffu,
};

static void check_unpacking(void)
{
    uint32_t type;
    uint32_t offset;
    size_t k;
    for (k = 0; k < sizeof not_handed_out / sizeof not_handed_out[0]; k++) {
        check(is_no_record(suhkelva_unpack(not_handed_out[k])), "a number that no packing hands out");
    }
    /* each type with each offset: what unpacks, packs to the same number */
    for (type = 0; type < 16; type++) {
        for (offset = 0; offset < 16; offset++) {
            uint32_t packed = type | offset << 12 | 0x00070000u;
            int some = type == 0 || type == 1 || (type == 3 && offset == 0);
            SuhkelvaRecord r = suhkelva_unpack(packed);
            if (some) {
                SuhkelvaPacked again = suhkelva_pack(r.kind, r.a, r.b, r.c, r.d);
                check(r.number == 0 && again.number == 0 && again.packed == packed, "unpacked, then packed");
            } else {
                check(is_no_record(r), "a type or an offset that no packing hands out");
            }
        }
    }
}

/* ---- Blocks ---- */

static void put_word(uint8_t *at, uint32_t word)
{
    at[0] = (uint8_t)word;
    at[1] = (uint8_t)(word >> 8);
    at[2] = (uint8_t)(word >> 16);
    at[3] = (uint8_t)(word >> 24);
}

/* The check word of 127 words, each with its weight, and a number; all sums modulo 2^32. */
static uint32_t check_word(const uint32_t *words, uint32_t number)
{
    uint32_t sum = number;
    uint32_t n;
    for (n = 0; n < 127; n++) {
        sum += (2 * n + 1) * words[n];
    }
    return sum;
}

/* A block of 127 words and a check word. */
static void put_block(uint8_t *block, const uint32_t *words, uint32_t last)
{
    size_t n;
    for (n = 0; n < 127; n++) {
        put_word(block + 4 * n, words[n]);
    }
    put_word(block + 508, last);
}

/* 127 words that pass 2^32 in their sum, no two of them equal or 2^31 apart. */
static void make_words(uint32_t *words)
{
    uint32_t n;
    for (n = 0; n < 127; n++) {
        words[n] = 0x9e3779b9u * (n + 1);
    }
}

static int says(SuhkelvaBlock r, uint32_t number, uint32_t good)
{
    return r.number == number && r.place == 0 && r.good == good;
}

static void check_blocks(void)
{
    static const uint32_t numbers[] = {0, 1, 2, 710, 0x7fffffffu, 0x80000000u, 0xffffffffu};
    uint8_t bytes[515]; /* room to stand at any alignment */
    uint8_t *block = bytes + 1;
    uint32_t words[127];
    size_t k;
    size_t at;
    size_t n;
    memset(bytes, 0, sizeof bytes);
    /* 127 zeros: the check word is the number */
    check(says(suhkelva_block_check(block, 512, 0), 0, 1), "zeros under number 0");
    check(says(suhkelva_block_check(block, 512, 1), 0, 0), "zeros under number 1");
    for (k = 0; k < sizeof numbers / sizeof numbers[0]; k++) {
        uint32_t number = numbers[k];
        uint32_t sum = number;
        make_words(words);
        put_block(block, words, check_word(words, number));
        check(says(suhkelva_block_check(block, 512, number), 0, 1), "a good block");
        check(says(suhkelva_block_check(block, 512, number + 1), 0, 0), "a good block under the next number");
        check(says(suhkelva_block_check(block, 511, number), 1, 0), "511 bytes");
        check(says(suhkelva_block_check(block, 513, number), 1, 0), "513 bytes");
        check(says(suhkelva_block_check(block, 0, number), 1, 0), "no bytes");
        for (at = 0; at < 512; at += 73) {
            block[at] ^= 0x10;
            check(says(suhkelva_block_check(block, 512, number), 0, 0), "a block with one bit changed");
            block[at] ^= 0x10;
        }
        for (n = 0; n < 127; n++) {
            /* the highest bit alone: an even weight would not see it */
            block[4 * n + 3] ^= 0x80;
            check(says(suhkelva_block_check(block, 512, number), 0, 0), "a word changed by 2^31");
            block[4 * n + 3] ^= 0x80;
            sum += words[n];
        }
        put_block(block, words, sum);
        check(says(suhkelva_block_check(block, 512, number), 0, 0), "the sum without weights");
        for (n = 0; n < 126; n++) {
            uint32_t left = words[n];
            uint32_t right = words[n + 1];
            put_block(block, words, check_word(words, number));
            put_word(block + 4 * n, right);
            put_word(block + 4 * n + 4, left);
            check(says(suhkelva_block_check(block, 512, number), 0, 0), "two neighbours exchanged");
            words[n + 1] = left ^ 0x80000000u;
            put_block(block, words, check_word(words, number));
            put_word(block + 4 * n, words[n + 1]);
            put_word(block + 4 * n + 4, left);
            check(says(suhkelva_block_check(block, 512, number), 0, 1), "two neighbours 2^31 apart exchanged");
            words[n + 1] = right;
        }
        /* all words but the first zero: both sums are the same */
        memset(words, 0, sizeof words);
        words[0] = number ^ 0x55u;
        put_block(block, words, number + words[0]);
        check(says(suhkelva_block_check(block, 512, number), 0, 1), "a block under both sums");
    }
}

/* ---- Sheets ---- */

#define P 2013265921u
#define ROOM 640u /* longer than every output of the small sheets, in words */

/* The sheet of document 01's `sheetlist`: seven records, a constraint, an interaction with two fields. */
static const uint32_t sheet[] = {
    1, 7, 1, 1,
    1, 1, 0, 1, 0, /* main, offset 1, column 0 */
    1, 1, 0, 0, 0, /* v */
    7, 0, 1, 1, 0, /* their difference */
    5, 1, 0, 0, 0, /* 1 */
    7, 2, 3, 1, 0,
    4, 0, 0, 0, 0, /* transition */
    9, 5, 4, 2, 0,
    6,
    7, 1, 3, 2, 1, 2,
};
#define WORDS 46u

/* The sheet with one word changed, and the refusal. */
typedef struct {
    size_t at;
    uint32_t word;
    uint32_t number;
} Wrong;

static const Wrong wrongs[] = {
    {0, 0, 3}, {0, 2, 3}, {1, 4097, 3}, {2, 1025, 3}, {3, 1025, 3}, {3, 0xffffffffu, 3},
    {4, 0, 5}, {4, 10, 5}, {5, 4, 5}, {14, 10, 5}, {15, 2, 5}, {16, 2, 5}, {18, 1, 5},
    {20, P, 5}, {21, 1, 5}, {30, 1, 5}, {33, 1, 5}, {35, 6, 5},
    {39, 7, 6}, {40, 65536, 6}, {42, 7, 6}, {43, 64, 6}, {44, 7, 6}, {45, 0xffffffffu, 6},
};

/* Outputs, filled with ones before each call. */
static uint32_t out_words[ROOM];
static uint8_t out_bytes[4 * ROOM];
static uint32_t scratch[ROOM];

static void fill(void)
{
    memset(out_words, 0xff, sizeof out_words);
    memset(scratch, 0xff, sizeof scratch);
    memset(out_bytes, 0xff, sizeof out_bytes);
}

/* Whether the elements from `from` to below `lent` are 0, and what lies beyond what was lent is untouched. */
static int zero(const uint32_t *words, size_t from, size_t lent)
{
    size_t k;
    for (k = from; k < ROOM; k++) {
        if (words[k] != (k < lent ? 0u : 0xffffffffu)) {
            return 0;
        }
    }
    return 1;
}

static int words_zero(size_t from, size_t lent)
{
    return zero(out_words, from, lent);
}

static int scratch_zero(size_t lent)
{
    return zero(scratch, 0, lent);
}

static int bytes_zero(size_t from, size_t lent)
{
    size_t k;
    for (k = from; k < 4 * ROOM; k++) {
        if (out_bytes[k] != (k < lent ? 0u : 0xffu)) {
            return 0;
        }
    }
    return 1;
}

static int wrote(SuhkelvaWritten r, uint64_t count)
{
    return r.number == 0 && r.place == 0 && r.count == count;
}

static int wrote_nothing(SuhkelvaWritten r, uint32_t number, uint64_t place)
{
    return r.number == number && r.place == place && r.count == 0;
}

static int no_number(SuhkelvaNumber r, uint32_t number, uint64_t place)
{
    return r.number == number && r.place == place && r.value == 0;
}

/* What the expansions are lent, and how much of each. */
#define LENT 4352u
enum { WORK, POOL, HEADERS, VARIABLES, TERMS, DENOM_HEADERS, DENOM_VARIABLES, DENOM_TERMS, SLICES };
static uint32_t slices[SLICES][LENT];
static size_t rooms[SLICES];

static SuhkelvaLists expand_constraints(const uint32_t *s, size_t length)
{
    memset(slices, 0xff, sizeof slices);
    return suhkelva_expand_constraints(
        s, length, slices[WORK], rooms[WORK], slices[POOL], rooms[POOL], slices[HEADERS], rooms[HEADERS], slices[VARIABLES],
        rooms[VARIABLES], slices[TERMS], rooms[TERMS]);
}

static SuhkelvaInteractionLists expand_interactions(const uint32_t *s, size_t length)
{
    memset(slices, 0xff, sizeof slices);
    return suhkelva_expand_interactions(
        s, length, slices[WORK], rooms[WORK], slices[POOL], rooms[POOL], slices[HEADERS], rooms[HEADERS], slices[VARIABLES],
        rooms[VARIABLES], slices[TERMS], rooms[TERMS], slices[DENOM_HEADERS], rooms[DENOM_HEADERS], slices[DENOM_VARIABLES],
        rooms[DENOM_VARIABLES], slices[DENOM_TERMS], rooms[DENOM_TERMS]);
}

/* Whether a slice holds these words, then zeros to its end, and what lies beyond it is untouched. */
static int slice_holds(size_t which, const uint32_t *words, size_t count)
{
    size_t k;
    for (k = 0; k < LENT; k++) {
        if (slices[which][k] != (k < count ? words[k] : k < rooms[which] ? 0u : 0xffffffffu)) {
            return 0;
        }
    }
    return 1;
}

/* Whether the first so many slices hold only zeros, and the others were left alone. */
static int slices_zero(size_t lent)
{
    size_t which;
    int zero = 1;
    for (which = 0; which < SLICES; which++) {
        size_t room = rooms[which];
        rooms[which] = which < lent ? room : 0;
        zero = zero && slice_holds(which, NULL, 0);
        rooms[which] = room;
    }
    return zero;
}

static int no_lists(SuhkelvaLists r, uint32_t number, uint64_t place)
{
    return r.number == number && r.place == place && (r.headers | r.variables | r.terms) == 0;
}

static int no_interaction_lists(SuhkelvaInteractionLists r, uint32_t number, uint64_t place)
{
    return r.number == number && r.place == place
        && (r.headers | r.variables | r.terms | r.denom_headers | r.denom_variables | r.denom_terms) == 0
        && (r.num_interactions | r.max_fields_len) == 0;
}

static void check_no_constraints(const uint32_t *s, size_t length, uint32_t number, uint64_t place, const char *what)
{
    check(no_lists(expand_constraints(s, length), number, place), what);
    check(slices_zero(DENOM_HEADERS), "zeros after refused constraints");
}

static void check_no_interactions(const uint32_t *s, size_t length, uint32_t number, uint64_t place, const char *what)
{
    check(no_interaction_lists(expand_interactions(s, length), number, place), what);
    check(slices_zero(SLICES), "zeros after refused interactions");
}

/* Every sheet call refuses these words by this number at this place, and leaves only zeros in what it was lent. */
static void check_refused(const uint32_t *s, size_t length, uint32_t number, uint64_t place, const char *what)
{
    static const size_t lents[] = {0, 1, 45, 46, 47, 512, ROOM};
    SuhkelvaSheet r = suhkelva_check_sheet(s, length);
    size_t k;
    size_t n;
    check(r.number == number && r.place == place, what);
    check((r.records | r.constraints | r.interactions | r.words | r.start) == 0, what);
    check(no_number(suhkelva_max_rotation(s, length), number, place), what);
    check(no_number(suhkelva_num_constraints(s, length), number, place), what);
    for (k = 0; k < sizeof lents / sizeof lents[0]; k++) {
        size_t lent = lents[k];
        fill();
        check(wrote_nothing(suhkelva_convert(s, length, out_words, lent), number, place), what);
        check(words_zero(0, lent), "zeros after a refused conversion");
        check(wrote_nothing(suhkelva_write_blocks(s, length, out_bytes, lent), number, place), what);
        check(bytes_zero(0, lent), "zeros after a refused write");
        fill();
        check(wrote_nothing(suhkelva_build(s, length, scratch, lents[6 - k], out_words, lent), number, place), what);
        check(scratch_zero(lents[6 - k]) && words_zero(0, lent), "zeros after a refused build");
        for (n = 0; n < SLICES; n++) {
            rooms[n] = lents[(k + n) % 7];
        }
        check_no_constraints(s, length, number, place, what);
        check_no_interactions(s, length, number, place, what);
    }
}

static void check_sheets(void)
{
    static uint32_t s[WORDS + 200];
    size_t k;
    SuhkelvaSheet r;
    SuhkelvaNumber n;
    /* without and with spare words */
    memcpy(s, sheet, sizeof sheet);
    for (k = WORDS; k <= WORDS + 126; k += 63) {
        r = suhkelva_check_sheet(s, k);
        check(r.number == 0 && r.place == 0 && r.records == 7 && r.constraints == 1 && r.interactions == 1, "the sheet");
        check(r.words == WORDS && r.start == 40, "its words, and where its interaction starts");
        n = suhkelva_max_rotation(s, k);
        check(n.number == 0 && n.place == 0 && n.value == 1, "its rotation");
        n = suhkelva_num_constraints(s, k);
        check(n.number == 0 && n.place == 0 && n.value == 1, "its constraints");
    }
    check_refused(s, WORDS + 127, 7, WORDS + 126, "the 127th spare word");
    check_refused(s, WORDS + 200, 7, WORDS + 126, "200 spare words");
    s[WORDS + 3] = 1;
    check_refused(s, WORDS + 10, 7, WORDS + 3, "a spare word that is not 0");
    /* an offset may be any word */
    memcpy(s, sheet, sizeof sheet);
    s[4 + 5 + 3] = 0xffffffffu;
    n = suhkelva_max_rotation(s, WORDS);
    check(n.number == 0 && n.value == 0xffffffffu, "any offset");
    /* no record, constraint or interaction */
    memset(s, 0, sizeof s);
    s[0] = 1;
    r = suhkelva_check_sheet(s, 4);
    check(r.number == 0 && r.records == 0 && r.constraints == 0 && r.interactions == 0 && r.words == 4 && r.start == 4, "a head alone");
    n = suhkelva_max_rotation(s, 4);
    check(n.number == 0 && n.value == 0, "no rotation");
    n = suhkelva_num_constraints(s, 4);
    check(n.number == 0 && n.value == 0, "no constraint");
    /* every shorter part of the sheet */
    for (k = 0; k < WORDS; k++) {
        check_refused(sheet, k, 4, k, "a part of the sheet");
    }
    /* one wrong word */
    for (k = 0; k < sizeof wrongs / sizeof wrongs[0]; k++) {
        memcpy(s, sheet, sizeof sheet);
        s[wrongs[k].at] = wrongs[k].word;
        check_refused(s, WORDS, wrongs[k].number, wrongs[k].at, "one wrong word");
    }
    /* the first that fails decides */
    memcpy(s, sheet, sizeof sheet);
    s[33] = 1;
    s[39] = 7;
    check_refused(s, 35, 5, 33, "a wrong record word before a missing one");
    check_refused(s, WORDS, 5, 33, "a wrong record word before a wrong constraint");
    check_refused(s, 33, 4, 33, "a missing word before a wrong one");
}

static void check_copies(void)
{
    static uint32_t s[WORDS + 126];
    size_t lent;
    memset(s, 0, sizeof s);
    memcpy(s, sheet, sizeof sheet);
    for (lent = 0; lent <= ROOM; lent++) {
        SuhkelvaWritten r;
        fill();
        r = suhkelva_convert(s, lent % 2 == 0 ? WORDS : WORDS + 126, out_words, lent);
        if (lent < WORDS) {
            check(wrote_nothing(r, 15, WORDS) && words_zero(0, lent), "a conversion lent too little");
        } else {
            check(wrote(r, WORDS) && memcmp(out_words, sheet, sizeof sheet) == 0, "a conversion");
            check(words_zero(WORDS, lent), "zeros past a conversion");
        }
    }
}

/* A sheet of so many constants, and how many words it has. */
static size_t constants(uint32_t *s, uint32_t records)
{
    uint32_t k;
    memset(s, 0, (4 + 5 * records) * sizeof *s);
    s[0] = 1;
    s[1] = records;
    for (k = 0; k < records; k++) {
        s[4 + 5 * k] = 5;
        s[5 + 5 * k] = P - 1 - k;
    }
    return 4 + 5 * (size_t)records;
}

/* Written as blocks, read and copied: the words of the sheet again. */
static void check_round_trip(const uint32_t *s, size_t length)
{
    static uint8_t blocks[4 * ROOM];
    static uint32_t words[ROOM];
    size_t count = (length + 126) / 127;
    size_t bytes = 512 * count;
    size_t n;
    SuhkelvaWritten r;
    fill();
    check(wrote_nothing(suhkelva_write_blocks(s, length, out_bytes, bytes - 1), 15, bytes), "a write lent too little");
    check(bytes_zero(0, bytes - 1), "zeros after it");
    fill();
    check(wrote(suhkelva_write_blocks(s, length, out_bytes, bytes), bytes), "a write");
    check(bytes_zero(bytes, bytes), "nothing past what was lent");
    memcpy(blocks, out_bytes, bytes);
    fill();
    check(wrote(suhkelva_write_blocks(s, length, out_bytes, bytes + 300), bytes), "a write lent more");
    check(memcmp(blocks, out_bytes, bytes) == 0 && bytes_zero(bytes, bytes + 300), "the same bytes, then zeros");
    for (n = 0; n < count; n++) {
        check(says(suhkelva_block_check(blocks + 512 * n, 512, (uint32_t)n + 1), 0, 1), "a written block is good");
    }

    fill();
    check(wrote_nothing(suhkelva_read_blocks(blocks, bytes, out_words, 127 * count - 1), 15, 127 * count), "a read lent too little");
    check(words_zero(0, 127 * count - 1), "zeros after it");
    fill();
    check(wrote(suhkelva_read_blocks(blocks, bytes, out_words, 127 * count + 9), 127 * count), "a read");
    check(words_zero(length, 127 * count + 9), "zeros past the sheet");
    memcpy(words, out_words, sizeof words);
    check(memcmp(words, s, length * sizeof *s) == 0, "the words of the sheet");
    fill();
    r = suhkelva_convert(words, 127 * count, out_words, ROOM);
    check(wrote(r, length) && memcmp(out_words, s, length * sizeof *s) == 0 && words_zero(length, ROOM), "the sheet again");

    /* one bit changed, in each block: 2, and 15 goes before it */
    for (n = 0; n < count; n++) {
        blocks[512 * n + 77] ^= 4;
        fill();
        check(wrote_nothing(suhkelva_read_blocks(blocks, bytes, out_words, ROOM), 2, n), "a changed block");
        check(words_zero(0, ROOM), "zeros after it");
        fill();
        check(wrote_nothing(suhkelva_read_blocks(blocks, bytes, out_words, 126), 15, 127 * count), "15 before 2");
        check(words_zero(0, 126), "zeros after it");
        blocks[512 * n + 77] ^= 4;
    }
    /* 1 goes before 15 */
    for (n = 0; n < bytes; n += 37) {
        if (n % 512 != 0 || n == 0) {
            fill();
            check(wrote_nothing(suhkelva_read_blocks(blocks, n, out_words, n % 200), 1, 0), "a wrong number of bytes");
            check(words_zero(0, n % 200), "zeros after it");
        }
    }
}

/* As many blocks as are taken, and one more. */
static void check_most_blocks(void)
{
    static uint8_t blocks[711 * 512];
    static uint32_t words[711 * 127];
    uint32_t n;
    size_t k;
    int zero = 1;
    memset(blocks, 0, sizeof blocks);
    /* block n from 0 holds n, 5 and, as its last word, n: n, 15 and 253 n with their weights, and the number n + 1 */
    for (n = 0; n < 711; n++) {
        put_word(blocks + 512 * n, n);
        put_word(blocks + 512 * n + 4, 5);
        put_word(blocks + 512 * n + 504, n);
        put_word(blocks + 512 * n + 508, 255 * n + 16);
    }
    memset(words, 0xff, sizeof words);
    check(wrote(suhkelva_read_blocks(blocks, 710 * 512, words, 711 * 127), 710 * 127), "710 blocks");
    for (k = 0; k < 711 * 127; k++) {
        uint32_t word = k % 127 == 0 || k % 127 == 126 ? (uint32_t)(k / 127) : k % 127 == 1 ? 5 : 0;
        zero = zero && words[k] == (k < 710 * 127 ? word : 0);
    }
    check(zero, "the words of 710 blocks, then zeros");
    /* the first two words exchanged: 2, but in block 5, where they are equal; 2^31 apart, and they are read */
    for (n = 0; n < 710; n++) {
        put_word(blocks + 512 * n, 5);
        put_word(blocks + 512 * n + 4, n);
        if (n == 5) {
            check(wrote(suhkelva_read_blocks(blocks, 710 * 512, words, 710 * 127), 710 * 127), "two equal words exchanged");
        } else {
            check(wrote_nothing(suhkelva_read_blocks(blocks, 710 * 512, words, 710 * 127), 2, n), "two words exchanged");
        }
        put_word(blocks + 512 * n, 0x80000000u);
        put_word(blocks + 512 * n + 4, 0);
        put_word(blocks + 512 * n + 508, 0x80000000u + 254 * n + 1);
        check(wrote(suhkelva_read_blocks(blocks, 710 * 512, words, 710 * 127), 710 * 127), "two words 2^31 apart");
        put_word(blocks + 512 * n, 0);
        put_word(blocks + 512 * n + 4, 0x80000000u);
        check(wrote(suhkelva_read_blocks(blocks, 710 * 512, words, 710 * 127), 710 * 127), "two words 2^31 apart exchanged");
        put_word(blocks + 512 * n, n);
        put_word(blocks + 512 * n + 4, 5);
        put_word(blocks + 512 * n + 508, 255 * n + 16);
    }
    memset(words, 0xff, sizeof words);
    check(wrote_nothing(suhkelva_read_blocks(blocks, 711 * 512, words, 711 * 127), 1, 0), "711 blocks");
    zero = 1;
    for (k = 0; k < 711 * 127; k++) {
        zero = zero && words[k] == 0;
    }
    check(zero, "zeros after 711 blocks");
}

static void check_sheet_blocks(void)
{
    static const uint32_t records[] = {0, 1, 24, 25, 49, 50, 51, 75, 76, 100};
    static uint32_t s[4 + 5 * 100];
    size_t k;
    check_round_trip(sheet, WORDS);
    for (k = 0; k < sizeof records / sizeof records[0]; k++) {
        check_round_trip(s, constants(s, records[k]));
    }
    check_most_blocks();
}

/* ---- Graphs ---- */

/* A sheet, its E and L, and its graph. */
typedef struct {
    const char *what;
    uint32_t sheet[WORDS];
    size_t records;
    size_t words;
    uint32_t graph[WORDS];
    size_t count;
} Graph;

#define V 1, 1, 0, 0, 0
#define W 1, 1, 0, 0, 1

static const Graph graphs[] = {
    {"no record", {1, 0, 0, 0}, 0, 4, {1, 0, 0, 0}, 4},
    {"a record that nothing names", {1, 1, 0, 0, V}, 1, 9, {1, 0, 0, 0}, 4},
    {"v + (-w)", {1, 4, 1, 0, V, W, 8, 1, 0, 1, 0, 6, 0, 2, 1, 0, 3}, 4, 25, {1, 4, 1, 0, V, W, 8, 1, 0, 1, 0, 7, 0, 1, 1, 0, 3}, 25},
    {"-(-v)", {1, 3, 1, 0, V, 8, 0, 0, 1, 0, 8, 1, 0, 1, 0, 2}, 3, 20, {1, 3, 1, 0, V, 8, 0, 0, 1, 0, 8, 1, 0, 1, 0, 2}, 20},
    {"v times 0", {1, 3, 1, 0, V, 5, 0, 0, 0, 0, 9, 0, 1, 1, 0, 2}, 3, 20, {1, 2, 1, 0, V, 5, 0, 0, 0, 0, 1}, 15},
    {"v + w with two degree words", {1, 4, 2, 0, V, W, 6, 0, 1, 1, 0, 6, 0, 1, 2, 0, 2, 3}, 4, 26, {1, 4, 2, 0, V, W, 6, 0, 1, 1, 0, 6, 0, 1, 2, 0, 2, 3}, 26},
    {"the same sum twice", {1, 4, 2, 0, V, W, 6, 0, 1, 1, 0, 6, 0, 1, 1, 0, 2, 3}, 4, 26, {1, 3, 1, 0, V, W, 6, 0, 1, 1, 0, 2}, 20},
    {"(p - 1)(p - 1)", {1, 3, 1, 0, 5, P - 1, 0, 0, 0, 5, P - 1, 0, 0, 0, 9, 0, 1, 0, 0, 2}, 3, 20, {1, 2, 1, 0, 5, P - 1, 0, 0, 0, 5, 1, 0, 0, 0, 1}, 15},
    {"constraints put in order, a challenge, any words",
     {1, 3, 3, 0, 1, 2, 0, 0, 0xffffffffu, 1, 1, 0xffffffffu, 0xffffffffu, 0xffffffffu, 6, 1, 0, 0xffffffffu, 0, 2, 0, 1}, 3, 22,
     {1, 3, 3, 0, 1, 1, 0xffffffffu, 0xffffffffu, 0xffffffffu, 1, 2, 0, 0, 0xffffffffu, 6, 0, 1, 0xffffffffu, 0, 0, 1, 2}, 22},
    {"the sheet of sheetlist: fields before the count, but stored behind it",
     {1, 7, 1, 1, 1, 1, 0, 1, 0, V, 7, 0, 1, 1, 0, 5, 1, 0, 0, 0, 7, 2, 3, 1, 0, 4, 0, 0, 0, 0, 9, 5, 4, 2, 0, 6, 7, 1, 3, 2, 1, 2}, 7, WORDS,
     {1, 7, 1, 1, 4, 0, 0, 0, 0, 1, 1, 0, 1, 0, V, 7, 1, 2, 1, 0, 5, 1, 0, 0, 0, 7, 3, 4, 1, 0, 9, 0, 5, 2, 0, 6, 7, 1, 4, 2, 2, 3}, WORDS},
};

/* A graph in scratch and output of every length around what is needed: the graph, 14 or 15, and zeros. */
static void check_graph(const Graph *g)
{
    static const size_t more[] = {0, 1, 5, 90};
    size_t lent;
    size_t room;
    size_t k;
    for (k = 0; k < sizeof more / sizeof more[0]; k++) {
        SuhkelvaWritten r;
        SuhkelvaNumber n;
        lent = g->records + more[k];
        room = g->words + more[3 - k];
        fill();
        r = suhkelva_build(g->sheet, g->words, scratch, lent, out_words, room);
        check(wrote(r, g->count) && memcmp(out_words, g->graph, g->count * sizeof *out_words) == 0, g->what);
        check(words_zero(g->count, room) && scratch_zero(lent), "zeros past a graph and in scratch");
        n = suhkelva_num_constraints(out_words, g->count);
        check(n.number == 0 && n.value == g->graph[2], "a graph is a sheet");
    }
    for (lent = 0; lent < g->records; lent++) {
        for (room = g->words - 4; room <= g->words + 1; room++) {
            fill();
            check(wrote_nothing(suhkelva_build(g->sheet, g->words, scratch, lent, out_words, room), 14, g->records), "14, before 15");
            check(scratch_zero(lent) && words_zero(0, room), "zeros after 14");
        }
    }
    for (room = 0; room < g->words; room++) {
        fill();
        check(wrote_nothing(suhkelva_build(g->sheet, g->words, scratch, g->records + room % 3, out_words, room), 15, g->words), "15");
        check(scratch_zero(g->records + room % 3) && words_zero(0, room), "zeros after 15");
    }
}

/* A chain of as many records as a sheet may have: each the negative of the one before it. Its words. */
static size_t chain(uint32_t *s)
{
    size_t length = 4 + 5 * 4096 + 1;
    uint32_t k;
    memset(s, 0, length * sizeof *s);
    s[0] = 1;
    s[1] = 4096;
    s[2] = 1;
    s[4] = 1;
    s[5] = 1;
    for (k = 1; k < 4096; k++) {
        s[4 + 5 * k] = 8;
        s[5 + 5 * k] = k - 1;
        s[7 + 5 * k] = k;
    }
    s[length - 1] = 4095;
    return length;
}

static void check_chain(void)
{
    static uint32_t s[4 + 5 * 4096 + 1];
    static uint32_t graph[4 + 5 * 4096 + 1];
    static uint32_t marks[4096];
    size_t length = chain(s);
    size_t left = 0;
    uint32_t k;
    memset(graph, 0xff, sizeof graph);
    memset(marks, 0xff, sizeof marks);
    check(wrote(suhkelva_build(s, length, marks, 4096, graph, length), length), "a chain of 4,096 records");
    check(memcmp(graph, s, sizeof s) == 0, "its graph is itself");
    for (k = 0; k < 4096; k++) {
        left += marks[k] != 0;
    }
    check(left == 0, "zeros in its scratch");
    check(wrote_nothing(suhkelva_build(s, length, marks, 4095, graph, length), 14, 4096), "4,095 words of scratch");
}

static void check_graphs(void)
{
    size_t k;
    for (k = 0; k < sizeof graphs / sizeof graphs[0]; k++) {
        check_graph(&graphs[k]);
    }
    check_chain();
}

/* ---- Expansions ---- */

typedef struct {
    uint32_t words[16];
    size_t count;
} Words;

/* A sheet, its E and L, and its lists: of its constraints (three), of its interactions (six), with the pool that each call needs. */
typedef struct {
    const char *what;
    uint32_t sheet[WORDS];
    size_t records;
    size_t words;
    size_t pool;
    Words lists[3];
    size_t interaction_pool;
    Words interaction_lists[6];
    uint64_t num_interactions;
    uint64_t max_fields_len;
} Expansion;

#define NONE {{0}, 0}
#define NO_INTERACTIONS {NONE, NONE, NONE, NONE, NONE, NONE}, 0, 0
#define W1 0x00010001u
#define NEXT 0x00001001u /* main, offset 1, column 0 */

static const Expansion expansions[] = {
    {"nothing", {1, 0, 0, 0}, 0, 4, 0, {NONE, NONE, NONE}, 0, NO_INTERACTIONS},
    {"v times 0", {1, 3, 1, 0, V, 5, 0, 0, 0, 0, 9, 0, 1, 1, 0, 2}, 3, 20, 11, {NONE, NONE, NONE}, 6, NO_INTERACTIONS},
    {"constraint 0", {1, 1, 1, 0, 5, 0, 0, 0, 0, 0}, 1, 10, 4, {NONE, NONE, NONE}, 2, NO_INTERACTIONS},
    {"a constant", {1, 1, 1, 0, 5, 7, 0, 0, 0, 0}, 1, 10, 4, {{{0, 0, 0, 1}, 4}, NONE, {{0, 7}, 2}}, 2, NO_INTERACTIONS},
    {"v + w with two degree words", {1, 4, 2, 0, V, W, 6, 0, 1, 1, 0, 6, 0, 1, 2, 0, 2, 3}, 4, 26, 26,
     {{{0, 0, 1, 2, 1, 2, 1, 2}, 8}, {{1, W1}, 2}, {{0, 1, 1, 1, 0, 1, 1, 1}, 8}}, 8, NO_INTERACTIONS},
    {"the same sum twice, and named twice", {1, 4, 3, 0, V, W, 6, 0, 1, 1, 0, 6, 0, 1, 1, 0, 3, 2, 3}, 4, 27, 26,
     {{{0, 0, 1, 3, 1, 3, 1, 3}, 8}, {{1, W1}, 2}, {{0, 1, 1, 1, 2, 1, 0, 1, 1, 1, 2, 1}, 12}}, 8, NO_INTERACTIONS},
    {"the graph of the same sum twice", {1, 3, 1, 0, V, W, 6, 0, 1, 1, 0, 2}, 3, 20, 18,
     {{{0, 0, 1, 1, 1, 1, 1, 1}, 8}, {{1, W1}, 2}, {{0, 1, 0, 1}, 4}}, 6, NO_INTERACTIONS},
    {"(v + w)(v - w)", {1, 5, 1, 0, V, W, 6, 0, 1, 1, 0, 7, 0, 1, 1, 0, 9, 2, 3, 2, 0, 4}, 5, 30, 36,
     {{{0, 0, 2, 1, 2, 1, 2, 1}, 8}, {{1, 1, W1, W1}, 4}, {{0, 1, 0, P - 1}, 4}}, 10, NO_INTERACTIONS},
    {"v - v", {1, 2, 1, 0, V, 7, 0, 0, 1, 0, 1}, 2, 15, 7, {NONE, NONE, NONE}, 4, NO_INTERACTIONS},
    {"a message of no fields, a count of 0", {1, 1, 0, 1, 5, 0, 0, 0, 0, 7, 1, 0, 0}, 1, 13, 2, {NONE, NONE, NONE}, 4,
     {NONE, NONE, NONE, NONE, NONE, NONE}, 1, 0},
    {"two interactions, a field in both", {1, 2, 0, 2, V, W, 7, 1, 0, 1, 1, 9, 2, 1, 2, 0, 1}, 2, 25, 4, {NONE, NONE, NONE}, 10,
     {{{0, 0, 1, 1, 1, 1, 1, 1}, 8}, {{1, W1}, 2}, {{1, 0, 0, 1, 1, 0}, 6},
      {{0, 0, 1, 1, 1, 1, 1, 2}, 8}, {{1, W1}, 2}, {{1, 1, 0, 1, 0, 0, 1, 1, 1}, 9}}, 2, 2},
    {"the sheet of sheetlist",
     {1, 7, 1, 1, 1, 1, 0, 1, 0, V, 7, 0, 1, 1, 0, 5, 1, 0, 0, 0, 7, 2, 3, 1, 0, 4, 0, 0, 0, 0, 9, 5, 4, 2, 0, 6, 7, 1, 3, 2, 1, 2}, 7, WORDS, 50,
     {{{0, 0, 1, 1, 1, 1, 2, 1, 3, 2, 2, 1}, 12}, {{10, 1, 10, 10, NEXT}, 5}, {{0, P - 1, 0, P - 1, 0, 1}, 6}}, 28,
     {{{0, 0, 0, 1}, 4}, NONE, {{1, 0, 0}, 3},
      {{0, 0, 1, 2, 1, 2, 1, 1}, 8}, {{1, NEXT}, 2}, {{1, 0, 0, P - 1, 0, 1, 1, 0, 1}, 9}}, 1, 2},
};

/* As much of each slice as is needed, and so many words more. */
static void lend(size_t pool, const Words *lists, size_t outputs, size_t more)
{
    size_t k;
    rooms[WORK] = 4096 + more;
    rooms[POOL] = pool + more;
    for (k = 0; k < SLICES - HEADERS; k++) {
        rooms[HEADERS + k] = k < outputs ? lists[k].count + more : 0;
    }
}

static int lists_hold(const Words *lists, size_t outputs)
{
    size_t k;
    int holds = slice_holds(WORK, NULL, 0) && slice_holds(POOL, NULL, 0);
    for (k = 0; k < outputs; k++) {
        holds = holds && slice_holds(HEADERS + k, lists[k].words, lists[k].count);
    }
    return holds;
}

static void check_constraints(const Expansion *e)
{
    static const size_t more[] = {0, 1, 7, 200};
    const Words *l = e->lists;
    size_t k;
    size_t room;
    for (k = 0; k < sizeof more / sizeof more[0]; k++) {
        SuhkelvaLists r;
        lend(e->pool, l, 3, more[k]);
        r = expand_constraints(e->sheet, e->words);
        check(r.number == 0 && r.place == 0 && r.headers == l[0].count && r.variables == l[1].count && r.terms == l[2].count, e->what);
        check(lists_hold(l, 3), e->what);
    }
    /* 14: work before pool, and before all that comes later */
    lend(0, l, 0, 0);
    rooms[WORK] = 4095;
    check_no_constraints(e->sheet, e->words, 14, 4096, "4,095 words of work");
    rooms[WORK] = 0;
    check_no_constraints(e->sheet, e->words, 14, 4096, "no slice has a word");
    for (room = 0; room < 2 * e->records; room++) {
        rooms[WORK] = 4096;
        rooms[POOL] = room;
        check_no_constraints(e->sheet, e->words, 14, 2 * e->records, "a pool without two words a record");
    }
    /* 16, before 17 */
    for (; room < e->pool; room++) {
        SuhkelvaLists r;
        rooms[POOL] = room;
        r = expand_constraints(e->sheet, e->words);
        check(r.number == 16 && r.place < e->records && no_lists(r, 16, r.place), "16");
        check(slices_zero(DENOM_HEADERS), "zeros after 16");
    }
    /* 17: the first that is too short */
    for (k = 0; k < 3; k++) {
        for (room = 0; room < l[k].count; room++) {
            lend(e->pool, l, 3, 0);
            rooms[HEADERS + k] = room;
            rooms[TERMS] -= k < 2 && room % 2 == 0 && l[2].count > 0;
            check_no_constraints(e->sheet, e->words, 17, k + 1, "17");
        }
    }
}

static void check_interactions(const Expansion *e)
{
    static const size_t more[] = {0, 1, 7, 200};
    const Words *l = e->interaction_lists;
    size_t k;
    size_t room;
    for (k = 0; k < sizeof more / sizeof more[0]; k++) {
        SuhkelvaInteractionLists r;
        lend(e->interaction_pool, l, 6, more[k]);
        r = expand_interactions(e->sheet, e->words);
        check(r.number == 0 && r.place == 0 && r.headers == l[0].count && r.variables == l[1].count && r.terms == l[2].count, e->what);
        check(r.denom_headers == l[3].count && r.denom_variables == l[4].count && r.denom_terms == l[5].count, e->what);
        check(r.num_interactions == e->num_interactions && r.max_fields_len == e->max_fields_len, e->what);
        check(lists_hold(l, 6), e->what);
    }
    lend(0, l, 0, 0);
    rooms[WORK] = 4095;
    check_no_interactions(e->sheet, e->words, 14, 4096, "4,095 words of work");
    rooms[WORK] = 0;
    check_no_interactions(e->sheet, e->words, 14, 4096, "no slice has a word");
    for (room = 0; room < 2 * e->records; room++) {
        rooms[WORK] = 4096;
        rooms[POOL] = room;
        check_no_interactions(e->sheet, e->words, 14, 2 * e->records, "a pool without two words a record");
    }
    for (; room < e->interaction_pool; room++) {
        SuhkelvaInteractionLists r;
        rooms[POOL] = room;
        r = expand_interactions(e->sheet, e->words);
        check(r.number == 16 && r.place < e->records && no_interaction_lists(r, 16, r.place), "16");
        check(slices_zero(SLICES), "zeros after 16");
    }
    for (k = 0; k < 6; k++) {
        for (room = 0; room < l[k].count; room++) {
            lend(e->interaction_pool, l, 6, 0);
            rooms[HEADERS + k] = room;
            rooms[DENOM_TERMS] -= k < 5 && room % 2 == 0 && l[5].count > 0;
            check_no_interactions(e->sheet, e->words, 17, k + 1, "17");
        }
    }
}

/* Where 16 comes from in the sheet of `sheetlist`: its records in the order of each walk, and the words that their monomials take. */
static void check_pool(void)
{
    static const uint64_t order[] = {5, 0, 1, 2, 3, 4, 6};
    static const size_t sizes[] = {3, 3, 3, 6, 2, 8, 11};
    static const uint64_t interaction_order[] = {3, 1, 0, 2};
    static const size_t interaction_sizes[] = {2, 3, 3, 6};
    size_t used = 2 * 7;
    size_t k;
    lend(0, NULL, 0, 0);
    for (k = 0; k < 7; k++) {
        for (rooms[POOL] = used; rooms[POOL] < used + sizes[k]; rooms[POOL]++) {
            check_no_constraints(sheet, WORDS, 16, order[k], "the record that finds no room");
        }
        used += sizes[k];
    }
    used = 2 * 7;
    for (k = 0; k < 4; k++) {
        for (rooms[POOL] = used; rooms[POOL] < used + interaction_sizes[k]; rooms[POOL]++) {
            check_no_interactions(sheet, WORDS, 16, interaction_order[k], "the record that finds no room");
        }
        used += interaction_sizes[k];
    }
}

/* A record that is refused. */
typedef struct {
    const char *what;
    uint32_t record[5];
    uint32_t number;
} Unpackable;

static const Unpackable unpackables[] = {
    {"column 65,536", {1, 1, 0, 0, 65536}, 8},
    {"a challenge", {1, 2, 0, 0, 0}, 9},
    {"part 256", {1, 1, 256, 0, 0}, 10},
    {"offset 16", {1, 1, 0, 16, 0}, 11},
    {"preprocessed, offset 2^32 - 1", {1, 0, 0, 0xffffffffu, 0}, 11},
    {"a challenge in column 65,536", {1, 2, 0, 0, 65536}, 8},
    {"part 256 and offset 16", {1, 1, 256, 16, 0}, 10},
};

static void check_unpackable(const Unpackable *u)
{
    /* v, the record, their sum; constraint; bus, weight, count, message of one field */
    uint32_t s[] = {1, 3, 1, 1, V, 0, 0, 0, 0, 0, 6, 0, 1, 0, 0, 2, 7, 1, 2, 1, 0};
    size_t length = sizeof s / sizeof *s;
    lend(4, NULL, 0, 200);
    memcpy(s + 9, u->record, sizeof u->record);
    check_no_constraints(s, length, u->number, 1, u->what);
    check_no_interactions(s, length, u->number, 1, u->what);
    /* 14 goes before it; it goes before 16 of a later record and before 17 */
    rooms[WORK] = 4095;
    check_no_constraints(s, length, 14, 4096, "14 before the walk");
    check_no_interactions(s, length, 14, 4096, "14 before the walk");
    lend(6 + 3, NULL, 0, 0);
    check_no_constraints(s, length, u->number, 1, u->what);
    check_no_interactions(s, length, u->number, 1, u->what);
    lend(6, NULL, 0, 0);
    check_no_constraints(s, length, 16, 0, "16 of an earlier record");
    check_no_interactions(s, length, 16, 0, "16 of an earlier record");
    /* reached by the message only, and by nothing */
    lend(64, NULL, 0, 64);
    s[19] = 0;
    s[22] = 0;
    s[24] = 1;
    check(expand_constraints(s, length).number == 17, "what no constraint reaches is not refused");
    check_no_interactions(s, length, u->number, 1, u->what);
    s[24] = 0;
    check(expand_interactions(s, length).number == 17, "what nothing reaches is not refused");
}

/* A sheet as it is written: records one behind the other, then the last as constraint and as the count of an interaction. */
static uint32_t written[4 + 5 * 100 + 1 + 4];

static uint32_t add_record(uint32_t kind, uint32_t a, uint32_t b, uint32_t c, uint32_t d)
{
    uint32_t *at = written + 4 + 5 * written[1];
    at[0] = kind;
    at[1] = a;
    at[2] = b;
    at[3] = c;
    at[4] = d;
    return written[1]++;
}

static size_t finish(uint32_t root)
{
    uint32_t *at = written + 4 + 5 * written[1];
    written[0] = 1;
    written[2] = 1;
    written[3] = 1;
    at[0] = root;
    at[1] = 7;
    at[2] = 1;
    at[3] = root;
    at[4] = 0;
    return 4 + 5 * (size_t)written[1] + 5;
}

/* The sum of so many main variables, from a column on. */
static uint32_t add_sum(uint32_t column, uint32_t many)
{
    uint32_t sum = add_record(1, 1, 0, 0, column);
    uint32_t k;
    for (k = 1; k < many; k++) {
        uint32_t next = add_record(1, 1, 0, 0, column + k);
        sum = add_record(6, sum, next, 0, 0);
    }
    return sum;
}

static void check_limits(void)
{
    SuhkelvaLists r;
    SuhkelvaInteractionLists n;
    uint32_t root;
    uint32_t k;
    size_t length;
    int holds = 1;
    for (k = 0; k < SLICES; k++) {
        rooms[k] = LENT;
    }
    /* 14 factors, then 15 */
    memset(written, 0, sizeof written);
    root = add_record(1, 1, 0, 0, 0);
    for (k = 1; k < 14; k++) {
        root = add_record(9, root, 0, 0, 0);
    }
    length = finish(root);
    r = expand_constraints(written, length);
    check(r.number == 0 && r.headers == 4 && r.variables == 14 && r.terms == 2, "14 factors");
    for (k = 0; k < 14; k++) {
        holds = holds && slices[VARIABLES][k] == 1;
    }
    check(holds && slices[HEADERS][2] == 14 && slices[HEADERS][3] == 1 && slices[TERMS][1] == 1, "the header of 14 factors");
    n = expand_interactions(written, length);
    check(n.number == 0 && n.headers == 4 && n.variables == 14 && n.terms == 3 && n.denom_headers == 0, "14 factors as a count");
    memset(written + length - 5, 0, 5 * sizeof *written);
    root = add_record(9, 0, root, 0, 0);
    length = finish(root);
    check_no_constraints(written, length, 13, root, "15 factors");
    check_no_interactions(written, length, 13, root, "15 factors as a count");
    /* 16 times 16 variables, then 16 times 17 */
    for (k = 16; k <= 17; k++) {
        uint32_t left;
        memset(written, 0, sizeof written);
        left = add_sum(0, 16);
        root = add_sum(100, k);
        root = add_record(9, left, root, 0, 0);
        length = finish(root);
        if (k == 16) {
            r = expand_constraints(written, length);
            check(r.number == 0 && r.headers == 1024 && r.variables == 512 && r.terms == 512, "16 times 16 variables");
            n = expand_interactions(written, length);
            check(n.number == 0 && n.headers == 1024 && n.variables == 512 && n.terms == 768, "16 times 16 variables as a count");
        } else {
            check_no_constraints(written, length, 12, root, "16 times 17 variables");
            check_no_interactions(written, length, 12, root, "16 times 17 variables as a count");
        }
    }
}

/* The same chain, with its last record as a count too. */
static void check_expanded_chain(void)
{
    static uint32_t s[4 + 5 * 4096 + 1 + 4];
    static uint32_t pool[5 * 4096];
    size_t length = chain(s);
    SuhkelvaLists r;
    SuhkelvaInteractionLists n;
    s[3] = 1;
    s[length] = 7;
    s[length + 1] = 1;
    s[length + 2] = 4095;
    s[length + 3] = 0;
    r = suhkelva_expand_constraints(
        s, length + 4, slices[WORK], 4096, pool, 5 * 4096, slices[HEADERS], 4, slices[VARIABLES], 1, slices[TERMS], 2);
    check(r.number == 0 && r.headers == 4 && r.variables == 1 && r.terms == 2, "the monomials of a chain of 4,096 records");
    check(slices[VARIABLES][0] == 1 && slices[TERMS][0] == 0 && slices[TERMS][1] == P - 1, "its variable and its sign");
    n = suhkelva_expand_interactions(
        s, length + 4, slices[WORK], 4096, pool, 5 * 4096 - 1, slices[HEADERS], 4, slices[VARIABLES], 1, slices[TERMS], 3,
        slices[DENOM_HEADERS], 0, slices[DENOM_VARIABLES], 0, slices[DENOM_TERMS], 0);
    check(no_interaction_lists(n, 16, 4095), "a pool without room for the last record");
}

static void check_expansions(void)
{
    size_t k;
    for (k = 0; k < sizeof expansions / sizeof expansions[0]; k++) {
        check_constraints(&expansions[k]);
        check_interactions(&expansions[k]);
    }
    check_pool();
    for (k = 0; k < sizeof unpackables / sizeof unpackables[0]; k++) {
        check_unpackable(&unpackables[k]);
    }
    check_limits();
    check_expanded_chain();
}

/* ---- Arithmetic ---- */

/* Values at bounds: around 0, p, half of p, 2^15 and 2^30; 2^16, and 2^27, of which p - 1 is a multiple. */
static const uint32_t values[] = {
    0, 1, 2, 3, 32767, 32768, 65536, 134217728, (P - 1) / 2, (P + 1) / 2, 1073741823, 1073741824, 1073741825, P - 3, P - 2, P - 1,
};
#define VALUES (sizeof values / sizeof values[0])

/* An operation of two constants, or of the first: the constant that it is folded to, and its coefficient as a constraint and as a count. */
static void check_operation(uint32_t kind, uint32_t a, uint32_t b, uint32_t due)
{
    const uint32_t term[] = {0, due};
    const uint32_t count[] = {due, 0, 0};
    const uint32_t *node;
    SuhkelvaLists r;
    SuhkelvaInteractionLists n;
    size_t length;
    size_t k;
    written[1] = 0;
    add_record(5, a, 0, 0, 0);
    add_record(5, b, 0, 0, 0);
    length = finish(add_record(kind, 0, kind == 8 ? 0 : 1, 0, 0));
    fill();
    check(suhkelva_build(written, length, scratch, 3, out_words, length).number == 0, "an operation is built");
    node = out_words + 4 + 5 * out_words[4 + 5 * out_words[1]];
    check(node[0] == 5 && node[1] == due, "the constant of an operation");
    for (k = 0; k < SLICES; k++) {
        rooms[k] = LENT;
    }
    r = expand_constraints(written, length);
    check(r.number == 0 && r.headers == (due == 0 ? 0 : 4) && r.terms == (due == 0 ? 0 : 2), "an operation as a constraint");
    check(slice_holds(TERMS, term, r.terms), "the coefficient of a constraint");
    n = expand_interactions(written, length);
    check(n.number == 0 && n.headers == (due == 0 ? 0 : 4) && n.terms == (due == 0 ? 0 : 3), "an operation as a count");
    check(slice_holds(TERMS, count, n.terms), "the coefficient of a count");
}

static void check_arithmetic(void)
{
    size_t j;
    size_t k;
    for (j = 0; j < VALUES; j++) {
        uint64_t a = values[j];
        check_operation(8, values[j], 0, (uint32_t)((P - a) % P));
        for (k = 0; k < VALUES; k++) {
            uint64_t b = values[k];
            check_operation(6, values[j], values[k], (uint32_t)((a + b) % P));
            check_operation(7, values[j], values[k], (uint32_t)((a + P - b) % P));
            check_operation(9, values[j], values[k], (uint32_t)(a * b % P));
        }
    }
}

int main(void)
{
    check(sizeof(SuhkelvaPacked) == 12, "the size of SuhkelvaPacked");
    check(sizeof(SuhkelvaRecord) == 28, "the size of SuhkelvaRecord");
    check(sizeof(SuhkelvaBlock) == 12, "the size of SuhkelvaBlock");
    check(sizeof(SuhkelvaSheet) == 56, "the size of SuhkelvaSheet");
    check(sizeof(SuhkelvaNumber) == 24, "the size of SuhkelvaNumber");
    check(sizeof(SuhkelvaWritten) == 24, "the size of SuhkelvaWritten");
    check(sizeof(SuhkelvaLists) == 40, "the size of SuhkelvaLists");
    check(sizeof(SuhkelvaInteractionLists) == 80, "the size of SuhkelvaInteractionLists");
    check_packing();
    check_unpacking();
    check_blocks();
    check_sheets();
    check_copies();
    check_sheet_blocks();
    check_graphs();
    check_expansions();
    check_arithmetic();
    printf("%u checks passed, %u failed\n", passed, failed);
    return failed == 0 ? 0 : 1;
}
