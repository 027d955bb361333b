/*
 * The C library of Suhkelva: packed variables, rule sheets, their blocks, their graphs and their monomials.
 *
 * Link libsuhkelva.a, an archive for x86-64 Linux. It is written by
 *     rt lib, in crates/suhkelva   -> crates/suhkelva/out/libsuhkelva.a
 * and only after each function was proved to meet its contract (crates/suhkelva/src/lib.rt). examples/c/example.c is a program that
 * goes from blocks to printed monomials.
 *
 * Calls. Every call returns, keeps nothing between calls, takes no memory of its own but some stack, and reads and writes
 * nothing but what it is lent. Calls may run at the same time in several threads.
 *
 * Replies. Every reply is a struct that begins with `number` and `place`:
 *     number 0   accepted: place is 0, and the further fields are the answer;
 *     otherwise  refused: number says why and place says where (table below), and every further field is 0.
 *
 * Slices. A slice is two parameters, a pointer and then its length in elements. The pointer is never NULL, not even where the
 * length is 0; it is aligned for its element; so many elements can be read there, and nobody writes them during the call. A
 * slice of the wrong length is refused, never read past its end.
 * A slice without `const` is lent for writing: nobody else reads or writes it during the call, and it shares no element with
 * another slice of the call. It may be longer than needed, and hold anything before the call. After the call every element of
 * it is stated: the answer, then zeros to its end; after a refusal, whatever its length, zeros only.
 *
 * Refusals of the calls below:
 *
 *     number                             why                                   place
 *      1  SUHKELVA_WRONG_LENGTH          block check: not 512 bytes            0
 *                                        reader: no bytes, not a multiple of   0
 *                                        512, or above 363,520
 *      2  SUHKELVA_WRONG_CHECK           reader: a block's check differs       the first such block, from 0
 *      3  SUHKELVA_WRONG_HEAD            a head word of the sheet is wrong     the word's index
 *      4  SUHKELVA_PAST_END              a needed word is past the end         the sheet's length
 *      5  SUHKELVA_WRONG_RECORD          sheets: a record word is wrong        the word's index
 *                                        packing: a word of the record is      that word: 0 kind, 1 a,
 *                                        wrong, the first such                 2 b, 3 c, 4 d
 *                                        unpacking: no record packs to this    0
 *      6  SUHKELVA_WRONG_NAME            a constraint's or interaction's word  the word's index
 *                                        is wrong
 *      7  SUHKELVA_WRONG_SPARE           a spare word is not zero, or is the   the word's index
 *                                        127th
 *      8  SUHKELVA_COLUMN_TOO_LARGE      column above 65,535                   packing: 0
 *      9  SUHKELVA_CHALLENGE_REFUSED     the variable is a challenge           expansions: the record's
 *     10  SUHKELVA_PART_TOO_LARGE        part above 255                        number, from 0
 *     11  SUHKELVA_OFFSET_TOO_LARGE      offset above 15
 *     12  SUHKELVA_LIST_TOO_LONG         a record has more than 256            the record's number
 *                                        monomials, before equal ones are
 *                                        summed
 *     13  SUHKELVA_PRODUCT_TOO_LONG      a product of more than 14 variables   the record's number
 *     14  SUHKELVA_SCRATCH_TOO_SHORT     scratch is shorter than needed;       words needed
 *                                        expansions: work, then pool
 *     15  SUHKELVA_OUTPUT_TOO_SHORT      the output is shorter than needed     elements needed
 *     16  SUHKELVA_POOL_TOO_SHORT        no room in the pool for a record's    the record's number
 *                                        monomials
 *     17  SUHKELVA_SLICE_TOO_SHORT       an output of an expansion is shorter  the first such: 1 headers,
 *                                        than needed                           2 variables, 3 terms,
 *                                                                              4 denom_headers,
 *                                                                              5 denom_variables,
 *                                                                              6 denom_terms
 *
 * Where several hold, the lowest number is sent. But a sheet's words are read from the front, and the first that fails decides
 * between 3 to 7; the reader looks for 1, then 15, then 2; and an expansion looks for 14, then goes from record to record, where
 * the first that fails decides between 8 to 13 and 16, then looks for 17.
 */
#ifndef SUHKELVA_H
#define SUHKELVA_H

#include <stddef.h>
#include <stdint.h>

#ifdef __cplusplus
extern "C" {
#endif

/* Numbers of replies. */
#define SUHKELVA_ACCEPTED 0u
#define SUHKELVA_WRONG_LENGTH 1u
#define SUHKELVA_WRONG_CHECK 2u
#define SUHKELVA_WRONG_HEAD 3u
#define SUHKELVA_PAST_END 4u
#define SUHKELVA_WRONG_RECORD 5u
#define SUHKELVA_WRONG_NAME 6u
#define SUHKELVA_WRONG_SPARE 7u
#define SUHKELVA_COLUMN_TOO_LARGE 8u
#define SUHKELVA_CHALLENGE_REFUSED 9u
#define SUHKELVA_PART_TOO_LARGE 10u
#define SUHKELVA_OFFSET_TOO_LARGE 11u
#define SUHKELVA_LIST_TOO_LONG 12u
#define SUHKELVA_PRODUCT_TOO_LONG 13u
#define SUHKELVA_SCRATCH_TOO_SHORT 14u
#define SUHKELVA_OUTPUT_TOO_SHORT 15u
#define SUHKELVA_POOL_TOO_SHORT 16u
#define SUHKELVA_SLICE_TOO_SHORT 17u

/*
 * Kinds of records: a record is five words, its kind and a to d; a word that its kind does not use is 0. A child is the number
 * of an earlier record. 1 to 4 are packed.
 */
#define SUHKELVA_VARIABLE 1u      /* a entry, b part, c offset, d column */
#define SUHKELVA_IS_FIRST_ROW 2u  /* a to d are 0 */
#define SUHKELVA_IS_LAST_ROW 3u   /* the same */
#define SUHKELVA_IS_TRANSITION 4u /* the same */
#define SUHKELVA_CONSTANT 5u      /* a value, below 2013265921 */
#define SUHKELVA_ADD 6u           /* a left child, b right child, c degree word, any */
#define SUHKELVA_SUB 7u           /* the same */
#define SUHKELVA_NEG 8u           /* a child, c degree word, any */
#define SUHKELVA_MUL 9u           /* as Add */

/* Entries of a variable. */
#define SUHKELVA_PREPROCESSED 0u /* part 0 */
#define SUHKELVA_MAIN 1u
#define SUHKELVA_CHALLENGE 2u /* part and offset 0 */
#define SUHKELVA_PUBLIC 3u    /* part and offset 0 */

/* Bytes of a block, and the words of a sheet in it. */
#define SUHKELVA_BLOCK_BYTES 512u
#define SUHKELVA_BLOCK_WORDS 127u

/* Words of `work` that an expansion needs; words of a header; words of a term. */
#define SUHKELVA_WORK_WORDS 4096u
#define SUHKELVA_HEADER_WORDS 4u
#define SUHKELVA_TERM_WORDS 2u
#define SUHKELVA_INTERACTION_TERM_WORDS 3u

/* ---- Packed variables ---- */

/*
 * A packed variable: bits 0 to 3 type (0 preprocessed, 1 main, 3 public, 8 first row, 9 last row, 10 transition), 4 to 11 part,
 * 12 to 15 offset, 16 to 31 column.
 */
typedef struct {
    uint32_t number; /* 0, 5, 8, 9, 10 or 11 */
    uint32_t place;
    uint32_t packed;
} SuhkelvaPacked;

/*
 * Packs the variable or row mark that a record's five words say.
 *
 * Any words may be given. Refused by 5 where the kind is not 1 to 4, the entry is above 3, or a word that the record does not
 * use is not 0: words are judged in the order kind, a, b, c, d, and the first wrong one is the place. Then by 8 to 11.
 */
SuhkelvaPacked suhkelva_pack(uint32_t kind, uint32_t a, uint32_t b, uint32_t c, uint32_t d);

/* The five words of a record. */
typedef struct {
    uint32_t number; /* 0 or 5 */
    uint32_t place;
    uint32_t kind;
    uint32_t a;
    uint32_t b;
    uint32_t c;
    uint32_t d;
} SuhkelvaRecord;

/*
 * The words that pack to a number. Any number may be given; one that suhkelva_pack never hands out is refused by 5, place 0.
 * Packing and then unpacking returns the same words.
 */
SuhkelvaRecord suhkelva_unpack(uint32_t packed);

/* ---- Blocks ---- */

typedef struct {
    uint32_t number; /* 0 or 1 */
    uint32_t place;
    uint32_t good; /* 1 yes, 0 no */
} SuhkelvaBlock;

/*
 * Whether a block ends with its check word.
 *
 * A block is 512 bytes: 127 words, least byte first, then the check word: the sum modulo 2^32 of each of the 127 words times
 * its weight (1 for the first, 3 for the second, up to 253 for the last) and the block's number. One altered word is always
 * seen, and two neighbours among the 127 that are exchanged, unless they are equal or differ by 2^31. Blocks are counted from 1;
 * any number is taken, 0 too. Refused by 1 where bytes_len is not 512. A block that is not good is no refusal: number is 0 and
 * good is 0. Ask for number 0 and good 1 before a block is trusted.
 */
SuhkelvaBlock suhkelva_block_check(const uint8_t *bytes, size_t bytes_len, uint32_t number);

/* ---- Sheets ---- */

/*
 * A sheet is words: the head, which is 1 and then how many records (at most 4,096), constraints (at most 1,024) and
 * interactions (at most 1,024) follow; the records, five words each; the constraints, a record's number each; the interactions,
 * each its bus, weight, count's record, message length and the records of its message; then up to 126 spare words, all 0.
 */

/* What the check says of a sheet. */
typedef struct {
    uint32_t number; /* 0 or 3 to 7 */
    uint64_t place;
    uint64_t records;
    uint64_t constraints;
    uint64_t interactions;
    uint64_t words; /* of the sheet, without spare ones */
    uint64_t start; /* the index of the first interaction's first word */
} SuhkelvaSheet;

/* The number that a call was asked for. */
typedef struct {
    uint32_t number; /* 0 or 3 to 7 */
    uint64_t place;
    uint64_t value;
} SuhkelvaNumber;

/* How much a call wrote to the front of its output: words, for the writer bytes. */
typedef struct {
    uint32_t number; /* 0 or a refusal, see each call */
    uint64_t place;
    uint64_t count;
} SuhkelvaWritten;

/* Checks a sheet of any length. Refused by 3 to 7. */
SuhkelvaSheet suhkelva_check_sheet(const uint32_t *s, size_t s_len);

/* The largest offset over all variables of a sheet, used or not; 0 if it has none. Refused by 3 to 7. */
SuhkelvaNumber suhkelva_max_rotation(const uint32_t *s, size_t s_len);

/* How many constraints a sheet has. Refused by 3 to 7. */
SuhkelvaNumber suhkelva_num_constraints(const uint32_t *s, size_t s_len);

/*
 * Copies a sheet, a graph too, without its spare words. Lend as many words as suhkelva_check_sheet says, or more; the rest of
 * `out` becomes 0. Refused by 3 to 7, then by 15, place the words needed; all of `out` is then 0.
 */
SuhkelvaWritten suhkelva_convert(const uint32_t *s, size_t s_len, uint32_t *out, size_t out_len);

/*
 * The words of blocks, joined: 1 to 710 blocks, numbered from 1. Lend 127 words for each block, or more; the rest of `out`
 * becomes 0. Whether the words are a sheet is not looked at. Refused by 1, then by 15, place the words needed, then by 2; all of
 * `out` is then 0.
 */
SuhkelvaWritten suhkelva_read_blocks(const uint8_t *bytes, size_t bytes_len, uint32_t *out, size_t out_len);

/*
 * The blocks of a sheet: its words without spare ones, and zeros to the end of the last block. Lend 512 bytes for each 127 words
 * begun, or more; the rest of `out` becomes 0. Refused by 3 to 7, then by 15, place the bytes needed; all of `out` is then 0.
 */
SuhkelvaWritten suhkelva_write_blocks(const uint32_t *s, size_t s_len, uint8_t *out, size_t out_len);

/* ---- Graphs ---- */

/*
 * The graph of a sheet: again a sheet, whose records, called nodes, are those that a constraint or an interaction reaches, equal
 * ones once, each behind its children. Constants are folded; v + 0, 0 + v, v - 0, v * 1 and 1 * v become v; v * 0 and 0 * v
 * become 0; v + (-w) becomes v - w, and v - (-w) becomes v + w; a node that is left unused by this stays. The constraints of the
 * graph are node numbers in ascending order, each once, so there may be fewer than in the sheet; its interactions are those of
 * the sheet in their order, and name nodes. Any column, part, offset and challenge is taken.
 *
 * Ask suhkelva_check_sheet first and lend
 *     scratch   at least `records` words; anything may be in them, and after the call, also a refused one, all of it is 0;
 *     out       at least `words` words; the graph may be shorter: count says how many words it has, and the rest becomes 0.
 * 4,096 and 90,116 words are enough for every sheet. The first `count` words of `out` are a sheet for every call above and for
 * this one; hand on no more than these.
 *
 * Refused by 3 to 7; then by 14, place the words of scratch that are needed; then by 15, place the words of output that are
 * needed. All of scratch and of `out` is then 0.
 *
 * Stack. The call recurses once for each record of the longest chain of children, at most 4,096 deep. Where it was measured, on
 * x86-64, that took 200 KiB, 48 bytes a level; the proofs promise no figure.
 */
SuhkelvaWritten suhkelva_build(const uint32_t *s, size_t s_len, uint32_t *scratch, size_t scratch_len, uint32_t *out, size_t out_len);

/* ---- Expansions ---- */

/*
 * An expansion multiplies out what a sheet's constraints or interactions name: each becomes a sum of monomials, a coefficient (1 to
 * 2013265920) times up to 14 packed variables. Monomials with the same variables are one header, with a term for each of them:
 *     headers     four words a header: where its variables start in `variables`, in words; where its terms start in `terms`, in
 *                 terms; how many variables it has; how many terms. Headers ascend by the number of variables, then by the
 *                 variables; the first may have no variables, and its terms are constants.
 *     variables   a word a variable, packed; those of a header ascend, and a square is the same variable twice.
 *     terms       of a constraint two words: its place in the sheet's list of constraints, and the coefficient;
 *                 of an interaction three words: the coefficient, the interaction, and the field of its message (0 for a count).
 *                 Those of a header ascend by constraint, or by interaction and then field.
 * Constraints, interactions and fields count from 0. What is zero has no terms. Any sheet is taken; of a graph, where equal
 * constraints stand once, the terms carry the places in the graph's list.
 *
 * What to lend, besides the sheet. Whatever the outcome, all of work and pool is 0 after the call.
 *     work        at least 4,096 words.
 *     pool        at least two words for each record of the sheet, and room behind them for the monomials of each record that is
 *                 reached: two words a monomial and one for each of its variables, so at most 4,096 a record. 4,098 words for each
 *                 record of the sheet are always enough, and mostly much less; 16 says that it was too little.
 *     outputs     of any length; 17 says which was too short. A constraint, count or field has at most 256 monomials, so that 1,024
 *                 words of headers, 3,584 of variables and 512 of terms (of interactions 768) for each of them are always enough.
 * The words written to each output are counted in the reply; the rest of it becomes 0, and after a refusal all of every output is 0.
 *
 * Refused by 3 to 7. Then by 14, place 4,096 where work is too short, else place the words that the pool needs at the least. Then
 * the records are expanded, each once: what is named comes in its order, a left child before a right one, both before the record
 * itself. The first that cannot be decides: 8 to 13, or 16 where its monomials find no room; place its number. Then by 17. A record
 * that nothing of the call reaches is never refused.
 *
 * Stack. As for the graph, the call recurses once for each record of the longest chain of children, at most 4,096 deep. Where it was
 * measured, on x86-64, that took 456 KiB, 112 bytes a level; the proofs promise no figure.
 */

/* How many words an expansion of constraints wrote to each output. */
typedef struct {
    uint32_t number; /* 0, 3 to 14, 16 or 17 */
    uint64_t place;
    uint64_t headers;
    uint64_t variables;
    uint64_t terms;
} SuhkelvaLists;

/* The constraints of a sheet, in their order, repeated ones too. */
SuhkelvaLists suhkelva_expand_constraints(
    const uint32_t *s, size_t s_len,
    uint32_t *work, size_t work_len,
    uint32_t *pool, size_t pool_len,
    uint32_t *headers, size_t headers_len,
    uint32_t *variables, size_t variables_len,
    uint32_t *terms, size_t terms_len);

/* How many words an expansion of interactions wrote to each output, how many interactions there are, and the longest message. */
typedef struct {
    uint32_t number; /* 0, 3 to 14, 16 or 17 */
    uint64_t place;
    uint64_t headers;
    uint64_t variables;
    uint64_t terms;
    uint64_t denom_headers;
    uint64_t denom_variables;
    uint64_t denom_terms;
    uint64_t num_interactions;
    uint64_t max_fields_len; /* in fields; 0 if there is no interaction */
} SuhkelvaInteractionLists;

/*
 * The interactions of a sheet: their counts go to headers, variables and terms (the numerators), the fields of their messages to
 * the three further outputs (the denominators). All counts are expanded before all fields. Bus and weight are not used.
 */
SuhkelvaInteractionLists suhkelva_expand_interactions(
    const uint32_t *s, size_t s_len,
    uint32_t *work, size_t work_len,
    uint32_t *pool, size_t pool_len,
    uint32_t *headers, size_t headers_len,
    uint32_t *variables, size_t variables_len,
    uint32_t *terms, size_t terms_len,
    uint32_t *denom_headers, size_t denom_headers_len,
    uint32_t *denom_variables, size_t denom_variables_len,
    uint32_t *denom_terms, size_t denom_terms_len);

#ifdef __cplusplus
}
#endif

#endif
