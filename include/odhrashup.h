/* Odhrashup: a proved cycle time analyser for workshop benches.
 *
 * Every function takes any content and any lengths, asks nothing of them beforehand and always answers. Inputs never change.
 * What C cannot check is asked of the caller:
 *  - A pointer stands with the number of elements behind it. It must be valid for that many: aligned for its type, to be read,
 *    and where it is not const to be written. With 0 elements it is not followed, and may be NULL.
 *  - A buffer that is written must not overlap another buffer of the same call. Two inputs may.
 * Calls share no state and keep nothing: they may run at the same time in several threads, as long as no call writes what another
 * reads or writes. They allocate nothing and open nothing.
 *
 * Stack: less than 1 KiB for odhrashup_read and odhrashup_write, 8 KiB for odhrashup_check and odhrashup_costs, 24 KiB for
 * odhrashup_parse, odhrashup_marks and odhrashup_pace, whatever the input. (Measured, not proved: 72, 152, 6,760, 6,824, 20,392, 22,008
 * and 20,456 bytes.)
 *
 * Each function answers a status: 0, ODHRASHUP_IDLE, or the number of a refusal, 1 to 16 or 23:
 *    1 file empty, not a multiple of 512, or over 5,632 bytes      7 a nonterminal derives no terminal string
 *    2 some block's check is wrong                                 8 a nonterminal costs over 60,000
 *    3 some block number, use count or unused word is wrong        9 two rules share a predict token
 *    4 the word buffer is shorter than the file's words           10 over 4,096 tokens, a token outside 1..T-1, or
 *    5 grammar words break the shape, a bad restart mark too         ticks and tokens differ in number
 *    6 a nonterminal is unreachable                               11 an expand would leave more than 256 symbols on the
 *                                                                    stack, END counted
 *                                                                 12 the next rule number or edit record does not fit
 *                                                                 13 there are no words to write, or more than 2,783
 *                                                                 14 the byte buffer is shorter than the file
 *                                                                 15 the token buffer is shorter than the repaired log
 *                                                                    in marks alone
 *                                                                 16 the tick unit is 1: no pace, and no file
 *                                                                 23 the cost or the rule buffer has fewer words than
 *                                                                    there are nonterminals
 * The lowest of 1 to 10, 13, 14 and 23 that applies to a call is given; 16 stands behind 10, and behind 13 but before 14; 11 and 12 come
 * from the first move that meets them, and 15 only where none of the others is given.
 *
 * Grammar words: word 0 is T, the number of terminals, and the header has six words; or it is T + 256 (257 to 320), and the header has
 * seven, of which word 6 is the restart mark, 0 for none. A kept restart mark between the two marks of a cycle makes it unclean:
 * odhrashup_pace does not time it.
 *
 * What is left in a buffer that is written (words, bytes, costs, rules, edits, tokens, counts, mean), in every element of it:
 *  - after a refusal zeros, and no more;
 *  - otherwise the values named below, and zeros behind them. `counts` and `mean` may be shorter than their values, or empty: they get
 *    those that fit, and this is no refusal. The others hold all or the call is refused: `words` by 4, `bytes` by 14, `edits` and `rules`
 *    of a log by 12, `tokens` by 15, `costs` and `rules` of the setup desk by 23.
 *
 * docs/RULES.md has the rules, docs/TRUST.md what is proved of these functions. This header itself is checked by nothing.
 */
#ifndef ODHRASHUP_H
#define ODHRASHUP_H

#include <stddef.h>
#include <stdint.h>

#ifdef __cplusplus
extern "C" {
#endif

/* The status of a report without a clean cycle: the station is idle and there is no time. */
#define ODHRASHUP_IDLE 1000u

/* ---- What stands in counts: the places, and how many counts the function gives. */

#define ODHRASHUP_READ_WORDS 0 /* odhrashup_read: the number of words */
#define ODHRASHUP_READ_COUNTS 1

#define ODHRASHUP_WRITE_BYTES 0 /* odhrashup_write: the number of bytes */
#define ODHRASHUP_WRITE_COUNTS 1

#define ODHRASHUP_COSTS_NONTERMINALS 0 /* odhrashup_costs: N, the number of nonterminals */
#define ODHRASHUP_COSTS_COUNTS 1

#define ODHRASHUP_PARSE_MOVES 0 /* odhrashup_parse: moves made */
#define ODHRASHUP_PARSE_EDITS 1 /* edit records, of three words each */
#define ODHRASHUP_PARSE_RULES 2 /* rule numbers listed */
#define ODHRASHUP_PARSE_COUNTS 3

#define ODHRASHUP_MARKS_MOVES 0  /* odhrashup_marks: moves made */
#define ODHRASHUP_MARKS_EDITS 1  /* edit records, of three words each */
#define ODHRASHUP_MARKS_RULES 2  /* rule numbers listed */
#define ODHRASHUP_MARKS_TOKENS 3 /* tokens of the result */
#define ODHRASHUP_MARKS_COUNTS 4

#define ODHRASHUP_PACE_CYCLES 0 /* odhrashup_pace: clean cycles */
#define ODHRASHUP_PACE_MS 1     /* the sum of their times in ms */
#define ODHRASHUP_PACE_COUNTS 2

/* ---- What stands in an edit record: kind, place, symbol. A delete has the place and the token of what was left out, an insert the
 * place r of the token before which its symbol was put. A symbol that can be empty is not missing: it leaves no record. */

#define ODHRASHUP_EDIT_WORDS 3
#define ODHRASHUP_DELETE 1
#define ODHRASHUP_INSERT 2

/* ---- Lengths of buffers, in elements */

/* The most tokens that a log may have. */
#define ODHRASHUP_MOST_TOKENS 4096

/* Enough for the words of every file: eleven blocks of 253. Refusal 4 cannot be given. */
#define ODHRASHUP_WORDS_ENOUGH 2783

/* What the file of n words takes, n from 1 to ODHRASHUP_WORDS_ENOUGH: blocks of 512 bytes with 253 words each. Refusal 14 is given
 * exactly for less. With ODHRASHUP_BYTES_ENOUGH, eleven blocks, it cannot be given. */
#define ODHRASHUP_BYTES_FOR(n) ((size_t)512 * (((size_t)(n) + 252) / 253))
#define ODHRASHUP_BYTES_ENOUGH 5632

/* Enough for the costs and for the rules of every grammar: no more nonterminals are accepted. Refusal 23 cannot be given. */
#define ODHRASHUP_NONTERMINALS_ENOUGH 64

/* Enough for a log of n tokens, n at most ODHRASHUP_MOST_TOKENS, whatever the grammar: that refusal 12 is never given with these is
 * proved. A record for each of at most 2 + n + 8 x 64 x n moves, and 64 rules for each token. For 4,096 tokens that are 6,303,750 words
 * (13 MB) and 262,144 words. */
#define ODHRASHUP_EDITS_ENOUGH(n) ((size_t)ODHRASHUP_EDIT_WORDS * (2 + (size_t)513 * (size_t)(n)))
#define ODHRASHUP_RULES_ENOUGH(n) ((size_t)64 * (size_t)(n))

/* No string of cheapest rules has more than 60,000 tokens, so that the result of odhrashup_marks has at most as many tokens as the log,
 * and 60,000 for each inserted symbol. The program print_marks lends as many words. */
#define ODHRASHUP_STRING_MOST 60000
#define ODHRASHUP_TOKENS_LENT 65536

/* What the printing program lends: 8,192 records and 16,384 rule numbers. A log that needs more gets refusal 12. */
#define ODHRASHUP_EDITS_LENT 24576
#define ODHRASHUP_RULES_LENT 16384

/* ---- The functions */

/* Reads a grammar file. Status 0, or 1 to 4. `words` gets the file's words, counts[ODHRASHUP_READ_WORDS] their number. */
uint32_t odhrashup_read(const uint8_t *bytes, size_t bytes_len, uint16_t *words, size_t words_len, uint64_t *counts,
                        size_t counts_len);

/* Writes a grammar file. Status 0, or 13, 16 or 14, tested in this order. The words are not checked: any 1 to 2,783 are written, but for
 * six or more of which words[5] is 1 (tick unit 1), which are 16. `bytes` gets the file of the words, counts[ODHRASHUP_WRITE_BYTES] the
 * number of its bytes. Only these are the file: read back, they give the words; with the zeros behind them they are another file, which is
 * refused. */
uint32_t odhrashup_write(const uint16_t *words, size_t words_len, uint8_t *bytes, size_t bytes_len, uint64_t *counts,
                         size_t counts_len);

/* Checks grammar words. Status 0 where they are accepted, or 5 to 9. */
uint32_t odhrashup_check(const uint16_t *words, size_t words_len);

/* Tells the setup desk which rule is the cheap one. Status 0, 5 to 9, or 23; the grammar words need not have been checked.
 * counts[ODHRASHUP_COSTS_NONTERMINALS] is N. For k below N costs[k] is what nonterminal 64 + k costs, at most 60,000, and rules[k] its
 * lowest-numbered rule whose right side costs just that; rules are numbered from 0 over the whole grammar. N words in each buffer are
 * enough. */
uint32_t odhrashup_costs(const uint16_t *words, size_t words_len, uint16_t *costs, size_t costs_len, uint16_t *rules,
                         size_t rules_len, uint64_t *counts, size_t counts_len);

/* Repairs a log. Status 0, or 5 to 12; the grammar words need not have been checked. `edits` gets the edit records in the order of
 * the moves, `rules` the numbers of the rules applied, `counts` the three of ODHRASHUP_PARSE_.. */
uint32_t odhrashup_parse(const uint16_t *words, size_t words_len, const uint16_t *log, size_t log_len, uint16_t *edits,
                         size_t edits_len, uint16_t *rules, size_t rules_len, uint64_t *counts, size_t counts_len);

/* Repairs a log and writes it in marks alone. Status 0, 5 to 12 exactly as odhrashup_parse with these `edits` and `rules` gives them, or
 * else 15 where `tokens` is shorter than the result. `tokens` gets the repaired log: the kept tokens as they are and, for each inserted
 * symbol, the string that its cheapest rules give (those of odhrashup_costs). It is a correct log, though it may have more than
 * ODHRASHUP_MOST_TOKENS tokens. An added token has no tick. `edits` and `rules` as odhrashup_parse leaves them; any refusal, 15 too,
 * leaves zeros in all three. `counts` are the four of ODHRASHUP_MARKS_.. */
uint32_t odhrashup_marks(const uint16_t *words, size_t words_len, const uint16_t *log, size_t log_len, uint16_t *edits,
                         size_t edits_len, uint16_t *rules, size_t rules_len, uint16_t *tokens, size_t tokens_len,
                         uint64_t *counts, size_t counts_len);

/* Repairs a log and times its clean cycles. Status 0, ODHRASHUP_IDLE, 5 to 10, 16 where the tick unit is 1, or 11 and 12. Unit 1 is never
 * idle: no pace comes of it, and nothing is repaired. `edits` and `rules` as above, `counts` the two of
 * ODHRASHUP_PACE_.. (how many records and rules there are is not told: kind 0 is no record, and odhrashup_parse has the numbers).
 * mean[0] is the mean in ms where the status is 0, and NaN where the station is idle, so that no figure, old or zero, can be taken for
 * a time. After a refusal it is 0. */
uint32_t odhrashup_pace(const uint16_t *words, size_t words_len, const uint16_t *log, size_t log_len, const uint32_t *ticks,
                        size_t ticks_len, uint16_t *edits, size_t edits_len, uint16_t *rules, size_t rules_len,
                        uint64_t *counts, size_t counts_len, double *mean, size_t mean_len);

#ifdef __cplusplus
}
#endif

#endif
