/* A bench that links the library: each function once, then two idle stations, one by a restart, and nine refusals, two of them for the tick
 * unit. `examples/bench` builds and runs it; on an x86-64 Linux that is
 *
 *    ./library
 *    cc -Iinclude examples/bench.c target/libodhrashup.a -o bench && ./bench
 */
#include <odhrashup.h>
#include <stdio.h>

#define LEN(a) (sizeof(a) / sizeof *(a))

/* The words of grammar G, the sample of the printing program too: marks start 1, pole 2, crimp 3, done 4. */
static const uint16_t grammar[] = {7, 4,  6, 1, 4, 0, 0, 0,  20, 60, 3, 9, 5, 15, 4, 40, 3, 2, 3, 2, 0,
                                   2, 65, 64, 0, 0, 1, 3, 1, 66, 4,  2, 3, 2, 67, 3, 3,  2, 5, 6, 3, 0};

/* Grammar H: its header has a seventh word, the restart mark 4, and so T + 256 in word 0. Marks of a cycle: 1 and 3. */
static const uint16_t restarts[] = {
    261, 3, 7, 1, 3, 0, 4,
    0, 0, 20, 60, 3, 9, 4, 40, 1, 2,
    0, 2, 65, 64, 0, 2, 4, 64, 0, 0, 1, 3, 1, 66, 3, 2, 2, 2, 66, 2, 2, 4, 66, 2, 0,
};

/* The status decides what is shown. An idle station has no figure, and a refusal has a number only. */
static void show(const char *what, uint32_t status, const uint64_t *counts, const double *mean) {
    if (status == 0)
        printf("%s: %llu clean cycles, %llu ms in all, mean %.1f ms\n", what, (unsigned long long)counts[ODHRASHUP_PACE_CYCLES],
               (unsigned long long)counts[ODHRASHUP_PACE_MS], mean[0]);
    else if (status == ODHRASHUP_IDLE)
        printf("%s: idle, mean[0] is %s\n", what, mean[0] != mean[0] ? "NaN" : "a number");
    else
        printf("%s: refused %u, cleared %d\n", what, status, counts[0] == 0 && counts[1] == 0 && mean[0] == 0);
}

int main(void) {
    static uint8_t file[ODHRASHUP_BYTES_ENOUGH];
    static uint16_t words[ODHRASHUP_WORDS_ENOUGH], edits[ODHRASHUP_EDITS_LENT], rules[ODHRASHUP_RULES_LENT];
    uint16_t costs[ODHRASHUP_NONTERMINALS_ENOUGH], cheapest[ODHRASHUP_NONTERMINALS_ENOUGH];
    static uint16_t tokens[ODHRASHUP_TOKENS_LENT];
    uint64_t counts[ODHRASHUP_MARKS_COUNTS];
    double mean[1];

    /* start start pole crimp done: the first cycle lost all but its start. */
    const uint16_t log[] = {1, 1, 2, 3, 4};
    const uint32_t ticks[] = {100, 250, 400, 900, 1250};
    const uint16_t strange[] = {1, 99};

    uint32_t status = odhrashup_write(grammar, LEN(grammar), file, LEN(file), counts, LEN(counts));
    size_t size = (size_t)counts[ODHRASHUP_WRITE_BYTES];
    printf("write: status %u, %zu bytes, check %u\n", status, size, file[510] + 256u * file[511]);

    /* Of the buffer only the bytes written are the file. */
    status = odhrashup_read(file, size, words, LEN(words), counts, LEN(counts));
    size_t n = (size_t)counts[ODHRASHUP_READ_WORDS];
    printf("read: status %u, %zu words\n", status, n);

    printf("check: status %u\n", odhrashup_check(words, n));

    /* What inserting each nonterminal costs, and the lowest-numbered rule that reaches it. */
    status = odhrashup_costs(words, n, costs, LEN(costs), cheapest, LEN(cheapest), counts, LEN(counts));
    printf("costs: status %u, %llu nonterminals\n", status, (unsigned long long)counts[ODHRASHUP_COSTS_NONTERMINALS]);
    for (uint64_t k = 0; k < counts[ODHRASHUP_COSTS_NONTERMINALS]; k++)
        printf("  symbol %u costs %u by rule %u\n", 64 + (unsigned)k, costs[k], cheapest[k]);

    status = odhrashup_parse(words, n, log, LEN(log), edits, LEN(edits), rules, LEN(rules), counts, LEN(counts));
    printf("parse: status %u, %llu moves, %llu edits, %llu rules\n", status, (unsigned long long)counts[ODHRASHUP_PARSE_MOVES],
           (unsigned long long)counts[ODHRASHUP_PARSE_EDITS], (unsigned long long)counts[ODHRASHUP_PARSE_RULES]);
    for (uint64_t i = 0; i < counts[ODHRASHUP_PARSE_EDITS]; i++) {
        const uint16_t *edit = edits + ODHRASHUP_EDIT_WORDS * i;
        printf("  %s symbol %u at place %u\n", edit[0] == ODHRASHUP_DELETE ? "delete" : "insert", edit[2], edit[1]);
    }

    /* The same log in marks alone: what was missing is put in, and what an assembler does not read is gone. */
    status = odhrashup_marks(words, n, log, LEN(log), edits, LEN(edits), rules, LEN(rules), tokens, LEN(tokens), counts,
                             LEN(counts));
    printf("marks: status %u, %llu tokens:", status, (unsigned long long)counts[ODHRASHUP_MARKS_TOKENS]);
    for (uint64_t i = 0; i < counts[ODHRASHUP_MARKS_TOKENS]; i++) printf(" %u", tokens[i]);
    printf("\n");

    /* The last mark alone: it goes, and nothing is missing, since a shift may be empty. So room for one record is enough. */
    status = odhrashup_parse(words, n, log + 4, 1, edits, ODHRASHUP_EDIT_WORDS, rules, LEN(rules), counts, LEN(counts));
    printf("a lone done: status %u, %llu moves, %llu edits\n", status, (unsigned long long)counts[ODHRASHUP_PARSE_MOVES],
           (unsigned long long)counts[ODHRASHUP_PARSE_EDITS]);

    status = odhrashup_pace(words, n, log, LEN(log), ticks, LEN(ticks), edits, LEN(edits), rules, LEN(rules), counts,
                            LEN(counts), mean, LEN(mean));
    show("pace", status, counts, mean);

    /* The first mark alone: its cycle is repaired, so none is clean. */
    status = odhrashup_pace(words, n, log, 1, ticks, 1, edits, LEN(edits), rules, LEN(rules), counts, LEN(counts), mean,
                            LEN(mean));
    show("one mark", status, counts, mean);

    /* The controller began to count from zero inside the cycle: it is not timed. */
    const uint16_t restarted[] = {1, 4, 3};
    const uint32_t from_zero[] = {100, 0, 30};
    status = odhrashup_pace(restarts, LEN(restarts), restarted, LEN(restarted), from_zero, LEN(from_zero), edits, LEN(edits), rules,
                            LEN(rules), counts, LEN(counts), mean, LEN(mean));
    show("a restart", status, counts, mean);

    status = odhrashup_pace(words, n, strange, 2, ticks, 2, edits, LEN(edits), rules, LEN(rules), counts, LEN(counts), mean,
                            LEN(mean));
    show("a strange token", status, counts, mean);

    status = odhrashup_pace(words, n, log, LEN(log), ticks, LEN(ticks), edits, 5, rules, LEN(rules), counts, LEN(counts),
                            mean, LEN(mean));
    show("room for one edit", status, counts, mean);

    /* Eight tokens, and room for seven. */
    status = odhrashup_marks(words, n, log, LEN(log), edits, LEN(edits), rules, LEN(rules), tokens, 7, counts, LEN(counts));
    printf("room for seven marks: refused %u, %llu tokens, cleared %d\n", status,
           (unsigned long long)counts[ODHRASHUP_MARKS_TOKENS], edits[0] == 0 && rules[0] == 0 && tokens[0] == 0);

    file[9] ^= 1;
    status = odhrashup_read(file, size, words, LEN(words), counts, LEN(counts));
    printf("a damaged file: refused %u, %llu words\n", status, (unsigned long long)counts[ODHRASHUP_READ_WORDS]);
    printf("no words: refused %u\n", odhrashup_check(words, 0));
    status = odhrashup_write(grammar, LEN(grammar), file, ODHRASHUP_BYTES_FOR(LEN(grammar)) - 1, counts, LEN(counts));
    printf("a byte too few: refused %u, %llu bytes\n", status, (unsigned long long)counts[ODHRASHUP_WRITE_BYTES]);
    status = odhrashup_costs(grammar, LEN(grammar), costs, LEN(costs), cheapest, 3, counts, LEN(counts));
    printf("room for three rules: refused %u, %llu nonterminals, cleared %d\n", status,
           (unsigned long long)counts[ODHRASHUP_COSTS_NONTERMINALS], costs[1] == 0 && cheapest[0] == 0);

    /* An old grammar, whose ticks are ten ms long: its log is repaired as ever, but no pace comes of it, and no new file. */
    uint16_t old[LEN(grammar)];
    for (size_t i = 0; i < LEN(grammar); i++) old[i] = grammar[i];
    old[5] = 1;
    status = odhrashup_parse(old, LEN(old), log, LEN(log), edits, LEN(edits), rules, LEN(rules), counts, LEN(counts));
    printf("ten ms, parse: status %u, %llu moves\n", status, (unsigned long long)counts[ODHRASHUP_PARSE_MOVES]);
    status = odhrashup_pace(old, LEN(old), log, LEN(log), ticks, LEN(ticks), edits, LEN(edits), rules, LEN(rules), counts,
                            LEN(counts), mean, LEN(mean));
    show("ten ms, pace", status, counts, mean);
    status = odhrashup_write(old, LEN(old), file, LEN(file), counts, LEN(counts));
    printf("ten ms, write: refused %u, %llu bytes\n", status, (unsigned long long)counts[ODHRASHUP_WRITE_BYTES]);
    return 0;
}
