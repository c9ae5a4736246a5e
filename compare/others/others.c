/* Times the parsers that bison and lemon make for grammar G beside the proved library, on the logs of a file: u16 tokens, 4,096 to a
 * log. Prints the median over the logs of the median over 31 runs, in ns a token, and the ratio to the proved library. The library
 * checks the grammar, makes its tables, lists edits and rules and clears its buffers; the generated parsers list the rules. */
#include "../../include/odhrashup.h"
#include "others.h"
#include <stdio.h>
#include <stdlib.h>
#include <time.h>

enum { SIZE = 4096, MOST = 64, RUNS = 31 };

int run_bison(struct source *source);
void *LemonGAlloc(void *(*allocate)(size_t));
void LemonGFree(void *parser, void (*release)(void *));
void LemonG(void *parser, int token, int value, struct source *source);

static const uint16_t words[] = {7, 4, 6, 1, 4, 0, 0, 0, 20, 60, 3,  9, 5, 15, 4, 40, 3, 2, 3,  2, 0,
                                 2, 65, 64, 0, 0, 1, 3, 1, 66, 4, 2, 3, 2, 67, 3, 3,  2, 5, 6, 3, 0};
static uint16_t logs[MOST][SIZE], edits[24576], rules[16384];

static void bison(const uint16_t *log) {
    struct source source = {log, 0, SIZE, rules, 0};
    run_bison(&source);
}

static void lemon(const uint16_t *log) {
    struct source source = {log, 0, SIZE, rules, 0};
    void *parser = LemonGAlloc(malloc);
    int token;
    do {
        token = next_token(&source);
        LemonG(parser, token, 0, &source);
    } while (token);
    LemonGFree(parser, free);
}

static void proved(const uint16_t *log) {
    uint64_t counts[3];
    if (odhrashup_parse(words, sizeof words / 2, log, SIZE, edits, 24576, rules, 16384, counts, 3)) exit(1);
}

static double now(void) {
    struct timespec t;
    clock_gettime(CLOCK_MONOTONIC, &t);
    return (double)t.tv_sec * 1e9 + (double)t.tv_nsec;
}

static int rising(const void *a, const void *b) {
    double x = *(const double *)a, y = *(const double *)b;
    return (x > y) - (x < y);
}

static double median(double *figures, size_t count) {
    qsort(figures, count, sizeof *figures, rising);
    return figures[count / 2];
}

int main(void) {
    static double samples[3][MOST][RUNS], figures[3][MOST];
    void (*const parsers[3])(const uint16_t *) = {proved, bison, lemon};
    const char *const names[3] = {"proved", "bison", "lemon"};
    size_t count = fread(logs, sizeof logs[0], MOST, stdin);
    for (int run = 0; run < RUNS; run++)
        for (int k = 0; k < 3; k++)
            for (size_t i = 0; i < count; i++) {
                double begin = now();
                parsers[k](logs[i]);
                samples[k][i][run] = (now() - begin) / SIZE;
            }
    for (int k = 0; k < 3; k++) {
        for (size_t i = 0; i < count; i++) figures[k][i] = median(samples[k][i], RUNS);
        double middle = median(figures[k], count);
        printf("%-8s%8.2f [%.2f, %.2f]  %.2f\n", names[k], middle, figures[k][0], figures[k][count - 1],
               middle / figures[0][count / 2]);
    }
    return 0;
}
