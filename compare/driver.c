/* Answers calls of the static library on standard input: the kind of call, the lengths, the contents; then the status, four counts,
 * the mean and every lent buffer as the call left it. All numbers are little endian. `run` builds it; src/library.rs asks it. */
#include "../include/odhrashup.h"
#include <stdio.h>
#include <stdlib.h>

static void *lent[5];
static uint32_t sizes[5];

/* Reads what a call is lent: the elements of buffer k are `bytes` long. An empty buffer has its own address. */
static void take(int k, size_t bytes) {
    free(lent[k]);
    lent[k] = malloc(sizes[k] * bytes + 8);
    if (!lent[k] || fread(lent[k], bytes, sizes[k], stdin) != sizes[k]) exit(1);
}

static void take_sizes(int count) {
    if (fread(sizes, 4, (size_t)count, stdin) != (size_t)count) exit(1);
}

static void give(int k, size_t bytes) { fwrite(lent[k], bytes, sizes[k], stdout); }

int main(void) {
    uint32_t kind;
    while (fread(&kind, 4, 1, stdin) == 1) {
        uint64_t counts[4] = {77, 77, 77, 77};
        double mean[1] = {77};
        uint32_t status;
        if (kind == 0) {
            take_sizes(2), take(0, 1), take(1, 2);
            mean[0] = 0;
            status = odhrashup_read(lent[0], sizes[0], lent[1], sizes[1], counts, 4);
        } else if (kind == 1) {
            take_sizes(1), take(0, 2);
            counts[0] = counts[1] = counts[2] = counts[3] = 0, mean[0] = 0;
            status = odhrashup_check(lent[0], sizes[0]);
        } else if (kind == 2) {
            take_sizes(4), take(0, 2), take(1, 2), take(2, 2), take(3, 2);
            mean[0] = 0;
            status = odhrashup_parse(lent[0], sizes[0], lent[1], sizes[1], lent[2], sizes[2], lent[3], sizes[3], counts, 4);
        } else if (kind == 4) {
            take_sizes(2), take(0, 2), take(1, 1);
            mean[0] = 0;
            status = odhrashup_write(lent[0], sizes[0], lent[1], sizes[1], counts, 4);
        } else if (kind == 5) {
            take_sizes(3), take(0, 2), take(1, 2), take(2, 2);
            mean[0] = 0;
            status = odhrashup_costs(lent[0], sizes[0], lent[1], sizes[1], lent[2], sizes[2], counts, 4);
        } else if (kind == 6) {
            take_sizes(5), take(0, 2), take(1, 2), take(2, 2), take(3, 2), take(4, 2);
            mean[0] = 0;
            status = odhrashup_marks(lent[0], sizes[0], lent[1], sizes[1], lent[2], sizes[2], lent[3], sizes[3], lent[4],
                                     sizes[4], counts, 4);
        } else {
            take_sizes(5), take(0, 2), take(1, 2), take(2, 4), take(3, 2), take(4, 2);
            status = odhrashup_pace(lent[0], sizes[0], lent[1], sizes[1], lent[2], sizes[2], lent[3], sizes[3], lent[4],
                                    sizes[4], counts, 4, mean, 1);
        }
        fwrite(&status, 4, 1, stdout), fwrite(counts, 8, 4, stdout), fwrite(mean, 8, 1, stdout);
        if (kind == 0) give(1, 2);
        if (kind == 2) give(2, 2), give(3, 2);
        if (kind == 3) give(3, 2), give(4, 2);
        if (kind == 4) give(1, 1);
        if (kind == 5) give(1, 2), give(2, 2);
        if (kind == 6) give(2, 2), give(3, 2), give(4, 2);
        fflush(stdout);
    }
    return 0;
}
