/* Checks each grammar of standard input once and prints how often the counted functions of the library were called.
 *
 * A line has the number of rules, that of mentions, that of words, the words, and the grammar's name. The arguments are the names of the
 * functions, in the order of their counters; the script `visits` makes these. */
#include "odhrashup.h"
#include <stdio.h>
#include <string.h>

enum { MOST_WORDS = 2694 };

extern uint64_t visits[];

int main(int count, char **names) {
    static uint16_t words[MOST_WORDS];
    unsigned rules, mentions, size;
    char grammar[64];

    printf("%-26s %8s %8s", "one check of", "rules", "mentions");
    for (int at = 1; at < count; at++)
        printf("  %s", names[at]);
    printf("\n");
    while (scanf("%u %u %u", &rules, &mentions, &size) == 3) {
        if (size > MOST_WORDS)
            return 1;
        for (unsigned at = 0; at < size; at++)
            if (scanf("%hu", &words[at]) != 1)
                return 1;
        if (scanf(" %63[^\n]", grammar) != 1)
            return 1;
        memset(visits, 0, sizeof visits[0] * (count - 1));
        if (odhrashup_check(words, size) != 0) {
            fprintf(stderr, "visits: %s is refused\n", grammar);
            return 1;
        }
        printf("%-26s %8u %8u", grammar, rules, mentions);
        for (int at = 1; at < count; at++)
            printf("  %*llu", (int)strlen(names[at]), (unsigned long long)visits[at - 1]);
        printf("\n");
    }
    return 0;
}
