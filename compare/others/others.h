/* What the generated parsers read from and write to: a log, and a buffer for the numbers of the rules. */
#include <stdint.h>
#include <stddef.h>

struct source {
    const uint16_t *log;
    size_t place, size;
    uint16_t *rules;
    size_t listed;
};

static inline int next_token(struct source *source) {
    return source->place < source->size ? source->log[source->place++] : 0;
}

static inline void rule(struct source *source, uint16_t number) { source->rules[source->listed++] = number; }
