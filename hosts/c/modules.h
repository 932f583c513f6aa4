/* Modules as lines of text: words as kind:payload in decimal, a space between two, a line for each module. Shared by the programs of this folder. */
#ifndef MODULES_H
#define MODULES_H

#include <stdint.h>
#include <stdio.h>
#include <stdlib.h>

/* One word more than a module may have, and some room behind it. */
#define WORDS_MAX 8192

struct module {
    size_t length; /* in bytes */
    uint8_t bytes[4 * WORDS_MAX];
};

static inline void put_word(uint8_t *bytes, uint32_t word)
{
    for (int i = 0; i < 4; i++)
        bytes[i] = (uint8_t)(word >> 8 * i);
}

static inline uint32_t get_word(const uint8_t *bytes)
{
    uint32_t word = 0;
    for (int i = 0; i < 4; i++)
        word |= (uint32_t)bytes[i] << 8 * i;
    return word;
}

/* The module of a line. Ends the program if the line is no module. */
static inline void read_module(struct module *m, const char *line)
{
    m->length = 0;
    const char *at = line;
    for (;;) {
        while (*at == ' ' || *at == '\n')
            at++;
        if (!*at)
            return;
        char *end;
        unsigned long kind = strtoul(at, &end, 10);
        if (end == at || *end != ':' || kind > 63)
            break;
        at = end + 1;
        unsigned long payload = strtoul(at, &end, 10);
        if (end == at || payload > 67108863 || m->length == sizeof m->bytes)
            break;
        at = end;
        put_word(m->bytes + m->length, (uint32_t)(kind << 26 | payload));
        m->length += 4;
    }
    fprintf(stderr, "no module: %.60s\n", line);
    exit(2);
}

#endif
