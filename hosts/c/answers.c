/* Prints what the C entry answers for each module that standard input lists: the three numbers, then the words written, on one line.
 * Its argument is the job, rewrite or report. */
#include <gingerpost.h>
#include <string.h>
#include "modules.h"

int main(int count, char **arguments)
{
    uint64_t (*entry)(const uint8_t *, size_t, uint8_t *, size_t) = NULL;
    if (count == 2 && !strcmp(arguments[1], "rewrite"))
        entry = gingerpost_rewrite;
    if (count == 2 && !strcmp(arguments[1], "report"))
        entry = gingerpost_report;
    if (!entry) {
        fprintf(stderr, "usage: answers rewrite|report < MODULES\n");
        return 2;
    }
    static struct module module;
    static uint8_t out[GINGERPOST_OUT_MAX];
    char *line = NULL;
    size_t room = 0;
    while (getline(&line, &room, stdin) > 0) {
        read_module(&module, line);
        uint64_t answer = entry(module.bytes, module.length, out, sizeof out);
        uint32_t written = gingerpost_written(answer);
        printf("%u %u %u", gingerpost_code(answer), (unsigned)written, (unsigned)gingerpost_fresh(answer));
        for (uint32_t i = 0; i < written; i++) {
            uint32_t word = get_word(out + 4 * (size_t)i);
            printf(" %u:%u", (unsigned)(word >> 26), (unsigned)(word & 67108863));
        }
        putchar('\n');
    }
    free(line);
    return 0;
}
