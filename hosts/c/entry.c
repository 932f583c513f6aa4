/* Checks of both calls from C: document 01's example, each refusal, and that no byte is touched that the answer does not own. Every module and
 * every output ends at a page that can't be reached, so that a read or a write past it ends the program; canaries stand in front of the output, behind
 * the answer and in all of it before a refusal. */
#define _GNU_SOURCE
#include <gingerpost.h>
#include <string.h>
#include <sys/mman.h>
#include "modules.h"

#define CANARY 0xc5

static int checks, failures;

static void check(int holds, const char *what, const char *about)
{
    checks++;
    if (!holds) {
        failures++;
        printf("FAILED: %s: %s\n", about, what);
    }
}

/* Room for n bytes that ends at a page without access. */
static uint8_t *guarded(size_t n)
{
    size_t page = 4096, all = (n + page - 1) / page * page + page;
    uint8_t *at = mmap(NULL, all + page, PROT_READ | PROT_WRITE, MAP_PRIVATE | MAP_ANONYMOUS, -1, 0);
    if (at == MAP_FAILED || mprotect(at + all, page, PROT_NONE)) {
        perror("mmap");
        exit(2);
    }
    return at + all - n;
}

typedef uint64_t entry(const uint8_t *, size_t, uint8_t *, size_t);

/* Calls one of the two on n bytes with room for out_length. Expected are the code and, with code 0, the bytes of `expected`. */
static void run(entry *call, const char *about, const uint8_t *bytes, size_t n, size_t out_length, unsigned code, const struct module *expected, uint32_t fresh)
{
    size_t front = 64;
    uint8_t *module = guarded(n), *out = guarded(front + out_length) + front;
    memcpy(module, bytes, n);
    memset(out - front, CANARY, front + out_length);
    uint64_t answer = call(module, n, out, out_length);
    size_t length = code ? 0 : expected->length;
    check(answer == (code ? code : (uint64_t)fresh << 36 | (uint64_t)length / 4 << 8), "the number", about);
    check(gingerpost_code(answer) == code && gingerpost_written(answer) == length / 4 && gingerpost_fresh(answer) == (code ? 0 : fresh), "the three answers", about);
    check(!length || !memcmp(out, expected->bytes, length), "the words", about);
    check(!memcmp(module, bytes, n), "the module is as it was", about);
    int kept = 1;
    for (size_t i = 0; i < front; i++)
        kept &= out[(ptrdiff_t)i - (ptrdiff_t)front] == CANARY;
    for (size_t i = length; i < out_length; i++)
        kept &= out[i] == CANARY;
    check(kept, "every other byte is as it was", about);
}

static void run_line(entry *call, const char *about, const char *line, size_t out_length, unsigned code, const char *expected, uint32_t fresh)
{
    static struct module module, answer;
    read_module(&module, line);
    read_module(&answer, expected);
    run(call, about, module.bytes, module.length, out_length, code, &answer, fresh);
}

/* A module of so many words and so deep: arrays, one in the other, the last one full of nulls. */
static size_t nested(struct module *m, unsigned words, unsigned depth)
{
    uint8_t *at = m->bytes;
    put_word(at, 1u << 26 | 1), at += 4;
    put_word(at, 40u << 26), at += 4;
    put_word(at, 2u << 26), at += 4;
    for (unsigned d = 3; d + 1 < depth; d++)
        put_word(at, 16u << 26 | 1), at += 4;
    unsigned rest = words - (unsigned)(at - m->bytes) / 4 - 1;
    put_word(at, 16u << 26 | rest), at += 4;
    while (rest--)
        put_word(at, 13u << 26), at += 4;
    return m->length = (size_t)(at - m->bytes);
}

int main(void)
{
    const char *example = "1:1 40:3 4:0 26:1 28:1 9:0 27:2 29:1 30:4 28:1 9:1 34:5 36:0 39:0";
    const char *rewritten = "1:3 40:4 5:2 20:0 26:1 28:0 27:3 29:1 30:4 28:0 34:5 36:0 39:0 2:0 22:4 16:1 9:1 24:0 9:2 10:5 13:0 2:0 18:2 22:2 16:1 9:0 9:2";
    static struct module m;

    run_line(gingerpost_rewrite, "the example, with room to spare", example, GINGERPOST_OUT_MAX, 0, rewritten, 1);
    run_line(gingerpost_rewrite, "the example, an exact fit", example, 108, 0, rewritten, 1);
    for (size_t odd = 1; odd < 4; odd++)
        run_line(gingerpost_rewrite, "the example, odd bytes behind the last word", example, 108 + odd, 0, rewritten, 1);
    for (size_t n = 0; n < 108; n++)
        run_line(gingerpost_rewrite, "the example, an output that is too short", example, n, 8, "", 0);

    run_line(gingerpost_report, "the report", example, GINGERPOST_REPORT_MAX, 0, "3:3", 1);
    for (size_t odd = 0; odd < 4; odd++)
        run_line(gingerpost_report, "the report, an exact fit or odd bytes behind it", example, 4 + odd, 0, "3:3", 1);
    for (size_t n = 0; n < 4; n++)
        run_line(gingerpost_report, "the report, an output that is too short", example, n, 8, "", 0);

    nested(&m, 4096, 4);
    run(gingerpost_rewrite, "4,096 words", m.bytes, m.length, GINGERPOST_OUT_MAX, 0, &m, 0);
    nested(&m, 65, 64);
    run(gingerpost_rewrite, "64 deep", m.bytes, m.length, GINGERPOST_OUT_MAX, 0, &m, 0);
    run_line(gingerpost_rewrite, "S is 1,000,000", "1:0 40:1000000", 64, 0, "1:0 40:1000000", 0);

    entry *both[] = {gingerpost_rewrite, gingerpost_report};
    for (int i = 0; i < 2; i++) {
        run_line(both[i], "no words", "", 64, 1, "", 0);
        read_module(&m, example);
        for (size_t n = 0; n < m.length; n++)
            run(both[i], "the example, cut", m.bytes, n, GINGERPOST_OUT_MAX, n == 0 || n % 4 ? 1 : 2, NULL, 0);
        nested(&m, 4097, 4);
        run(both[i], "4,097 words", m.bytes, m.length, GINGERPOST_OUT_MAX, 1, NULL, 0);
        run(both[i], "4,096 words and a byte", m.bytes, GINGERPOST_MODULE_MAX + 1, GINGERPOST_OUT_MAX, 1, NULL, 0);
        nested(&m, 66, 65);
        run(both[i], "65 deep", m.bytes, m.length, GINGERPOST_OUT_MAX, 3, NULL, 0);
        run_line(both[i], "words left over", "1:0 40:0 2:0", 64, 2, "", 0);
        run_line(both[i], "a kind that is not allowed there", "1:1 40:0 9:0", 64, 2, "", 0);
        run_line(both[i], "a symbol that is S", "1:1 40:2 2:0 9:2", 64, 4, "", 0);
        run_line(both[i], "S is 1,000,001", "1:0 40:1000001", 64, 5, "", 0);
        run_line(both[i], "a decorated constructor", "1:1 40:1 2:0 20:0 26:0 28:0 29:1 30:2 28:1 9:0 34:5 36:0", 64, 6, "", 0);
        run_line(both[i], "a later constructor's parameter", "1:1 40:1 4:2 26:0 28:0 29:2 30:2 28:0 34:5 36:0 30:2 28:0 34:5 36:1 37:0 28:1 9:0", 256, 7, "", 0);
    }

    printf("%d checks of the two calls from C, %d failed\n", checks, failures);
    return failures != 0;
}
