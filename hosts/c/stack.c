/* Measures how much stack the two calls take. Each module that standard input lists is run on a thread whose stack has SIZE bytes, all painted before,
 * with a page that can't be reached below it: stack SIZE < MODULES. Prints the most bytes that each call used, those of a thread that does nothing
 * taken off, and fails if that isn't below GINGERPOST_STACK. A call that needs more than SIZE bytes ends the program with a signal. */
#define _GNU_SOURCE
#include <gingerpost.h>
#include <pthread.h>
#include <string.h>
#include <sys/mman.h>
#include "modules.h"

#define PAINT 0x5e

static struct module module;
static uint8_t out[GINGERPOST_OUT_MAX];

static void *nothing(void *unused) { return unused; }

static void *rewrite(void *unused)
{
    gingerpost_rewrite(module.bytes, module.length, out, sizeof out);
    return unused;
}

static void *report(void *unused)
{
    gingerpost_report(module.bytes, module.length, out, sizeof out);
    return unused;
}

static void fail(const char *what)
{
    fprintf(stderr, "stack: %s\n", what);
    exit(2);
}

/* The bytes of the stack that a thread changed. */
static size_t used(uint8_t *stack, size_t size, void *(*work)(void *))
{
    memset(stack, PAINT, size);
    pthread_attr_t attributes;
    pthread_t thread;
    if (pthread_attr_init(&attributes) || pthread_attr_setstack(&attributes, stack, size))
        fail("no stack of that size");
    if (pthread_create(&thread, &attributes, work, NULL) || pthread_join(thread, NULL))
        fail("no thread");
    pthread_attr_destroy(&attributes);
    size_t untouched = 0;
    while (untouched < size && stack[untouched] == PAINT)
        untouched++;
    return size - untouched;
}

int main(int count, char **arguments)
{
    size_t page = 4096, size = count == 2 ? strtoul(arguments[1], NULL, 10) : 0;
    if (size == 0 || size % page)
        fail("usage: stack SIZE < MODULES, SIZE a multiple of 4096");
    uint8_t *low = mmap(NULL, page + size, PROT_READ | PROT_WRITE, MAP_PRIVATE | MAP_ANONYMOUS, -1, 0);
    if (low == MAP_FAILED || mprotect(low, page, PROT_NONE))
        fail("no memory");
    size_t thread = used(low + page, size, nothing), most[2] = {0, 0}, lines = 0;
    void *(*calls[2])(void *) = {rewrite, report};
    char *line = NULL;
    size_t room = 0;
    while (getline(&line, &room, stdin) > 0) {
        read_module(&module, line);
        lines++;
        for (int i = 0; i < 2; i++) {
            size_t n = used(low + page, size, calls[i]) - thread;
            if (n > most[i])
                most[i] = n;
        }
    }
    free(line);
    printf("stack, over %zu modules: %zu bytes at most for the rewriting, %zu for the report\n", lines, most[0], most[1]);
    return most[0] >= GINGERPOST_STACK || most[1] >= GINGERPOST_STACK;
}
