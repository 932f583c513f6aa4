/* Gingerpost: rewrites the decorated classes of a module. The C interface.
 *
 * A module is a list of 32-bit words, docs/FORMAT.md says which. Here every word is four bytes, lowest first, on any machine; a buffer needs no
 * alignment. Link with target/staticlib/libhost.a, which `tools/build archive` writes for x86-64 Linux.
 *
 *     uint8_t out[3 * sizeof module];
 *     uint64_t answer = gingerpost_rewrite(module, sizeof module, out, sizeof out);
 *     if (gingerpost_code(answer) == GINGERPOST_ACCEPTED)
 *         run(out, 4 * (size_t)gingerpost_written(answer));
 *     else
 *         complain(gingerpost_code(answer));
 *
 * Sizes. A module has at most GINGERPOST_MODULE_MAX bytes. A rewritten module has at most three times the bytes read, a symbol report at most a
 * third of them: an output of that length is never too short, for any module one of GINGERPOST_OUT_MAX or GINGERPOST_REPORT_MAX bytes.
 *
 * Stack. A call takes less than GINGERPOST_STACK bytes of its thread's stack, by measurement; the deepest modules take the most. A thread with a
 * small stack of its own needs that much, and what the thread itself needs.
 *
 * The calls keep no state, allocate nothing and call nothing but the C library's memory functions. They may run in several threads at once, and
 * in a signal handler, on outputs that nothing else uses.
 *
 * What is proved of them, for every module and every output: the number returned, and every byte of the output afterwards. What a caller owes is
 * under each call.
 */
#ifndef GINGERPOST_H
#define GINGERPOST_H

#include <stddef.h>
#include <stdint.h>

#ifdef __cplusplus
extern "C" {
#endif

#define GINGERPOST_MODULE_MAX 16384
#define GINGERPOST_OUT_MAX 49152
#define GINGERPOST_REPORT_MAX 5460
#define GINGERPOST_STACK 196608

/* The first answer. 1 is judged first; then the words are read from left to right and the first one at fault decides, the lower number winning
 * there; then 7, then 8. */
enum gingerpost_code {
    GINGERPOST_ACCEPTED = 0,
    /* no bytes, more than GINGERPOST_MODULE_MAX, or no multiple of 4 */
    GINGERPOST_BAD_LENGTH = 1,
    /* a kind, payload or flag that isn't allowed where it stands, words that end inside a record, or words left over */
    GINGERPOST_MALFORMED = 2,
    /* a record is more than 64 deep, the module itself being 1 deep */
    GINGERPOST_TOO_DEEP = 3,
    /* a symbol is S or more, S being the payload of the module's 40 */
    GINGERPOST_UNKNOWN_SYMBOL = 4,
    /* S is more than 1,000,000 */
    GINGERPOST_TOO_MANY_SYMBOLS = 5,
    /* a constructor has decorators of its own */
    GINGERPOST_DECORATED_CONSTRUCTOR = 6,
    /* a later constructor's parameters are decorated, but neither the class nor its first constructor's parameters */
    GINGERPOST_LATER_CONSTRUCTOR = 7,
    /* the output is shorter than the answer */
    GINGERPOST_SHORT_OUTPUT = 8
};

/* The three answers that a number holds: the code; the words written to the output; the fresh symbols taken. After a refusal the last two are 0. */
static inline unsigned gingerpost_code(uint64_t answer) { return (unsigned)(answer & 0xff); }
static inline uint32_t gingerpost_written(uint64_t answer) { return (uint32_t)(answer >> 8 & 0xfffffff); }
static inline uint32_t gingerpost_fresh(uint64_t answer) { return (uint32_t)(answer >> 36); }

/* Rewrites the module in module[0 .. module_len) and writes the rewritten one to the start of out[0 .. out_len).
 *
 * Accepted: the first 4 * gingerpost_written bytes of the output hold the rewritten module, the bytes behind them are as they were. Its 40 holds S
 * plus the fresh symbols. Refused: every byte of the output is as it was. An output of exactly the answer's length is enough; only its whole words
 * count, up to three bytes at its end are never used.
 *
 * The caller owes that neither pointer is null, not even for a length of 0, that module_len bytes can be read and out_len bytes written there, that
 * the two ranges do not overlap, and that nothing else writes to them during the call. */
uint64_t gingerpost_rewrite(const uint8_t *module, size_t module_len, uint8_t *out, size_t out_len);

/* Writes the symbol report of the module in module[0 .. module_len) to the start of out[0 .. out_len): one word for each fresh symbol that the
 * rewriting takes, in any order. The payload is the symbol, the kind says what it is for: 1 a nameless class, 2 a computed key, 3 the inside of a
 * decorated class, 4 a class's alias.
 *
 * It accepts and refuses as gingerpost_rewrite does, except that 8 is judged by its own length. All else said there holds here, and the caller owes
 * the same. */
uint64_t gingerpost_report(const uint8_t *module, size_t module_len, uint8_t *out, size_t out_len);

#ifdef __cplusplus
}
#endif

#endif
