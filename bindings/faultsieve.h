/* Faultsieve for C: checks rule books, and drives the engine that runs them by a script of calls.
 *
 * Link libexports.a, which `rt lib` writes to crates/exports/out, and liblibc_c.a of the Rattle kit,
 * through which it calls malloc and free. README.md beside this file has the commands.
 *
 * A call reads the bytes of its input and writes to its buffer, and keeps no pointer and no state for later calls.
 * What a caller owes:
 * - Each pointer is followed by the number of bytes that it points to. No pointer is null, also where that number is 0.
 * - The buffer does not overlap the input.
 * - No call is made from a signal handler, nor from the child of a fork in a program with threads.
 */
#ifndef FAULTSIEVE_H
#define FAULTSIEVE_H

#include <stddef.h>
#include <stdint.h>

#ifdef __cplusplus
extern "C" {
#endif

/* The least size of the buffer for a line. */
#define FAULTSIEVE_LINE 32

/* Values of `refusal`. */
#define FAULTSIEVE_WRITTEN 0        /* The answer was written. */
#define FAULTSIEVE_SHORT_BUFFER 20  /* The buffer is too short. */
#define FAULTSIEVE_NO_MEMORY 255    /* Memory ran out. */

/* How a call ended. That a book or a call of a script is refused is no refusal here: it stands in the line or the transcript. */
struct faultsieve_answer {
    uint32_t refusal;
    /* How many bytes were written to the start of the buffer; 0 if refusal is not 0. */
    size_t length;
};

/* Checks a rule book under a ladder of two ranks and a card of ones, and writes one line about it, at most 30 bytes with
 * the line feed (byte 10) that ends it: `accepted EVENTS` or `refused NUMBER LAYER PLACE` (docs/REFUSALS.md).
 * Any bytes may be given as a book.
 *
 *  0: `length` bytes were written, and the rest of the buffer is as it was.
 * 20: `line_len` is below FAULTSIEVE_LINE. Nothing was written. */
struct faultsieve_answer faultsieve_check(const uint8_t *book, size_t book_len, uint8_t *line, size_t line_len);

/* Applies a script of calls (docs/CONSOLE.md) to a fresh console, and writes the transcript: one line for each answer,
 * each ended by a line feed. Any bytes may be given as a script.
 *
 *   0: `length` bytes were written, and the rest of the buffer is as it was.
 *  20: the transcript does not fit into `transcript_len` bytes. Nothing was written.
 * 255: memory ran out. Nothing was written. */
struct faultsieve_answer faultsieve_script(const uint8_t *script, size_t script_len,
                                           uint8_t *transcript, size_t transcript_len);

#ifdef __cplusplus
}
#endif

#endif
