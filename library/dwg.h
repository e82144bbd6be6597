/* libdwg: the commands of `dwg` that read, as calls over bytes in memory.
 *
 * Each call is the command of its name: it reads `input`, prints to `output`, notes to `notes`, and gives the program's exit status.
 * `written` and `noted` are how many bytes the answer has for each. A call ends in one of three ways:
 *
 *   DWG_NO_MEMORY  nothing is said of what stands in the buffers and in the numbers
 *   DWG_TOO_SMALL  `output` has fewer than `written` bytes, or `notes` fewer than `noted`: both numbers are those of the whole answer,
 *                  so that a call with the same input and buffers of these sizes doesn't end so
 *   any other      the first `written` bytes of `output` and the first `noted` of `notes` are the whole answer
 *
 * That is proved, for every input and for buffers of every size, of a caller who keeps to this:
 *
 *   - No pointer is null, also where its size is 0, and each is valid for its size, of at most PTRDIFF_MAX bytes.
 *   - `output`, `notes`, `written` and `noted` are four places without a common byte, none of which has one of `input`.
 *   - While a call runs, nobody else writes to `input`, or reads or writes the other four. Calls may run at once, in several threads.
 *   - A thread that calls has DWG_STACK bytes of stack left, without which the system may end the process.
 *   - `malloc`, `realloc` and `free` of the process belong together, and align a block of n bytes to each power of two up to 16 that
 *     divides n. No call is made in a signal handler, or in the forked child of a process with threads.
 */
#ifndef DWG_H
#define DWG_H

#include <stddef.h>
#include <stdint.h>

/* The version of this interface, which changes where a call, a status or a duty does. */
#define DWG_VERSION 1

/* The stack that a call has to find, in bytes: almost three times the most that was measured. */
#define DWG_STACK 65536

enum dwg_status {
    DWG_DONE = 0,      /* done */
    DWG_FOUND = 1,     /* done; audit or appdata found something, accept says no, certify met an unsound drawing, recover a damaged one */
    DWG_REFUSED = 3,   /* the input is refused, and the notes say why */
    DWG_TOO_SMALL = 5, /* a buffer is too small */
    DWG_NO_MEMORY = 6, /* out of memory */
    DWG_TOO_LONG = 7,  /* the input has more than 33,554,432 bytes */
    DWG_TOO_LARGE = 8  /* the file that is to be written has more than 33,554,432 bytes */
};

#ifdef __cplusplus
extern "C" {
#endif

/* The text of the file header. */
uint8_t dwg_sections(const uint8_t *input, size_t input_size, uint8_t *output, size_t output_size, size_t *written,
    uint8_t *notes, size_t notes_size, size_t *noted);

/* The text of the classes. */
uint8_t dwg_classes(const uint8_t *input, size_t input_size, uint8_t *output, size_t output_size, size_t *written,
    uint8_t *notes, size_t notes_size, size_t *noted);

/* The text of the drawing. */
uint8_t dwg_show(const uint8_t *input, size_t input_size, uint8_t *output, size_t output_size, size_t *written,
    uint8_t *notes, size_t notes_size, size_t *noted);

/* The canonical file of the drawing. */
uint8_t dwg_rewrite(const uint8_t *input, size_t input_size, uint8_t *output, size_t output_size, size_t *written,
    uint8_t *notes, size_t notes_size, size_t *noted);

/* The canonical file of the drawing with the preview of the input. */
uint8_t dwg_carry(const uint8_t *input, size_t input_size, uint8_t *output, size_t output_size, size_t *written,
    uint8_t *notes, size_t notes_size, size_t *noted);

/* What the references of the drawing fail. */
uint8_t dwg_audit(const uint8_t *input, size_t input_size, uint8_t *output, size_t output_size, size_t *written,
    uint8_t *notes, size_t notes_size, size_t *noted);

/* The items of the extended data of the drawing. */
uint8_t dwg_appdata(const uint8_t *input, size_t input_size, uint8_t *output, size_t output_size, size_t *written,
    uint8_t *notes, size_t notes_size, size_t *noted);

/* The certificate of the drawing. */
uint8_t dwg_certify(const uint8_t *input, size_t input_size, uint8_t *output, size_t output_size, size_t *written,
    uint8_t *notes, size_t notes_size, size_t *noted);

/* Whether the certificate that the input begins with is one of the drawing after it. */
uint8_t dwg_accept(const uint8_t *input, size_t input_size, uint8_t *output, size_t output_size, size_t *written,
    uint8_t *notes, size_t notes_size, size_t *noted);

/* The canonical file of the drawing, or of all that is left of it. */
uint8_t dwg_recover(const uint8_t *input, size_t input_size, uint8_t *output, size_t output_size, size_t *written,
    uint8_t *notes, size_t notes_size, size_t *noted);

#ifdef __cplusplus
}
#endif

#endif
