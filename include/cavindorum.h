/*
 * The public calls of Cavindorum for C, in crates/exports/out/libexports.a
 * (`rt lib` in crates/exports makes it, for x86-64 Linux). What each call gives
 * and leaves in its buffer is proved (crates/exports/src/lib.rt).
 *
 * Pointers and lengths. Each buffer is a pointer and, next after it, the
 * number of its bytes: first the image or the text, then the picks, then the
 * lists of names, then the buffer that is written. A pointer leads to as many
 * bytes as its length says.
 * No pointer is null; through that of a buffer of no bytes nothing is read or
 * written.
 *
 * Overlap. The buffer that is written shares no byte with the others, and
 * no other thread writes to any of them before the call returns. The image or
 * text, the picks and the lists of names are only read, and may overlap.
 *
 * Stack. CAVINDORUM_STACK bytes below the caller's frame are enough for a
 * call. This is measured and not proved; with too little the process ends at
 * the guard page below the stack.
 *
 * Threads. No call uses the heap, keeps anything between calls or calls the
 * C library but for memcpy, memmove and memset, so that calls may run in
 * several threads at once, each on a buffer of its own to write.
 */
#ifndef CAVINDORUM_H
#define CAVINDORUM_H

#include <stddef.h>
#include <stdint.h>

#ifdef __cplusplus
extern "C" {
#endif

/* Bytes of stack that are enough for a call. */
#define CAVINDORUM_STACK ((size_t)1 << 20)

/* No register is longer, so that a buffer of so many bytes holds any. */
#define CAVINDORUM_LONGEST_REGISTER ((size_t)1300000)

/*
 * Makes a run: reads an image, and makes the picks one after another, each
 * on the net that the last one left. Puts the answer to each pick, 0 to 10,
 * at its place in answers.
 *
 * Gives 0; or the number of the image's first fault, 21 to 30; or 35 where
 * there are fewer bytes for answers than picks. The image is judged first.
 * Where it does not give 0, answers is as it was. Bytes of answers past the
 * number of picks stay as they were.
 */
uint8_t cavindorum_run(const uint8_t *image, size_t image_length,
                       const uint8_t *picks, size_t picks_length,
                       uint8_t *answers, size_t answers_length);

/*
 * The same for a net in the planners' notation. The number of a text's first
 * fault is one of 22, 23, 26, 27 and 30 to 33. A text may have any length.
 */
uint8_t cavindorum_run_text(const uint8_t *text, size_t text_length,
                            const uint8_t *picks, size_t picks_length,
                            uint8_t *answers, size_t answers_length);

/*
 * Writes the register of an image and picks, of which the first 65,536
 * count, into out. It is text without a zero byte at its end. A refused image
 * has the register `refused N at P`: the number of its first fault, and the
 * place that cavindorum_refusal_place gives.
 *
 * Gives the register's length; or 0 where out is too short for it, and out
 * then holds as much of it as fits. Bytes of out past the register stay as
 * they were.
 */
size_t cavindorum_register(const uint8_t *image, size_t image_length,
                           const uint8_t *picks, size_t picks_length,
                           uint8_t *out, size_t out_length);

/*
 * The same for a net in the planners' notation. A refused text has the
 * register `refused N`.
 */
size_t cavindorum_register_text(const uint8_t *text, size_t text_length,
                                const uint8_t *picks, size_t picks_length,
                                uint8_t *out, size_t out_length);

/*
 * Writes the register of an image and picks as cavindorum_register does,
 * with station names: a node line ends with a space and the node's name,
 * where it has one. The name is that of the first entry for the node's address
 * in site, else of the first in office. An entry is a byte, 4 bits of address
 * and 4 bits of length (1 to 15), then so many bytes from 33 to 126. Where
 * cavindorum_names_fault does not give 0, no line has a name. Both lists are
 * read whole.
 */
size_t cavindorum_named_register(const uint8_t *image, size_t image_length,
                                 const uint8_t *picks, size_t picks_length,
                                 const uint8_t *site, size_t site_length,
                                 const uint8_t *office, size_t office_length,
                                 uint8_t *out, size_t out_length);

/* The same for a net in the planners' notation. */
size_t cavindorum_named_register_text(const uint8_t *text, size_t text_length,
                                      const uint8_t *picks, size_t picks_length,
                                      const uint8_t *site, size_t site_length,
                                      const uint8_t *office, size_t office_length,
                                      uint8_t *out, size_t out_length);

/*
 * Tests two lists of names, site first and entry by entry. Gives 0, or the
 * number of the first fault: 51 a length of 0, 52 an entry that is cut short,
 * 53 a byte that is not from 33 to 126.
 */
uint8_t cavindorum_names_fault(const uint8_t *site, size_t site_length,
                               const uint8_t *office, size_t office_length);

/*
 * Reads an image, and gives the bit at which the field at fault of a refused
 * image begins, counted from 0; or 0 where the image is accepted, which
 * cavindorum_run tells from a fault at bit 0.
 *
 * For 28 it is the first bit of the field that ends early, which may be the
 * number of the image's bits; for 29 the first bit after the code; for 30 the
 * first bit of the starting place of the first process at fault.
 */
size_t cavindorum_refusal_place(const uint8_t *image, size_t image_length);

#ifdef __cplusplus
}
#endif

#endif
