/* The proved runner of sheets, for C: the functions of libsanding.a, x86-64 with the System V calling convention.
 *
 * A sheet is lent as pointer and length and is only read; a buffer is lent as pointer and length and is written. The caller owns both,
 * and the library keeps neither after a call. No pointer may be null, not even with length 0, and a buffer must not overlap the sheet:
 * the compiler relies on that.
 *
 * There are no other demands: every sequence of bytes is a sheet or is refused. The library calls memcpy and memset and nothing else, so
 * it takes no heap memory and asks nothing of the operating system; it has no variables, so threads may call it at once, each with its
 * own buffer.
 */
#ifndef SANDING_H
#define SANDING_H

#include <stddef.h>
#include <stdint.h>

#ifdef __cplusplus
extern "C" {
#endif

/* The longest sheet that is not refused for its length, in bytes. */
#define SANDING_SHEET 65000

/* A buffer this long is enough for the run of every sheet. */
#define SANDING_ROOM 211236

/* A thread whose stack has this many bytes may call each function. */
#define SANDING_STACK 65536

/* The number of the refusal that this sheet gets, or 0 if it is accepted. Runs nothing.
 *   20 under 8 or over 65,000 bytes
 *   21 wrong tag
 *   22 number of tasks, records or events out of range
 *   23 the trailer's distance is wrong or reaches before the first byte
 *   24 an event's kind is not 1 to 5, or a byte that it does not use is not 0
 */
uint8_t sanding_refusal(const uint8_t *sheet, size_t sheet_length);

/* How long a buffer sanding_run needs for this sheet: 8 if it is refused, else 42 for each event, 38 for each record and 20.
 * Never above SANDING_ROOM.
 */
size_t sanding_room(const uint8_t *sheet, size_t sheet_length);

/* Writes the text of the sheet's run to the front of out and gives its length; the bytes of out beyond the text are kept. The text
 * ends with a line's end and not with a null byte. Of a refused sheet it is X, a space, the number of the refusal and a line's end.
 * Gives 0 if out_length is below sanding_room(sheet, sheet_length): then every byte of out is kept.
 */
size_t sanding_run(const uint8_t *sheet, size_t sheet_length, uint8_t *out, size_t out_length);

#ifdef __cplusplus
}
#endif

#endif
