/*
 * Run files answered by Zetampuy: docs/RUN_FILE.md tells how one is written, docs/CALLERS.md how to build and link.
 *
 * A text is given by a pointer to its bytes and their number, and a buffer likewise. A pointer is never NULL, not even where the
 * number is 0, and what it points to is lent for the call: nobody else writes to the text or touches the buffer meanwhile, and
 * the two do not overlap. Of calls with the same handle there is one at a time.
 */
#ifndef ZETAMPUY_H
#define ZETAMPUY_H

#include <stdbool.h>
#include <stddef.h>
#include <stdint.h>

#ifdef __cplusplus
extern "C" {
#endif

/*
 * A reckoner, or none. It begins as ZETAMPUY_NONE and is changed by the calls below alone; it may be moved to another place, but
 * of two copies only one may be used from then on.
 */
typedef struct {
    bool made; /* whether there is a reckoner: may be read */
    void *at;
} zetampuy_handle;

#define ZETAMPUY_NONE {false, NULL}

/* How many bytes a buffer must have: no line is longer, whatever its figures are. A line ends in LF, and no NUL follows. */
#define ZETAMPUY_ROOM 64

/* Returned where the buffer has fewer than ZETAMPUY_ROOM bytes. */
#define ZETAMPUY_SHORT_BUFFER (-17)

/* Returned where the handle has no reckoner. */
#define ZETAMPUY_NO_RECKONER (-100)

/*
 * Makes a reckoner, and frees the one that the handle has, if any. False: there was no memory, and the handle has none. This is
 * the only call that can want memory.
 */
bool zetampuy_new(zetampuy_handle *handle);

/* Frees the reckoner that the handle has, if any: it is ZETAMPUY_NONE again. */
void zetampuy_free(zetampuy_handle *handle);

/*
 * How many questions a run file asks.
 *
 *   0 to 200      so many
 *   -1 to -16     the text is no run file: the number of its fault, below 0
 *   -100          there is no reckoner
 */
int32_t zetampuy_questions(zetampuy_handle *handle, const uint8_t *text, size_t length);

/*
 * Puts the line that answers one question of a run file at the head of a buffer. Questions count from 1. The bytes of the buffer
 * past the line are left, and where no line is put, all of them.
 *
 *   1 to 64       the line has so many bytes
 *   0             the file asks no question of this number
 *   -1 to -16     the text is no run file: the number of its fault, below 0
 *   -17           the buffer has fewer than 64 bytes; the text was not read
 *   -100          there is no reckoner
 */
int32_t zetampuy_answer(zetampuy_handle *handle, const uint8_t *text, size_t length, uint32_t number, uint8_t *out, size_t room);

/*
 * Puts the line that tells the fault of a text at the head of a buffer. The bytes of the buffer past the line are left, and where
 * no line is put, all of them.
 *
 *   1 to 64       the line has so many bytes
 *   0             the text is a run file, and has no fault
 *   -17           the buffer has fewer than 64 bytes; the text was not read
 *   -100          there is no reckoner
 */
int32_t zetampuy_fault(zetampuy_handle *handle, const uint8_t *text, size_t length, uint8_t *out, size_t room);

#ifdef __cplusplus
}
#endif

#endif
