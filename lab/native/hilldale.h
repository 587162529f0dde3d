/* hilldale as a library: the proved work of `hilldale run` and `hilldale check` on bytes in memory.
 *
 * Texts. A surface is the text of an SDF file (ISO 25178-71, ASCII), at most 268,435,456 bytes; a script has at most
 * 16,777,216, a certificate at most 134,217,728. docs/FORMATS.md has the grammars. Heights, areas and volumes in answers are
 * whole numbers and fractions in steps of the file's Zscale and in points of its grid. No text ends with a zero byte, and no
 * locale has a say.
 *
 * Results. Each function returns the status of the program (below), and writes the text that the program prints. `needed` is
 * set to the length of this text, and the first bytes of it go to `out`, at most `room`. What is behind the text is left as it
 * was. Where `needed` is greater than `room` call again with so much room: the same call gives the same text. A refusal is
 * told by its text, too.
 *
 * Ownership. The caller owns all memory. Inputs are only read; the library keeps no pointer, and what it allocates by malloc it
 * frees before it returns. No pointer may be null, also for 0 bytes, and `out`, `saved`, `needed` and `saved_needed` overlap
 * neither each other nor an input.
 *
 * Threads. The functions have no state of their own: any number of threads may call them at once, also on the same inputs.
 * Do not call them from a signal handler, or in a child that a process with threads has forked.
 */
#ifndef HILLDALE_H
#define HILLDALE_H

#include <stddef.h>
#include <stdint.h>

#ifdef __cplusplus
extern "C" {
#endif

enum hilldale_status {
  HILLDALE_DONE = 0,                /* each line was accepted, or the certificate was */
  HILLDALE_LINE_REFUSED = 1,        /* some line of the script was refused; the others were answered */
  HILLDALE_USAGE = 2,               /* the tile has another side than 8 to 256 points */
  HILLDALE_SURFACE_REFUSED = 3,     /* the surface is no file of the grammar, or too long */
  HILLDALE_CERTIFICATE_REFUSED = 4, /* the certificate has no reading, or one of its rules fails */
  HILLDALE_MEMORY = 7,              /* malloc refused; nothing is handed out, and `needed` is 0 */
  HILLDALE_TOO_LONG = 8             /* the script or the certificate is too long */
};

/* The side of a tile that the program takes where none is given. It changes no answer, only how much is kept for edits. */
#define HILLDALE_TILE 64

/* Answers the lines of a script on a surface: `hilldale run SURFACE SCRIPT --tile N`. */
uint8_t hilldale_run(const uint8_t *surface, size_t surface_length, const uint8_t *script, size_t script_length,
                     uint32_t tile, uint8_t *out, size_t room, uint64_t *needed);

/* The same, and gives the surface that the lines leave: `hilldale run SURFACE SCRIPT --tile N --save OUT`.
 * `saved_needed` is 0 where nothing is saved: with each status other than 0 and 1. */
uint8_t hilldale_run_and_save(const uint8_t *surface, size_t surface_length, const uint8_t *script, size_t script_length,
                              uint32_t tile, uint8_t *out, size_t room, uint64_t *needed,
                              uint8_t *saved, size_t saved_room, uint64_t *saved_needed);

/* Checks a certificate of a surface: `hilldale check SURFACE CERT`. */
uint8_t hilldale_check(const uint8_t *surface, size_t surface_length, const uint8_t *certificate,
                       size_t certificate_length, uint8_t *out, size_t room, uint64_t *needed);

#ifdef __cplusplus
}
#endif
#endif
