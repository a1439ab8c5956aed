/* Rombixela, a digital press in software, as a library (docs/LIBRARY.md).
 *
 * Each function takes bytes and puts bytes into the caller's room; nothing is kept between two calls, and no call writes anywhere else.
 * What it puts there is the front of what the program of the same name writes: `put` bytes of `bytes`; the rest of the room stays as it is.
 * Where `put` is less than `bytes` the room was too small: the same call with a room of `bytes` bytes has all of them.
 *
 * What a caller owes:
 * - No pointer is null, also where its length is 0.
 * - Each pointer points to as many bytes as its length says: those that a call reads are set and stay as they are while it runs, and the
 *   room may be written to.
 * - The room overlaps none of the others. These may overlap one another.
 * - malloc, realloc and free are of one allocator, which aligns a block to each power of two up to 16 that divides its size.
 * - No function is called in a signal handler, or in the forked child of a process with threads.
 * Two threads may call at once, each with a room of its own.
 */
#ifndef ROMBIXELA_H
#define ROMBIXELA_H

#include <stddef.h>
#include <stdint.h>

#define ROMBIXELA_VERSION_MAJOR 1
#define ROMBIXELA_VERSION_MINOR 0
#define ROMBIXELA_VERSION_PATCH 0

#ifdef __cplusplus
extern "C" {
#endif

/* What a call answers. */
typedef struct RombixelaAnswer {
    uint32_t fault; /* 0, or one of those below, or the number of docs/FAULTS.md */
    uint64_t bytes; /* how many bytes it has */
    uint64_t put;   /* how many of them stand at the front of the room */
} RombixelaAnswer;

enum {
    ROMBIXELA_NO_FAULT = 0,
    ROMBIXELA_NO_MEMORY = 1,   /* memory ran out; what is put is a front of what there would be, or nothing */
    ROMBIXELA_BAD_SETTINGS = 2 /* a setting is no NAME=VALUE of the job language */
};

/* `settings` are the printer's own, as its panel has them and `--default` takes them: words NAME=VALUE with one space between two, as
 * "RESOLUTION=600 PAPER=A4"; none where `settings_length` is 0. */

/* The P4 files (raw PBM) of all sides of a stream, one behind the other: `press print`. */
RombixelaAnswer rombixela_print(const uint8_t *settings, size_t settings_length, const uint8_t *stream, size_t stream_length,
                                uint8_t *room, size_t room_length);

/* A line for each side of a stream, and its replies behind them: `press print --list`. */
RombixelaAnswer rombixela_list(const uint8_t *settings, size_t settings_length, const uint8_t *stream, size_t stream_length,
                               uint8_t *room, size_t room_length);

/* The same with the SHA-256 of each side behind its line: `press print --list --sums`. */
RombixelaAnswer rombixela_sums(const uint8_t *settings, size_t settings_length, const uint8_t *stream, size_t stream_length,
                               uint8_t *room, size_t room_length);

/* A line of JSON for each step of a stream (docs/TRACE.md): `press trace`. */
RombixelaAnswer rombixela_trace(const uint8_t *settings, size_t settings_length, const uint8_t *stream, size_t stream_length,
                                uint8_t *room, size_t room_length);

/* The assembly text of a stream (docs/ASSEMBLY.md): `press disasm`. */
RombixelaAnswer rombixela_disasm(const uint8_t *stream, size_t stream_length, uint8_t *room, size_t room_length);

/* The stream of an assembly text: `press asm`. Of a text that is refused (401 to 403) nothing. */
RombixelaAnswer rombixela_asm(const uint8_t *text, size_t text_length, uint8_t *room, size_t room_length);

/* The stream that prints a job ticket (docs/TICKETS.md) with the images of its pages, P4 files one behind the other: `press write`. Where the
 * ticket or an image is refused, nothing. */
RombixelaAnswer rombixela_write(const uint8_t *ticket, size_t ticket_length, const uint8_t *images, size_t images_length,
                                uint8_t *room, size_t room_length);

/* What a session with a press of `engines` engines (1 to 4) writes, by `lines` of events (docs/QUEUE.md): `press press`. The messages and images that
 * the lines name are `files`: for each a line with its name, a line with how many bytes it has, and these bytes, one file behind the other. */
RombixelaAnswer rombixela_session(uint64_t engines, const uint8_t *files, size_t files_length, const uint8_t *lines, size_t lines_length,
                                  uint8_t *room, size_t room_length);

/* The version of the press, and by which kit it was proved: what `press --version` says of the proved program. */
RombixelaAnswer rombixela_version(uint8_t *room, size_t room_length);

#ifdef __cplusplus
}
#endif

#endif
