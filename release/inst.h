/* The clearing core for C: a hub in one thread that is opened, answers one line at a time, and is closed.
 *
 * Lines and replies are those of the program `inst_main` (docs/formats.md): a line is one JSON object, and so is its
 * reply. Amounts are in cents, moments in absolute milliseconds. The hub has no clock: each line has its clock
 * reading.
 *
 *     struct inst_hub hub = {0};
 *     struct inst_settings settings = INST_SETTINGS;
 *     struct inst_told told;
 *     inst_open(&hub, (const uint8_t *)codes, strlen(codes), &settings, false);   "AAAADEFF,BBBBFRPP"
 *     inst_answer(&hub, (const uint8_t *)line, strlen(line), &told);
 *     inst_reply(&hub, buffer, capacity);                                         told.length bytes
 *     inst_close(&hub);
 *
 * The caller must ensure the following; nothing checks it.
 *
 * - A struct `inst_hub` begins with all bytes 0, and only these calls change it. It may be moved in memory between two
 *   calls, but not copied: only one copy may be used.
 * - A hub is used only by the thread that opened it, in one call at a time. Hubs are independent of one another.
 * - No call is made from a signal handler, or in the forked child of a process that had threads.
 * - A pointer isn't NULL, not even with length 0, and points to as many bytes as its length says, which nobody else
 *   changes during the call. Memory that a call writes to (`hub`, `told`, `buffer`) overlaps no other argument.
 * - `malloc`, `realloc` and `free` belong to one allocator; the library takes all its memory from them.
 */
#ifndef INST_H
#define INST_H

#include <stdbool.h>
#include <stddef.h>
#include <stdint.h>

#ifdef __cplusplus
extern "C" {
#endif

/* The statuses that calls return. Numbers below 100 are those of the faults in docs/formats.md. */
enum {
    INST_DONE = 0,          /* success */
    INST_MEMORY = 14,       /* an allocation failed */
    INST_BAD_SETTINGS = 15, /* no hub can have these settings */
    INST_CLOSED = 100,      /* no hub is open in the struct; nothing was done */
    INST_STILL_OPEN = 101,  /* a hub is open in the struct; it is unchanged */
    INST_SHORT = 102        /* the buffer is too small for the whole reply; nothing was copied, the reply is kept */
};

/* An optional hub. The caller owns the struct, the library the memory that it points to. */
struct inst_hub {
    void *at;
    bool is_open;
};

/* The settings of a hub without its participants. */
struct inst_settings {
    uint64_t base;     /* the first moment, in absolute milliseconds: 0 to 2^62 */
    uint64_t ceiling;  /* the maximum amount of a command, in cents: 1 to 99999999999 */
    uint32_t limit;    /* from time stamp to deadline, in milliseconds: 1 to 3600000 */
    uint32_t margin;   /* the cut-off for acceptance before the deadline, in milliseconds: 0 to limit - 1 */
    uint32_t ahead;    /* how far a time stamp may be after the clock reading, in milliseconds: 0 to 60000 */
    uint16_t places;   /* live transfers of each originator: 1 to 1024 */
    uint16_t fundings; /* fund and defund commands of each participant: 1 to 1024 */
};

/* The program's defaults. */
#define INST_SETTINGS {0, 99999999999, 10000, 0, 1000, 256, 256}

/* The length of a reply, and whether it is a refusal. */
struct inst_told {
    size_t length;   /* the length of the reply in bytes, with its newline */
    bool is_refused; /* true if the reply is a refusal */
};

/* Opens a hub for the first time. `participants` points to `length` bytes: 1 to 256 different codes of 8 or 11
 * characters of A-Z 0-9, separated by commas and nothing else; participants are numbered in this order. If `is_play`,
 * a line is one step and there are no follow-ups, as in `inst_main play`; else as in `inst_main run`.
 *
 * Returns INST_DONE, INST_STILL_OPEN, INST_BAD_SETTINGS or INST_MEMORY; after the last two no hub is open. */
uint32_t inst_open(struct inst_hub *hub, const uint8_t *participants, size_t length,
                   const struct inst_settings *settings, bool is_play);

/* Answers a line of `length` bytes, without its newline. A refused line is answered too, with INST_DONE; the reply
 * names the fault. The hub keeps the reply until the next line; `told` gets its length.
 *
 * Returns INST_DONE, INST_CLOSED or INST_MEMORY; after the last two `told` is unchanged. After INST_MEMORY it is
 * unknown if the line was taken, so the hub is closed. A new hub with more memory that answers the same lines again
 * gives the same replies. */
uint32_t inst_answer(struct inst_hub *hub, const uint8_t *line, size_t length, struct inst_told *told);

/* Copies the reply to the last line to the beginning of `buffer`, which has `capacity` bytes. Before the first line
 * the reply is empty. The same reply may be copied again.
 *
 * Returns INST_DONE, INST_CLOSED or INST_SHORT. */
uint32_t inst_reply(struct inst_hub *hub, uint8_t *buffer, size_t capacity);

/* Closes the hub and frees its memory. Call it once for each hub that was opened, unless INST_MEMORY closed it.
 *
 * Returns INST_DONE or INST_CLOSED. */
uint32_t inst_close(struct inst_hub *hub);

#ifdef __cplusplus
}
#endif

#endif
