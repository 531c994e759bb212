/* libdlms_c.a: a proved DLMS/COSEM meter and poller, and their frames and values, for C.
 *
 * The library has no state of its own, opens nothing, waits for nothing, and starts no thread. It asks for memory by
 * rattle_alloc, rattle_realloc and rattle_dealloc alone, which whoever links it gives (heap.c: over an array; the kit's
 * liblibc_c.a: over malloc), and for memcpy, memmove and memset.
 *
 * Of every call:
 *   - A pointer and the length behind it are octets that the caller owns; the library keeps none of them behind the call.
 *   - A pointer whose length is 0 may be NULL: there are no octets, or there is no room. NO OTHER POINTER IS NULL.
 *   - WHAT IS WRITTEN TO (no const) OVERLAPS NOTHING ELSE THAT THE CALL IS GIVEN.
 *   - A bool IS 0 OR 1.
 *   - NO CALL COMES FROM A SIGNAL HANDLER, AND THE THREE FUNCTIONS OF THE HEAP ARE OF ONE HEAP. A block is aligned to 16.
 *   - Calls of different handles may run in different threads where the heap allows that; OF ONE HANDLE, ONE CALL AT A TIME,
 *     ALL IN ONE THREAD.
 *
 * Of handles: a dlms_meter or a dlms_poller begins as DLMS_NONE, is filled by `new` or `recover`, and is emptied by `free`,
 * which gives its memory back. THE CALLER NEITHER LOOKS AT ITS FIELDS, NOR COPIES IT, NOR LETS IT GO WHILE IT IS FULL.
 */
#ifndef DLMS_H
#define DLMS_H

#include <stdbool.h>
#include <stddef.h>
#include <stdint.h>

#ifdef __cplusplus
extern "C" {
#endif

/* What a call returns. Up to DLMS_SEND nothing went wrong. */
enum dlms_code {
    DLMS_DONE = 0,
    DLMS_NOTHING = 1,        /* no reply, no page, no frame, no row */
    DLMS_WRITE = 2,          /* a page is to be written */
    DLMS_SYNC = 3,           /* what was written is to outlast a stop */
    DLMS_SEND = 4,           /* a frame is to be sent */

    DLMS_EMPTY = 16,         /* the handle is empty: nothing was done */
    DLMS_FULL = 17,          /* the handle is full, and keeps what it holds */
    DLMS_SHORT = 18,         /* the caller's room is too short: nothing was done */
    DLMS_PAGES = 19,         /* pages wait: dlms_meter_page first. Nothing was done */
    DLMS_LOST = 20,          /* dlms_meter_page_failed was called: free the meter, and recover it. Nothing was done */
    DLMS_CLOSED = 21,        /* dlms_meter_close was called. Nothing was done */
    DLMS_ARGUMENT = 22,      /* an argument is invalid. Nothing was done */

    DLMS_MEMORY = 32,        /* out of memory */
    DLMS_DEVICE = 33,        /* the queue of pages is full, or has no memory: free the meter, and recover it */
    DLMS_STOPPED = 34,       /* as DLMS_DEVICE, in an earlier call */
    DLMS_EXHAUSTED = 35,     /* no further generation, or number of a row */
    DLMS_NO_CHECKPOINT = 36, /* the pages hold no meter */
    DLMS_CORRUPT = 37,       /* a page of the checkpoint is damaged */
    DLMS_SIZE = 38,          /* too few pages */

    DLMS_DENIED = 48,        /* the association was refused; `number` is the diagnostic */
    DLMS_RESULT = 49,        /* a request got this result (`number`) in place of an answer; 250 for an exception */
    DLMS_LINE = 50,          /* nobody answers: the fourth time-out in a row */
    DLMS_PROTOCOL = 51,      /* an answer of another form, or the link went down */
    DLMS_COLUMNS = 52,       /* the load profile has other columns than the clock and the three registers */

    DLMS_BACK = 65,          /* the moment is below the meter's running second */
    DLMS_RANGE = 66,         /* the clock would leave its range */
    DLMS_CHANNEL = 67        /* there is no such channel */
};

/* ---- octets ---------------------------------------------------------------------------------------------------------- */

/* The check sequence over these octets (ISO/IEC 13239, 16 bits). Its low octet goes first on the line. */
uint16_t dlms_check(const uint8_t *octets, size_t length);

/* Whether all of the octets are the A-XDR of one value. */
bool dlms_is_value(const uint8_t *octets, size_t length);

/* An address of 1, 2 or 4 octets; with 1 `lower` is 0. */
typedef struct {
    uint8_t octets;
    uint16_t upper, lower;
} dlms_address;

/* Where a frame stands in a buffer: from `start`, before its opening flag, up to `end`, behind its closing one. */
typedef struct {
    size_t start, end;
    size_t information, information_length;
    dlms_address destination, source;
    uint8_t control;
    bool is_segmented;
} dlms_frame_place;

/* Finds the frame that is whole first. Where there is none, `place` is left as it was. Behind it the search goes on at
 * place->end - 1: one flag may close a frame and open the next. It takes some 25 KB of stack. */
bool dlms_next_frame(const uint8_t *octets, size_t length, dlms_frame_place *place);

/* Writes what the frames in these octets say, in the words of `dlms explain`, line by line, in UTF-8 and with no 0 at its end: of
 * each frame its ends, control and checks, and the APDU in it; of secrets, and of strings that may be one, the length alone. `size`
 * is how many octets the text has. DLMS_SHORT: it is longer than `room`, and nothing was written. DLMS_MEMORY. */
uint32_t dlms_explain(const uint8_t *octets, size_t length, char *text, size_t room, size_t *size);

/* Who sent an APDU. */
enum dlms_side { DLMS_EITHER = 0, DLMS_FROM_CLIENT = 1, DLMS_FROM_METER = 2 };

/* The same of one APDU, with no LLC before it: of what came before it nothing is known, so of a block or of a meter's answer the
 * value alone is told, and not of what. DLMS_ARGUMENT for another `side`. */
uint32_t dlms_explain_apdu(const uint8_t *apdu, size_t length, uint8_t side, char *text, size_t room, size_t *size);

#define DLMS_NONE { NULL, false }

/* The most octets of a frame that is sent: the least room for one. */
#define DLMS_FRAME 160

/* ---- the meter ------------------------------------------------------------------------------------------------------- */

/* A meter keeps its memory in 62 pages of 512 octets. What stands for a page in the caller's file or flash is a slot of 544: the
 * page, and its seal (SHA-256), by which a page that a stop tore is known. The file has no more than the slots, one after another:
 * it is the file of `dlms format` and `dlms serve`.
 *
 * The library opens no file. What the meter writes and syncs in a call it hands out, in order, and the caller does it:
 *
 *     feed, pulses, moment, close, new, recover            DLMS_DONE, and pages may wait
 *     page, until DLMS_NOTHING                             DLMS_WRITE: write the slot at 544 * index; DLMS_SYNC: sync the file
 *     reply                                                the frame that is to be sent
 *
 * Until then feed, pulses, moment, hang_up, reply and close return DLMS_PAGES and do nothing. So a stop between is a stop within the
 * call: what a reply has told outlasts it. That holds if
 *
 *   - EACH WRITE AND SYNC IS DONE, IN ITS ORDER, BEFORE THE NEXT IS TAKEN AND BEFORE THE REPLY IS SENT;
 *   - A SYNC THAT RETURNS MAKES ALL EARLIER WRITES OUTLAST A STOP, AND A STOP LEAVES OF A SLOT THAT WAS NOT SYNCED THE OLD OCTETS,
 *     THE NEW ONES, OR A MIX OF THEM, AND EVERY OTHER SLOT AS IT WAS;
 *   - WHERE ONE CANNOT BE DONE, dlms_meter_page_failed IS CALLED, AND THE METER IS FREED AND RECOVERED FROM THE FILE;
 *   - WHAT `recover` IS GIVEN OUTLASTS A STOP: READ THE FILE, WRITE IT AGAIN AS IT STANDS, SYNC IT, AND THEN RECOVER. */
#define DLMS_SLOT 544
#define DLMS_SLOTS (62 * DLMS_SLOT)

typedef struct { void *at; bool is_full; } dlms_meter;

/* A call of a full handle is refused, and nothing is done, for the first of these causes, and for no other:
 *
 *     DLMS_LOST     dlms_meter_page_failed was called      feed, pulses, moment, idle, hang_up, page, reply, close
 *     DLMS_PAGES    writes or syncs wait                   feed, pulses, moment, hang_up, reply, close
 *     DLMS_CLOSED   dlms_meter_close was called            feed, pulses, moment, idle, hang_up, close, state
 *
 * Before these, page has DLMS_SHORT. After them, reply has DLMS_NOTHING and DLMS_SHORT, and pulses and moment have the codes of an
 * event: DLMS_DEVICE, DLMS_STOPPED, DLMS_EXHAUSTED, DLMS_BACK, DLMS_RANGE and DLMS_CHANNEL. */

typedef struct {
    uint32_t active_import, active_export, reactive_import;
    uint32_t second;    /* the clock, counted from 2000-01-01 00:00:00 */
    uint32_t running;   /* the meter's own running second: the last moment */
    size_t rows;        /* how many the load profile has */
} dlms_meter_state_values;

/* A meter in which nothing has happened, or with every event that these slots hold (at least DLMS_SLOTS octets, else DLMS_SIZE), in
 * an empty handle. DLMS_FULL leaves a full one as it is. With every other code but DLMS_DONE the handle is empty, and nothing waits:
 * the file is as it was. `new` has DLMS_MEMORY and DLMS_DEVICE, `recover` also DLMS_NO_CHECKPOINT, DLMS_CORRUPT and DLMS_EXHAUSTED,
 * each for what the slots hold. */
uint32_t dlms_meter_new(dlms_meter *meter);
uint32_t dlms_meter_recover(dlms_meter *meter, const uint8_t *slots, size_t length);

/* Takes octets of a client through at most one frame: `taken` says how many; call it again with the others, behind pages and
 * reply. */
uint32_t dlms_meter_feed(dlms_meter *meter, const uint8_t *octets, size_t length, size_t *taken);

/* Pulses on a channel (0 to 2); the meter's own running second. */
uint32_t dlms_meter_pulses(dlms_meter *meter, uint8_t channel, uint32_t count);
uint32_t dlms_meter_moment(dlms_meter *meter, uint32_t second);

/* Nothing came for as long as the line's inter-octet time-out: half a frame is forgotten. */
uint32_t dlms_meter_idle(dlms_meter *meter);

/* Ends every client's link, and with it association and transfers; half a frame is forgotten, and no reply is left. To be called
 * BEFORE THE FIRST OCTET OF A CONNECTION AND BEHIND ITS LAST ONE: ELSE THE NEXT ONE GOES ON WITH WHAT THIS ONE OPENED. It writes and
 * syncs nothing. */
uint32_t dlms_meter_hang_up(dlms_meter *meter);

/* The next write (DLMS_WRITE: index and slot) or sync (DLMS_SYNC) that is to be done, or DLMS_NOTHING if none waits. `room` is at
 * least DLMS_SLOT, else DLMS_SHORT. A closed meter hands out its last pages too. */
uint32_t dlms_meter_page(dlms_meter *meter, uint16_t *index, uint8_t *slot, size_t room);
uint32_t dlms_meter_page_failed(dlms_meter *meter);

/* The reply to the frame that was fed last, once; DLMS_NOTHING if there is none, as after a close. DLMS_SHORT leaves it, and `size`
 * says how much room it needs (DLMS_FRAME is enough for each); with every other code but DLMS_DONE `size` is 0. A reply that was not
 * asked for is gone with the next frame. */
uint32_t dlms_meter_reply(dlms_meter *meter, uint8_t *frame, size_t room, size_t *size);

/* What the meter shows. With another code than DLMS_DONE `state` is left as it was. */
uint32_t dlms_meter_state(dlms_meter *meter, dlms_meter_state_values *state);

/* Settles what is pending; its pages are still to be done. Then `free`. Without it pulses that no answer has told may be lost.
 * DLMS_DEVICE: the queue of pages was full or had no memory, in this call or an earlier one, and they may be lost too. */
uint32_t dlms_meter_close(dlms_meter *meter);
void dlms_meter_free(dlms_meter *meter);

/* ---- the head end's poller ------------------------------------------------------------------------------------------- */

typedef struct { void *at; bool is_full; } dlms_poller;

typedef struct {
    uint8_t client;     /* 16 public, 1 management, 2 reader */
    bool has_after;     /* whether rows from a second on are asked for; else all */
    uint32_t after;     /* the first second that is asked for, counted from 2000-01-01 00:00:00 */
    bool asks_columns;  /* whether the columns are asked for, and must be the clock and the three registers */
} dlms_poll_plan;

typedef struct {
    uint32_t second;    /* of the meter's clock, counted from 2000-01-01 00:00:00 */
    uint32_t active_import, active_export, reactive_import;
} dlms_row;

/* Makes a poller of exactly this plan and secret, in an empty handle. The secret has at most 16 octets; the public client sends none.
 * DLMS_ARGUMENT for another client, a longer secret, or with `has_after` a second that no clock has (above 3,155,759,999); else
 * DLMS_DONE, or DLMS_MEMORY. With another code than DLMS_DONE the handle is as it was. */
uint32_t dlms_poller_new(dlms_poller *poller, const dlms_poll_plan *plan, const uint8_t *secret, size_t secret_length);

/* The first frame (DLMS_SEND), once; then DLMS_NOTHING. `room` is at least DLMS_FRAME, else DLMS_SHORT. Here and below `size` is 0
 * with another code than DLMS_SEND, and `number` is 0 with another than DLMS_DENIED and DLMS_RESULT. */
uint32_t dlms_poller_next(dlms_poller *poller, uint8_t *frame, size_t room, size_t *size);

/* Takes octets that came from the meter through at most one frame: `taken` says how many; call it again with the others.
 * DLMS_NOTHING, DLMS_SEND with the next frame, DLMS_DONE when the rows are there and the link is down, or why the poll failed:
 * DLMS_DENIED, DLMS_RESULT, DLMS_PROTOCOL, DLMS_COLUMNS, or DLMS_MEMORY for an answer that needs memory for its rows. A poll that
 * failed returns the same code for each further frame. */
uint32_t dlms_poller_on(dlms_poller *poller, const uint8_t *octets, size_t length, size_t *taken,
                        uint8_t *frame, size_t room, size_t *size, uint8_t *number);

/* Nothing came for as long as the caller waits: the frame goes again (DLMS_SEND); the fourth time in a row it is DLMS_LINE.
 * DLMS_NOTHING if no frame is out; if the poll has failed, its code again. */
uint32_t dlms_poller_timeout(dlms_poller *poller, uint8_t *frame, size_t room, size_t *size, uint8_t *number);

/* How many rows there are, and the row of an index; DLMS_NOTHING if there is none, and `row` is left as it was. */
uint32_t dlms_poller_rows(dlms_poller *poller, size_t *count);
uint32_t dlms_poller_row(dlms_poller *poller, size_t index, dlms_row *row);

void dlms_poller_free(dlms_poller *poller);

#ifdef __cplusplus
}
#endif

#endif
