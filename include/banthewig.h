/* The C interface of Banthewig, a proved library for the carriage controller of a V-bed knitting machine. It runs a knitout
   program on a model of the machine, makes a log's swaps in it, writes its house order, tells what ties two records, and
   serves the panel: one step of a machine state, and a list of its carriers. For C11, C++11 and later ones, on x86-64 Linux
   and, tested, not promised, on Cortex-M cores (README.md, 'For the controller').

   In this order: words, limits, records, logs, numbers; calls on programs, on two records, on a machine state; layouts.

   For every call:
   - Only what is lent, the stack and the archive's constants are touched, and nothing is kept: no pointer, no static data. No
     allocator, file or thread is needed; the archive imports memcpy, memmove and memset at most, on ARM by their __aeabi_
     names. A call ends, whatever it is lent.
   - A pointer whose length or count is 0 is not read and may be null; a state's is never null.
   - States, carrier lists and work areas lie at even addresses, bytes anywhere.
   - During a call nothing else (thread, interrupt, DMA) writes to anything that is lent, what is only read included. So calls
     may run at once if no area that one of them writes is lent to another. (No theorem speaks of threads.)
   - What is lent for writing (output, work, the state of a step, a list) overlaps nothing else that is lent. What is only
     read may share bytes.
   If one of the last four is not kept, no promise holds, not even that a call stays within what it was lent.

   Stack and worst time are a Cortex-M4's, as QEMU has it: stack that was painted beforehand; instructions counted on the dearest
   input found, weighed as cycles at 120 MHz by a rule, without wait states (docs/PERFORMANCE.md). Neither is proved. */
#ifndef BANTHEWIG_H
#define BANTHEWIG_H

#include <stddef.h>
#include <stdint.h>

#ifdef __cplusplus
extern "C" {
#endif

/* The number of this interface: header and archive must have the same, else they do not link (see the end). */
#define KNITOUT_INTERFACE 3

/* ---- Words
   Needle       stands on the front or the back bed, the beds opposite each other: f.0, f.1 .. and b.0, b.1 ..
   Racking      the back bed's shift to the right, in columns; below 0 to the left.
   Column       where a needle stands: front needle n at column n, back needle n at column n + racking.
   Opposite     needles on the two beds at one column.
   Hook         a needle's, which holds its loops, no more than the machine's hook limit.
   Slot         where a carrier is parked, between columns: slot z lies just left of column z.
   Carrier      brings a yarn. It is inactive, or active and parked at a slot.
   Attachment   the needle that a carrier's yarn last formed a loop on (xfer and split take it along), and the side of that
                needle which the carrier moved to. A carrier that has none is unattached.
   Entry, exit  the slots beside a needle at column z before and after a carrier passes it: z and z + 1 to the right, z + 1
                and z to the left.
   Half column  columns and slots in one count: column z is half column 2 z, slot z is 2 z - 1.
   Layer        the depth from front to back: KNITOUT_LAYER_FRONT the front bed, k carrier k, KNITOUT_LAYER_BACK the back bed.
   Extent       the half columns and layers that a record covers (knitout_tie has them by kind).
   Tied         two records that must keep their order: either is a rack, both name one carrier, or their extents meet, that
                is, share a half column and a layer. */

/* ---- Limits, each stated here only */
#define KNITOUT_PROGRAM_MOST 32768u /* bytes of a program */
#define KNITOUT_LOG_MOST 32768u     /* bytes of a log */
#define KNITOUT_RECORD_MOST 6       /* bytes of a program's record */
#define KNITOUT_NEEDLES 250         /* needles on a bed, counted from 0 */
#define KNITOUT_HOOKS (2 * KNITOUT_NEEDLES) /* hooks on both beds */
#define KNITOUT_CARRIERS 10         /* carriers, counted from 1 */
#define KNITOUT_RACKING_LEAST (-8)  /* rackings */
#define KNITOUT_RACKING_MOST 8
#define KNITOUT_SLOT_LEAST (-8)     /* slots */
#define KNITOUT_SLOT_MOST 258
#define KNITOUT_LIMIT_LEAST 1       /* hook limits: the loops that a hook of a machine can hold */
#define KNITOUT_LIMIT_MOST 8
#define KNITOUT_LOOPS_MOST KNITOUT_LIMIT_MOST /* loops on a hook of any machine */
#define KNITOUT_FLOAT_MOST 20       /* columns from a carrier's attachment to the needle that it is to form a loop on */
#define KNITOUT_STRETCH_MOST 20     /* slots from a parked carrier to its attachment, over which no rack may stretch a yarn */

/* The entries of work area (uint16_t) that a program of so many bytes needs: half of them, rounded down, since no record has
   fewer than two. KNITOUT_WORK_MOST is enough for every program. */
#define KNITOUT_WORK(program_length) ((program_length) / 2)
#define KNITOUT_WORK_MOST KNITOUT_WORK(KNITOUT_PROGRAM_MOST)

/* ---- Records
   A program is records end to end. A record's first byte is its kind, which fixes the bytes behind it, one for each field:
   a racking KNITOUT_RACKING_LEAST to KNITOUT_RACKING_MOST, two's complement; a direction and a bed (enums below); a needle
   0 to KNITOUT_NEEDLES - 1; a carrier 1 to KNITOUT_CARRIERS. A hook limit is no part of a program: it is the machine's. */
enum knitout_kind {
    /* 2 bytes: kind, racking */
    KNITOUT_RACK = 1,         /* shifts the back bed to that racking, with all attachments on it; parked carriers stay */
    /* 3 bytes: kind, bed, needle */
    KNITOUT_DROP = 2,         /* empties the hook */
    /* 4 bytes: kind, bed, needle, needle on the other bed */
    KNITOUT_XFER = 3,         /* moves all loops and attachments from the needle to the one opposite, sides kept */
    /* 5 bytes: kind, direction, bed, needle, carrier */
    KNITOUT_IN = 4,           /* makes the carrier active: parked at the entry slot, unattached */
    KNITOUT_OUT = 5,          /* makes the carrier inactive; it must be parked at the exit slot */
    KNITOUT_MISS = 6,         /* moves the carrier from the entry slot to the exit slot */
    KNITOUT_TUCK = 7,         /* the same, attaches it to the needle, and adds one loop to the hook */
    KNITOUT_KNIT = 8,         /* the same, attaches it to the needle, and leaves exactly one loop on the hook */
    /* 6 bytes: kind, direction, bed, needle, carrier, needle on the other bed */
    KNITOUT_SPLIT = 9,        /* moves loops and attachments as an xfer, then knits */
    /* 6 bytes: kind, direction, bed, needle, carrier, second carrier */
    KNITOUT_PLATED_TUCK = 10, /* as a tuck, with both carriers: adds two loops */
    KNITOUT_PLATED_KNIT = 11  /* as a knit, with both carriers: leaves exactly two loops */
};

/* A record's direction. (An attachment's side is another matter: enum knitout_side.) */
enum knitout_direction { KNITOUT_TO_LEFT = 0, KNITOUT_TO_RIGHT = 1 };

/* A bed, of a record and of an attachment. */
enum knitout_bed { KNITOUT_FRONT = 0, KNITOUT_BACK = 1 };

/* ---- Logs
   A log is log records end to end, KNITOUT_LOG_RECORD bytes each: KNITOUT_SWAP, then a position, high byte first. Position i
   swaps records i and i + 1 of the program, counted from 0, as the swaps before left it: {KNITOUT_SWAP, 0, 2} swaps the third
   and the fourth. */
#define KNITOUT_SWAP 0x40
#define KNITOUT_LOG_RECORD 3

/* ---- Numbers of an answer (banthewig_words.h has a word for each)
   KNITOUT_UNKNOWN_KIND to KNITOUT_HOOK_FULL, KNITOUT_YARN_TWICE and KNITOUT_STRETCHED are a record's refusals. A record gets
   the first that fits, of KNITOUT_UNKNOWN_KIND, KNITOUT_CUT_SHORT, KNITOUT_FIELD_RANGE, KNITOUT_YARN_TWICE,
   KNITOUT_STRETCHED, and then from KNITOUT_ALREADY_IN to KNITOUT_HOOK_FULL. */
enum knitout_number {
    KNITOUT_DONE = 0,
    KNITOUT_TOO_LONG = 1,        /* a program over KNITOUT_PROGRAM_MOST, a log over KNITOUT_LOG_MOST */
    KNITOUT_NO_ROOM = 2,         /* output shorter than the program, fewer work entries than KNITOUT_WORK of its length, or a
                                    list of fewer than KNITOUT_CARRIERS */
    KNITOUT_UNKNOWN_KIND = 3,    /* a kind byte that is not one of enum knitout_kind */
    KNITOUT_CUT_SHORT = 4,       /* no byte, or fewer than the kind needs */
    KNITOUT_FIELD_RANGE = 5,     /* a field outside its range */
    KNITOUT_ALREADY_IN = 6,      /* in for an active carrier */
    KNITOUT_NOT_IN = 7,          /* any other use of an inactive one */
    KNITOUT_WRONG_SLOT = 8,      /* a carrier parked at the wrong slot: not at the exit for out, not at the entry for others */
    KNITOUT_FLOAT_TOO_LONG = 9,  /* tuck, knit, split or a plated one over KNITOUT_FLOAT_MOST from a carrier's attachment */
    KNITOUT_NOT_OPPOSITE = 10,   /* xfer or split between needles that are not opposite */
    KNITOUT_HOOK_FULL = 11,      /* more loops on a hook than its limit */
    KNITOUT_NO_PAIR = 12,        /* position + 1 is not a record */
    KNITOUT_TIED = 13,           /* the two records are tied */
    KNITOUT_TORN_LOG = 14,       /* log kind not KNITOUT_SWAP, or fewer bytes than KNITOUT_LOG_RECORD */
    KNITOUT_BAD_STATE = 15,      /* a given hook limit or racking out of its range; a lent state with a value out of its range,
                                    more loops on a hook than its limit, or not 0 in a field without meaning */
    KNITOUT_YARN_TWICE = 16,     /* a plated stitch whose two carriers are equal */
    KNITOUT_STRETCHED = 17       /* a rack that takes some parked carrier's attachment further away than it is, to over
                                    KNITOUT_STRETCH_MOST: from the slot at that side of its needle to the carrier's own */
};

/* ---- Calls on programs: run, rewrite, order
   Each answers with one word: a number and a place, which these two take from an answer (a uint64_t). Bits 0 to 15 are the
   place, bits 16 to 23 the number. Bits 24 and up are 0 today and may carry more later: don't compare an answer whole.
   The place is where the refused record starts, in the program after a record's refusals, in the log after KNITOUT_NO_PAIR,
   KNITOUT_TIED and KNITOUT_TORN_LOG; else it is 0. */
#ifdef __cplusplus
#define KNITOUT_CAST(type, value) static_cast<type>(value)
#else
#define KNITOUT_CAST(type, value) ((type)(value))
#endif
#define KNITOUT_NUMBER(answer) KNITOUT_CAST(unsigned, ((answer) >> 16) & 0xFFu)
#define KNITOUT_PLACE(answer) KNITOUT_CAST(unsigned, (answer) & 0xFFFFu)

/* Whether a rewriter or an order that gave this number wrote output and work. Evaluates its argument up to four times. */
#define KNITOUT_WRITTEN(number)                                          \
    ((number) == KNITOUT_DONE || (number) == KNITOUT_NO_PAIR ||          \
     (number) == KNITOUT_TIED || (number) == KNITOUT_TORN_LOG)

/* Runs a program from the empty state at a hook limit. Reads program[0] to program[length - 1] at most and writes nothing.
   Gives the first that fits: KNITOUT_BAD_STATE (the limit, before all else), KNITOUT_TOO_LONG, the refusal of the first record
   that has no step, KNITOUT_DONE. A program that is done at a limit is done at every greater one up to KNITOUT_LIMIT_MOST.
   Stack 744 bytes; worst time 34 ms. */
uint64_t knitout_run_at(uint8_t limit, const uint8_t *program, size_t length);

/* The same at KNITOUT_LIMIT_MOST. Stack 744 bytes; worst time 34 ms. */
uint64_t knitout_run(const uint8_t *program, size_t length);

/* Runs a program at a hook limit, copies it to the output and makes a log's swaps there: two neighbours change places exactly
   if they are not tied. Lengths are in bytes, work_count in entries; the output needs program_length bytes, work
   KNITOUT_WORK(program_length) entries. Output and work overlap nothing else that is lent; program and log are only read and
   may share bytes.
   Gives the first that fits: KNITOUT_BAD_STATE (the limit, before all else), KNITOUT_TOO_LONG, KNITOUT_NO_ROOM, a refusal as
   the run gives it; then of the log's records in turn KNITOUT_TORN_LOG, KNITOUT_NO_PAIR, KNITOUT_TIED; KNITOUT_DONE.
   After KNITOUT_DONE the output begins with the program as the swaps made it, program_length bytes, and work with the start
   of each of its records, an offset in the output. After KNITOUT_NO_PAIR, KNITOUT_TIED and KNITOUT_TORN_LOG the same holds, as
   the swaps before the refused one made it. Every other number writes nothing. Output past the program's length and work past
   the last record's start keep their contents.
   For a further log hand in the output's front as the program and another area as the output.
   Stack 896 bytes; worst time 173 ms. */
uint64_t knitout_rewrite_at(uint8_t limit, const uint8_t *program, size_t program_length, const uint8_t *log,
                            size_t log_length, uint8_t *output, size_t output_length, uint16_t *work, size_t work_count);

/* The same at KNITOUT_LIMIT_MOST. Stack 896 bytes; worst time 173 ms. */
uint64_t knitout_rewrite(const uint8_t *program, size_t program_length, const uint8_t *log, size_t log_length,
                         uint8_t *output, size_t output_length, uint16_t *work, size_t work_count);

/* Runs a program at a hook limit and writes its house order: racks stay, and between racks the next record is always the one
   whose bytes come first (unsigned, byte by byte, a shorter prefix first) among those not tied to an earlier one that remains.
   Two programs that are done get equal bytes exactly if swaps that the rewriter accepts lead from one to the other.
   Output and work as for the rewriter, and numbers too, but that there is no log: KNITOUT_NO_PAIR, KNITOUT_TIED and
   KNITOUT_TORN_LOG do not occur. After KNITOUT_DONE the output begins with the ordered program and work with the starts of its
   records; every other number writes nothing. What lies past them keeps its contents.
   Stack 888 bytes; worst time 64 s, which grows with the square of the length (docs/PERFORMANCE.md). */
uint64_t knitout_order_at(uint8_t limit, const uint8_t *program, size_t program_length, uint8_t *output,
                          size_t output_length, uint16_t *work, size_t work_count);

/* The same at KNITOUT_LIMIT_MOST. Stack 888 bytes; worst time 64 s. */
uint64_t knitout_order(const uint8_t *program, size_t program_length, uint8_t *output, size_t output_length, uint16_t *work,
                       size_t work_count);

/* ---- The call on two records: what ties them */
enum knitout_by { KNITOUT_UNTIED = 0, KNITOUT_BY_RACK = 1, KNITOUT_BY_CARRIER = 2, KNITOUT_BY_EXTENTS = 3 };

/* The outermost layers; carrier k is layer k. */
enum knitout_layer { KNITOUT_LAYER_FRONT = 0, KNITOUT_LAYER_BACK = KNITOUT_CARRIERS + 1 };

/* What ties two records. A field without meaning is 0. (Padding behind: compare fields, not bytes.) */
struct knitout_tied {
    int32_t left, right; /* the half columns that both extents cover, leftmost and rightmost */
    uint8_t number;      /* KNITOUT_DONE: not tied; KNITOUT_TIED; or a refusal */
    uint8_t by;          /* enum knitout_by */
    uint8_t carrier;     /* the least carrier that both name */
    uint8_t low, high;   /* the layers that both extents cover, lowest and highest */
};

/* Tells whether the record at the front of first[] and the one at the front of second[] are tied at a racking, and by what.
   What follows a record is not looked at, nor whether the records have a step. Reads only, writes nothing.
   The number is the first that fits: KNITOUT_BAD_STATE (the racking is out of its range, before all else);
   KNITOUT_UNKNOWN_KIND, KNITOUT_CUT_SHORT or KNITOUT_FIELD_RANGE of the first record, then of the second; KNITOUT_TIED;
   KNITOUT_DONE. After KNITOUT_TIED the field by is
   - KNITOUT_BY_RACK if either is a rack;
   - else KNITOUT_BY_CARRIER if both name one carrier: carrier is the least such;
   - else KNITOUT_BY_EXTENTS: half columns left to right and layers low to high are exactly what the extents have in common.
   After every other number all fields but number are 0.
   With its (first) needle at column z, a record's extent is
     drop                 half column 2 z                   its bed's layer
     xfer                 half column 2 z                   all layers
     in, out, miss        half columns 2 z - 1 to 2 z + 1   its carrier's layer
     tuck, knit, plated   half columns 2 z - 1 to 2 z + 1   from its bed's layer to its carrier's (plated: the further one's)
     split                half columns 2 z - 1 to 2 z + 1   all layers
   After a rewriter's KNITOUT_TIED at place p the log's position is i = log[p + 1] * 256 + log[p + 2]. The pair stands at
   output + work[i] and output + work[i + 1], with program_length - work[i] and program_length - work[i + 1] bytes left; the
   racking in force is that of the last rack before record i in the output, 0 if there is none.
   Stack 156 bytes; worst time 6 microseconds. */
struct knitout_tied knitout_tie(int8_t racking, const uint8_t *first, size_t first_length, const uint8_t *second,
                                size_t second_length);

/* ---- Calls on a machine state: step, carriers */

/* The side of its needle that a carrier is attached at. (A record's direction is another matter: enum knitout_direction.) */
enum knitout_side { KNITOUT_UNATTACHED = 0, KNITOUT_LEFT = 1, KNITOUT_RIGHT = 2 };

/* A yarn carrier. A field without meaning is 0: all of an inactive carrier's, bed and needle of an unattached one's. */
struct knitout_carrier {
    uint8_t active;  /* 1 parked, 0 inactive */
    uint8_t side;    /* enum knitout_side */
    int16_t slot;    /* where it is parked, KNITOUT_SLOT_LEAST to KNITOUT_SLOT_MOST */
    uint16_t bed;    /* the attachment's needle: enum knitout_bed */
    uint16_t needle; /* its number there, below KNITOUT_NEEDLES */
};

/* A machine state, which the firmware owns and lends. There is no padding: every byte is a value. The empty state, where a run
   starts, has racking 0, no loops, no active carrier and the machine's hook limit. A state of all 0 is out of range: its limit
   is 0. */
struct knitout_state {
    int8_t racking;                                    /* KNITOUT_RACKING_LEAST to KNITOUT_RACKING_MOST */
    uint8_t loops[KNITOUT_HOOKS];                      /* 0 to limit on each hook: the front bed's, then the back bed's */
    uint8_t limit;                                     /* KNITOUT_LIMIT_LEAST to KNITOUT_LIMIT_MOST; no step changes it */
    struct knitout_carrier carriers[KNITOUT_CARRIERS]; /* carrier k at k - 1 */
};

/* The hook of a needle among a state's loops. */
#define KNITOUT_HOOK(bed, needle) ((bed) * KNITOUT_NEEDLES + (needle))

/* Initialises a state, static or not, to the empty one at a limit:
       static struct knitout_state panel = KNITOUT_EMPTY(KNITOUT_LIMIT_MOST);
   To empty a state again, assign one that is kept empty. */
#define KNITOUT_EMPTY(limit) {0, {0}, (limit), {{0, 0, 0, 0, 0}}}

/* The answer of a step. (There is padding before the length, here and below: compare fields, not bytes.) */
struct knitout_stepped {
    uint8_t number;   /* enum knitout_number */
    uint8_t complete; /* 1 if the state that the step leaves is the empty one at its own limit, else 0 */
    uint16_t looked;  /* how many hooks were looked at to decide complete, 0 to KNITOUT_HOOKS (see knitout_step) */
    uint64_t length;  /* the record's length in bytes; 0 if refused */
};

/* Makes the step of the first record of bytes[0] to bytes[length - 1] on the lent state, at that state's limit. What follows
   the record is not looked at. Gives the first that fits: KNITOUT_BAD_STATE, a record's refusal, KNITOUT_DONE; of no bytes,
   as at a program's end, KNITOUT_CUT_SHORT.
   After KNITOUT_DONE the state is the one after the record, its limit the same. Every other number writes nothing; which it
   will be is not known beforehand, so the state's memory must be writable.
   Complete and looked are said of the state as the call leaves it. A refused step leaves it as it was, so complete may be 1
   then too; only after KNITOUT_BAD_STATE both are always 0.
   A racking that is not 0 decides complete at once, and looked is 0. At racking 0 a walk goes over the hooks, from f.0 up and
   then from b.0 up, and ends at the first that holds a loop: looked is how many hooks it looked at, that one included, and
   KNITOUT_HOOKS if none holds a loop. Only then the carriers decide.
   Steps through a program of at most KNITOUT_PROGRAM_MOST bytes, from the empty state at a limit, each lent the rest where the
   last record ended, go the way of the program's run at that limit. (A longer program can be stepped too; its run gets
   KNITOUT_TOO_LONG.)
   Stack 1,912 bytes; worst time 75 microseconds. */
struct knitout_stepped knitout_step(struct knitout_state *state, const uint8_t *bytes, size_t length);

/* The answer of a list. */
struct knitout_served {
    uint8_t number;  /* enum knitout_number */
    uint64_t length; /* the entries written, KNITOUT_CARRIERS; 0 if refused */
};

/* Lists the carriers of a state: carrier k to list[k - 1]; count is in entries. Gives the first that fits: KNITOUT_BAD_STATE,
   KNITOUT_NO_ROOM, KNITOUT_DONE. After KNITOUT_DONE entries from list[KNITOUT_CARRIERS] on keep their contents; every other
   number writes nothing. The list may not be the state's own carriers.
   Stack 628 bytes; worst time 38 microseconds. */
struct knitout_served knitout_carriers(const struct knitout_state *state, struct knitout_carrier *list, size_t count);

/* ---- Layouts that the archive is built with, on 32 and on 64 bits; crates/banthewig/proofs/Crossing.antt proves the same of it.
   A packed carrier or state is known by its alignment alone, since neither has padding; a wider or narrower field before padding
   by its width. */
#ifdef __cplusplus
#define KNITOUT_ASSERT(holds) static_assert(holds, #holds)
#define KNITOUT_ALIGNMENT(type) alignof(type)
#define KNITOUT_WIDTH(name, field) sizeof(name::field)
#else
#define KNITOUT_ASSERT(holds) _Static_assert(holds, #holds)
#define KNITOUT_ALIGNMENT(type) _Alignof(type)
#define KNITOUT_WIDTH(name, field) sizeof(((struct name *)0)->field)
#endif
KNITOUT_ASSERT(sizeof(struct knitout_tied) == 16);
KNITOUT_ASSERT(KNITOUT_ALIGNMENT(struct knitout_tied) == 4);
KNITOUT_ASSERT(offsetof(struct knitout_tied, left) == 0);
KNITOUT_ASSERT(offsetof(struct knitout_tied, right) == 4);
KNITOUT_ASSERT(offsetof(struct knitout_tied, number) == 8);
KNITOUT_ASSERT(offsetof(struct knitout_tied, by) == 9);
KNITOUT_ASSERT(offsetof(struct knitout_tied, carrier) == 10);
KNITOUT_ASSERT(offsetof(struct knitout_tied, low) == 11);
KNITOUT_ASSERT(offsetof(struct knitout_tied, high) == 12);
KNITOUT_ASSERT(KNITOUT_WIDTH(knitout_tied, high) == 1);
KNITOUT_ASSERT(sizeof(struct knitout_carrier) == 8);
KNITOUT_ASSERT(KNITOUT_ALIGNMENT(struct knitout_carrier) == 2);
KNITOUT_ASSERT(offsetof(struct knitout_carrier, active) == 0);
KNITOUT_ASSERT(offsetof(struct knitout_carrier, side) == 1);
KNITOUT_ASSERT(offsetof(struct knitout_carrier, slot) == 2);
KNITOUT_ASSERT(offsetof(struct knitout_carrier, bed) == 4);
KNITOUT_ASSERT(offsetof(struct knitout_carrier, needle) == 6);
KNITOUT_ASSERT(sizeof(struct knitout_state) == 582);
KNITOUT_ASSERT(KNITOUT_ALIGNMENT(struct knitout_state) == 2);
KNITOUT_ASSERT(offsetof(struct knitout_state, racking) == 0);
KNITOUT_ASSERT(offsetof(struct knitout_state, loops) == 1);
KNITOUT_ASSERT(offsetof(struct knitout_state, limit) == 501);
KNITOUT_ASSERT(offsetof(struct knitout_state, carriers) == 502);
KNITOUT_ASSERT(sizeof(struct knitout_stepped) == 16);
KNITOUT_ASSERT(KNITOUT_ALIGNMENT(struct knitout_stepped) == 8);
KNITOUT_ASSERT(offsetof(struct knitout_stepped, number) == 0);
KNITOUT_ASSERT(offsetof(struct knitout_stepped, complete) == 1);
KNITOUT_ASSERT(offsetof(struct knitout_stepped, looked) == 2);
KNITOUT_ASSERT(KNITOUT_WIDTH(knitout_stepped, looked) == 2);
KNITOUT_ASSERT(offsetof(struct knitout_stepped, length) == 8);
KNITOUT_ASSERT(sizeof(struct knitout_served) == 16);
KNITOUT_ASSERT(KNITOUT_ALIGNMENT(struct knitout_served) == 8);
KNITOUT_ASSERT(offsetof(struct knitout_served, number) == 0);
KNITOUT_ASSERT(KNITOUT_WIDTH(knitout_served, number) == 1);
KNITOUT_ASSERT(offsetof(struct knitout_served, length) == 8);
#undef KNITOUT_WIDTH
#undef KNITOUT_ALIGNMENT
#undef KNITOUT_ASSERT

/* ---- The archive's interface
   The archive has one function whose name ends in its interface's number, which it also returns. Every translation unit that
   includes this header refers to the function of this header's number, so that an archive of another does not link:
   'undefined reference to knitout_interface_..'. It costs a pointer of constant data in each, and no instruction. What stands
   in for the archive in a test has the function too.
   It relies on the attribute 'used', which keeps the pointer in the object, and for links with --gc-sections on 'retain' (gcc
   11, clang 13, binutils 2.36 and later), which keeps it in the program: without 'retain' such links are not checked, and
   with a compiler that has not GNU C's attributes none is. (-Wattributes: gcc knows 'retain' even where its assembler does
   not, and warns.) arm-none-eabi-gcc 12 of Debian leaves 'retain' out though its assembler has it, so for ARM the assembler is
   told, from gcc 11 on. */
#define KNITOUT_PASTED(name, number) name##number
#define KNITOUT_PASTE(name, number) KNITOUT_PASTED(name, number)
uint32_t KNITOUT_PASTE(knitout_interface_, KNITOUT_INTERFACE)(void);
#if defined(__arm__) && defined(__ELF__) && !defined(__clang__) && defined(__GNUC__) && __GNUC__ >= 11
#define KNITOUT_QUOTED(name) #name
#define KNITOUT_QUOTE(name) KNITOUT_QUOTED(name)
__asm__(".pushsection .rodata.knitout_interface, \"aR\", %progbits\n\t.balign 4\n\t.word "
        KNITOUT_QUOTE(KNITOUT_PASTE(knitout_interface_, KNITOUT_INTERFACE)) "\n\t.popsection");
#undef KNITOUT_QUOTE
#undef KNITOUT_QUOTED
#elif defined(__GNUC__)
#define KNITOUT_KEPT __attribute__((used))
#ifdef __has_attribute
#if __has_attribute(retain)
#undef KNITOUT_KEPT
#define KNITOUT_KEPT __attribute__((used, retain))
#endif
#endif
#pragma GCC diagnostic push
#pragma GCC diagnostic ignored "-Wattributes"
KNITOUT_KEPT static uint32_t (*const knitout_interface_wanted)(void) = KNITOUT_PASTE(knitout_interface_, KNITOUT_INTERFACE);
#pragma GCC diagnostic pop
#undef KNITOUT_KEPT
#endif
#undef KNITOUT_PASTE
#undef KNITOUT_PASTED

#ifdef __cplusplus
}
#endif

#endif
