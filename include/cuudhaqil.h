/* The calls of target/staticlib/libexports.a (crates/exports_c). Each is proved to keep what its comment says, for every
 * argument that keeps what is said here: a slice is a pointer to its first element and the number of its elements, at
 * a non-null aligned pointer even where there are none, and a slice that is written overlaps no other.
 *
 * A call keeps nothing between calls and reads and writes only what it is lent, so calls may run in several threads at
 * a time on slices of their own. It needs at most CUUDHAQIL_STACK bytes of the thread's stack (measured, not proved).
 *
 * Numbers are the machine's own 64-bit numbers. A ledger that is kept as numbers, in a file say, is kept in the byte
 * order of the machine that wrote it, and goes with this version of the header: a later one may have more numbers, in
 * another order (CUUDHAQIL_VERSION, cuudhaqil_version). Whoever keeps it for longer writes down the version beside it. */
#ifndef CUUDHAQIL_H
#define CUUDHAQIL_H

#include <stddef.h>
#include <stdint.h>

#ifdef __cplusplus
extern "C" {
#endif

/* The version, 1,000,000 for the base, 1,000 for each later request and one for each change after it; the bytes of
 * stack that any call needs. What a caller lends, in elements: places for a step's list and for a verdict's, a ledger,
 * what is told of the current manifest; and in bytes what holds any step's and any verdict's record. */
enum {
    CUUDHAQIL_VERSION = 1007000,
    CUUDHAQIL_STACK = 262144,
    CUUDHAQIL_NAMES = 64,
    CUUDHAQIL_PLACES = 256,
    CUUDHAQIL_LEDGER = 1924,
    CUUDHAQIL_CURRENT = 3,
    CUUDHAQIL_LONGEST_STEP = 551,
    CUUDHAQIL_LONGEST_VERDICT = 2058
};

/* The verdict numbers, in words; the smallest that applies is given, and a refusal changes nothing. */
enum {
    CUUDHAQIL_ACCEPTED = 0,
    CUUDHAQIL_NOT_SOUND = 1,          /* the ledger is not sound */
    CUUDHAQIL_MALFORMED = 2,          /* the record, or the step's numbers, are no well-formed step */
    CUUDHAQIL_PAST = 3,               /* the time is below the ledger's clock */
    CUUDHAQIL_UNKNOWN_EPOCH = 4,      /* PUT, COMMIT, COMPACT: epoch 0, or above the role's epoch */
    CUUDHAQIL_FENCED = 5,             /* COMMIT, COMPACT: epoch below the role's epoch */
    CUUDHAQIL_SLOT_TAKEN = 6,         /* FENCE, COMMIT, COMPACT: the slot is at most the current manifest's number */
    CUUDHAQIL_SLOT_AHEAD = 7,         /* the same: the slot is above the next one */
    CUUDHAQIL_NOT_STORED = 8,         /* COMMIT, COMPACT: a named object is not stored */
    CUUDHAQIL_STORED = 9,             /* PUT: the number is stored */
    CUUDHAQIL_SPENT = 10,             /* PUT: the number is at most the highest number ever collected */
    CUUDHAQIL_STORE_FULL = 11,        /* PUT: every place is taken */
    CUUDHAQIL_HOLD_TAKEN = 12,        /* HOLD: a live hold has this number */
    CUUDHAQIL_NOT_ACTIVE = 13,        /* HOLD: the manifest is neither current nor held */
    CUUDHAQIL_HOLDS_FULL = 14,        /* HOLD: eight holds are live */
    CUUDHAQIL_NO_HOLD = 15,           /* RENEW, RELEASE, LIST, LOOK: no live hold has this number */
    CUUDHAQIL_NO_RATE = 16,           /* LOOK: no object of that currency in that manifest */
    CUUDHAQIL_NOTHING_TO_COMPACT = 17 /* COMPACT: no object of that currency in the current manifest */
};

/* The version of the calls, CUUDHAQIL_VERSION where header and archive belong together. */
uint64_t cuudhaqil_version(void);

/* Store names, with their folders: "manifest/", 20 decimal digits and ".manifest"; "wal/", 20 decimal digits and
 * ".sst". */

/* Reads all the bytes as one name.
 * 0: a manifest's name, 1: an object's; number[0] is its number, and the elements beyond it stay.
 * 2: no name (no folder or that of the other kind, another length, suffix or byte, a number above 2^64 - 1, object 0);
 *    number stays.
 * 3: number has no element; this goes first. */
uint64_t cuudhaqil_read_name(const uint8_t *name, size_t name_len, uint64_t *number, size_t number_len);

/* Writes the name of that kind (0 a manifest, 1 an object) and number at the start of out.
 * 38 for a manifest, 28 for an object: as many bytes were written, and those beyond them stay.
 * 2: no reader takes such a name (object 0, another kind); this goes first, and out stays.
 * 0: out is too short; out stays. */
uint64_t cuudhaqil_write_name(uint64_t kind, uint64_t number, uint8_t *out, size_t out_len);

/* Records: step and verdict records, and where the next record of a trace ends. */

/* Looks at the front of a trace.
 * 0: nothing is left. 1: the record is torn (fewer than 3 bytes, or fewer than it claims). Else its length. */
uint64_t cuudhaqil_next_record(const uint8_t *trace, size_t trace_len);

/* A step is eleven numbers with 64 places for COMMIT's list beside them:
 * numbers[0] kind: 0 FENCE, 1 PUT, 2 COMMIT, 3 COMPACT, 4 HOLD, 5 RENEW, 6 RELEASE, 7 LIST, 8 LOOK, 9 COLLECT;
 * [1] time, [2] role (0 writer, 1 compactor), [3] epoch, [4] slot, [5] object, [6] currency, [7] hold, [8] manifest,
 * [9] expiry, [10] how long the list is. Numbers that the kind does not have play no part, but the list does beside
 * every kind: a list beside another kind than COMMIT, a length above 64, or a place behind the list's end that is not
 * 0 make a step that no record can say. */

/* Reads all the bytes as one step record.
 * 0: read; the eleven numbers, 0 for what the kind does not have, and the list's 64 places, 0 beyond its end.
 * 2: no step record; both slices stay.
 * 3: numbers has fewer than 11 elements or list fewer than 64; this goes first, and both stay.
 * Elements beyond these stay. */
uint64_t cuudhaqil_read_step(const uint8_t *record, size_t record_len, uint64_t *numbers, size_t numbers_len,
                             uint64_t *list, size_t list_len);

/* Writes a step's record at the start of out. Elements beyond the eleven and the 64 play no part.
 * 3: numbers has fewer than 11 elements or list fewer than 64; this goes first, and out stays.
 * 2: no reader takes such a step; out stays.
 * 0: out is too short; out stays.
 * Else as many bytes were written, and those beyond them stay. 551 bytes hold any. */
uint64_t cuudhaqil_write_step(const uint64_t *numbers, size_t numbers_len, const uint64_t *list, size_t list_len,
                              uint8_t *out, size_t out_len);

/* A verdict is three numbers with 256 places for its list beside them:
 * numbers[0] case: 0 refused with the row, 1 accepted with the code alone, 2 FENCE with the epoch, 3 LIST with the
 * manifest, 4 LOOK with the object, 5 COLLECT; [1] that value, else 0; [2] how long the list is. */

/* Reads all the bytes as one verdict record; answers as cuudhaqil_read_step does, with 3 and 256 elements. */
uint64_t cuudhaqil_read_verdict(const uint8_t *record, size_t record_len, uint64_t *numbers, size_t numbers_len,
                                uint64_t *list, size_t list_len);

/* Writes a verdict's record; answers as cuudhaqil_write_step does, with 3 and 256 elements. 2,058 bytes hold any. */
uint64_t cuudhaqil_write_verdict(const uint64_t *numbers, size_t numbers_len, const uint64_t *list, size_t list_len,
                                 uint8_t *out, size_t out_len);

/* A ledger is 1,924 numbers: clock, the highest object number ever collected, the four occupancy words (bit i of word
 * k, both counted from 0, is place 64 k + i), 256 places of five (number, role, epoch, currency, named), the count of
 * manifests and nine places of 68 (number, writer epoch, compactor epoch, count, 64 names), the count of holds and
 * eight places of three (number, manifest, expiry). Any numbers may be lent. Those that no ledger can be (a role or a
 * mark above 1, a currency above 65,535) are a ledger that is not sound, as are a count that fits no place and all
 * else that breaks the rules. A refusal leaves the numbers as they are, bit for bit. */

/* Lays the fresh ledger over the first 1,924 elements; those beyond stay.
 * 0: done. 3: there are fewer; the slice stays. */
uint64_t cuudhaqil_fresh(uint64_t *ledger, size_t ledger_len);

/* 0: the ledger is sound. 1: it is not. 3: there are fewer than 1,924 elements. */
uint64_t cuudhaqil_is_sound(const uint64_t *ledger, size_t ledger_len);

/* The current manifest: numbers[0] is its number, numbers[1] the writer's epoch, numbers[2] the compactor's.
 * 0: told; elements beyond the three stay.
 * 1: the ledger is not sound; numbers stay.
 * 3: ledger has fewer than 1,924 elements or numbers fewer than 3; this goes first, and numbers stay. */
uint64_t cuudhaqil_current(const uint64_t *ledger, size_t ledger_len, uint64_t *numbers, size_t numbers_len);

/* The step (eleven numbers and 64 places, as cuudhaqil_read_step gives them) on the ledger.
 * 0: ledger is the next ledger, verdict its three numbers and objects the 256 places of its list, as
 *    cuudhaqil_read_verdict gives them; a refusal leaves the ledger's numbers as they are. Numbers that say no kind, a
 *    role above 1 or a currency of more than 16 bits are refused with 2, or with 1 where the ledger is not sound, as
 *    bytes are that are no step. Elements beyond these stay.
 * 3: a slice is too short (ledger 1,924, numbers 11, list 64, verdict 3, objects 256); this goes first, and all stay. */
uint64_t cuudhaqil_step(uint64_t *ledger, size_t ledger_len, const uint64_t *numbers, size_t numbers_len,
                        const uint64_t *list, size_t list_len, uint64_t *verdict, size_t verdict_len, uint64_t *objects,
                        size_t objects_len);

/* Runs a trace on the fresh ledger: each step record is judged as cuudhaqil_step does, any other record is refused
 * with 2.
 * 0: whole, 1: torn, 2: full; counts[0] is the bytes read, counts[1] the bytes written (a torn record, or one whose
 *    verdict has no room, is not counted). The verdicts stand at the start of out one behind the other, and the bytes
 *    beyond them stay; so do elements of counts beyond the first two.
 * 3: counts has fewer than 2 elements; this goes first, and all stays. */
uint64_t cuudhaqil_run(const uint8_t *trace, size_t trace_len, uint8_t *out, size_t out_len, uint64_t *counts,
                       size_t counts_len);

/* The same on the ledger that the 1,924 numbers say, as in cuudhaqil_step; these are then the next ledger's. On a ledger
 * that is not sound every record is refused with 1, and the numbers stay as they are.
 * 3: ledger has fewer than 1,924 elements or counts fewer than 2; this goes first, and all stays. */
uint64_t cuudhaqil_run_on(uint64_t *ledger, size_t ledger_len, const uint8_t *trace, size_t trace_len, uint8_t *out,
                          size_t out_len, uint64_t *counts, size_t counts_len);

#ifdef __cplusplus
}
#endif

#endif
