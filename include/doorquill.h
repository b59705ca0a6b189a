/* The proved reader of GHW signal sections, for C and C++ on x86-64 Linux: libdoorquill.a, libdoorquill_changes.a for doorquill_read_changes,
 * libdoorquill_back.a for doorquill_read_back and libbench.a for doorquill_bench (a release has all in one libdoorquill.a).
 *
 * No call allocates, keeps state, blocks or fails to end; each reads and writes inside the memory that it is lent and nowhere else, whatever that
 * holds. Calls may run side by side on memory of their own. The archives need memcpy and memset and nothing else.
 *
 * A list is a pointer and a length in elements; an empty one may be NULL, 0. What the proofs take for granted of a C caller, lengths aside:
 * every list lies in memory that may be read, or written, for its whole length; none overlaps one that a call writes to; a bool is 0 or 1.
 * On acceptance an output is zero past the reported bytes, on a refusal it is zero throughout; working room is zero at every return.
 * docs/REFUSALS.md explains the numbers. */
#ifndef DOORQUILL_H
#define DOORQUILL_H

#include <stdbool.h>
#include <stddef.h>
#include <stdint.h>

#ifdef __cplusplus
extern "C" {
#endif

#define DOORQUILL_MOST_SIGNALS 65535u
#define DOORQUILL_MOST_VECTORS 16383u
/* bytes of sections or change records; bytes or numbers of any other buffer */
#define DOORQUILL_MOST_SECTION_BYTES 16777215u
#define DOORQUILL_MOST_BUFFER 1073741823u

enum doorquill_number {
    DOORQUILL_DONE = 0,
    /* a buffer over its limit */
    DOORQUILL_BUFFER_OVER_LIMIT = 1,
    /* table lists of unequal length, or too many signals or vectors */
    DOORQUILL_LISTS = 2,
    /* a bad vector in the tables */
    DOORQUILL_VECTOR = 3,
    /* a bad signal in the tables */
    DOORQUILL_SIGNAL = 4,
    /* a signal inside a vector's range that does not name that vector */
    DOORQUILL_RANGE = 5,
    /* too little working room */
    DOORQUILL_ROOM_SHORT = 6,
    /* the input ends too early */
    DOORQUILL_INPUT_ENDS = 7,
    /* an unknown section mark */
    DOORQUILL_MARK = 8,
    /* a snapshot's first four bytes that are not zero */
    DOORQUILL_ZEROS = 9,
    /* a wrong end mark */
    DOORQUILL_END_MARK = 10,
    /* a negative number in the directory */
    DOORQUILL_NEGATIVE = 11,
    /* a LEB128 number over 64 bits */
    DOORQUILL_LEB128 = 12,
    /* an id that is 0 or past the last signal */
    DOORQUILL_ID = 13,
    /* a value out of its kind's range */
    DOORQUILL_VALUE = 14,
    /* a time past 2^64-1 */
    DOORQUILL_TIME = 15,
    /* the next event or record does not fit the room for it */
    DOORQUILL_FULL = 16,
    /* an unknown kind of record */
    DOORQUILL_KIND = 17,
    /* a record out of order */
    DOORQUILL_ORDER = 18,
    /* a write that does not suit the signal's kind */
    DOORQUILL_UNSUITED = 19,
    /* an event whose value lies past the end of the value bytes */
    DOORQUILL_PAST_VALUES = 20,
    /* a new session while 32 are live */
    DOORQUILL_SESSIONS = 21,
    /* an id that is not above the one before it in its step */
    DOORQUILL_IDS_FALL = 22,
    /* a time that falls, or jumps by more than 2^63-1 */
    DOORQUILL_TIME_FALLS = 23,
    /* two of the bench's references equal, or an event of the three that cannot be counted */
    DOORQUILL_BENCH = 34
};

enum doorquill_kind {
    DOORQUILL_NINE_STATE = 0,     /* one byte, 0 to 8 */
    DOORQUILL_NINE_STATE_VEC = 1, /* the same, a bit of a vector */
    DOORQUILL_TWO_STATE = 2,      /* one byte, 0 or 1 */
    DOORQUILL_TWO_STATE_VEC = 3,  /* the same, a bit of a vector */
    DOORQUILL_U8 = 4,             /* one byte */
    DOORQUILL_LEB128_SIGNED = 5,  /* a signed number */
    DOORQUILL_F64 = 6             /* a real */
};

typedef struct doorquill_answer {
    uint64_t number; /* 0, or the refusal */
    uint64_t place;  /* of a refusal; 0 on acceptance. What follows is 0 on a refusal. */
    uint64_t read;   /* bytes of the input */
    uint64_t events; /* bytes written to events, kept or out */
    uint64_t values; /* bytes written to values */
    uint64_t steps;  /* time events made, kept or read */
} doorquill_answer;

/* A vector, as doorquill_read_sections_lent takes it. */
typedef struct doorquill_vector {
    uint32_t min; /* the lowest id, which is the highest bit */
    uint32_t max; /* the highest id, which is bit 0 */
    uint8_t state; /* 0 nine-state, 1 two-state */
    uint32_t reference;
} doorquill_vector;

/* Signals, by id from 1: kind, reference, vector number (0 for none). */
#define DOORQUILL_SIGNAL_LISTS                                                                                          \
    const uint8_t *kinds, size_t kinds_len, const uint32_t *refs, size_t refs_len, const uint32_t *vecs, size_t vecs_len

/* .. and vectors, by number from 1: lowest id, highest id, state (0 nine, 1 two), reference. */
#define DOORQUILL_TABLES                                                                                                \
    DOORQUILL_SIGNAL_LISTS, const uint32_t *mins, size_t mins_len, const uint32_t *maxs, size_t maxs_len,               \
        const uint8_t *states, size_t states_len, const uint32_t *vec_refs, size_t vec_refs_len

/* Outputs: event records and their value bytes. Working room: for each vector its value bytes (width / 8 for two-state, width / 2 for nine-state,
 * rounded up) and mask bytes (width / 8, rounded up), and for all V vectors two runs of V / 8 bytes, rounded up; list has V numbers. */
#define DOORQUILL_ROOMS                                                                                                 \
    uint8_t *events, size_t events_len, uint8_t *values, size_t values_len, uint8_t *room, size_t room_len,             \
        uint32_t *list, size_t list_len

/* Section reading. 13 event bytes for each section byte are always enough. Reals are little-endian whatever the flag says, as the Rust reads
 * them, or follow it. */
doorquill_answer doorquill_read_sections(DOORQUILL_TABLES, bool big_endian, bool reals_by_flag, const uint8_t *input, size_t input_len,
                                         DOORQUILL_ROOMS);

/* The same over vector records; flat is working room, four numbers for each vector. */
doorquill_answer doorquill_read_sections_lent(DOORQUILL_SIGNAL_LISTS, const doorquill_vector *vectors, size_t vectors_len,
                                              uint32_t *flat, size_t flat_len, bool big_endian, const uint8_t *input,
                                              size_t input_len, DOORQUILL_ROOMS);

/* Change records: 1 time (8 bytes), 2 byte write (id, 1 byte), 3 wide write (id, 8 bytes), 4 step end; numbers big-endian, ids 4 bytes. */
doorquill_answer doorquill_read_changes(DOORQUILL_TABLES, const uint8_t *input, size_t input_len, DOORQUILL_ROOMS);

/* Event records: 1 time (8 bytes), 2 two-state and 3 nine-state value (reference, start and length in values), 4 real (reference, 8 bytes).
 * The time rule keeps times that rise, and drops what came at a time that fell. kept needs no more room than events has. */
doorquill_answer doorquill_time_rule(const uint8_t *events, size_t events_len, const uint8_t *values, size_t values_len,
                                     uint8_t *kept, size_t kept_len);

/* Change records to one cycle section and a tailer, and sections back to change records. */
doorquill_answer doorquill_write_sections(DOORQUILL_TABLES, bool big_endian, const uint8_t *changes, size_t changes_len,
                                          uint8_t *out, size_t out_len);
doorquill_answer doorquill_read_back(DOORQUILL_TABLES, bool big_endian, const uint8_t *input, size_t input_len, uint8_t *out,
                                     size_t out_len);

/* Fragments: each rise of the strobe between step ends, counted to the session then shown. Output records: 1 fragment (time 8, session 4),
 * 2 closed (time 8, session 4, count 8), 3 held (session 4, count 8), big-endian; 428 bytes more than events has are always enough. */
doorquill_answer doorquill_bench(const uint8_t *events, size_t events_len, const uint8_t *values, size_t values_len,
                                 uint32_t session, uint32_t strobe, uint32_t close, uint8_t *out, size_t out_len);

#ifdef __cplusplus
}
#endif

#endif
