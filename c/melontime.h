/* The calls of the static library libmelontime.a. docs/HOST.md says what each of
   them answers, and in which order refusals are tried.

   Every call returns a number. From 1 to 99 it is a refusal, which has left
   all that the call was lent as it was; 0 and from 100 on it is an answer.
   The numbers mean what they mean for the call that returned them.

   Bytes pass as a pointer and a length. No call has a precondition on what
   they hold or how many they are. The pointer must not be null, also where
   the length is 0, and nothing that a call may write to shares a byte with
   anything else that it is lent. No call keeps a pointer.

   Stations, records and places are numbered from 0. */
#ifndef MELONTIME_H
#define MELONTIME_H

#include <stddef.h>
#include <stdint.h>

#ifdef __cplusplus
extern "C" {
#endif

/* Lengths in bytes, and bounds. */
enum {
    MELONTIME_AREA = 65536,    /* a network's state */
    MELONTIME_BLOCK = 512,     /* a block of an archive */
    MELONTIME_RECORD = 32,     /* the record of an event */
    MELONTIME_ALLOWANCES = 16, /* eight allowances of two bytes, the lower first */
    MELONTIME_LIMITS = 64,     /* eight rows of eight limits */
    MELONTIME_FIELDS = 83,     /* n, t in two bytes, allowances, limits */
    MELONTIME_MAX_STATIONS = 8,
    MELONTIME_MAX_RECORDS = 15 /* of an entries block */
};

/* Refusals: the same numbers for all calls.

   A step has 2 for two causes. Before all others but 11, the area is no image of
   a well-formed state. After all others, it is one that no steps on an initial
   network lead to, and after the step a link would hold more than its limit and
   2 items, a count would be above the ceiling, or a phase above 999,999. On an
   area that setup has made and only steps have changed, no step has 2. */
enum {
    MELONTIME_REFUSED_MALFORMED = 1,         /* block, record or archive: length, check, field or spare byte */
    MELONTIME_REFUSED_ILL_FORMED_STATE = 2,  /* the area is no well-formed state, or a step would leave a bound */
    MELONTIME_REFUSED_NETWORK_RULE = 3,      /* a well-made header breaks a network rule */
    MELONTIME_REFUSED_NO_SUCH_STATION = 4,   /* no such station, or the peer is no neighbour */
    MELONTIME_REFUSED_MODE_FORBIDS = 5,      /* the station's mode forbids the send or start */
    MELONTIME_REFUSED_USED_UP = 6,           /* the allowance, or the link's limit, of this phase */
    MELONTIME_REFUSED_EMPTY_LINK = 7,        /* there is nothing to receive */
    MELONTIME_REFUSED_LAST_PHASE = 8,        /* start in phase 999,999 */
    MELONTIME_REFUSED_DIFFERENT_PHASES = 10, /* a verdict on records of different phases */
    MELONTIME_REFUSED_AREA_LENGTH = 11,      /* a buffer or list too small, or not as long as asked */
    MELONTIME_REFUSED_NO_SUCH_RECORD = 12,   /* no record of this number; 0 or over 15 records to write */
    MELONTIME_REFUSED_ILL_KEPT = 13          /* own counts in a phase that are not 1, 2, 3 .., each once */
};

/* Answers that are no refusal. */
enum {
    MELONTIME_DONE = 0, /* of calls that only write */

    MELONTIME_ENTRY = 100, /* of enter, send and recv: an entry, its record in event; recv adds its news */

    MELONTIME_REST_YES = 100,
    MELONTIME_REST_NO = 101,

    MELONTIME_VERDICT_BEFORE = 100,
    MELONTIME_VERDICT_AFTER = 101,
    MELONTIME_VERDICT_SAME = 102,
    MELONTIME_VERDICT_UNORDERED = 103,

    MELONTIME_TOLD = 1000 /* from here on the answer tells numbers: see below */
};

/* A station's modes. */
enum { MELONTIME_NORMAL = 0, MELONTIME_MUTE = 1, MELONTIME_STAND_BY = 2 };

/* Whether an answer is a refusal: 1 to 99. The argument is evaluated once. */
#define MELONTIME_IS_REFUSED(answer) ((uint64_t)(answer)-1 < 99)

/* Whether an answer of enter, send or recv is an entry: recv has 100 to 107.
   The argument is evaluated once. */
#define MELONTIME_IS_ENTRY(answer) ((uint64_t)(answer)-MELONTIME_ENTRY < MELONTIME_MAX_STATIONS)

/* How many of the other stations' counts grew, 0 to 7, by a recv that took a
   message. Where it is 0 the message told the station nothing new. */
#define MELONTIME_NEWS(answer) ((answer)-MELONTIME_ENTRY)

/* Where the station is after start, and after a recv that took a control item. */
#define MELONTIME_PHASE(answer) (((answer)-MELONTIME_TOLD) / 4)
#define MELONTIME_MODE(answer) (((answer)-MELONTIME_TOLD) % 4)

/* What read_entries tells of a block. */
#define MELONTIME_BLOCK_NUMBER(answer) (((answer)-MELONTIME_TOLD) / 16)
#define MELONTIME_BLOCK_RECORDS(answer) (((answer)-MELONTIME_TOLD) % 16)

/* How many archive_records counts, how many unordered lists, and how many
   receipts receipts_to_rest tells. */
#define MELONTIME_COUNT(answer) ((answer)-MELONTIME_TOLD)

/* Makes an area of MELONTIME_AREA bytes the initial network of a header block. */
uint64_t melontime_setup(const uint8_t *block, size_t block_length, uint8_t *area, size_t area_length);

/* The steps of a network. event is MELONTIME_RECORD bytes, which an entry's
   record is written to; any other answer leaves them. */

/* An own entry of a station. */
uint64_t melontime_enter(uint8_t *area, size_t area_length, uint8_t *event, size_t event_length,
                         uint32_t station, uint32_t register_number);

/* A message from a station to a neighbour. */
uint64_t melontime_send(uint8_t *area, size_t area_length, uint8_t *event, size_t event_length,
                        uint32_t station, uint32_t peer, uint32_t register_number);

/* A station takes the first item of the link from a neighbour: MELONTIME_ENTRY
   and the news for a message, a phase and mode for a control item. */
uint64_t melontime_recv(uint8_t *area, size_t area_length, uint8_t *event, size_t event_length,
                        uint32_t station, uint32_t peer);

/* A station starts a reset: a phase and mode. */
uint64_t melontime_start(uint8_t *area, size_t area_length, uint8_t *event, size_t event_length,
                         uint32_t station);

/* Whether every station is normal, all in one phase, and no link holds an item. */
uint64_t melontime_rest(const uint8_t *area, size_t area_length);

/* How many receipts bring the network to rest where nothing else is done: the
   messages under way, and the control items that are still to be received. On an
   area that setup has made and only steps have changed, just so many calls of
   recv are accepted, in whichever order, and then rest is yes. */
uint64_t melontime_receipts_to_rest(const uint8_t *area, size_t area_length);

/* The order of two events of one phase, by their records. */
uint64_t melontime_verdict(const uint8_t *first, size_t first_length, const uint8_t *second,
                           size_t second_length);

/* Writes the header block of these fields to the first bytes of a buffer. */
uint64_t melontime_write_header(uint32_t n, uint32_t t, const uint8_t *allowances, size_t allowances_length,
                                const uint8_t *limits, size_t limits_length, uint8_t *area,
                                size_t area_length);

/* The fields of a header block, to the first MELONTIME_FIELDS bytes of a buffer. */
uint64_t melontime_read_header(const uint8_t *block, size_t block_length, uint8_t *fields,
                               size_t fields_length);

/* Writes an entries block, of a number from 1 and 1 to 15 records, to the
   first bytes of a buffer. */
uint64_t melontime_write_entries(uint32_t number, const uint8_t *records, size_t records_length,
                                 uint8_t *area, size_t area_length);

/* The number of an entries block and how many records it has. */
uint64_t melontime_read_entries(const uint8_t *block, size_t block_length);

/* Record k of an entries block, to the first bytes of a buffer. */
uint64_t melontime_read_record(const uint8_t *block, size_t block_length, uint32_t k, uint8_t *area,
                               size_t area_length);

/* Tests a whole archive and counts its records. */
uint64_t melontime_archive_records(const uint8_t *archive, size_t archive_length);

/* The record with a number in an archive, to the first bytes of a buffer. */
uint64_t melontime_found_record(const uint8_t *archive, size_t archive_length, uint64_t number, uint8_t *area,
                                size_t area_length);

/* The numbers of the records of a record's phase that are unordered with it, to
   the first places of a list: by station, then by the count of that station, both
   rising; records that have both in common, in an ill-kept archive, by number. */
uint64_t melontime_unordered(const uint8_t *archive, size_t archive_length, uint64_t number, uint64_t *list,
                             size_t list_length);

/* The order of two events of any phases, by the numbers of their records in an
   archive that is well kept: the own counts of each station in each phase are 1,
   2, 3 .., each once, in whichever order the records stand. In the archive of all
   entries of a network since setup, an event is before another where messages and
   each station's own course lead from one to the other, across resets too. */
uint64_t melontime_archive_verdict(const uint8_t *archive, size_t archive_length, uint64_t first,
                                   uint64_t second);

#ifdef __cplusplus
}
#endif

#endif
