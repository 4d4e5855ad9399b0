/* The worked listing of document 01 from C: its steps, the archive of its
   entries, what the archive answers, the order of events across the reset, the
   order of a list, a network that is laid up, and every refusal. What it prints is
   held to listing.out. */
#include <inttypes.h>
#include <stdio.h>
#include <stdlib.h>
#include <string.h>

#include "melontime.h"

enum action { ENTER, SEND, RECV, START };

struct step {
    enum action action;
    uint32_t station, peer, register_number;
};

static const struct step listing[] = {
    {ENTER, 0, 0, 501}, {SEND, 0, 1, 502}, {START, 1, 0, 0}, {RECV, 1, 0, 0},
    {RECV, 0, 1, 0},    {RECV, 1, 0, 0},   {RECV, 1, 0, 0},  {SEND, 1, 0, 503},
    {RECV, 0, 1, 0},    {RECV, 0, 1, 0},   {RECV, 0, 1, 0},
    /* Behind the listing: an entry that is unordered with the last receipt. */
    {ENTER, 1, 0, 504},
};

enum { STEPS = sizeof listing / sizeof listing[0], N = 2 };

static uint8_t area[MELONTIME_AREA];
static uint8_t records[MELONTIME_MAX_RECORDS * MELONTIME_RECORD];
static size_t count;
static uint8_t archive[2 * MELONTIME_BLOCK];

/* Ends the program where something is not as it must be. */
static void must(int holds, const char *what) {
    if (!holds) {
        printf("not so: %s\n", what);
        exit(1);
    }
}

static unsigned short_at(const uint8_t *bytes) {
    return bytes[0] | (unsigned)bytes[1] << 8;
}

static uint32_t long_at(const uint8_t *bytes) {
    return short_at(bytes) | (uint32_t)short_at(bytes + 2) << 16;
}

static void put_long(uint8_t *bytes, uint32_t number) {
    for (int k = 0; k < 4; k++)
        bytes[k] = (uint8_t)(number >> 8 * k);
}

/* The header of the listing, with another ceiling perhaps. */
static uint64_t write_header(uint32_t t, uint8_t *block, size_t length) {
    uint8_t allowances[MELONTIME_ALLOWANCES] = {3, 0, 3, 0};
    uint8_t limits[MELONTIME_LIMITS] = {0};
    limits[8 * 0 + 1] = limits[8 * 1 + 0] = 2;
    return melontime_write_header(N, t, allowances, sizeof allowances, limits, sizeof limits, block, length);
}

static uint64_t take(struct step s, uint8_t *event) {
    switch (s.action) {
    case ENTER:
        return melontime_enter(area, sizeof area, event, MELONTIME_RECORD, s.station, s.register_number);
    case SEND:
        return melontime_send(area, sizeof area, event, MELONTIME_RECORD, s.station, s.peer, s.register_number);
    case RECV:
        return melontime_recv(area, sizeof area, event, MELONTIME_RECORD, s.station, s.peer);
    default:
        return melontime_start(area, sizeof area, event, MELONTIME_RECORD, s.station);
    }
}

/* A step and its answer, as turnover prints them. */
static void run(unsigned number, struct step s) {
    static const char *const modes[] = {"normal", "mute", "stand-by"};
    uint8_t event[MELONTIME_RECORD] = {0};
    uint64_t answer = take(s, event);
    if (MELONTIME_IS_REFUSED(answer)) {
        printf("%u no %" PRIu64 "\n", number, answer);
    } else if (MELONTIME_IS_ENTRY(answer)) {
        printf("%u entry %" PRIu32 " %u", number, long_at(event + 4), event[1]);
        for (int k = 0; k < N; k++)
            printf(" %u", short_at(event + 16 + 2 * k));
        if (s.action == RECV)
            printf(" %" PRIu64, MELONTIME_NEWS(answer));
        else
            must(answer == MELONTIME_ENTRY, "only a receipt tells news");
        printf("\n");
        memcpy(records + MELONTIME_RECORD * count++, event, MELONTIME_RECORD);
    } else {
        printf("%u mode %" PRIu64 " %" PRIu32 " %s\n", number, MELONTIME_PHASE(answer), s.station,
               modes[MELONTIME_MODE(answer)]);
    }
}

static void print_verdict(uint64_t answer) {
    static const char *const verdicts[] = {"before", "after", "same", "unordered"};
    if (MELONTIME_IS_REFUSED(answer))
        printf(" %" PRIu64, answer);
    else
        printf(" %s", verdicts[answer - MELONTIME_VERDICT_BEFORE]);
}

/* The archive of the entries, written and read back. */
static void write_archive(void) {
    uint8_t *entries = archive + MELONTIME_BLOCK;
    uint8_t fields[MELONTIME_FIELDS];
    uint64_t answer;
    must(write_header(7, archive, MELONTIME_BLOCK) == MELONTIME_DONE, "the header is written");
    answer = melontime_write_entries(1, records, MELONTIME_RECORD * count, entries, MELONTIME_BLOCK);
    must(answer == MELONTIME_DONE, "the entries are written");

    answer = melontime_archive_records(archive, sizeof archive);
    must(answer >= MELONTIME_TOLD, "it is an archive");
    printf("archive of %" PRIu64 " records\n", MELONTIME_COUNT(answer));
    answer = melontime_read_header(archive, MELONTIME_BLOCK, fields, sizeof fields);
    must(answer == MELONTIME_DONE, "the header is read");
    printf("header: n %u, t %u, allowances %u %u, limits %u %u\n", fields[0], short_at(fields + 1),
           short_at(fields + 3), short_at(fields + 5), fields[19 + 1], fields[19 + 8]);
    answer = melontime_read_entries(entries, MELONTIME_BLOCK);
    must(answer >= MELONTIME_TOLD, "the entries are read");
    printf("block %" PRIu64 " of %" PRIu64 " records\n", MELONTIME_BLOCK_NUMBER(answer),
           MELONTIME_BLOCK_RECORDS(answer));
}

/* Each record as it is found, its verdicts on all, and its unordered list. */
static void read_archive(void) {
    static const char *const kinds[] = {"", "own", "sent", "received"};
    for (size_t k = 0; k < count; k++) {
        const uint8_t *record = records + MELONTIME_RECORD * k;
        uint8_t found[MELONTIME_RECORD], of_block[MELONTIME_RECORD];
        uint64_t list[MELONTIME_MAX_RECORDS], answer;
        answer = melontime_found_record(archive, sizeof archive, k, found, sizeof found);
        must(answer == MELONTIME_DONE && memcmp(found, record, sizeof found) == 0, "the record is found");
        answer = melontime_read_record(archive + MELONTIME_BLOCK, MELONTIME_BLOCK, (uint32_t)k, of_block,
                                       sizeof of_block);
        must(answer == MELONTIME_DONE && memcmp(of_block, record, sizeof found) == 0, "the record is read");
        printf("record %zu: %s, register number %" PRIu32 "; verdicts", k, kinds[found[0]], long_at(found + 8));
        for (size_t j = 0; j < count; j++)
            print_verdict(melontime_verdict(found, sizeof found, records + MELONTIME_RECORD * j, MELONTIME_RECORD));
        answer = melontime_unordered(archive, sizeof archive, k, list, MELONTIME_MAX_RECORDS);
        must(answer >= MELONTIME_TOLD, "there is a list");
        printf("; %" PRIu64 " unordered", MELONTIME_COUNT(answer));
        for (uint64_t place = 0; place < MELONTIME_COUNT(answer); place++)
            printf("%s %" PRIu64, place == 0 ? ":" : "", list[place]);
        printf("\n");
    }
}

/* The order of all entries, across the reset too. */
static void try_archive_verdicts(void) {
    for (size_t k = 0; k < count; k++) {
        const uint8_t *record = records + MELONTIME_RECORD * k;
        printf("record %zu: station %u, phase %" PRIu32 "; in the archive", k, record[1], long_at(record + 4));
        for (size_t j = 0; j < count; j++) {
            uint64_t answer = melontime_archive_verdict(archive, sizeof archive, k, j);
            must(answer >= MELONTIME_VERDICT_BEFORE, "there is an order");
            print_verdict(answer);
        }
        printf("\n");
    }
}

/* Two stations make an entry each, reset, and make one each; nothing is sent. Then
   only a station's own course tells an order across the reset. */
static void try_quiet_reset(void) {
    static const struct step steps[] = {
        {ENTER, 0, 0, 1}, {ENTER, 1, 0, 2}, {START, 0, 0, 0}, {RECV, 1, 0, 0}, {RECV, 0, 1, 0},
        {RECV, 1, 0, 0},  {RECV, 0, 1, 0},  {ENTER, 0, 0, 3}, {ENTER, 1, 0, 4},
    };
    uint8_t blocks[2 * MELONTIME_BLOCK], events[4 * MELONTIME_RECORD];
    size_t entries = 0;
    uint64_t answer;
    memcpy(blocks, archive, MELONTIME_BLOCK);
    answer = melontime_setup(blocks, MELONTIME_BLOCK, area, sizeof area);
    must(answer == MELONTIME_DONE, "setup is accepted");
    for (size_t k = 0; k < sizeof steps / sizeof steps[0]; k++)
        entries += MELONTIME_IS_ENTRY(take(steps[k], events + MELONTIME_RECORD * entries));
    must(entries == 4, "each entry is accepted");
    answer = melontime_write_entries(1, events, sizeof events, blocks + MELONTIME_BLOCK, MELONTIME_BLOCK);
    must(answer == MELONTIME_DONE, "the entries are written");
    printf("nothing sent, across the reset:");
    for (uint64_t k = 0; k < 4; k++)
        print_verdict(melontime_archive_verdict(blocks, sizeof blocks, k % 2, 2 + k / 2));
    printf("\n");
}

enum { BACKWARDS = 4 };

/* An archive of three stations that send nothing. The last record is of station 2;
   those before it are of the others, from the last entry to the first. */
static void write_backwards(uint8_t *blocks) {
    uint8_t allowances[MELONTIME_ALLOWANCES] = {2, 0, 2, 0, 1, 0};
    uint8_t limits[MELONTIME_LIMITS] = {0};
    uint8_t events[(BACKWARDS + 1) * MELONTIME_RECORD];
    uint64_t answer;
    limits[8 * 0 + 1] = limits[8 * 1 + 0] = limits[8 * 1 + 2] = limits[8 * 2 + 1] = 1;
    answer = melontime_write_header(3, 9, allowances, sizeof allowances, limits, sizeof limits, blocks,
                                    MELONTIME_BLOCK);
    must(answer == MELONTIME_DONE, "the header is written");
    must(melontime_setup(blocks, MELONTIME_BLOCK, area, sizeof area) == MELONTIME_DONE, "setup is accepted");
    for (uint32_t k = 0; k <= BACKWARDS; k++) {
        uint32_t number = k < BACKWARDS ? BACKWARDS - 1 - k : k;
        struct step entry = {ENTER, k < BACKWARDS ? 1 - k % 2 : 2, 0, k};
        must(take(entry, events + MELONTIME_RECORD * number) == MELONTIME_ENTRY, "the entry is accepted");
    }
    answer = melontime_write_entries(1, events, sizeof events, blocks + MELONTIME_BLOCK, MELONTIME_BLOCK);
    must(answer == MELONTIME_DONE, "the entries are written");
}

/* A list is by station, then own count, however the records are numbered. */
static void try_list_order(void) {
    uint8_t blocks[2 * MELONTIME_BLOCK];
    uint64_t list[BACKWARDS], answer;
    write_backwards(blocks);
    answer = melontime_unordered(blocks, sizeof blocks, BACKWARDS, list, BACKWARDS);
    must(answer == MELONTIME_TOLD + BACKWARDS, "all others are listed");
    printf("by station, then own count:");
    for (int place = 0; place < BACKWARDS; place++)
        printf(" %" PRIu64, list[place]);
    printf("\n");
}

static void refused(const char *what, uint64_t answer, uint64_t expected) {
    must(MELONTIME_IS_REFUSED(answer), what);
    must(answer == expected, what);
    printf("%s: no %" PRIu64 "\n", what, answer);
}

/* A step that is refused and leaves the area and the record area. */
static void refused_step(const char *what, struct step s, uint64_t expected) {
    static uint8_t before[MELONTIME_AREA];
    uint8_t event[MELONTIME_RECORD] = {0}, blank[MELONTIME_RECORD] = {0};
    memcpy(before, area, sizeof area);
    refused(what, take(s, event), expected);
    must(memcmp(before, area, sizeof area) == 0, "the area is left");
    must(memcmp(event, blank, sizeof event) == 0, "the record area is left");
}

static void accepted(struct step s) {
    uint8_t event[MELONTIME_RECORD];
    must(!MELONTIME_IS_REFUSED(take(s, event)), "the step is accepted");
}

static void setup(void) {
    must(melontime_setup(archive, MELONTIME_BLOCK, area, sizeof area) == MELONTIME_DONE, "setup is accepted");
}

static void try_rest(void) {
    setup();
    must(melontime_rest(area, sizeof area) == MELONTIME_REST_YES, "the initial network is at rest");
    accepted((struct step){SEND, 0, 1, 1});
    must(melontime_rest(area, sizeof area) == MELONTIME_REST_NO, "a message is under way");
    accepted((struct step){RECV, 1, 0, 0});
    must(melontime_rest(area, sizeof area) == MELONTIME_REST_YES, "the message is received");
}

/* How many receipts are still to come. */
static uint64_t receipts_to_rest(void) {
    uint64_t answer = melontime_receipts_to_rest(area, sizeof area);
    must(answer >= MELONTIME_TOLD, "the receipts to rest are told");
    return MELONTIME_COUNT(answer);
}

/* A message and a reset are under way, and nothing but receipts is done. */
static void try_receipts_to_rest(void) {
    static const struct step receipts[] = {
        {RECV, 0, 1, 0}, {RECV, 1, 0, 0}, {RECV, 1, 0, 0}, {RECV, 1, 0, 0}, {RECV, 0, 1, 0},
    };
    setup();
    must(receipts_to_rest() == 0, "there is nothing to receive");
    accepted((struct step){SEND, 0, 1, 1});
    accepted((struct step){START, 1, 0, 0});
    printf("receipts to rest: %" PRIu64, receipts_to_rest());
    for (size_t k = 0; k < sizeof receipts / sizeof receipts[0]; k++) {
        uint64_t before = receipts_to_rest();
        must(melontime_rest(area, sizeof area) == MELONTIME_REST_NO, "the network is not at rest");
        accepted(receipts[k]);
        must(receipts_to_rest() == before - 1, "a receipt is one less to come");
        printf(" %" PRIu64, receipts_to_rest());
    }
    printf("\n");
    must(melontime_rest(area, sizeof area) == MELONTIME_REST_YES, "the network is at rest");
}

/* The number of counts that a message raised: one, and none. */
static void try_news(void) {
    uint8_t event[MELONTIME_RECORD];
    uint8_t *station_1 = area + 512 + 47;
    uint64_t answer;
    setup();
    accepted((struct step){SEND, 0, 1, 1});
    accepted((struct step){SEND, 0, 1, 2});
    answer = take((struct step){RECV, 1, 0, 0}, event);
    must(MELONTIME_IS_ENTRY(answer) && MELONTIME_NEWS(answer) == 1, "the first message is news");
    /* By hand, as a network of two has no other way for it to hear of the second send. */
    station_1[0] = 2;
    answer = take((struct step){RECV, 1, 0, 0}, event);
    must(MELONTIME_IS_ENTRY(answer) && MELONTIME_NEWS(answer) == 0, "the second message is no news");
    must(!MELONTIME_IS_ENTRY(take((struct step){START, 1, 0, 0}, event)), "a start is no entry");
    must(!MELONTIME_IS_ENTRY(take((struct step){START, 1, 0, 0}, event)), "a refusal is no entry");
}

/* An archive that lacks the first entry, which counts 1 for its station. */
static void try_ill_kept(void) {
    uint8_t blocks[2 * MELONTIME_BLOCK];
    uint64_t answer;
    memcpy(blocks, archive, MELONTIME_BLOCK);
    answer = melontime_write_entries(1, records + MELONTIME_RECORD, MELONTIME_RECORD * (count - 1),
                                     blocks + MELONTIME_BLOCK, MELONTIME_BLOCK);
    must(answer == MELONTIME_DONE, "the entries are written");
    refused("a verdict where the first entry is missing", melontime_archive_verdict(blocks, sizeof blocks, 1, 2),
            MELONTIME_REFUSED_ILL_KEPT);
}

static void try_refusals(void) {
    uint8_t block[MELONTIME_BLOCK], event[MELONTIME_RECORD];
    uint8_t *station_0 = area + 512;
    uint64_t one_place[1];

    must(write_header(6, block, sizeof block) == MELONTIME_DONE, "the header is written");
    refused("setup with the ceiling 6", melontime_setup(block, sizeof block, area, sizeof area),
            MELONTIME_REFUSED_NETWORK_RULE);
    refused("setup in too few bytes", melontime_setup(archive, MELONTIME_BLOCK, area, sizeof area - 1),
            MELONTIME_REFUSED_AREA_LENGTH);
    refused("setup by an entries block",
            melontime_setup(archive + MELONTIME_BLOCK, MELONTIME_BLOCK, area, sizeof area),
            MELONTIME_REFUSED_MALFORMED);

    setup();
    refused_step("an entry of station 2", (struct step){ENTER, 2, 0, 1}, MELONTIME_REFUSED_NO_SUCH_STATION);
    refused_step("a send to itself", (struct step){SEND, 0, 0, 1}, MELONTIME_REFUSED_NO_SUCH_STATION);
    refused_step("a receipt from an empty link", (struct step){RECV, 0, 1, 0}, MELONTIME_REFUSED_EMPTY_LINK);
    accepted((struct step){SEND, 0, 1, 1});
    accepted((struct step){SEND, 0, 1, 2});
    refused_step("a third send", (struct step){SEND, 0, 1, 3}, MELONTIME_REFUSED_USED_UP);
    accepted((struct step){START, 0, 0, 0});
    refused_step("a send of a mute station", (struct step){SEND, 0, 1, 3}, MELONTIME_REFUSED_MODE_FORBIDS);
    must(melontime_rest(area, sizeof area) == MELONTIME_REST_NO, "the network is not at rest");
    refused("an entry in a short record area",
            melontime_enter(area, sizeof area, event, sizeof event - 1, 0, 1), MELONTIME_REFUSED_AREA_LENGTH);

    /* States that no steps lead to, by the layout in docs/LAYOUT.md. */
    setup();
    put_long(station_0 + 40, 999999);
    refused_step("a start in the last phase", (struct step){START, 0, 0, 0}, MELONTIME_REFUSED_LAST_PHASE);
    station_0[0] = 7;
    refused_step("an entry at the ceiling", (struct step){ENTER, 0, 0, 1},
                 MELONTIME_REFUSED_ILL_FORMED_STATE);
    station_0[0] = 8;
    refused_step("an entry above the ceiling", (struct step){ENTER, 0, 0, 1},
                 MELONTIME_REFUSED_ILL_FORMED_STATE);
    refused("rest of no state", melontime_rest(area, sizeof area), MELONTIME_REFUSED_ILL_FORMED_STATE);
    refused("receipts to rest of no state", melontime_receipts_to_rest(area, sizeof area),
            MELONTIME_REFUSED_ILL_FORMED_STATE);

    refused("a verdict over phases",
            melontime_verdict(records, MELONTIME_RECORD, records + MELONTIME_RECORD * (count - 1), MELONTIME_RECORD),
            MELONTIME_REFUSED_DIFFERENT_PHASES);
    refused("a verdict on no record", melontime_verdict(records, MELONTIME_RECORD, records, 0),
            MELONTIME_REFUSED_MALFORMED);
    refused("a record behind the last",
            melontime_found_record(archive, sizeof archive, count, event, sizeof event),
            MELONTIME_REFUSED_NO_SUCH_RECORD);
    refused("a verdict on a record behind the last",
            melontime_archive_verdict(archive, sizeof archive, 0, count), MELONTIME_REFUSED_NO_SUCH_RECORD);
    refused("a list without a place", melontime_unordered(archive, sizeof archive, count - 1, one_place, 0),
            MELONTIME_REFUSED_AREA_LENGTH);
    refused("a block of no records", melontime_write_entries(1, records, 0, block, sizeof block),
            MELONTIME_REFUSED_NO_SUCH_RECORD);
    refused("a block of number 0", melontime_write_entries(0, records, MELONTIME_RECORD, block, sizeof block),
            MELONTIME_REFUSED_MALFORMED);
    try_ill_kept();
    archive[MELONTIME_BLOCK + 100] ^= 1;
    refused("an archive with a changed bit", melontime_archive_records(archive, sizeof archive),
            MELONTIME_REFUSED_MALFORMED);
}

int main(void) {
    uint8_t block[MELONTIME_BLOCK];
    must(write_header(7, block, sizeof block) == MELONTIME_DONE, "the header is written");
    must(melontime_setup(block, sizeof block, area, sizeof area) == MELONTIME_DONE, "setup is accepted");
    for (unsigned k = 0; k < STEPS; k++)
        run(k + 1, listing[k]);
    must(melontime_rest(area, sizeof area) == MELONTIME_REST_YES, "the network is at rest");
    write_archive();
    read_archive();
    try_archive_verdicts();
    try_quiet_reset();
    try_list_order();
    try_rest();
    try_receipts_to_rest();
    try_news();
    try_refusals();
    return 0;
}
