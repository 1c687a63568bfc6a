/* Holds include/fruscalenta.h to the library: calls every function that it declares and uses every constant, on logs and tables whose answers
 * are known, and looks at every byte that was lent. It prints a line for each wrong answer, and `N passed, M failed` at the end.
 * scripts/check-header.sh builds it, and tries it with headers that have a mistake.
 *
 * The header stands first, since it must need nothing before it, and twice, since others may include it too. */
#include "fruscalenta.h"
#include "fruscalenta.h"

#include <inttypes.h>
#include <stdio.h>
#include <stdlib.h>
#include <string.h>

#include "known.h"

#define COUNT(array) (sizeof(array) / sizeof *(array))
#define TRANSACTIONS 64 /* one past the highest transaction */
#define TWO_TO_32 ((size_t)1 << 32)
#define SOME_MORE 64 /* bytes in front of what is lent, and behind it */

static unsigned long passed, failed;
static const char *tried; /* the log or the table */

/* One answer. The line that it prints where the answer is wrong begins with what was tried. */
#define EXPECT(right, format, ...) \
    ((right) ? (void)passed++ : (failed++, (void)printf("failed: %s: " format "\n", tried, __VA_ARGS__)))

/* The log that is asked about. */
static uint8_t log_bytes[4097 * 4];
static size_t log_length;

/* Puts the operation at the front of a history into the log, so many times, and gives what stands behind it. */
static const char *put_operation(const char *history, size_t times) {
    static const char kinds[] = "?rwc!"; /* by their numbers: 0 and 4 are none */
    char kind = 0, item = 'x', site = 'A';
    unsigned transaction = 0;
    int used = 0;
    if (sscanf(history, " %c%u%n", &kind, &transaction, &used) != 2 || !strchr(kinds, kind)) {
        printf("failed: this is no history: %s\n", history);
        exit(1);
    }
    history += used;
    if (sscanf(history, "[%c%c]%n", &item, &site, &used) == 2)
        history += used;
    for (; times > 0; times--) {
        log_bytes[log_length++] = (uint8_t)(strchr(kinds, kind) - kinds);
        log_bytes[log_length++] = (uint8_t)transaction;
        log_bytes[log_length++] = (uint8_t)(item - 'x');
        log_bytes[log_length++] = (uint8_t)(site - 'A');
    }
    return history;
}

static void take_log(const struct known_log *known) {
    const char *history = known->history;
    tried = known->name;
    log_length = 0;
    while (*history != 0)
        history = put_operation(history, log_length == 0 && known->times > 0 ? known->times : 1);
    log_length -= known->cut;
}

static const struct known_log *log_named(const char *name) {
    for (size_t at = 0; at < COUNT(known_logs); at++)
        if (strcmp(known_logs[at].name, name) == 0)
            return &known_logs[at];
    printf("failed: there is no log with the name %s\n", name);
    exit(1);
}

/* The buffer that is lent, with some bytes around it. Every byte has a number that no answer has, and neighbours differ. */
static uint8_t memory[SOME_MORE + 400 + SOME_MORE];

static uint8_t filling(size_t at) { return (uint8_t)(128 | at * 37); }

static uint8_t *lent(void) {
    for (size_t at = 0; at < sizeof memory; at++)
        memory[at] = filling(at);
    return memory + SOME_MORE;
}

/* The front of the buffer has these bytes, and all others are as they were. */
static int left(const uint8_t *bytes, size_t count) {
    for (size_t at = 0; at < sizeof memory; at++) {
        int written = at >= SOME_MORE && at - SOME_MORE < count;
        if (memory[at] != (written ? bytes[at - SOME_MORE] : filling(at)))
            return 0;
    }
    return 1;
}

static void ask_verdict(size_t room, const struct known_log *known) {
    struct fruscalenta_judged got = fruscalenta_verdict(log_bytes, log_length, lent(), room);
    EXPECT(got.number == known->number && got.place == known->place && got.cycle == known->cycle && got.length == known->length &&
               left(known->records, 2 * known->length),
           "the verdict with room %zu is %" PRIu64 ", %" PRIu64 ", %" PRIu64 ", %" PRIu64 ", or left other bytes", room, got.number, got.place,
           got.cycle, got.length);
}

static void expect(struct fruscalenta_answer got, const char *what, uint64_t number, uint64_t place, uint64_t value) {
    EXPECT(got.number == number && got.place == place && got.value == value, "%s is %" PRIu64 ", %" PRIu64 ", %" PRIu64, what, got.number, got.place,
           got.value);
}

static void ask_source(size_t k, uint64_t number, uint64_t place, uint64_t transaction, uint64_t record) {
    struct fruscalenta_source got = fruscalenta_source_of_record(log_bytes, log_length, k);
    EXPECT(got.number == number && got.place == place && got.transaction == transaction && got.record == record,
           "the source of record %zu is %" PRIu64 ", %" PRIu64 ", %" PRIu64 ", %" PRIu64, k, got.number, got.place, got.transaction,
           got.record);
}

static void ask_edge(size_t i, size_t j, uint64_t number, uint64_t place, uint64_t value) {
    expect(fruscalenta_edge_between(log_bytes, log_length, i, j), "an edge", number, place, value);
}

/* Number 3 comes behind 1 and 2, and before all others. Number 10 comes last: a refused log is refused whatever is asked. */
static void check_log(const struct known_log *known) {
    static const struct known_log too_short = {.number = 3};
    static const size_t far[] = {TRANSACTIONS, FRUSCALENTA_NONE, TWO_TO_32, SIZE_MAX}; /* 2^32 is 0 in its lowest 32 bits */
    int by_length = known->number == 1 || known->number == 2;
    take_log(known);
    ask_verdict(FRUSCALENTA_ROOM, known);
    ask_verdict(400, known);
    ask_verdict(FRUSCALENTA_ROOM - 1, by_length ? known : &too_short);
    ask_verdict(0, by_length ? known : &too_short);
    expect(fruscalenta_check(log_bytes, log_length), "the check", known->number, known->place, 0);
    for (size_t at = 0; at < COUNT(far); at++) {
        uint64_t number = known->number ? known->number : 10;
        ask_edge(far[at], 0, number, known->place, 0);
        ask_edge(0, far[at], number, known->place, 0);
        if (far[at] >= log_length / 4) /* a long log has records with the lower of these numbers */
            ask_source(far[at], number, known->place, 0, 0);
    }
}

/* The source that record k of a log is known to have; null for none. */
static const struct known_source *source_of(const char *log, size_t k) {
    for (size_t at = 0; at < COUNT(known_sources); at++)
        if (strcmp(known_sources[at].log, log) == 0 && known_sources[at].k == k)
            return &known_sources[at];
    return NULL;
}

/* Every record of a log that passes, and the first number past its end. */
static void check_sources(const struct known_log *known) {
    take_log(known);
    for (size_t k = 0; k < log_length / 4; k++) {
        const struct known_source *source = source_of(known->name, k);
        if (source)
            ask_source(k, 0, 0, source->transaction, source->record);
        else
            ask_source(k, 0, 0, FRUSCALENTA_NONE, FRUSCALENTA_NONE);
    }
    ask_source(log_length / 4, 10, 0, 0, 0);
}

static void check_questions(void) {
    for (size_t at = 0; at < COUNT(known_logs); at++)
        if (known_logs[at].number == 0)
            check_sources(&known_logs[at]);
    for (size_t at = 0; at < COUNT(known_edges); at++) {
        take_log(log_named(known_edges[at].log));
        ask_edge(known_edges[at].i, known_edges[at].j, 0, 0, known_edges[at].reason);
    }
    take_log(log_named("transaction 63"));
    ask_edge(TRANSACTIONS - 1, 0, 0, 0, 0); /* 63 is a transaction, */
    ask_edge(TRANSACTIONS, 0, 10, 0, 0);    /* and 64 is not */
    take_log(log_named("4,096 records"));
    ask_source(FRUSCALENTA_NONE - 1, 0, 0, FRUSCALENTA_NONE, FRUSCALENTA_NONE); /* one below "none" is a record, here the commit, */
    ask_source(FRUSCALENTA_NONE, 10, 0, 0, 0);                                  /* and "none" is not */
}

static void check_sort(const struct known_sort *known) {
    struct fruscalenta_sorted got = fruscalenta_sort(known->table, known->set, lent());
    tried = known->name;
    EXPECT(got.cycle == known->cycle && got.length == known->length && left(known->members, known->length),
           "the sort is %" PRIu64 ", %" PRIu64 ", or left other bytes", got.cycle, got.length);
}

int main(void) {
    for (size_t at = 0; at < COUNT(known_logs); at++)
        check_log(&known_logs[at]);
    check_questions();
    for (size_t at = 0; at < COUNT(known_sorts); at++)
        check_sort(&known_sorts[at]);
    printf("%lu passed, %lu failed\n", passed, failed);
    return failed > 0 || passed == 0;
}

/* What the header declares, said again with exact types: two declarations that differ do not compile. It stands behind everything else, so
 * that what the header lacks is not found here. */
struct fruscalenta_judged fruscalenta_verdict(const uint8_t *log, size_t len, uint8_t *answer, size_t room);
struct fruscalenta_answer fruscalenta_check(const uint8_t *log, size_t len);
struct fruscalenta_source fruscalenta_source_of_record(const uint8_t *log, size_t len, size_t k);
struct fruscalenta_answer fruscalenta_edge_between(const uint8_t *log, size_t len, size_t i, size_t j);
struct fruscalenta_sorted fruscalenta_sort(const uint64_t table[64], uint64_t set, uint8_t members[64]);

/* The fields are numbers of 64 bits, one behind the other, and there are no more. */
#define FIELD(tag, field, index) \
    _Static_assert(_Generic(((struct tag *)0)->field, uint64_t : 1, default : 0) && offsetof(struct tag, field) == 8 * (index), \
                   #tag " has another " #field)
#define FIELDS(tag, count) _Static_assert(sizeof(struct tag) == 8 * (count), #tag " has another size")

FIELD(fruscalenta_judged, number, 0);
FIELD(fruscalenta_judged, place, 1);
FIELD(fruscalenta_judged, cycle, 2);
FIELD(fruscalenta_judged, length, 3);
FIELDS(fruscalenta_judged, 4);
FIELD(fruscalenta_answer, number, 0);
FIELD(fruscalenta_answer, place, 1);
FIELD(fruscalenta_answer, value, 2);
FIELDS(fruscalenta_answer, 3);
FIELD(fruscalenta_source, number, 0);
FIELD(fruscalenta_source, place, 1);
FIELD(fruscalenta_source, transaction, 2);
FIELD(fruscalenta_source, record, 3);
FIELDS(fruscalenta_source, 4);
FIELD(fruscalenta_sorted, cycle, 0);
FIELD(fruscalenta_sorted, length, 1);
FIELDS(fruscalenta_sorted, 2);
