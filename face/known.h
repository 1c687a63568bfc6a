/* Logs and tables of edges with their answers, from document 01: the logs that it names with what it says of them, and others by its table
 * of refusals and its rules. None comes from a program. */
#ifndef FACE_KNOWN_H
#define FACE_KNOWN_H

#include <stddef.h>
#include <stdint.h>

/* A log in the book's notation, as "w0[xA] c0", and the verdict on it with a buffer that is long enough. The numbers have fields of their own
 * here: were they the header's structs, two fields that are exchanged there would be exchanged on both sides. */
struct known_log {
    const char *name;
    const char *history; /* ? and ! stand for kinds that there are not */
    size_t times;        /* how often the first operation stands; 0 for once */
    size_t cut;          /* how many bytes are missing at the end */
    uint64_t number, place, cycle, length;
    uint8_t records[8]; /* the answer records, 2 bytes each */
};

#define SERIAL(n) .length = n, .records
#define CYCLE(n) .cycle = 1, .length = n, .records
#define REFUSED(a_number, a_place) .number = a_number, .place = a_place

static const struct known_log known_logs[] = {
    {"P1", "", SERIAL(0) = {0}},
    {"P2", "w0[xA] w0[xB] w0[yC] c0 r1[yC] w1[xA] c1 r2[xB] w2[yC] c2", CYCLE(2) = {1, 1, 2, 3}},
    {"P3", "w0[xA] w0[xB] w0[yC] c0 r1[yC] w1[xA] c1 w2[yC] c2", SERIAL(3) = {0, 0, 1, 0, 2, 0}},
    {"P4", "w0[xA] w1[xA] c1 c0", CYCLE(2) = {0, 1, 1, 2}},
    {"P5", "w0[xA] r0[xA] c0", SERIAL(1) = {0, 0}},
    {"P6", "w0[xA] w0[xB] c0 w1[xA] r1[xB] c1", REFUSED(8, 4)},
    {"P7", "r0[xA] c0", REFUSED(7, 0)},
    {"P8", "w0[xA] w0[xB] c0 w1[xA] c1 r2[xA] r2[xB] c2", CYCLE(2) = {1, 1, 2, 3}},
    {"P9", "w5[xA] c5 w3[xB] c3", SERIAL(2) = {5, 0, 3, 0}},
    {"P10", "w5[xA] c5 w3[yA] c3", SERIAL(2) = {3, 0, 5, 0}},
    {"P11", "w0[xA]", REFUSED(9, 0)},
    {"P12", "w0[xA] w0[xB] w0[yC] w0[yD] c0 r1[xA] r2[yD] w1[yC] c1 w2[xB] c2", CYCLE(2) = {1, 3, 2, 3}},
    {"P13", "w3[zA] c3 r1[zA] w0[zA] w0[xA] w2[xA] w2[yA] w1[yA] c0 c2 c1", CYCLE(3) = {0, 1, 2, 1, 1, 1}},
    {"P14", "c0 c0", REFUSED(6, 1)},

    {"c7", "c7", SERIAL(1) = {7, 0}},
    {"3 bytes", "c0", .cut = 1, REFUSED(2, 0)},
    {"kind 0", "?0[xA]", REFUSED(4, 0)},
    {"a commit with item 1", "c0[yA]", REFUSED(5, 0)},
    {"transaction 63", "c63", SERIAL(1) = {63, 0}},
    {"transaction 64", "c64", REFUSED(5, 0)},
    {"site 15", "w0[xP] c0", SERIAL(1) = {0, 0}},
    {"site 16", "w0[xQ] c0", REFUSED(5, 0)},
    {"4,096 records", "w0[xA] c0", .times = 4095, SERIAL(1) = {0, 0}},
    {"4,097 records", "w0[xA] c0", .times = 4096, REFUSED(1, 0)},
    {"P3 behind an older writer", "w3[yC] c3 w0[xA] w0[xB] w0[yC] c0 r1[yC] w1[xA] c1 w2[yC] c2", SERIAL(4) = {3, 0, 0, 0, 1, 0, 2, 0}},
    {"two sources", "w0[xA] c0 r1[xA] w1[xA] r1[xA] c1", SERIAL(2) = {0, 0, 1, 0}},

    /* By the table of refusals: a place that is not 0, and each number where the next one that could apply at the same time does too. */
    {"1 before 2", "w0[xA] c0", .times = 4096, .cut = 3, REFUSED(1, 0)},
    {"2 before 4", "?0[xA] c0", .cut = 2, REFUSED(2, 0)},
    {"4 at record 1, and before 5", "c0 !64[xQ]", REFUSED(4, 1)},
    {"5 at record 1, and before 6", "c0 c0[yA]", REFUSED(5, 1)},
    {"6 before 7", "c0 r0[xA]", REFUSED(6, 1)},
    {"7 before 8", "w0[xA] r0[xB] c0", REFUSED(7, 1)},
    {"8 before 9", "w0[xA] w0[xB] c0 w1[xA] r1[xB]", REFUSED(8, 4)},
    {"9 for the lowest", "w5[xA] w4[xB] c4 w3[xC]", REFUSED(9, 3)},

    /* The highest transaction makes the write that is read. 0 reads what 63 wrote: a conflict, so that 63 stands first. */
    {"source 63", "w63[xA] c63 r0[xA] c0", SERIAL(2) = {63, 0, 0, 0}},

    /* For the place of a source: 0 makes every write, so that the transaction is the same whichever write is named. 1 reads what 0 wrote: a
     * conflict. The highest place of a source is 4,093, since behind it stand at least the read and the commit of the reader. */
    {"a copy written twice", "w0[xA] r0[xA] w0[xA] r0[xA] c0 r1[xA] c1", SERIAL(2) = {0, 0, 1, 0}},
    {"other copies written since", "w0[xA] w0[xB] w0[yA] c0 r1[xA] r1[xB] r1[yA] c1", SERIAL(2) = {0, 0, 1, 0}},
    {"a source at place 4,093", "w0[xA] r0[xA] c0", .times = 4094, SERIAL(1) = {0, 0}},
};

/* The sources of all reads in the logs that pass, by the rule: the last earlier write on the same copy, with its transaction and its place.
 * No other record of these logs has a source. */
static const struct known_source {
    const char *log;
    size_t k;
    uint64_t transaction, record;
} known_sources[] = {
    {"P2", 4, 0, 2},
    {"P2", 7, 0, 1},
    {"P3", 4, 0, 2},
    {"P5", 1, 0, 0},
    {"P8", 5, 1, 3},
    {"P8", 6, 0, 1},
    {"P12", 5, 0, 0},
    {"P12", 6, 0, 3},
    {"P13", 2, 3, 0},
    {"P3 behind an older writer", 6, 0, 4},
    {"two sources", 2, 0, 0},
    {"two sources", 4, 1, 3},
    {"source 63", 2, 63, 0},
    {"a copy written twice", 1, 0, 0},
    {"a copy written twice", 3, 0, 2},
    {"a copy written twice", 5, 0, 2},
    {"other copies written since", 4, 0, 0},
    {"other copies written since", 5, 0, 1},
    {"other copies written since", 6, 0, 2},
    {"a source at place 4,093", 4094, 0, 4093},
};

/* Edges, by the three reasons: in cycles and lines, none, to itself, and with a transaction that is not in the log. */
static const struct {
    const char *log;
    size_t i, j;
    uint64_t reason;
} known_edges[] = {
    {"P2", 1, 2, 1}, {"P2", 2, 1, 3},  {"P3", 0, 1, 1}, {"P3", 1, 2, 1}, {"P3", 2, 1, 0},  {"P4", 0, 1, 1}, {"P4", 1, 0, 2}, {"P9", 5, 3, 2},
    {"P9", 3, 5, 0}, {"P10", 3, 5, 0}, {"P12", 1, 2, 3}, {"P2", 1, 1, 0}, {"P2", 63, 0, 0}, {"P2", 0, 3, 0}, {"P2", 9, 9, 0},
};

/* Tables of edges with a set, and their line or cycle by the rule. */
#define IN(transaction) (UINT64_C(1) << (transaction))
#define LINE(n) .length = n, .members
#define RING(n) .cycle = 1, .length = n, .members

static const struct known_sort {
    const char *name;
    uint64_t set;
    uint64_t table[64];
    uint64_t cycle, length;
    uint8_t members[4];
} known_sorts[] = {
    {"an empty set", 0, {[0] = IN(1), [1] = IN(0)}, LINE(0) = {0}},
    {"an edge to itself", IN(2), {[2] = IN(2)}, LINE(1) = {2}},
    {"an edge from outside the set", IN(0) | IN(2) | IN(5), {[7] = IN(0), [63] = IN(2)}, LINE(3) = {0, 2, 5}},
    {"a line", IN(0) | IN(2) | IN(5), {[5] = IN(0)}, LINE(3) = {2, 5, 0}},
    {"one before a cycle", IN(0) | IN(1) | IN(2) | IN(3), {[0] = IN(2), [2] = IN(1), [1] = IN(0), [3] = IN(0)}, RING(3) = {0, 2, 1}},
    {"one that waits for a cycle", IN(0) | IN(3) | IN(4), {[3] = IN(0) | IN(4), [4] = IN(3)}, RING(2) = {3, 4}},
    {"a line of high numbers", IN(31) | IN(32) | IN(63), {[63] = IN(32), [32] = IN(31)}, LINE(3) = {63, 32, 31}},
};

#endif
