/* The C face of the checker of replicated logs. Link libclib.a, which `rt lib` makes in crates/clib (x86-64-v2 Linux). docs/LOGS.md says what
 * a log is, and when each refusal is given.
 *
 * Every log of any length and content, and every table of edges with every set, gets an answer. Nothing is allocated, and nothing is kept
 * between calls. Nothing is asked of a caller but that the pointers are good: log points at len readable bytes, and is not null, also where
 * len is 0; answer points at room writable bytes, and is not null, also where room is 0; table points at 64 readable numbers and members at
 * 64 writable bytes. What is written to overlaps nothing else. */
#ifndef FRUSCALENTA_H
#define FRUSCALENTA_H

#include <stddef.h>
#include <stdint.h>

#ifdef __cplusplus
extern "C" {
#endif

/* A verdict in numbers. Where number is 0 nothing was refused, place is 0, cycle is 0 for a serial line and 1 for a cycle, and length is
 * how many transactions it has. Else number and place are those of the table of refusals in docs/LOGS.md, places counted in records from
 * 0, and cycle and length are 0. */
struct fruscalenta_judged {
    uint64_t number;
    uint64_t place;
    uint64_t cycle;
    uint64_t length;
};

/* The room for answer records that every log's answer fits into, in bytes. Less is refused with number 3, but 1 and 2 come before it: a log
 * that is too long, or ragged (no multiple of 4 bytes), is refused with these also where the room is too short. */
#define FRUSCALENTA_ROOM 128

/* The verdict on a log: numbers 1 to 9, or a serial line or a cycle. Its answer records, 2 bytes each, are written to the first 2 x length
 * bytes of answer: for a line the transaction and 0; for a cycle the transaction and the lowest reason (1 conflict, 2 write order, 3 read
 * before) of its edge to the next, the last one's to the first. All other bytes keep their content, and after a refusal all do. */
struct fruscalenta_judged fruscalenta_verdict(const uint8_t *log, size_t len, uint8_t *answer, size_t room);

/* An answer in numbers. Where number is 0 nothing was refused, place is 0, and value is what was asked for. Else number and place are those
 * of the table of refusals in docs/LOGS.md, places counted in records from 0, and value is 0. */
struct fruscalenta_answer {
    uint64_t number;
    uint64_t place;
    uint64_t value;
};

/* The check of a log: numbers 1, 2 and 4 to 9. The value is 0. */
struct fruscalenta_answer fruscalenta_check(const uint8_t *log, size_t len);

/* A source in numbers. Where number is 0 nothing was refused, place is 0, transaction is the one whose write is read, and record is the
 * place of that write record; where there is no source both are FRUSCALENTA_NONE. Else number and place are those of the table of refusals
 * in docs/LOGS.md, and transaction and record are 0. Places of refusals and of write records are counted in records from 0. */
struct fruscalenta_source {
    uint64_t number;
    uint64_t place;
    uint64_t transaction;
    uint64_t record;
};

/* The number that stands for "none", as a transaction and as a record: a write or a commit has no source. It is one past the highest place
 * of a record, and so above every transaction too. */
#define FRUSCALENTA_NONE 4096

/* The source of record k: the transaction whose write it reads and the place of that write record, or FRUSCALENTA_NONE twice for a write or
 * a commit. Numbers 1, 2, 4 to 9, then 10. */
struct fruscalenta_source fruscalenta_source_of_record(const uint8_t *log, size_t len, size_t k);

/* The edge from transaction i to transaction j: the lowest of its reasons 1 to 3; or 0 where there is none, where i equals j, or where
 * either is not in the log. Numbers 1, 2, 4 to 9, then 10. A question costs a reading of the whole log. */
struct fruscalenta_answer fruscalenta_edge_between(const uint8_t *log, size_t len, size_t i, size_t j);

/* A line or a cycle: cycle is 0 for a line and 1 for a cycle, and length is how many members it has. */
struct fruscalenta_sorted {
    uint64_t cycle;
    uint64_t length;
};

/* The sort of a table of edges, without a log: bit j of table[i] is the edge from i to j, and bit t of set says that t is in the set. The
 * answer is the smallest line of the set's transactions, read from the left, that keeps every edge; or, where there is none, the cycle of
 * docs/LOGS.md, written along the edges from its lowest number. Edges from a transaction to itself, and to or from transactions outside the
 * set, are ignored. The transactions are written to the first length bytes of members, and all others keep their content. */
struct fruscalenta_sorted fruscalenta_sort(const uint64_t table[64], uint64_t set, uint8_t members[64]);

#ifdef __cplusplus
}
#endif

#endif
