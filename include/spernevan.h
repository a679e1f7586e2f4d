/*
 * Spernevan for C: every call on a record as a function on numbers, bytes and words.
 *
 * A record is the bytes of its file, in and out. Nothing is kept between calls and nothing is allocated.
 *
 * Every function returns 0, or the number of the refusal:
 *   1  the bytes do not begin as a file does: fewer than 2, a count of parts that is not 2 to 10, or too few for the offset and length of each part
 *   2  the parts do not follow one another: the first right after the offsets and lengths, the last up to the end of the file
 *   3  there are not 1 to 8 relations with 1 to 8 columns each; in a file, also bytes of part 0 that are missing or left over
 *   4  a functional dependency, or a left set that is asked about, names a relation or column that there is not;
 *      in a file, also more than 32 functional dependencies, and bytes of part 1 that are missing for them
 *   5  a query breaks a limit, or bytes of its part are missing or left over; also a file whose last part is a vacant place, the single byte 255
 *   6  the head of a query has a variable that its rows do not have
 *   7  a place is not 0 to 7
 *   8  the two queries have heads of different lengths
 *   9  a row of the database names no relation of the record, or ends too early
 *  10  a buffer is too short for the result
 *  11  no query is in the place to be read or dropped
 *  12  a query is already in the place to be filled
 *  13  the record has its 32 functional dependencies already
 *  15  a join dependency names a relation that there is not, or has not 2 to 4 sets of its columns, none of them empty and together all of them;
 *      in a file, also whatever stands in part 1 after the functional dependencies and is not 1 to 4 join dependencies
 *  16  the record has its 4 join dependencies already
 *  17  a comparison would make a query of 25 rows
 *  18  a pair of codes has two equal codes or one above 2147483647, or its old code stands in another pair, or its current code is old in another;
 *      in a file, also whatever stands in part 0 after the widths and is not 1 to 16 pairs
 *  19  the record has its 16 pairs of codes already
 * 14, a record that breaks its rule, does not come here: a file that is read holds none.
 * A file that cannot be read is refused with 1 to 6, 15 or 18 before anything else, and 10 comes last of all, but for the room of a comparison's mapping.
 * A refusal leaves every buffer and every number as it was; working memory too, unless the number is 10.
 *
 * A pointer is never null, also where the length beside it is 0: any address that is aligned for its type will do then.
 * Lengths count elements, not bytes: a uint32_t buffer of n words is n. What a function writes to overlaps nothing else that it is given.
 * Bytes and words of a buffer after those that are written stay as they were.
 *
 * No file is longer than 4574 bytes, no query part of a file than 534, and no query part that a comparison gives than 1026, so buffers of SPERNEVAN_FILE,
 * SPERNEVAN_QUERY and SPERNEVAN_CHASED bytes are never too short.
 *
 * For 64-bit x86 Linux only. Every call uses less than 1 MB of stack: a thread whose stack is smaller must not make it.
 *
 * Calls whose names end in _lent are lent working memory too. They answer as the calls without it do, whatever it holds before and however little there is; it may
 * be of any length, 0 too, and with less they take longer. Where a call is refused with another number than 10 it is as it was, and otherwise it may hold anything.
 * The calls without it have some of their own, for some ten thousand rows, or two thousand where a test reads join dependencies, and four thousand words of
 * answers; beyond that their time grows as the square.
 * For a database of n words lend:
 *   heads     n / 2 words, and nodes 2 n, or where join dependencies are held 5 (n / 2 + 1) and 6 n: then a test takes time in proportion to n for each dependency,
 *             unless values are chosen so that they collide. A join dependency whose sets go round in a ring, as (a, b) (b, c) (c, a), can take the square of n
 *             where one value is very common; the order in which sets are held does not matter
 *   index     2 n words for each row of the query but the first, and 112 more; no more than 4294967294 are used, and none for a database of 4294967295 words or more
 *   states    n words and 65536 more, if the query has more than two rows; else none. They are cleared, so that more than that only costs time
 *   batch     twice the words of the answers, and 64 more: with fewer the database is searched again for each batch. A count wants as much as an evaluation
 *   scratch   as many as batch
 * Where the number of answers is not known, a buffer and a batch of memory that is mapped and not touched cost nothing; after a refusal with 10 try more.
 * For a quarter of a million words and more, memory that is mapped in huge pages (madvise with MADV_HUGEPAGE) saves a tenth of the time or two.
 * Queries can have very many answers, or very many ways to each: an evaluation may take long, and nothing stops it but the end of its thread or process.
 * Calls that share nothing that is written may run at the same time.
 *
 * A query part is the query as a file has it: head length, row count, head entries, then the rows, each a relation byte and its entries;
 * an entry is a byte (0 constant, 1 variable) and 32 bits, little-endian. Without rows it is the first two bytes alone, the query that has no answers.
 *
 * A mapping is SPERNEVAN_MAPPING words: for each of the variables 0 to 95 a tag (0 constant, 1 variable) and a number.
 *
 * A database is words, row by row: a relation's number and then the row's values.
 */
#ifndef SPERNEVAN_H
#define SPERNEVAN_H

#include <stddef.h>
#include <stdint.h>

#define SPERNEVAN_FILE 4574
#define SPERNEVAN_QUERY 534
#define SPERNEVAN_CHASED 1026
#define SPERNEVAN_MAPPING 192

#ifdef __cplusplus
extern "C" {
#endif

/*
 * Whether the bytes are a file.
 * Takes a file. Returns 0, or 1 to 6, 15 or 18.
 */
uint8_t spernevan_read(const uint8_t *file, size_t file_length);

/*
 * Reads a file and writes its record back, which gives the same bytes.
 * Takes a file and a buffer. Returns 0 with the file in `out` and its length in `*length`; or 1 to 6, 15 or 18, 10.
 */
uint8_t spernevan_write(const uint8_t *file, size_t file_length, uint8_t *out, size_t out_length, size_t *length);

/*
 * Opens a record without dependencies and with all places vacant.
 * Takes a width for each relation, 1 to 8 of them, each 1 to 8. Returns 0 with the record's file in `out` and its length in `*length`; or 3, 10.
 */
uint8_t spernevan_open(const uint8_t *widths, size_t widths_length, uint8_t *out, size_t out_length, size_t *length);

/*
 * Adds a pair of codes after those held: from now on constant `old` is read as constant `current`, in queries, in mappings that are checked and in databases,
 * before anything else is done. Stored queries keep what was put in; what is given back has current codes.
 * Takes a file and two different codes, each at most 2147483647. `old` stands in no pair that is held, and `current` is the old code of none.
 * Returns 0 with the new file in `out` and its length in `*length`; or 1 to 6, 15 or 18, then 18, 19, 10.
 */
uint8_t spernevan_add_code(const uint8_t *file, size_t file_length, uint32_t old, uint32_t current, uint8_t *out, size_t out_length, size_t *length);

/*
 * Adds a functional dependency after those held.
 * Takes a file, a relation, a left set (bit c for column c) and a right column. With the left set 0 it says that the right column never varies:
 * all rows of the relation have the same value there.
 * Returns 0 with the new file in `out` and its length in `*length`; or 1 to 6, 15 or 18, then 4, 13, 10.
 */
uint8_t spernevan_add(const uint8_t *file, size_t file_length, uint8_t relation, uint8_t left, uint8_t right,
                      uint8_t *out, size_t out_length, size_t *length);

/*
 * Adds a join dependency after those held: the relation is the join of its parts that have these sets of columns.
 * Takes a file, a relation and 2 to 4 sets (bit c for column c), none of them empty, that together are all columns of the relation.
 * Returns 0 with the new file in `out` and its length in `*length`; or 1 to 6, 15 or 18, then 15, 16, 10.
 */
uint8_t spernevan_add_join(const uint8_t *file, size_t file_length, uint8_t relation, const uint8_t *sets, size_t sets_length,
                           uint8_t *out, size_t out_length, size_t *length);

/*
 * Puts a query into a vacant place.
 * Takes a file, a place and a query part; 255 alone is no query part here (5).
 * Returns 0 with the new file in `out` and its length in `*length`; or 1 to 6, 15 or 18, then 7, 5, 6, 12, 10 in this order.
 */
uint8_t spernevan_put(const uint8_t *file, size_t file_length, size_t place, const uint8_t *query, size_t query_length,
                      uint8_t *out, size_t out_length, size_t *length);

/*
 * Drops a filled place.
 * Takes a file and a place. Returns 0 with the new file in `out` and its length in `*length`; or 1 to 6, 15 or 18, then 7, 11, 10.
 */
uint8_t spernevan_drop(const uint8_t *file, size_t file_length, size_t place, uint8_t *out, size_t out_length, size_t *length);

/*
 * The columns of a relation that a left set determines by the functional dependencies.
 * Takes a file, a relation and a left set (bit c for column c). The left set 0 determines the columns that never vary, if there are any.
 * Returns 0 with their set in `*columns` and their number in `*count`, which may be 0; or 1 to 6, 15 or 18, then 4.
 */
uint8_t spernevan_determined(const uint8_t *file, size_t file_length, uint8_t relation, uint8_t left, uint8_t *columns, uint8_t *count);

/*
 * Reduces the query of a filled place into a vacant one, by the functional dependencies.
 * Takes a file and the two places. Returns 0 with the new file in `out`, its length in `*length`, the number of replacements in `*count`,
 * and in `mapping` a mapping from the source query to the result, all 0 where the result has no rows; or 1 to 6, 15 or 18, then 7, 11, 12, 10.
 * The new file and the number are fixed by the file and the places: which rows stay, and in which order, is in docs/SPECIFICATION.md, Reduction.
 * Which of several mappings is given is free.
 * 10 stands for a mapping buffer of under SPERNEVAN_MAPPING words too.
 */
uint8_t spernevan_reduce(const uint8_t *file, size_t file_length, size_t source, size_t target, uint8_t *out, size_t out_length, size_t *length,
                         uint8_t *count, uint32_t *mapping, size_t mapping_length);

/*
 * Whether each answer of place p is one of place q on every database that obeys the dependencies of both kinds.
 * Takes a file and the two places, which may be equal. Returns 0 with the verdict in `*verdict`:
 *   0  no; `query` gets p's query, chased, as a query part of up to 24 rows, and `*length` its length
 *   1  yes, by the mapping from q's query to p's chased query in `mapping`
 *   2  yes, because p's query chases to the query that has no answers
 * Where there is no mapping, `mapping` gets 0s; where there is no query, `query` stays and `*length` is 0.
 * Or returns 1 to 6, 15 or 18, then 7, 11, 8, 10 for a mapping buffer of under SPERNEVAN_MAPPING words, 17, 10 for a query that does not fit.
 */
uint8_t spernevan_compare(const uint8_t *file, size_t file_length, size_t p, size_t q, uint8_t *verdict, uint32_t *mapping, size_t mapping_length,
                          uint8_t *query, size_t query_length, size_t *length);

/*
 * Whether words are a mapping from the query of place q to that of place p, as both are stored.
 * Takes a file, the two places and the words. Returns 0 with 1 (yes) or 0 (no) in `*verdict`; or 1 to 6, 15 or 18, then 7, 11, 8.
 * Words that are not SPERNEVAN_MAPPING, with a tag above 1 or a variable above 255 are no mapping: no.
 */
uint8_t spernevan_check(const uint8_t *file, size_t file_length, size_t p, size_t q, const uint32_t *mapping, size_t mapping_length, uint8_t *verdict);

/*
 * Tests a database against the dependencies, functional ones first.
 * Takes a file and the database. Returns 0 with the verdict in `*verdict`:
 *   1  it obeys; the other numbers are 0
 *   0  a functional dependency is broken: the position of the first in `*dependency`, those of its first pair of rows in `*first` and `*second`
 *   2  a join dependency is broken: the position of the first among the join dependencies in `*dependency`, and in `*first`, `*second`, `*third` and `*fourth`
 *      those of its first choice of rows that yields a row which is not there, one row for each set in the order of the sets
 * All positions are from 0, and 0 stands where there is none. Or returns 1 to 6, 15 or 18, then 9.
 */
uint8_t spernevan_test(const uint8_t *file, size_t file_length, const uint32_t *words, size_t words_length, uint8_t *verdict, size_t *dependency,
                       size_t *first, size_t *second, size_t *third, size_t *fourth);

/*
 * Evaluates the query of a place on a database.
 * Takes a file, a place and the database. Returns 0 with the answers in `answers`, ascending by their words from the left and each once, as many words each as the
 * head has entries, and their number in `*count`; or 1 to 6, 15 or 18, then 7, 11, 9, 10. With an empty head there is one answer, of no words, or none.
 */
uint8_t spernevan_evaluate(const uint8_t *file, size_t file_length, size_t place, const uint32_t *words, size_t words_length,
                           uint32_t *answers, size_t answers_length, size_t *count);

/*
 * As spernevan_test, with working memory.
 */
uint8_t spernevan_test_lent(const uint8_t *file, size_t file_length, const uint32_t *words, size_t words_length, uint32_t *heads, size_t heads_length,
                            uint32_t *nodes, size_t nodes_length, uint8_t *verdict, size_t *dependency, size_t *first, size_t *second,
                            size_t *third, size_t *fourth);

/*
 * As spernevan_evaluate, with working memory.
 */
uint8_t spernevan_evaluate_lent(const uint8_t *file, size_t file_length, size_t place, const uint32_t *words, size_t words_length,
                                uint32_t *answers, size_t answers_length, uint32_t *index, size_t index_length, uint32_t *states, size_t states_length,
                                uint32_t *batch, size_t batch_length, uint32_t *scratch, size_t scratch_length, size_t *count);

/*
 * Counts the answers of the query of a place on a database.
 * Takes a file, a place and the database. Returns 0 with their number in `*count`; or 1 to 6, 15 or 18, then 7, 11, 9, or 10 for answers that no buffer can hold.
 */
uint8_t spernevan_count(const uint8_t *file, size_t file_length, size_t place, const uint32_t *words, size_t words_length, size_t *count);

/*
 * As spernevan_count, with working memory.
 */
uint8_t spernevan_count_lent(const uint8_t *file, size_t file_length, size_t place, const uint32_t *words, size_t words_length,
                             uint32_t *index, size_t index_length, uint32_t *states, size_t states_length, uint32_t *batch, size_t batch_length,
                             uint32_t *scratch, size_t scratch_length, size_t *count);

#ifdef __cplusplus
}
#endif

#endif
