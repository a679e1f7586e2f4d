// Evaluation and testing of databases. bench/databases builds and runs it:
//   databases            beside SQLite: the same rows, the same question, in memory, loading included, at 10 thousand, 100 thousand and 1 million rows a table
//   databases joins      of that, the tests of join dependencies alone
//   databases shapes     tests of join dependencies whose sets are chains, cycles, or held in an order that leads through products
//   databases growth     how times grow with the rows and the answers, from 15,625 to 4 million
//   databases repeats    repeated rows, and rows of tables that the query does not name
//   databases codes      the same calls with no pair of codes and with 16
// A time is the processor's, in milliseconds, for a whole call, with the working memory mapped in it and given back: the best of 5 calls, or of 3 on more than
// a million words.
#define _DEFAULT_SOURCE
#include <sqlite3.h>
#include <stdint.h>
#include <stdio.h>
#include <stdlib.h>
#include <string.h>
#include <sys/mman.h>
#include <time.h>
#include "spernevan.h"

static double now(void) {
    struct timespec t;
    clock_gettime(CLOCK_PROCESS_CPUTIME_ID, &t);
    return t.tv_sec * 1e3 + t.tv_nsec / 1e6;
}

static void fail(const char *what) {
    fprintf(stderr, "databases: %s\n", what);
    exit(1);
}

// ---- rows

#define MOST ((size_t)1 << 27)
#define HUGE_WORDS ((size_t)1 << 18)
#define HEADS_FOR_JOINS (5 * (word_count / 2 + 1))
#define NODES_FOR_JOINS (6 * word_count)

static uint32_t *words, *answers, *theirs;
static size_t word_count;
static uint64_t state = 88172645463325252ull;

static int turns(void) { return word_count > 1000000 ? 3 : 5; }

static uint32_t draw(uint32_t below) {
    state ^= state << 13;
    state ^= state >> 7;
    state ^= state << 17;
    return (uint32_t)(state % below);
}

static void row(uint32_t relation, int width, const uint32_t *values) {
    words[word_count++] = relation;
    for (int c = 0; c < width; c++) words[word_count++] = values[c];
}

// The numbers below n in random order.
static uint32_t *shuffled(uint32_t n) {
    uint32_t *order = malloc(n * sizeof *order);
    if (!order) fail("memory");
    for (uint32_t i = 0; i < n; i++) order[i] = i;
    for (uint32_t i = n; i > 1; i--) {
        uint32_t j = draw(i), x = order[i - 1];
        order[i - 1] = order[j];
        order[j] = x;
    }
    return order;
}

// ---- the engine

static uint8_t file[SPERNEVAN_FILE];
static size_t file_length;
static int head, query_rows;

static void open_record(const uint8_t *widths, size_t n) {
    if (spernevan_open(widths, n, file, sizeof file, &file_length)) fail("open");
}

static void add(uint8_t relation, uint8_t left, uint8_t right) {
    uint8_t out[SPERNEVAN_FILE];
    size_t length;
    if (spernevan_add(file, file_length, relation, left, right, out, sizeof out, &length)) fail("add");
    memcpy(file, out, length);
    file_length = length;
}

static void add_join(uint8_t relation, size_t count, const uint8_t *sets) {
    uint8_t out[SPERNEVAN_FILE];
    size_t length;
    if (spernevan_add_join(file, file_length, relation, sets, count, out, sizeof out, &length)) fail("add a join dependency");
    memcpy(file, out, length);
    file_length = length;
}

// A query part of the file from text: head entries, then rows as relation and entries; vN is a variable.
static void put(const char *text) {
    uint8_t part[SPERNEVAN_QUERY], out[SPERNEVAN_FILE];
    size_t n = 2, length;
    head = query_rows = 0;
    char copy[800];
    snprintf(copy, sizeof copy, "%s", text);
    for (char *word = strtok(copy, " "); word; word = strtok(NULL, " ")) {
        if (word[0] == 'R') {
            part[n++] = (uint8_t)atoi(word + 1);
            query_rows++;
            continue;
        }
        if (!query_rows) head++;
        int variable = word[0] == 'v';
        uint32_t value = (uint32_t)strtoul(word + variable, NULL, 10);
        part[n++] = (uint8_t)variable;
        for (int b = 0; b < 4; b++) part[n++] = (uint8_t)(value >> 8 * b);
    }
    part[0] = (uint8_t)head;
    part[1] = (uint8_t)query_rows;
    if (spernevan_put(file, file_length, 0, part, n, out, sizeof out, &length)) fail("put");
    memcpy(file, out, length);
    file_length = length;
}

// Working memory of so many words: pages that are not touched cost nothing. For a large database they are huge pages where the machine has them.
static uint32_t *lent(size_t n) {
    void *found = mmap(NULL, 4 * n + 4, PROT_READ | PROT_WRITE, MAP_PRIVATE | MAP_ANONYMOUS | MAP_NORESERVE, -1, 0);
    if (found == MAP_FAILED) fail("memory");
#ifdef MADV_HUGEPAGE
    if (word_count >= HUGE_WORDS) madvise(found, 4 * n + 4, MADV_HUGEPAGE); // As good where it is refused, and slower.
#endif
    return found;
}

static void returned(uint32_t *memory, size_t n) { munmap(memory, 4 * n + 4); }

static double engine_evaluate(size_t *count) {
    double best = 1e9;
    size_t index_size = 2 * word_count * (query_rows - 1) + 112, states_size = query_rows > 2 ? word_count + 65536 : 0;
    for (int k = 0; k < turns(); k++) {
        if (answers) returned(answers, MOST);
        double t = now();
        answers = lent(MOST);
        uint32_t *index = lent(index_size), *states = lent(states_size), *batch = lent(MOST), *scratch = lent(MOST);
        if (spernevan_evaluate_lent(file, file_length, 0, words, word_count, answers, MOST, index, index_size, states, states_size, batch, MOST,
                                    scratch, MOST, count))
            fail("evaluate");
        returned(index, index_size);
        returned(states, states_size);
        returned(batch, MOST);
        returned(scratch, MOST);
        t = now() - t;
        if (t < best) best = t;
    }
    return best;
}

// With `joins` told to be held, memory as the header has it for join dependencies.
static double engine_test(int joins, int *obeys_out) {
    double best = 1e9;
    uint8_t verdict;
    size_t d, rows[4], heads_size = joins ? HEADS_FOR_JOINS : word_count / 2, nodes_size = joins ? NODES_FOR_JOINS : 2 * word_count;
    for (int k = 0; k < turns(); k++) {
        double t = now();
        uint32_t *heads = lent(heads_size), *nodes = lent(nodes_size);
        if (spernevan_test_lent(file, file_length, words, word_count, heads, heads_size, nodes, nodes_size, &verdict, &d, rows, rows + 1, rows + 2, rows + 3))
            fail("test");
        returned(heads, heads_size);
        returned(nodes, nodes_size);
        t = now() - t;
        if (t < best) best = t;
    }
    *obeys_out = verdict == 1;
    return best;
}

// ---- SQLite

static void run(sqlite3 *db, const char *sql) {
    if (sqlite3_exec(db, sql, NULL, NULL, NULL) != SQLITE_OK) fail(sqlite3_errmsg(db));
}

// Tables R0, R1, .. of columns a, b, ..; `keyed` tells whether the first column of each is its key.
static void create(sqlite3 *db, const int *widths, int relations, int keyed) {
    for (int r = 0; r < relations; r++) {
        char sql[200];
        int n = snprintf(sql, sizeof sql, "create table R%d(a integer%s", r, keyed ? " primary key" : "");
        for (int c = 1; c < widths[r]; c++) n += snprintf(sql + n, sizeof sql - n, ", %c integer", 'a' + c);
        snprintf(sql + n, sizeof sql - n, ")");
        run(db, sql);
    }
}

// Loads the words and runs the queries, separated by semicolons; gives the milliseconds of both and the number of result rows.
static double sqlite_all(const int *widths, int relations, int keyed, const char *queries, int columns, size_t *count) {
    double best = 1e9;
    for (int k = 0; k < turns(); k++) {
        double t = now();
        sqlite3 *db;
        sqlite3_stmt *insert[8], *query;
        if (sqlite3_open(":memory:", &db)) fail("sqlite");
        create(db, widths, relations, keyed);
        run(db, "begin");
        for (int r = 0; r < relations; r++) {
            char sql[200];
            int n = snprintf(sql, sizeof sql, "insert into R%d values (?", r);
            for (int c = 1; c < widths[r]; c++) n += snprintf(sql + n, sizeof sql - n, ",?");
            snprintf(sql + n, sizeof sql - n, ")");
            if (sqlite3_prepare_v2(db, sql, -1, &insert[r], NULL)) fail(sqlite3_errmsg(db));
        }
        for (size_t at = 0; at < word_count;) {
            int r = (int)words[at];
            for (int c = 0; c < widths[r]; c++) sqlite3_bind_int64(insert[r], c + 1, words[at + 1 + c]);
            if (sqlite3_step(insert[r]) != SQLITE_DONE) fail(sqlite3_errmsg(db));
            sqlite3_reset(insert[r]);
            at += 1 + widths[r];
        }
        run(db, "commit");
        *count = 0;
        for (const char *rest = queries; *rest;) {
            if (sqlite3_prepare_v2(db, rest, -1, &query, &rest)) fail(sqlite3_errmsg(db));
            while (sqlite3_step(query) == SQLITE_ROW) {
                for (int c = 0; c < columns; c++) theirs[*count * columns + c] = (uint32_t)sqlite3_column_int64(query, c);
                ++*count;
            }
            sqlite3_finalize(query);
        }
        t = now() - t;
        if (t < best) best = t;
        for (int r = 0; r < relations; r++) sqlite3_finalize(insert[r]);
        sqlite3_close(db);
    }
    return best;
}

// ---- beside SQLite

static void line(const char *what, uint32_t n, size_t count, double engine, double plain, double keyed) {
    double sqlite = plain < keyed ? plain : keyed;
    printf("| %s | %u | %zu | %.2f | %.2f | %.2f | %.1f |\n", what, n, count, engine, plain, keyed, sqlite / engine);
    fflush(stdout);
}

static void same(size_t count, size_t found) {
    if (found != count || memcmp(theirs, answers, count * head * 4)) fail("the answers differ");
}

// Times the query of the record, on the rows, beside the same in SQL. All tables have two columns.
static void compare(const char *what, uint32_t n, int relations, const char *query) {
    const int widths[] = {2, 2, 2};
    size_t count, found;
    double engine = engine_evaluate(&count);
    double plain = sqlite_all(widths, relations, 0, query, head, &found);
    same(count, found);
    double keyed = sqlite_all(widths, relations, 1, query, head, &found);
    same(count, found);
    line(what, n, count, engine, plain, keyed);
}

// Tables R0(a, b) and R1(a, b) with the same keys a in different orders, and values b below some numbers; the third table, R2, has as many keys.
static void tables(uint32_t n, uint32_t first, uint32_t second, int third) {
    word_count = 0;
    uint32_t *p = shuffled(n), *q = shuffled(n), *s = shuffled(n);
    for (uint32_t i = 0; i < n; i++) row(0, 2, (uint32_t[]){p[i], p[i] % first});
    for (uint32_t i = 0; i < n; i++) row(1, 2, (uint32_t[]){q[i], q[i] % second});
    if (third)
        for (uint32_t i = 0; i < n; i++) row(2, 2, (uint32_t[]){s[i], s[i] * 7 + 3});
    free(p);
    free(q);
    free(s);
}

// One table R0(a, b): b is the key of the row after it, in cycles of some length.
static void cycles(uint32_t n, uint32_t length) {
    word_count = 0;
    uint32_t *p = shuffled(n), *q = shuffled(n);
    for (uint32_t i = 0; i < n; i++) {
        uint32_t at = q[i], next = at % length == length - 1 || at == n - 1 ? at - at % length : at + 1;
        row(0, 2, (uint32_t[]){p[at], p[next]});
    }
    free(p);
    free(q);
}

static void compare_joins(uint32_t n) {
    const uint8_t widths[] = {2, 2, 2};
    open_record(widths, 2);
    put("v0 v2 R0 v0 7 R1 v0 v2");
    tables(n, n / 10, n, 0);
    compare("key join, 10 answers by a constant", n, 2, "select distinct R0.a, R1.b from R0, R1 where R0.a = R1.a and R0.b = 7 order by 1, 2");
    open_record(widths, 2);
    put("v2 R0 v0 v1 R1 v0 v2");
    tables(n, n, 10, 0);
    compare("key join, 10 answers by projection", n, 2, "select distinct R1.b from R0, R1 where R0.a = R1.a order by 1");
    open_record(widths, 2);
    put("v0 v1 v2 R0 v0 v1 R1 v0 v2");
    tables(n, n, n, 0);
    compare("key join, all rows as answers", n, 2, "select distinct R0.a, R0.b, R1.b from R0, R1 where R0.a = R1.a order by 1, 2, 3");
    open_record(widths, 3);
    put("v0 v3 R0 v0 v1 R1 v0 v2 R2 v2 v3");
    tables(n, n, n, 1);
    compare("join of three tables", n, 3, "select distinct R0.a, R2.b from R0, R1, R2 where R0.a = R1.a and R1.b = R2.a order by 1, 2");
    open_record(widths, 3);
    put("v0 v3 R0 v0 v1 R2 v2 v3 R1 v0 v2");
    compare("the same, saved in another order", n, 3, "select distinct R0.a, R2.b from R0, R2, R1 where R0.a = R1.a and R1.b = R2.a order by 1, 2");
    open_record(widths, 3);
    put("v0 v1 v2 v3 R0 v0 v1 R1 v0 v2 R2 v0 v3");
    compare("star of three tables", n, 3, "select distinct R0.a, R0.b, R1.b, R2.b from R0, R1, R2 where R0.a = R1.a and R0.a = R2.a order by 1, 2, 3, 4");
    open_record(widths, 1);
    put("v0 v3 R0 v0 v1 R0 v1 v2 R0 v2 v3");
    cycles(n, n);
    compare("path of three rows", n, 1, "select distinct x.a, z.b from R0 x, R0 y, R0 z where x.b = y.a and y.b = z.a order by 1, 2");
}

// The rows of R0, of five columns, tested by both: no row of the queries' answers says that the dependencies are obeyed.
static void compare_test(const char *what, uint32_t n, const char *tests) {
    const int widths[] = {5};
    int obeys;
    size_t found;
    double engine = engine_test(0, &obeys);
    double plain = sqlite_all(widths, 1, 0, tests, 1, &found);
    if ((found == 0) != obeys) fail("the verdicts differ");
    double keyed = sqlite_all(widths, 1, 1, tests, 1, &found);
    if ((found == 0) != obeys) fail("the verdicts differ");
    line(what, n, obeys, engine, plain, keyed);
}

// Testing: one table of five columns, four dependencies, all obeyed; then the last row breaks the last one.
static void compare_tests(uint32_t n) {
    const char *tests = "select 1 from R0 group by a having min(b) <> max(b) limit 1;"
                        "select 1 from R0 group by a having min(c) <> max(c) limit 1;"
                        "select 1 from R0 group by b having min(d) <> max(d) limit 1;"
                        "select 1 from R0 group by b, c having min(e) <> max(e) limit 1";
    for (int broken = 0; broken < 2; broken++) {
        open_record((uint8_t[]){5}, 1);
        add(0, 1, 1);
        add(0, 1, 2);
        add(0, 2, 3);
        add(0, 6, 4);
        word_count = 0;
        uint32_t *p = shuffled(n);
        for (uint32_t i = 0; i < n; i++) {
            uint32_t b = p[i] % (n / 20), c = p[i] % 7; // Two rows at least have the same.
            row(0, 5, (uint32_t[]){p[i], b, c, b * 3, b + c + (broken && i == n - 1)});
        }
        free(p);
        compare_test(broken ? "test, 4 dependencies, the last row breaks the last" : "test, 4 dependencies obeyed", n, tests);
    }
}

// Testing that a column never varies, on a table of five columns; then the last row differs.
static void compare_unvarying(uint32_t n) {
    const char *tests = "select 1 from (select min(e) low, max(e) high from R0) where low <> high";
    for (int broken = 0; broken < 2; broken++) {
        open_record((uint8_t[]){5}, 1);
        add(0, 0, 4);
        word_count = 0;
        uint32_t *p = shuffled(n);
        for (uint32_t i = 0; i < n; i++) row(0, 5, (uint32_t[]){p[i], p[i] % 7, p[i] % 11, p[i] % 13, 5 + (broken && i == n - 1)});
        free(p);
        compare_test(broken ? "test, a column that never varies, but in the last row" : "test, a column that never varies", n, tests);
    }
}

// One table R0(a, b, c, d, e), 20 rows for each a: the product of 2 values of b, 2 of c and 5 of d; e is a's. In random order.
static void products(uint32_t n) {
    word_count = 0;
    uint32_t *p = shuffled(n);
    for (uint32_t i = 0; i < n; i++) {
        uint32_t a = p[i] / 20, k = p[i] % 20;
        row(0, 5, (uint32_t[]){a, 2 * a + k % 2, 2 * a + k / 2 % 2, 5 * a + k / 4, 3 * a});
    }
    free(p);
}

// Columns a and e, and b, c, d.
enum { AE = 17, B = 2, C = 4, D = 8 };

static void add_joins(void) {
    add_join(0, 2, (uint8_t[]){AE | B, AE | C | D});
    add_join(0, 2, (uint8_t[]){AE | B | C, AE | D});
    add_join(0, 3, (uint8_t[]){AE | B, AE | C, AE | D});
    add_join(0, 3, (uint8_t[]){AE | D, AE | C, AE | B});
}

// Testing four join dependencies of two and three sets, all obeyed, beside four functional ones on the same rows; then with a row left out.
static void compare_join_tests(uint32_t n) {
    const int widths[] = {5};
    const char *tests = "select a, b, c, d, e from (select distinct a, b, e from R0) natural join (select distinct a, c, d, e from R0) except select * from R0 limit 1;"
                        "select a, b, c, d, e from (select distinct a, b, c, e from R0) natural join (select distinct a, d, e from R0) except select * from R0 limit 1;"
                        "select a, b, c, d, e from (select distinct a, b, e from R0) natural join (select distinct a, c, e from R0) natural join"
                        " (select distinct a, d, e from R0) except select * from R0 limit 1;"
                        "select a, b, c, d, e from (select distinct a, d, e from R0) natural join (select distinct a, c, e from R0) natural join"
                        " (select distinct a, b, e from R0) except select * from R0 limit 1";
    int obeys;
    size_t found;
    open_record((uint8_t[]){5}, 1);
    add(0, 1, 4);
    add(0, 1 | B, 4);
    add(0, 1 | C, 4);
    add(0, 1 | D, 4);
    products(n);
    double functional = engine_test(0, &obeys);
    if (!obeys) fail("the test");
    for (int broken = 0; broken < 2; broken++) {
        open_record((uint8_t[]){5}, 1);
        add_joins();
        products(n);
        if (broken) word_count -= 6;
        double engine = engine_test(1, &obeys);
        double sqlite = sqlite_all(widths, 1, 0, tests, 5, &found);
        if ((found == 0) != obeys) fail("the verdicts differ");
        printf("| test, 4 join dependencies%s | %u | %d | %.2f | %.2f | – | %.1f; %.1f times 4 functional ones |\n", broken ? ", the last row left out" : " obeyed", n, obeys,
               engine, sqlite, sqlite / engine, engine / functional);
        fflush(stdout);
    }
}

// n rows of six columns in random order: each column but the first is half the one before it. With `broken`, two more at the end that yield a row which is not
// there wherever a and c, or the values before and after them, stand in different sets.
static void halves(uint32_t n, int width, int broken) {
    word_count = 0;
    uint32_t *p = shuffled(n);
    for (uint32_t i = 0; i < n; i++) {
        uint32_t values[6] = {p[i]};
        for (int c = 1; c < 6; c++) values[c] = values[c - 1] / 2;
        row(0, width, values);
    }
    free(p);
    for (uint32_t k = 0; k < 2 && broken; k++) row(0, width, (uint32_t[]){n + k, n, n + k, n, n + k, n});
}

// The join dependency of some sets alone, on rows that obey it and, if `breakable`, on rows that do not.
static void join_shape(const char *name, int width, size_t count, const uint8_t *sets, int breakable) {
    for (int broken = 0; broken <= breakable; broken++) {
        printf("| %s, %s |", name, broken ? "broken at the end" : "obeyed");
        for (uint32_t n = 16000; n <= 1024000; n *= 8) {
            int obeys;
            open_record((uint8_t[]){(uint8_t)width}, 1);
            add_join(0, count, sets);
            halves(n, width, broken);
            double took = engine_test(1, &obeys);
            if (obeys == broken) fail("the test of a shape");
            printf(" %.1f |", took);
            fflush(stdout);
        }
        printf("\n");
    }
}

// Sets in orders of which some go through products unless they are arranged.
static void join_shapes(void) {
    printf("| Sets | 16000 | 128000 | 1024000 |\n|---|---|---|---|\n");
    join_shape("(ab)(bc)(cd)", 4, 3, (uint8_t[]){3, 6, 12}, 1);
    join_shape("(ab)(cd)(bc)", 4, 3, (uint8_t[]){3, 12, 6}, 1);
    join_shape("(cd)(ab)(bc)", 4, 3, (uint8_t[]){12, 3, 6}, 1);
    join_shape("(ab)(cd)(ef)(bcde)", 6, 4, (uint8_t[]){3, 12, 48, 30}, 1);
    join_shape("(ab)(bc)(ca)", 3, 3, (uint8_t[]){3, 6, 5}, 0);
}

static void beside_sqlite(int joins_only) {
    printf("| Case | rows a table | answers | engine | SQLite | SQLite, keys declared | times faster |\n|---|---|---|---|---|---|---|\n");
    for (uint32_t n = 10000; n <= 1000000; n *= 10) {
        if (!joins_only) {
            compare_joins(n);
            compare_tests(n);
            compare_unvarying(n);
        }
        compare_join_tests(n);
    }
}

// ---- growth

enum { SIZES = 9 };
static const uint32_t LARGEST = 4000000;

// Makes n rows and sets the query of the record.
typedef void (*Family)(uint32_t n);

// So many tables with the same keys in different orders and two more columns each, n rows together.
static void keyed_tables(uint32_t n, int relations, uint32_t values) {
    word_count = 0;
    for (int r = 0; r < relations; r++) {
        uint32_t *p = shuffled(n / relations);
        for (uint32_t i = 0; i < n / relations; i++) row(r, 3, (uint32_t[]){p[i], p[i] % values, i});
        free(p);
    }
}

static void key_join(uint32_t n) {
    open_record((uint8_t[]){3, 3}, 2);
    put("v0 v1 v3 R0 v0 v1 v2 R1 v0 v3 v4");
    keyed_tables(n, 2, n);
}

static void projection(uint32_t n) {
    open_record((uint8_t[]){3, 3}, 2);
    put("v3 R0 v0 v1 v2 R1 v0 v3 v4");
    keyed_tables(n, 2, 10);
}

static void star(uint32_t n) {
    open_record((uint8_t[]){3, 3, 3, 3}, 4);
    put("v0 v1 v2 v3 v4 R0 v0 v1 v5 R1 v0 v2 v6 R2 v0 v3 v7 R3 v0 v4 v8");
    keyed_tables(n, 4, n);
}

// One table of three columns: the first is a key, the second the key of the row after it, in cycles of some length.
static void long_cycles(uint32_t n, uint32_t length) {
    uint32_t *pairs;
    cycles(n, length);
    pairs = malloc(word_count * 4);
    if (!pairs) fail("memory");
    memcpy(pairs, words, word_count * 4);
    word_count = 0;
    for (uint32_t i = 0; i < n; i++) row(0, 3, (uint32_t[]){pairs[3 * i + 1], pairs[3 * i + 2], i});
    free(pairs);
}

static void path(uint32_t n) {
    open_record((uint8_t[]){3}, 1);
    put("v0 v4 R0 v0 v1 v5 R0 v1 v2 v6 R0 v2 v3 v7 R0 v3 v4 v8");
    long_cycles(n, n);
}

static void triangles(uint32_t n) {
    open_record((uint8_t[]){3}, 1);
    put("v0 v1 v2 R0 v0 v1 v3 R0 v1 v2 v4 R0 v2 v0 v5");
    long_cycles(n, 3);
}

// Rows in groups of four; the answers are the pairs of a group, four times as many as rows. At most a quarter of the rows of the others.
static void pairs(uint32_t n) {
    open_record((uint8_t[]){3}, 1);
    put("v1 v4 R0 v0 v1 v2 R0 v0 v4 v5");
    word_count = 0;
    uint32_t *p = shuffled(n / 4);
    for (uint32_t i = 0; i < n / 4; i++) row(0, 3, (uint32_t[]){p[i] / 4, p[i], i});
    free(p);
}

static void grow(const char *what, Family make) {
    double before = 0;
    printf("| %s |", what);
    size_t count = 0;
    for (int k = SIZES - 1; k >= 0; k--) {
        make(LARGEST >> k);
        double took = engine_evaluate(&count);
        if (before > 0)
            printf(" %.1f (%.2f) |", took, took / before);
        else
            printf(" %.1f |", took);
        fflush(stdout);
        before = took;
    }
    printf(" %zu |\n", count);
}

static void grow_tests(void) {
    double before = 0;
    printf("| test, 4 dependencies |");
    for (int k = SIZES - 1; k >= 0; k--) {
        uint32_t n = LARGEST >> k;
        int obeys;
        open_record((uint8_t[]){3}, 1);
        add(0, 1, 1);
        add(0, 1, 2);
        add(0, 2, 2);
        add(0, 6, 0);
        word_count = 0;
        uint32_t *p = shuffled(n);
        for (uint32_t i = 0; i < n; i++) row(0, 3, (uint32_t[]){p[i], p[i] ^ 1, p[i] * 7});
        free(p);
        double took = engine_test(0, &obeys);
        if (!obeys) fail("the test");
        if (before > 0)
            printf(" %.1f (%.2f) |", took, took / before);
        else
            printf(" %.1f |", took);
        fflush(stdout);
        before = took;
    }
    printf(" – |\n");
}

static void grow_join_tests(void) {
    double before = 0;
    printf("| test, 4 join dependencies |");
    for (int k = SIZES - 1; k >= 0; k--) {
        int obeys;
        open_record((uint8_t[]){5}, 1);
        add_joins();
        products((LARGEST >> k) / 20 * 20);
        double took = engine_test(1, &obeys);
        if (!obeys) fail("the test");
        if (before > 0)
            printf(" %.1f (%.2f) |", took, took / before);
        else
            printf(" %.1f |", took);
        fflush(stdout);
        before = took;
    }
    printf(" – |\n");
}

static void growth(void) {
    printf("| Query |");
    for (int k = SIZES - 1; k >= 0; k--) printf(" %u |", LARGEST >> k);
    printf(" answers |\n|---|---|---|---|---|---|---|---|---|---|---|\n");
    grow("key join of two tables", key_join);
    grow("the same, 10 answers by projection", projection);
    grow("star of four tables", star);
    grow("path of four rows", path);
    grow("cycle of three rows", triangles);
    grow("pairs of a group, of a quarter of the rows", pairs);
    grow_tests();
    grow_join_tests();
}

// ---- repeats, and rows that are not asked for

static void repeats(void) {
    size_t count;
    printf("| Case | rows | answers | engine |\n|---|---|---|---|\n");
    for (uint32_t copies = 1; copies <= 4096; copies *= 16) {
        open_record((uint8_t[]){1}, 1);
        put("v0 v1 v2 v3 v4 v5 v6 v7 R0 v0 R0 v1 R0 v2 R0 v3 R0 v4 R0 v5 R0 v6 R0 v7");
        word_count = 0;
        for (uint32_t i = 0; i < 3 * copies; i++) row(0, 1, (uint32_t[]){i % 3});
        double took = engine_evaluate(&count);
        printf("| eight loose rows on three values, %u of each | %u | %zu | %.2f |\n", copies, 3 * copies, count, took);
    }
    for (uint32_t copies = 1; copies <= 1000; copies *= 10) {
        open_record((uint8_t[]){1}, 1);
        put("v0 v1 R0 v0 R0 v1");
        word_count = 0;
        for (uint32_t i = 0; i < 100 * copies; i++) row(0, 1, (uint32_t[]){i % 100});
        double took = engine_evaluate(&count);
        printf("| two loose rows on a hundred values in turn, %u of each | %u | %zu | %.2f |\n", copies, 100 * copies, count, took);
    }
    for (uint32_t dead = 1; dead <= 1000; dead *= 10) {
        open_record((uint8_t[]){2, 3}, 2);
        put("v0 v2 R0 v0 v1 R1 v1 v2 v3");
        word_count = 0;
        for (uint32_t i = 0; i < 1000; i++) row(0, 2, (uint32_t[]){i, i % 10});
        for (uint32_t i = 0; i < 100 * dead; i++) row(1, 3, (uint32_t[]){i % 10, i / 10 % 10, i});
        double took = engine_evaluate(&count);
        printf("| join with %u rows for each pair that is shown | %u | %zu | %.2f |\n", dead, 1000 + 100 * dead, count, took);
    }
    for (uint32_t others = 0; others <= 1000000; others = others ? others * 10 : 10000) {
        open_record((uint8_t[]){2, 2, 2}, 3);
        put("v0 v1 v2 R0 v0 v1 R1 v0 v2");
        tables(10000, 10000, 10000, 0);
        for (uint32_t i = 0; i < others; i++) row(2, 2, (uint32_t[]){draw(1000), i});
        double took = engine_evaluate(&count);
        printf("| key join of 20000 rows among %u of another table | %u | %zu | %.2f |\n", others, 20000 + others, count, took);
    }
}

// ---- pairs of codes

static void add_code(uint32_t old, uint32_t current) {
    uint8_t out[SPERNEVAN_FILE];
    size_t length;
    if (spernevan_add_code(file, file_length, old, current, out, sizeof out, &length)) fail("add a pair of codes");
    memcpy(file, out, length);
    file_length = length;
}

// A line for a call with no pair and with 16, whose old codes are `old`, `old` + 37 and so on.
static void code_line(const char *what, int test, uint32_t old) {
    size_t before = 0, after = 0;
    int obeys = 0;
    double plain = test ? engine_test(0, &obeys) : engine_evaluate(&before);
    for (uint32_t k = 0; k < 16; k++) add_code(old + 37 * k, 2147480000 + k);
    double read = test ? engine_test(0, &obeys) : engine_evaluate(&after);
    printf("| %s | %zu | %zu | %.2f | %.2f | %.2f |\n", what, word_count, after, plain, read, read / plain);
    fflush(stdout);
}

static void eight_columns(uint32_t n, const char *query, uint32_t old) {
    open_record((uint8_t[]){8}, 1);
    put(query);
    word_count = 0;
    for (uint32_t i = 0; i < n; i++) {
        uint32_t values[8];
        for (int c = 0; c < 8; c++) values[c] = old ? old + 37 * draw(16) : draw(1000000);
        row(0, 8, values);
    }
}

static void renumbered(void) {
    printf("| Case | words | answers | no pair | 16 pairs | ratio |\n|---|---|---|---|---|---|\n");
    for (uint32_t n = 10000; n <= 1000000; n *= 10) {
        key_join(n);
        code_line("key join, all rows", 0, 2000000000);
        projection(n);
        code_line("projection of a join", 0, 2000000000);
        path(n);
        code_line("path of four", 0, 2000000000);
        eight_columns(n, "v0 R0 v0 v1 v2 v3 v4 v5 v6 7", 0);
        code_line("eight columns, a constant in the last", 0, 2000000000);
        eight_columns(n, "v1 R0 2000000001 v1 v2 v3 v4 v5 v6 v7", 0);
        code_line("eight columns, a constant in the first, no answer", 0, 2000000000);
        eight_columns(n, "v0 v1 v2 v3 v4 v5 v6 v7 R0 v0 v1 v2 v3 v4 v5 v6 v7", 0);
        code_line("eight columns, all answers", 0, 2000000000);
        eight_columns(n, "v0 v1 v2 v3 v4 v5 v6 v7 R0 v0 v1 v2 v3 v4 v5 v6 v7", 2000000000);
        code_line("eight columns, all answers, every value an old code", 0, 2000000000);
        keyed_tables(n, 2, n);
        open_record((uint8_t[]){3, 3}, 2);
        add(0, 1, 1);
        add(1, 1, 2);
        code_line("test, two keys", 1, 2000000000);
    }
}

int main(int arguments, char **argument) {
    words = lent(MOST);
    theirs = lent(MOST);
    const char *what = arguments > 1 ? argument[1] : "";
    if (!*what || !strcmp(what, "joins"))
        beside_sqlite(*what != 0);
    else if (!strcmp(what, "shapes"))
        join_shapes();
    else if (!strcmp(what, "growth"))
        growth();
    else if (!strcmp(what, "repeats"))
        repeats();
    else if (!strcmp(what, "codes"))
        renumbered();
    else
        fail("the argument is joins, shapes, growth, repeats, codes, or none");
    return 0;
}
