// Measures changes and queries a second of SQLite's own library with the statements of the space over tables.
//
//   space FILE SIZE COUNT SCHEMA
//
// makes a database of SIZE intents, ten to a cell, in FILE (`:memory:` has none). Then it makes COUNT creations, updates,
// deletions and queries that find ten, a tenth as many queries of 512 cells and queries of 100 that find 1,000, and
// creations that first search for the 1, 16 and 128 which they meet. SCHEMA is the SQL that makes the tables. Each
// statement is prepared once.
#include <inttypes.h>
#include <sqlite3.h>
#include <stdio.h>
#include <stdlib.h>
#include <string.h>
#include <time.h>

enum { SHARING = 10, KEPT_STATEMENTS = 32, MOST_FOUND = 1 << 16 };

static sqlite3 *database;

static void stop(const char *what) {
    fprintf(stderr, "space: %s: %s\n", what, database ? sqlite3_errmsg(database) : "");
    exit(1);
}

struct value {
    const char *text;
    int64_t number;
};

static struct value number(int64_t number) { return (struct value){NULL, number}; }
static struct value text(const char *text) { return (struct value){text, 0}; }

// Returns the prepared statement of a text, which is one literal of this file.
static sqlite3_stmt *prepared(const char *sql) {
    static struct { const char *sql; sqlite3_stmt *statement; } kept[KEPT_STATEMENTS];
    int at = 0;
    while (kept[at].sql && kept[at].sql != sql)
        at++;
    if (!kept[at].sql) {
        if (at + 1 == KEPT_STATEMENTS || sqlite3_prepare_v2(database, sql, -1, &kept[at].statement, NULL) != SQLITE_OK)
            stop(sql);
        kept[at].sql = sql;
    }
    return kept[at].statement;
}

// Runs a statement, and returns the numbers of its first column; the other columns are read.
static int run(const char *sql, const struct value *values, int count, int64_t *found, int most) {
    sqlite3_stmt *statement = prepared(sql);
    int rows = 0, step;
    for (int at = 0; at < count; at++) {
        if (values[at].text)
            sqlite3_bind_text(statement, at + 1, values[at].text, -1, SQLITE_TRANSIENT);
        else
            sqlite3_bind_int64(statement, at + 1, values[at].number);
    }
    while ((step = sqlite3_step(statement)) == SQLITE_ROW) {
        for (int at = 0; at < sqlite3_column_count(statement); at++)
            sqlite3_column_bytes(statement, at);
        if (found && rows < most)
            found[rows] = sqlite3_column_int64(statement, 0);
        rows++;
    }
    if (step != SQLITE_DONE)
        stop(sql);
    sqlite3_reset(statement);
    return rows;
}

#define RUN(sql, ...) run(sql, (struct value[]){__VA_ARGS__}, sizeof((struct value[]){__VA_ARGS__}) / sizeof(struct value), NULL, 0)

static void id_of(int64_t which, char *id) { sprintf(id, "00000000-0000-4000-8000-%012" PRIx64, which); }

static void put(int64_t num, int64_t which, int64_t place, int64_t altitude) {
    char id[40], ovn[65];
    id_of(which, id);
    memset(ovn, 'a', 64);
    ovn[64] = 0;
    RUN("INSERT INTO entity (num, kind, id, manager, state, version, serial, ovn, url)"
        " VALUES (?1, ?2, ?3, ?4, ?5, ?6, ?7, ?8, ?9)",
        number(num), number(0), text(id), text("uss-a"), number(0), number(1), number(num), text(ovn), text("https://a.example"));
    RUN("INSERT INTO volume (entity, place, alt_lower, alt_upper, time_start, time_end) VALUES (?1, ?2, ?3, ?4, ?5, ?6)",
        number(num), number(0), number(altitude), number(altitude), number(900), number(2000));
    char token[17];
    sprintf(token, "%08" PRIx64, place * 8 + 4);
    RUN("INSERT INTO cell (entity, volume, place, token, lo, hi) VALUES (?1, ?2, ?3, ?4, ?5, ?6)", number(num), number(0),
        number(0), text(token), number(place), number(place));
}

static int64_t number_of(int64_t which) {
    char id[40];
    int64_t found = 0;
    id_of(which, id);
    run("SELECT num FROM entity WHERE kind = ?1 AND id = ?2", (struct value[]){number(0), text(id)}, 2, &found, 1);
    return found;
}

static void clear(int64_t num) {
    RUN("DELETE FROM naming WHERE entity = ?1", number(num));
    RUN("DELETE FROM cell WHERE entity = ?1", number(num));
    RUN("DELETE FROM volume WHERE entity = ?1", number(num));
    RUN("DELETE FROM entity WHERE num = ?1", number(num));
}

static void begin(void) { run("BEGIN IMMEDIATE", NULL, 0, NULL, 0); }

static void commit(void) {
    run("UPDATE meta SET serial = serial + 1 WHERE one = 1", NULL, 0, NULL, 0);
    run("COMMIT", NULL, 0, NULL, 0);
}

static void create(int64_t num, int64_t which, int64_t place, int64_t altitude) {
    begin();
    number_of(which);
    put(num, which, place, altitude);
    commit();
}

static void update(int64_t which, int64_t place, int64_t altitude) {
    begin();
    int64_t num = number_of(which);
    clear(num);
    put(num, which, place, altitude);
    commit();
}

static void delete(int64_t which) {
    begin();
    clear(number_of(which));
    commit();
}

// Finds candidates by the intervals of cells of level 13, one after the other, and of each cell above them, once, and then
// reads the rows of each.
static int find(int64_t first, int64_t places) {
    static int64_t found[MOST_FOUND];
    int count = 0;
    for (int64_t place = first; place < first + places; place++)
        count += run("SELECT entity FROM cell WHERE lo BETWEEN ?1 AND ?2", (struct value[]){number(place), number(place)}, 2,
            found + count, MOST_FOUND - count);
    for (int level = 0; level < 13; level++) {
        int64_t wide = (int64_t)1 << (2 * (13 - level));
        for (int64_t lo = first / wide * wide; lo < first + places; lo += wide)
            count += run("SELECT entity FROM cell WHERE lo = ?1 AND hi = ?2", (struct value[]){number(lo), number(lo + wide - 1)}, 2,
                found + count, MOST_FOUND - count);
    }
    for (int at = 0; at < count; at++) {
        RUN("SELECT num, kind, id, manager, state, version, serial, ovn, url FROM entity WHERE num = ?1", number(found[at]));
        RUN("SELECT entity, place, alt_lower, alt_upper, time_start, time_end FROM volume WHERE entity = ?1"
            " ORDER BY entity, place", number(found[at]));
        RUN("SELECT entity, volume, place, token, lo, hi FROM cell WHERE entity = ?1 ORDER BY entity, volume, place",
            number(found[at]));
        RUN("SELECT subscription FROM naming WHERE entity = ?1", number(found[at]));
    }
    return count;
}

static void query(int64_t first, int64_t places, int wanted) {
    run("BEGIN", NULL, 0, NULL, 0);
    if (find(first, places) != wanted)
        stop("a query found another number");
    run("ROLLBACK", NULL, 0, NULL, 0);
}

static double now(void) {
    struct timespec time;
    clock_gettime(CLOCK_MONOTONIC, &time);
    return time.tv_sec + time.tv_nsec / 1e9;
}

// Makes creations, each of which first searches for the intents that it meets: that many in its cell.
static void creations(int meets, int64_t first, int64_t place, int64_t many) {
    begin();
    for (int64_t at = 1; at <= meets; at++)
        put(first + at, first + at, place, 0);
    commit();
    double began = now();
    for (int64_t at = 1; at <= many; at++) {
        int64_t which = first + meets + at;
        query(place, 1, meets);
        // In a cell beside it, so that the next creation meets as many.
        create(which, which, place + at % 500 + 1, 1000 + at);
    }
    printf("key-%d %.0f\n", meets, many / (now() - began));
}

// Makes calls with more cells or more results, if that many cells have ten intents each.
static void look_at_more(int64_t first, int64_t places, int64_t many) {
    double began = now();
    for (int64_t at = 1; at <= many; at++)
        query(places - 1, 512, SHARING);
    printf("wide %.0f\n", many / (now() - began));
    began = now();
    for (int64_t at = 1; at <= many; at++)
        query(at % (places - 99), 100, 100 * SHARING);
    printf("many %.0f\n", many / (now() - began));
    creations(1, first, places + 1000, many);
    creations(16, first + 10 * many, places + 2000, many);
    creations(128, first + 20 * many, places + 3000, many);
}

int main(int count, char **words) {
    if (count != 5)
        stop("FILE SIZE COUNT SCHEMA");
    int64_t size = atoll(words[2]), many = atoll(words[3]), places = size / SHARING;
    if (sqlite3_open(words[1], &database) != SQLITE_OK)
        stop("open");
    if (sqlite3_exec(database, words[4], NULL, NULL, NULL) != SQLITE_OK)
        stop("schema");
    begin();
    for (int64_t which = 1; which <= size; which++)
        put(which, which, which % places, which / places * 10);
    commit();
    double began = now();
    for (int64_t at = 1; at <= many; at++)
        create(size + at, size + at, at % places, 1000 + at);
    printf("create %.0f\n", many / (now() - began));
    began = now();
    for (int64_t at = 1; at <= many; at++)
        update(size + at, at % places, 1000 + many + at);
    printf("update %.0f\n", many / (now() - began));
    began = now();
    for (int64_t at = 1; at <= many; at++)
        delete(size + at);
    printf("delete %.0f\n", many / (now() - began));
    began = now();
    for (int64_t at = 1; at <= many; at++)
        query(at % places, 1, SHARING);
    printf("query %.0f\n", many / (now() - began));
    if (places >= 100)
        look_at_more(size + many, places, many / 10);
    sqlite3_close(database);
}
