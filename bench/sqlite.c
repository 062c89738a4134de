/* The same listing by SQLite, put as well for it as we know: the two lists are tables in memory,
   document and start together are each table's integer key, and one query joins them in the order
   asked for, the zones in the outer loop. Nothing is checked, and filling the tables is not
   measured; all rows are read into an output as the page call writes it.

   sqlite count ORDER SHAPE NODES TIMES
       runs the query TIMES times and prints nothing
   sqlite time ORDER SHAPE NODES
       prints the query's median time in nanoseconds, and how many rows it has
   sqlite plan ORDER SHAPE NODES
       prints how SQLite goes about it */
#include "shapes.h"
#include "timing.h"
#include <sqlite3.h>
#include <stdio.h>
#include <stdlib.h>
#include <string.h>

enum { MOST_PAIRS = 262144 };

static struct shape shape;
static uint32_t out[MOST_PAIRS * BELFRY_PAIR_WORDS];
static sqlite3 *database;

static void need(int holds, const char *what) {
    if (holds)
        return;
    fprintf(stderr, "sqlite: %s: %s\n", what, database ? sqlite3_errmsg(database) : "");
    exit(2);
}

static sqlite3_stmt *prepared(const char *text) {
    sqlite3_stmt *statement;
    need(sqlite3_prepare_v2(database, text, -1, &statement, NULL) == SQLITE_OK, text);
    return statement;
}

/* Returns document and position as one number, as the tables' keys are. */
static sqlite3_int64 place_of(const uint32_t *node, size_t position) {
    return (sqlite3_int64)node[0] << 32 | node[position];
}

static void fill(const char *table, const uint32_t *nodes, size_t count) {
    char text[256];
    snprintf(text, sizeof text,
             "CREATE TABLE %s (first INTEGER PRIMARY KEY, last INT,"
             " document INT, start INT, end INT, level INT)",
             table);
    need(sqlite3_exec(database, text, NULL, NULL, NULL) == SQLITE_OK, text);
    snprintf(text, sizeof text, "INSERT INTO %s VALUES (?, ?, ?, ?, ?, ?)", table);
    sqlite3_stmt *insert = prepared(text);
    for (size_t i = 0; i < count; i++) {
        const uint32_t *node = &nodes[BELFRY_NODE_WORDS * i];
        sqlite3_bind_int64(insert, 1, place_of(node, 1));
        sqlite3_bind_int64(insert, 2, place_of(node, 2));
        for (int word = 0; word < BELFRY_NODE_WORDS; word++)
            sqlite3_bind_int64(insert, 3 + word, node[word]);
        need(sqlite3_step(insert) == SQLITE_DONE, text);
        sqlite3_reset(insert);
    }
    sqlite3_finalize(insert);
}

/* Returns the query for the listing inside in an order. That a sample starts no later than its zone
 * ends follows from how it ends; it lets the key end the search. */
static sqlite3_stmt *query(const char *order, const char *before) {
    char text[512];
    snprintf(text, sizeof text,
             "%s SELECT z.document, z.start, z.end, z.level, s.document, s.start, s.end, s.level"
             " FROM zones z CROSS JOIN samples s"
             " ON s.first > z.first AND s.first <= z.last AND s.last <= z.last ORDER BY %s",
             before, strcmp(order, "ancestor") == 0 ? "z.first, s.first" : "s.first, z.first");
    return prepared(text);
}

static size_t list_all(sqlite3_stmt *listing) {
    size_t pairs = 0;
    while (sqlite3_step(listing) == SQLITE_ROW) {
        need(pairs < MOST_PAIRS, "too many pairs");
        for (int word = 0; word < BELFRY_PAIR_WORDS; word++)
            out[BELFRY_PAIR_WORDS * pairs + word] = sqlite3_column_int64(listing, word);
        pairs++;
    }
    need(sqlite3_reset(listing) == SQLITE_OK, "listing");
    return pairs;
}

static void print_time(sqlite3_stmt *listing) {
    static double times[MOST_ROUNDS];
    size_t rounds = 0, pairs = 0;
    for (double begun = now(); is_round_due(rounds, begun); rounds++) {
        double before = now();
        pairs = list_all(listing);
        times[rounds] = now() - before;
    }
    printf("%.0f %zu\n", median(times, rounds), pairs);
}

static void print_plan(const char *order) {
    sqlite3_stmt *plan = query(order, "EXPLAIN QUERY PLAN");
    while (sqlite3_step(plan) == SQLITE_ROW)
        printf("%s\n", (const char *)sqlite3_column_text(plan, 3));
}

int main(int argc, char **argv) {
    need(argc >= 5 && build_shape(&shape, argv[3], strtoul(argv[4], NULL, 10)),
         "usage: sqlite count|time|plan ORDER SHAPE NODES [TIMES]");
    need(sqlite3_open(":memory:", &database) == SQLITE_OK, "open");
    fill("zones", shape.zone, shape.zones);
    fill("samples", shape.sample, shape.samples);
    sqlite3_stmt *listing = query(argv[2], "");
    if (strcmp(argv[1], "time") == 0)
        print_time(listing);
    else if (strcmp(argv[1], "plan") == 0)
        print_plan(argv[2]);
    else
        for (size_t left = argc > 5 ? strtoul(argv[5], NULL, 10) : 0; left > 0; left--)
            list_all(listing);
    return 0;
}
