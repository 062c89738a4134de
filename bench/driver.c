/* The bench's figures, one at a time.

   driver count CODE MEASURE SHAPE NODES TIMES
       runs a measure TIMES times and prints nothing: the instructions of a run with one time less
       those of a run with none are those of the measure
   driver time MEASURE SHAPE NODES
       prints each code and its median time in nanoseconds, the codes taking turns
   driver sizes SHAPE NODES
       prints how many zones and samples the shape has, how many pairs inside and directly inside,
       and how many marks the document that is numbered
   driver lists SHAPE NODES
       prints the zones, an empty line and the samples, a node to a line
   driver book SHAPE NODES
       writes the book of both lists
   driver looked MEASURE SHAPE NODES
       prints how many zones a listing looks at: those that the plain call decides about, those that
       the call with links does, and those that it reads in addition to confirm its jumps */
#include "linking.h"
#include "looking.h"
#include "measures.h"
#include "timing.h"
#include <stdio.h>
#include <stdlib.h>
#include <string.h>

static struct measure measure;

static void prepare(const char *name, const char *shape_name, const char *nodes) {
    size_t count = strtoul(nodes, NULL, 10);
    if (count < 2 || count > BELFRY_MOST_NODES ||
        !prepare_measure(&measure, name, shape_name, count))
        fail("no such measure, shape or number of nodes");
}

static void count(const char *code_name, const char *times) {
    const struct code *code = code_named(code_name);
    if (!code)
        fail("no such code");
    for (size_t left = strtoul(times, NULL, 10); left > 0; left--)
        run_measure(&measure, code);
}

static void time_codes(void) {
    static double times[CODES][MOST_ROUNDS];
    size_t rounds = 0;
    for (double begun = now(); is_round_due(rounds, begun); rounds++)
        for (size_t i = 0; i < CODES; i++) {
            double before = now();
            run_measure(&measure, &codes[i]);
            times[i][rounds] = now() - before;
        }
    for (size_t i = 0; i < CODES; i++)
        printf("%s %.0f\n", codes[i].name, median(times[i], rounds));
}

static size_t pairs_of(const char *listing, const char *shape_name, const char *nodes) {
    prepare(listing, shape_name, nodes);
    return run_measure(&measure, &codes[0]);
}

static void print_sizes(const char *shape_name, const char *nodes) {
    prepare("number", shape_name, nodes);
    size_t marks = shape.marks;
    size_t inside = pairs_of("inside-descendant-all", shape_name, nodes),
           directly = pairs_of("directly-descendant-all", shape_name, nodes);
    printf("%zu %zu %zu %zu %zu\n", shape.zones, shape.samples, inside, directly, marks);
}

static void print_list(const uint32_t *list, size_t nodes) {
    for (size_t i = 0; i < nodes; i++, list += BELFRY_NODE_WORDS)
        printf("%u %u %u %u\n", list[0], list[1], list[2], list[3]);
}

static void print_lists(const char *shape_name, const char *nodes) {
    prepare("check", shape_name, nodes);
    print_list(shape.zone, shape.zones);
    printf("\n");
    print_list(shape.sample, shape.samples);
}

static void write_book(const char *shape_name, const char *nodes) {
    prepare("book", shape_name, nodes);
    if (fwrite(book, 1, book_bytes, stdout) != book_bytes)
        fail("the book can't be written");
}

int main(int argc, char **argv) {
    if (argc == 7 && strcmp(argv[1], "count") == 0) {
        prepare(argv[3], argv[4], argv[5]);
        count(argv[2], argv[6]);
    } else if (argc == 5 && strcmp(argv[1], "time") == 0) {
        prepare(argv[2], argv[3], argv[4]);
        time_codes();
    } else if (argc == 4 && strcmp(argv[1], "sizes") == 0)
        print_sizes(argv[2], argv[3]);
    else if (argc == 4 && strcmp(argv[1], "lists") == 0)
        print_lists(argv[2], argv[3]);
    else if (argc == 4 && strcmp(argv[1], "book") == 0)
        write_book(argv[2], argv[3]);
    else if (argc == 5 && strcmp(argv[1], "looked") == 0) {
        prepare(argv[2], argv[3], argv[4]);
        print_looked(&shape, links, &measure.ticket);
    } else
        fail("usage: driver count CODE MEASURE SHAPE NODES TIMES | time MEASURE SHAPE NODES | "
             "sizes SHAPE NODES | lists SHAPE NODES | book SHAPE NODES | looked MEASURE SHAPE "
             "NODES");
    return 0;
}
