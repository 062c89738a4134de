#include "shapes.h"
#include <stdio.h>
#include <string.h>

enum {
    ROOT_TAG = 1,
    DEEPEST_RANDOM = 20,
    FIELD_ZONES = 64,
    NODE_BYTES = BELFRY_NODE_WORDS * BELFRY_NUMBER_BYTES
};

/* Which zones of a farm have a sample of their own: a number of them, from a first one on, as far
   apart as said. */
struct owners {
    size_t count, first, apart;
};

/* A shape that is being built: how many nodes each list may have, the document and the next
   position in it, and where each open element's end is to be written. */
struct building {
    struct shape *shape;
    size_t most;
    uint32_t document, position;
    size_t depth;
    uint32_t *ends[BELFRY_MOST_LEVELS];
    struct owners owners;
};

static void put_mark(struct building *b, uint32_t mark) {
    b->shape->mark[b->shape->marks++] = mark;
    b->position++;
}

static void open_element(struct building *b, uint32_t *node, uint32_t tag) {
    node[0] = b->document;
    node[1] = b->position;
    node[3] = ++b->depth;
    b->ends[b->depth - 1] = &node[2];
    put_mark(b, tag);
}

static void close_element(struct building *b) {
    *b->ends[--b->depth] = b->position;
    put_mark(b, BELFRY_CLOSE);
}

static void open_zone(struct building *b) {
    open_element(b, &b->shape->zone[BELFRY_NODE_WORDS * b->shape->zones++], ZONE_TAG);
}

static void open_sample(struct building *b) {
    open_element(b, &b->shape->sample[BELFRY_NODE_WORDS * b->shape->samples++], SAMPLE_TAG);
}

static void put_samples(struct building *b, size_t count) {
    for (size_t i = 0; i < count; i++) {
        open_sample(b);
        close_element(b);
    }
}

static int has_room(const struct building *b, size_t zones, size_t samples) {
    return b->shape->zones + zones <= b->most && b->shape->samples + samples <= b->most;
}

static void put_zone_with_sample(struct building *b) {
    open_zone(b);
    put_samples(b, 1);
    close_element(b);
}

/* Builds zones side by side, a sample in each. */
static void build_flat(struct building *b) {
    while (has_room(b, 1, 1))
        put_zone_with_sample(b);
}

/* Nests of as many zones as there are levels but one, and as many samples in the innermost zone of
   each. */
static void build_nests(struct building *b) {
    size_t deep = BELFRY_MOST_LEVELS - 1 - b->depth;
    while (has_room(b, deep, deep)) {
        for (size_t i = 0; i < deep; i++)
            open_zone(b);
        put_samples(b, deep);
        for (size_t i = 0; i < deep; i++)
            close_element(b);
    }
}

/* Builds such nests with a sample before and a sample after each inner zone. */
static void build_between(struct building *b) {
    size_t deep = BELFRY_MOST_LEVELS - 1 - b->depth;
    if (deep > b->most / 2)
        deep = b->most / 2;
    while (has_room(b, deep, 2 * deep)) {
        for (size_t i = 0; i < deep; i++) {
            open_zone(b);
            put_samples(b, 1);
        }
        for (size_t i = 0; i < deep; i++) {
            put_samples(b, 1);
            close_element(b);
        }
    }
}

uint32_t random_number(uint64_t *state) {
    *state = *state * 6364136223846793005 + 1442695040888963407;
    return *state >> 33;
}

void build_readings(uint32_t *readings, size_t samples, uint32_t kind) {
    static const uint32_t turns[] = {BELFRY_PERCENT, BELFRY_GRAMS, BELFRY_MISSING};
    uint64_t state = 1;
    for (size_t i = 0; i < samples; i++) {
        float grams = random_number(&state) % BELFRY_MOST_GRAMS;
        uint32_t its_kind = kind == IN_TURN ? turns[i % 3] : kind;
        belfry_reading reading = its_kind == BELFRY_PERCENT ? belfry_percent(grams / 10)
                                 : its_kind == BELFRY_GRAMS ? belfry_grams(grams)
                                                            : belfry_no_reading();
        memcpy(&readings[BELFRY_READING_WORDS * i], &reading, sizeof reading);
    }
}

void build_hundredths(uint32_t *hundredths, size_t samples) {
    uint64_t state = 1;
    for (size_t i = 0; i < samples; i++) {
        uint32_t number = random_number(&state) % (BELFRY_MOST_HUNDREDTHS + 1);
        hundredths[i] = i % 3 == 2 ? BELFRY_NO_HUNDREDTHS : number;
    }
}

/* Puts every node from a first one on into a book, `apart` from one to the next. Returns how many
   they are. Numbers lie in memory as a book keeps them. */
static size_t put_nodes(uint8_t *at, const uint32_t *nodes, size_t count, size_t first,
                        size_t apart) {
    size_t put = 0;
    for (size_t i = first; i < count; i += apart, put++)
        memcpy(at + NODE_BYTES * put, &nodes[BELFRY_NODE_WORDS * i], NODE_BYTES);
    return put;
}

size_t build_book(uint8_t *book, size_t lists, const uint32_t *zones, size_t zone_count,
                  const uint32_t *samples, size_t sample_count) {
    uint32_t number = lists;
    size_t end = BELFRY_BOOK_BYTES(lists, 0);
    memcpy(book, &number, sizeof number);
    for (size_t i = 0; i < lists; i++) {
        size_t count = i == 0 ? put_nodes(book + end, zones, zone_count, 0, 1)
                              : put_nodes(book + end, samples, sample_count, i - 1, lists - 1);
        uint32_t entry[BELFRY_CONTENTS_NUMBERS] = {ZONE_TAG + i, end, count};
        memcpy(book + BELFRY_BOOK_BYTES(i, 0), entry, sizeof entry);
        end += NODE_BYTES * count;
    }
    return end;
}

/* Builds a walk that opens a zone, opens a sample or closes what is open, at random. */
static void build_random(struct building *b) {
    uint64_t state = 1;
    size_t lowest = b->depth, deepest = lowest + DEEPEST_RANDOM;
    while (has_room(b, 1, 1)) {
        uint32_t choice = random_number(&state);
        if (b->depth == deepest || (b->depth > lowest && choice % 2 == 0))
            close_element(b);
        else if (choice / 2 % 2 == 0)
            open_zone(b);
        else
            open_sample(b);
    }
    while (b->depth > lowest)
        close_element(b);
}

/* Builds zones side by side, of which `holders` hold `samples` each. */
static void build_some(struct building *b, size_t holders, size_t samples) {
    size_t apart = b->most < holders ? 1 : b->most / holders;
    for (size_t i = 0; i < b->most; i++) {
        open_zone(b);
        if (i % apart == 0 && i / apart < holders)
            put_samples(b, samples);
        close_element(b);
    }
}

/* Documents of a zone with a sample in it. Within a root there is one. */
static void build_documents(struct building *b) {
    put_zone_with_sample(b);
    while (b->depth == 0 && has_room(b, 1, 1)) {
        b->document++;
        b->position = 1;
        put_zone_with_sample(b);
    }
}

/* Builds the random tree's zones, as samples too. */
static void build_twice(struct building *b) {
    struct shape *s = b->shape;
    build_random(b);
    memcpy(s->sample, s->zone, s->zones * BELFRY_NODE_WORDS * sizeof s->zone[0]);
    s->samples = s->zones;
}

/* Fields: zones that hold zones side by side, a sample in each. */
static void build_fields(struct building *b) {
    size_t wide = b->most <= FIELD_ZONES ? b->most - 1 : FIELD_ZONES;
    while (has_room(b, wide + 1, wide)) {
        open_zone(b);
        for (size_t i = 0; i < wide; i++)
            put_zone_with_sample(b);
        close_element(b);
    }
}

/* Nests in each zone of which a small zone with a sample comes first and then the next zone of the
   nest; as many samples as the nest is deep come last in the innermost one. */
static void build_side(struct building *b) {
    size_t deep = BELFRY_MOST_LEVELS - 2 - b->depth;
    if (deep > b->most / 2)
        deep = b->most / 2;
    while (has_room(b, 2 * deep, 2 * deep)) {
        for (size_t i = 0; i < deep; i++) {
            open_zone(b);
            put_zone_with_sample(b);
        }
        put_samples(b, deep);
        for (size_t i = 0; i < deep; i++)
            close_element(b);
    }
}

static void build_eight_zones(struct building *b) {
    build_some(b, 8, b->most / 8);
}

static void build_few_samples(struct building *b) {
    build_some(b, 16, 1);
}

static void build_holds_all(struct building *b) {
    open_zone(b);
    put_samples(b, b->most);
    close_element(b);
}

static void build_holds_none(struct building *b) {
    open_zone(b);
    close_element(b);
    put_samples(b, b->most);
}

static void build_deepest(struct building *b) {
    size_t lowest = b->depth;
    for (;;) {
        open_zone(b);
        if (b->depth == BELFRY_MOST_LEVELS)
            break;
        put_samples(b, 1);
    }
    close_element(b);
    while (b->depth > lowest) {
        put_samples(b, 1);
        close_element(b);
    }
}

/* Opens a zone of a farm. If it is to have a sample of its own, that comes first in it. */
static void open_farm_zone(struct building *b) {
    struct owners o = b->owners;
    size_t index = b->shape->zones;
    open_zone(b);
    if (index >= o.first && (index - o.first) % o.apart == 0 &&
        (index - o.first) / o.apart < o.count)
        put_samples(b, 1);
}

static void put_farm_zone(struct building *b) {
    open_farm_zone(b);
    close_element(b);
}

/* Builds a zone that holds zones side by side, `zones` in all. */
static void put_farm_field(struct building *b, size_t zones) {
    open_farm_zone(b);
    for (size_t i = 1; i < zones; i++)
        put_farm_zone(b);
    close_element(b);
}

static void put_farm_document(struct building *b, size_t zones) {
    b->document++;
    b->position = 1;
    put_farm_field(b, zones);
}

static void put_farm_nest(struct building *b, size_t zones) {
    for (size_t i = 0; i < zones; i++)
        open_farm_zone(b);
    for (size_t i = 0; i < zones; i++)
        close_element(b);
}

/* Builds a nest in each zone of which a small zone comes first. */
static void put_farm_side(struct building *b, size_t zones) {
    for (size_t i = 0; i < zones / 2; i++) {
        open_farm_zone(b);
        put_farm_zone(b);
    }
    for (size_t i = 0; i < zones / 2; i++)
        close_element(b);
}

static void put_farm_flat(struct building *b, size_t zones) {
    for (size_t i = 0; i < zones; i++)
        put_farm_zone(b);
}

/* Builds a nest in each zone of which a field comes first. The innermost one ends with as many
   zones side by side. */
static void put_farm_barren(struct building *b, size_t zones) {
    size_t deep = zones / (1 + FIELD_ZONES);
    for (size_t i = 0; i < deep; i++) {
        open_farm_zone(b);
        put_farm_field(b, FIELD_ZONES);
    }
    put_farm_flat(b, FIELD_ZONES);
    for (size_t i = 0; i < deep; i++)
        close_element(b);
}

/* How the zones of a farm may lie, and how many of them make a group. */
static const struct {
    const char *name;
    size_t zones;
    void (*put_group)(struct building *b, size_t zones);
} farms[] = {
    {"flat", 1, put_farm_flat},
    {"fields", FIELD_ZONES, put_farm_field},
    {"documents", FIELD_ZONES, put_farm_document},
    {"nests", BELFRY_MOST_LEVELS - 1, put_farm_nest},
    {"side", 2 * (BELFRY_MOST_LEVELS - 2), put_farm_side},
    {"barren", (BELFRY_MOST_LEVELS - 3) * (1 + FIELD_ZONES) + FIELD_ZONES, put_farm_barren},
};

/* Returns which of a farm's zones have a sample of their own, by the place's name. There are none
   where there is no such place. Those that are spread are the last of equal stretches. Of a farm
   with fewer zones than that, none has a sample, or all do. */
static struct owners owners_at(const char *place, size_t count, size_t zones) {
    size_t stretch = zones / count;
    if (strcmp(place, "first") == 0)
        return (struct owners){count, 0, 1};
    if (strcmp(place, "last") == 0)
        return (struct owners){count, zones - count, 1};
    return (struct owners){strcmp(place, "spread") == 0 ? count : 0, stretch - 1, stretch};
}

/* Builds a farm of whole groups by its name. It answers 0 where there is no such farm. */
static int build_farm(struct building *b, const char *name) {
    char zones[16], place[16];
    size_t count;
    if (sscanf(name, "farm-%15[^-]-%zu-%15s", zones, &count, place) != 3)
        return 0;
    for (size_t i = 0; i < sizeof farms / sizeof farms[0]; i++) {
        size_t groups = b->most / farms[i].zones, all = groups * farms[i].zones;
        if (strcmp(farms[i].name, zones) != 0 || count == 0)
            continue;
        b->owners = owners_at(place, count, all);
        for (; groups > 0; groups--)
            farms[i].put_group(b, farms[i].zones);
        return b->owners.count > 0;
    }
    return 0;
}

const char *const shape_names[SHAPES] = {
    "flat",        "nests",     "between", "random", "eight-zones",
    "few-samples", "documents", "twice",   "fields", "side",
};

/* How each of them is built. */
static void (*const builders[SHAPES])(struct building *b) = {
    build_flat,        build_nests,     build_between, build_random, build_eight_zones,
    build_few_samples, build_documents, build_twice,   build_fields, build_side,
};

static int build(struct building *b, const char *name) {
    for (size_t i = 0; i < SHAPES; i++)
        if (strcmp(shape_names[i], name) == 0) {
            builders[i](b);
            return 1;
        }
    if (strcmp(name, "holds-all") == 0)
        build_holds_all(b);
    else if (strcmp(name, "holds-none") == 0)
        build_holds_none(b);
    else if (strcmp(name, "deepest") == 0)
        build_deepest(b);
    else
        return strcmp(name, "empty") == 0 || build_farm(b, name);
    return 1;
}

int build_shape(struct shape *shape, const char *name, size_t nodes) {
    struct building b = {.shape = shape, .most = nodes, .document = 1, .position = 1};
    shape->zones = shape->samples = shape->marks = 0;
    return build(&b, name);
}

int build_document(struct shape *shape, const char *name, size_t marks) {
    struct building b = {.shape = shape, .most = marks / 4 - 1, .document = 1, .position = 1};
    uint32_t root[BELFRY_NODE_WORDS];
    shape->zones = shape->samples = shape->marks = 0;
    open_element(&b, root, ROOT_TAG);
    int built = build(&b, name);
    close_element(&b);
    return built;
}
