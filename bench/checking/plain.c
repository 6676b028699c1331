// The peer: the same task in plain C, `plain CNF CERTIFICATE`. All literals stand in one arena that grows, a table by
// id says where a clause stands, and marks are stamps. It takes a certificate of one obligation, whose name is `cnf`,
// and looks at a line in the order of the rule of hints. It says `closed` or `open` with the number of lines as
// `checking` does, and has its own words for faults. It never gives memory back, and ids have to be below 2^31.
#include <stdint.h>
#include <stdio.h>
#include <stdlib.h>
#include <string.h>

typedef struct { uint64_t start; uint32_t length; uint32_t alive; } Place;

static int32_t *arena, *clause;
static int64_t *hints;
static uint64_t arena_length, arena_room, clause_length, clause_room, hints_length, hints_room;
static Place *places;
static uint64_t places_length, last;
static uint32_t *marks, mark, vars;
static int closed;
static const char *at, *end;
static uint64_t line_number, taken;

static void *grown(void *items, uint64_t *room, uint64_t least, size_t size) {
    if (*room >= least) return items;
    *room = least > 2 * *room ? least : 2 * *room;
    items = realloc(items, *room * size);
    if (!items) puts("memory"), exit(2);
    return items;
}

static void bad(void) {
    printf("text: %lu\n", line_number);
    exit(1);
}

static void fault(const char *word, int64_t number) {
    printf("line %lu: %s %ld\n", line_number, word, number);
    exit(1);
}

static char *whole(const char *name, uint64_t *length) {
    FILE *file = fopen(name, "rb");
    if (!file) perror(name), exit(2);
    fseek(file, 0, SEEK_END);
    *length = ftell(file);
    rewind(file);
    char *bytes = malloc(*length + 1);
    if (!bytes || fread(bytes, 1, *length, file) != *length) puts("memory"), exit(2);
    bytes[*length] = 0;
    fclose(file);
    return bytes;
}

// A number without leading zeros, and what stands behind it is `behind`.
static uint64_t number(char behind) {
    uint64_t value = 0;
    const char *from = at;
    while (at < end && *at >= '0' && *at <= '9') {
        if (value > (UINT64_MAX >> 1) / 10) bad();
        value = value * 10 + (uint64_t)(*at++ - '0');
    }
    if (at == from || value > INT64_MAX || (*from == '0' && at > from + 1) || at == end || *at != behind) bad();
    at++;
    return value;
}

static int64_t signed_number(void) {
    if (at < end && *at == '-') {
        at++;
        int64_t value = (int64_t)number(' ');
        if (!value) bad();
        return -value;
    }
    return (int64_t)number(' ');
}

// The place of a literal's mark; its negation's is the one beside it.
static uint32_t spot(int32_t literal) {
    return literal < 0 ? 2 * (uint32_t)-literal + 1 : 2 * (uint32_t)literal;
}

static void put(uint64_t id) {
    uint64_t had = places_length;
    places = grown(places, &places_length, id + 1, sizeof *places);
    memset(places + had, 0, (places_length - had) * sizeof *places);
    arena = grown(arena, &arena_room, arena_length + clause_length, sizeof *arena);
    memcpy(arena + arena_length, clause, clause_length * sizeof *arena);
    places[id] = (Place){arena_length, (uint32_t)clause_length, 1};
    arena_length += clause_length;
    last = id;
    closed |= clause_length == 0;
}

static void literal_read(int64_t literal) {
    clause = grown(clause, &clause_room, clause_length + 1, sizeof *clause);
    clause[clause_length++] = (int32_t)literal;
}

static void follow(void) {
    for (uint64_t h = 0; h < hints_length; h++) {
        uint64_t id = (uint64_t)hints[h];
        if (id >= places_length || !places[id].alive) fault("unknown", hints[h]);
        int32_t *c = arena + places[id].start, open = 0;
        for (uint32_t k = 0; k < places[id].length; k++) {
            if (marks[spot(c[k])] == mark) continue;
            if (open && open != c[k]) fault("idle", hints[h]);
            open = c[k];
        }
        if (!open) return;
        if (marks[spot(open) ^ 1] == mark) fault("idle", hints[h]);
        marks[spot(open) ^ 1] = mark;
    }
    fault("no conflict", 0);
}

static void add(uint64_t id) {
    if (id <= last) fault("not rising", (int64_t)id);
    if (id > INT32_MAX) puts("memory"), exit(2);
    for (uint64_t k = 0; k < clause_length; k++)
        if ((uint32_t)abs(clause[k]) > vars) fault("var", clause[k]);
    for (uint64_t h = 0; h < hints_length; h++)
        if (hints[h] < 0) fault("rat", hints[h]);
    mark++;
    for (uint64_t k = 0; k < clause_length; k++) marks[spot(clause[k])] = mark;
    follow();
    put(id);
}

static void addition(uint64_t id) {
    int64_t value;
    clause_length = hints_length = 0;
    while ((value = signed_number())) {
        if (value > INT32_MAX || value < -INT32_MAX) bad();
        literal_read(value);
    }
    for (;;) {
        if (at + 1 < end && at[0] == '0' && at[1] == '\n') break;
        if (!(value = signed_number())) bad();
        hints = grown(hints, &hints_room, hints_length + 1, sizeof *hints);
        hints[hints_length++] = value;
    }
    at += 2;
    add(id);
}

static void deletion(void) {
    at += 2;
    hints_length = 0;
    while (!(at + 1 < end && at[0] == '0' && at[1] == '\n')) {
        uint64_t id = number(' ');
        if (!id) bad();
        hints = grown(hints, &hints_room, hints_length + 1, sizeof *hints);
        hints[hints_length++] = (int64_t)id;
    }
    at += 2;
    for (uint64_t k = 0; k < hints_length; k++)
        if ((uint64_t)hints[k] < places_length) places[hints[k]].alive = 0;
}

static void cnf_read(const char *name) {
    uint64_t length, id = 0;
    char *text = whole(name, &length), *word, *behind;
    if (!(word = strtok(text, " \n")) || !(word = strtok(0, " \n"))) puts("no cnf"), exit(2);
    vars = (uint32_t)strtoul(strtok(0, " \n"), 0, 10);
    strtok(0, " \n");
    while ((word = strtok(0, " \n"))) {
        long literal = strtol(word, &behind, 10);
        if (literal) literal_read(literal);
        else put(++id), clause_length = 0;
    }
    marks = calloc(2 * (uint64_t)vars + 2, sizeof *marks);
    free(text);
}

static int front(const char *text) {
    size_t length = strlen(text);
    if ((size_t)(end - at) < length || memcmp(at, text, length)) return 0;
    at += length;
    return 1;
}

int main(int count, char **words) {
    uint64_t length;
    if (count != 3) return 2;
    cnf_read(words[1]);
    at = whole(words[2], &length);
    end = at + length;
    line_number = 1;
    if (!front("lola-cert 1\n")) bad();
    line_number = 2;
    if (!front("o cnf\n")) bad();
    for (line_number = 3; !front("end 1\n"); line_number++, taken++) {
        uint64_t id = number(' ');
        if (!id) bad();
        if (at + 1 < end && at[0] == 'd' && at[1] == ' ') deletion();
        else addition(id);
    }
    if (at != end) line_number++, bad();
    printf("%s lines=%lu\n", closed ? "closed" : "open", taken);
    return !closed;
}
