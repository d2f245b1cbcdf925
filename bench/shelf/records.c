/* What the memory of many records costs a plain C program that finds them by a hash table: the nanoseconds of a request over few of them
 * and over many, asked in the order in which they were made and all over.
 *
 * A record takes as much memory as a slot of the agent's, and stands in memory of its own. A request finds it by its id's hash, reads what
 * an answer needs, and writes it into a buffer. usage: records FEW MANY
 * It prints for each of several rounds: many and few in order, many and few all over. */
#include <stdint.h>
#include <stdio.h>
#include <stdlib.h>
#include <string.h>
#include <time.h>

/* Numbers without a factor in common with those of the ids. */
enum { MADE = 38197, ASKED = 61357 };
enum { ROUNDS = 15, A_ROUND = 2000 };

/* So that no answer goes unwritten. */
static volatile char last;

struct record {
    uint64_t times[4];
    char id[56];
    char secret[32];
};

struct place {
    uint64_t hash;
    struct record *record;
};

/* Twice as many places as records, so that one is found at the first place or near it. */
struct table {
    struct place *places;
    size_t capacity, length;
};

static void *memory(size_t size) {
    void *found = calloc(1, size);
    if (!found) {
        perror("records");
        exit(2);
    }
    return found;
}

static uint64_t hash_of(const char *id) {
    uint64_t hash = 0;
    for (; *id; id++)
        hash = (hash ^ (unsigned char)*id) * 0x9e3779b97f4a7c15u;
    return hash ^ hash >> 32;
}

static struct place *place_of(struct table table, const char *id) {
    uint64_t hash = hash_of(id);
    struct place *place = table.places + hash % table.capacity;
    while (place->record && (place->hash != hash || strcmp(place->record->id, id)))
        place = place + 1 < table.places + table.capacity ? place + 1 : table.places;
    return place;
}

static void name(char id[32], size_t k) {
    snprintf(id, 32, "id%06zu", k);
}

static struct table filled(size_t length) {
    struct table table = {memory(2 * length * sizeof(struct place)), 2 * length, length};
    for (size_t k = 0; k < length; k++) {
        struct record *record = memory(sizeof *record);
        name(record->id, k * MADE % length);
        strcpy(record->secret, "passphrase");
        *place_of(table, record->id) = (struct place){hash_of(record->id), record};
    }
    return table;
}

static double a_round(struct table table, size_t from, size_t step) {
    struct timespec start, end;
    clock_gettime(CLOCK_MONOTONIC, &start);
    for (size_t k = from; k < from + A_ROUND; k++) {
        char id[32], answer[300];
        name(id, k * step % table.length);
        struct record *record = place_of(table, id)->record;
        record->times[1] = k;
        int length = snprintf(answer, sizeof answer, "D %s\nOK\n", record->secret);
        last = answer[length - 1];
    }
    clock_gettime(CLOCK_MONOTONIC, &end);
    return ((end.tv_sec - start.tv_sec) * 1e9 + (end.tv_nsec - start.tv_nsec)) / A_ROUND;
}

int main(int count, char **words) {
    if (count != 3)
        return 2;
    struct table few = filled(strtoul(words[1], 0, 10)), many = filled(strtoul(words[2], 0, 10));
    for (size_t round = 0; round < ROUNDS; round++) {
        printf("records %.0f", a_round(many, round * A_ROUND, MADE));
        printf(" %.0f", a_round(few, round * A_ROUND, MADE));
        printf(" %.0f", a_round(many, round * A_ROUND, ASKED));
        printf(" %.0f\n", a_round(few, round * A_ROUND, ASKED));
    }
    return 0;
}
