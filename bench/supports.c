// Times the supports of the classifier and prints one table of ratios.
// An export makes a support, fills it, asks it all questions `rounds` times and answers a checksum. The time of a call
// comes from the difference of two numbers of rounds, so that making and filling do not count.
#define _POSIX_C_SOURCE 200809L
#include <inttypes.h>
#include <stdbool.h>
#include <stdint.h>
#include <stdio.h>
#include <stdlib.h>
#include <time.h>

enum {
    FAMILIES = 32, // of nested patterns, told apart by their first 5 bits
    DEPTH = 8,     // the patterns of a family, each within the one before
    PATTERNS = FAMILIES * DEPTH,
    KEYS = 2048,
    QUESTIONS = 65536,    // more than a branch predictor learns by heart
    HITS = QUESTIONS / 2, // the questions after a key that is stored
    SAMPLES = 9,          // of which the median counts
};

struct prefix_row {
    uint8_t length;
    uint32_t number;
};

// A subset, and the places of five labels.
struct key_row {
    uint8_t subset;
    uint16_t source, destination, source_port, destination_port, protocol;
};

#define FINDER(name, value)                                                                                            \
    uint64_t name(const struct prefix_row *rows, size_t row_count, const value *values, size_t value_count,            \
                  uint32_t rounds)
#define KEY_SUPPORT(name)                                                                                              \
    uint64_t name(const struct key_row *rows, size_t row_count, const struct key_row *questions,                       \
                  size_t question_count, uint32_t rounds)

FINDER(bench_address_trie, uint32_t);
FINDER(bench_address_scan, uint32_t);
FINDER(bench_port_trie, uint16_t);
FINDER(bench_port_scan, uint16_t);
KEY_SUPPORT(bench_hash_table);
KEY_SUPPORT(bench_key_tree);
KEY_SUPPORT(bench_bloom_filter);

// ---- what is held, and what is asked

static struct prefix_row address_patterns[PATTERNS], port_patterns[PATTERNS];
static uint32_t addresses[QUESTIONS];
static uint16_t ports[QUESTIONS];
static struct key_row keys[KEYS], questions[QUESTIONS];

// The same numbers in every run.
static uint64_t draw(void) {
    static uint64_t state = 1;
    state += 0x9e3779b97f4a7c15;
    uint64_t word = state;
    word = (word ^ (word >> 30)) * 0xbf58476d1ce4e5b9;
    word = (word ^ (word >> 27)) * 0x94d049bb133111eb;
    return word ^ (word >> 31);
}

static uint32_t draw_bits(unsigned count) { return draw() & ((UINT64_C(1) << count) - 1); }

// The patterns of a family: the first bits of one number.
static void draw_family(struct prefix_row *rows, unsigned family, unsigned width, const uint8_t lengths[DEPTH]) {
    uint32_t number = family << (width - 5) | draw_bits(width - 5);
    for (unsigned i = 0; i < DEPTH; i++) {
        unsigned rest = width - lengths[i];
        rows[i] = (struct prefix_row){lengths[i], number >> rest << rest};
    }
}

// A value that a pattern matches, each pattern equally often.
static uint32_t draw_value(const struct prefix_row *rows, unsigned width) {
    struct prefix_row row = rows[draw() % PATTERNS];
    return row.number | draw_bits(width - row.length);
}

static void draw_prefixes(void) {
    static const uint8_t address_lengths[DEPTH] = {5, 8, 12, 16, 20, 24, 28, 32};
    static const uint8_t port_lengths[DEPTH] = {5, 6, 8, 9, 11, 12, 14, 16};
    for (unsigned i = 0; i < FAMILIES; i++) {
        draw_family(address_patterns + i * DEPTH, i, 32, address_lengths);
        draw_family(port_patterns + i * DEPTH, i, 16, port_lengths);
    }
    for (unsigned i = 0; i < QUESTIONS; i++) {
        addresses[i] = draw_value(address_patterns, 32);
        ports[i] = draw_value(port_patterns, 16);
    }
}

static bool is_same(const struct key_row *a, const struct key_row *b) {
    return a->subset == b->subset && a->source == b->source && a->destination == b->destination &&
           a->source_port == b->source_port && a->destination_port == b->destination_port && a->protocol == b->protocol;
}

static bool is_among(const struct key_row *key, unsigned count) {
    for (unsigned i = 0; i < count; i++) {
        if (is_same(&keys[i], key)) return true;
    }
    return false;
}

// A key that is none of the first `count`: of one of 8 subsets, with one of 32 labels of each address and port, and
// one of 3 of the protocol.
static struct key_row draw_key(unsigned count) {
    struct key_row key;
    do {
        uint64_t word = draw();
        key = (struct key_row){word % 8,          (word >> 3) % 32,  (word >> 8) % 32,
                               (word >> 13) % 32, (word >> 18) % 32, (word >> 23) % 3};
    } while (is_among(&key, count));
    return key;
}

static void draw_keys(void) {
    for (unsigned i = 0; i < KEYS; i++) keys[i] = draw_key(i);
    for (unsigned i = 0; i < QUESTIONS; i++) questions[i] = i < HITS ? keys[draw() % KEYS] : draw_key(KEYS);
    for (unsigned i = QUESTIONS - 1; i > 0; i--) {
        unsigned other = draw() % (i + 1);
        struct key_row question = questions[i];
        questions[i] = questions[other];
        questions[other] = question;
    }
}

// ---- the supports

static uint64_t address_trie(uint32_t rounds) {
    return bench_address_trie(address_patterns, PATTERNS, addresses, QUESTIONS, rounds);
}

static uint64_t address_scan(uint32_t rounds) {
    return bench_address_scan(address_patterns, PATTERNS, addresses, QUESTIONS, rounds);
}

static uint64_t port_trie(uint32_t rounds) {
    return bench_port_trie(port_patterns, PATTERNS, ports, QUESTIONS, rounds);
}

static uint64_t port_scan(uint32_t rounds) {
    return bench_port_scan(port_patterns, PATTERNS, ports, QUESTIONS, rounds);
}

static uint64_t hash_table(uint32_t rounds) { return bench_hash_table(keys, KEYS, questions, QUESTIONS, rounds); }

static uint64_t key_tree(uint32_t rounds) { return bench_key_tree(keys, KEYS, questions, QUESTIONS, rounds); }

static uint64_t bloom_filter(uint32_t rounds) { return bench_bloom_filter(keys, KEYS, questions, QUESTIONS, rounds); }

struct support {
    const char *name;
    uint64_t (*run)(uint32_t rounds);
    uint32_t rounds;         // how many are timed
    double samples[SAMPLES]; // nanoseconds a call
};

enum { ADDRESS_TRIE, ADDRESS_SCAN, PORT_TRIE, PORT_SCAN, HASH_TABLE, TREE, BLOOM_FILTER, SUPPORTS };

static struct support supports[SUPPORTS] = {
    [ADDRESS_TRIE] = {.name = "bit trie", .run = address_trie},
    [ADDRESS_SCAN] = {.name = "scan", .run = address_scan},
    [PORT_TRIE] = {.name = "bit trie", .run = port_trie},
    [PORT_SCAN] = {.name = "scan", .run = port_scan},
    [HASH_TABLE] = {.name = "hash table", .run = hash_table},
    [TREE] = {.name = "tree", .run = key_tree},
    [BLOOM_FILTER] = {.name = "Bloom filter", .run = bloom_filter},
};

_Static_assert(PATTERNS == 256 && KEYS == 2048, "the table names these numbers");

// A row of the table; supports of the same answers must agree in their checksums.
static const struct comparison {
    const char *what;
    unsigned support, against;
    bool must_agree;
} comparisons[] = {
    {"best, 256 nested address patterns", ADDRESS_TRIE, ADDRESS_SCAN, true},
    {"best, 256 nested port patterns", PORT_TRIE, PORT_SCAN, true},
    {"find, 2,048 keys, half hits", HASH_TABLE, TREE, true},
    {"ask, 2,048 keys, half hits", BLOOM_FILTER, TREE, false},
    {"ask, 2,048 keys, half hits", BLOOM_FILTER, HASH_TABLE, false},
};

enum { COMPARISONS = sizeof comparisons / sizeof comparisons[0] };

// ---- tests

// Whether the supports of a row give the same checksum, which is not 0: that says that memory was wanting.
static bool agree(const struct comparison *row) {
    uint64_t sum = supports[row->support].run(2), other = supports[row->against].run(2);
    if (sum == other && sum != 0) return true;
    fprintf(stderr, "%s: %s has the checksum %" PRIu64 ", %s %" PRIu64 "\n", row->what, supports[row->support].name,
            sum, supports[row->against].name, other);
    return false;
}

// Whether the filter says yes to every key that is stored.
static bool admits(void) {
    uint64_t count = bloom_filter(1);
    if (count >= HITS) return true;
    fprintf(stderr, "the Bloom filter says yes %" PRIu64 " times and not %d\n", count, HITS);
    return false;
}

// ---- times

// Nanoseconds that this process has run; what others do meanwhile does not count.
static double now(void) {
    struct timespec time;
    clock_gettime(CLOCK_PROCESS_CPUTIME_ID, &time);
    return time.tv_sec * 1e9 + time.tv_nsec;
}

static double timed(const struct support *support, uint32_t rounds) {
    double start = now();
    support->run(rounds);
    return now() - start;
}

// Rounds that take 20 milliseconds or more.
static uint32_t enough_rounds(const struct support *support) {
    uint32_t rounds = 4;
    while (timed(support, rounds) < 20e6) rounds *= 2;
    return rounds;
}

static double sample(const struct support *support) {
    uint32_t few = support->rounds / 4;
    double short_time = timed(support, few), long_time = timed(support, support->rounds);
    return (long_time - short_time) / ((double)(support->rounds - few) * QUESTIONS);
}

static int ascending(const void *a, const void *b) {
    double x = *(const double *)a, y = *(const double *)b;
    return (x > y) - (x < y);
}

static double median(const struct support *support) {
    double sorted[SAMPLES];
    for (unsigned i = 0; i < SAMPLES; i++) sorted[i] = support->samples[i];
    qsort(sorted, SAMPLES, sizeof sorted[0], ascending);
    return sorted[SAMPLES / 2];
}

// Each support in turn, so that a slow moment of the machine strikes all of them.
static void take_samples(void) {
    for (unsigned s = 0; s < SUPPORTS; s++) supports[s].rounds = enough_rounds(&supports[s]);
    for (unsigned i = 0; i < SAMPLES; i++) {
        for (unsigned s = 0; s < SUPPORTS; s++) supports[s].samples[i] = sample(&supports[s]);
    }
}

static void print_table(void) {
    printf("%-34s  %-12s  %8s  %-10s  %8s  %6s\n", "what", "support", "ns/call", "against", "ns/call", "ratio");
    for (unsigned i = 0; i < COMPARISONS; i++) {
        const struct support *support = &supports[comparisons[i].support];
        const struct support *against = &supports[comparisons[i].against];
        double time = median(support), other = median(against);
        printf("%-34s  %-12s  %8.1f  %-10s  %8.1f  %6.3f\n", comparisons[i].what, support->name, time, against->name,
               other, time / other);
    }
}

int main(void) {
    draw_prefixes();
    draw_keys();
    bool is_right = admits();
    for (unsigned i = 0; i < COMPARISONS; i++) {
        if (comparisons[i].must_agree && !agree(&comparisons[i])) is_right = false;
    }
    if (!is_right) return EXIT_FAILURE;
    take_samples();
    print_table();
    return EXIT_SUCCESS;
}
