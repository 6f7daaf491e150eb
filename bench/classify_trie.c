/*
 * A plain C program that makes the choices of classify_speed.sh by address: a binary trie a group, whose nodes hold the
 * least rank of the rules there. Its words are the kind of rules (0 single addresses, 3 networks), rules a group, groups,
 * and rounds over 64 packets; it prints the same sum.
 */
#include <stdint.h>
#include <stdio.h>
#include <stdlib.h>

struct node {
    uint32_t child[2];
    uint32_t rank; /* UINT32_MAX: no rule */
};

struct group {
    struct node *nodes;
    uint32_t count;
    uint32_t *values;
    uint16_t *numbers; /* of the rule at each rank */
};

static uint64_t state;

/* The upper half of the next state of Knuth's MMIX generator. */
static uint32_t next(void)
{
    state = state * UINT64_C(6364136223846793005) + UINT64_C(1442695040888963407);
    return (uint32_t)(state >> 32);
}

struct rule {
    uint32_t value, place;
    uint16_t priority;
    uint8_t bits;
};

static int by_rank(const void *a, const void *b)
{
    const struct rule *r = a, *s = b;
    if (r->priority != s->priority)
        return r->priority < s->priority ? -1 : 1;
    return r->place < s->place ? -1 : 1;
}

static void enter(struct group *group, const struct rule *rule, uint32_t rank)
{
    uint32_t at = 0;
    for (int bit = 0; bit < rule->bits; bit++) {
        uint32_t side = rule->value >> (31 - bit) & 1;
        if (!group->nodes[at].child[side]) {
            group->nodes[group->count] = (struct node){{0, 0}, UINT32_MAX};
            group->nodes[at].child[side] = group->count++;
        }
        at = group->nodes[at].child[side];
    }
    if (rank < group->nodes[at].rank)
        group->nodes[at].rank = rank;
}

static void make(struct group *group, uint32_t rules, int wide)
{
    struct rule *list = calloc(rules, sizeof *list);
    group->values = calloc(rules, sizeof *group->values);
    group->numbers = calloc(rules, sizeof *group->numbers);
    group->nodes = calloc((size_t)rules * 32 + 1, sizeof *group->nodes);
    group->nodes[0] = (struct node){{0, 0}, UINT32_MAX};
    group->count = 1;
    for (uint32_t place = 0; place < rules; place++) {
        list[place].value = 0x0a000000 | next() % 0x10000;
        list[place].bits = wide ? 17 + (uint8_t)(next() % 3) : 32;
        list[place].place = place;
        list[place].priority = next() % 100;
        group->values[place] = list[place].value;
    }
    qsort(list, rules, sizeof *list, by_rank);
    for (uint32_t rank = 0; rank < rules; rank++) {
        group->numbers[rank] = (uint16_t)list[rank].place;
        enter(group, &list[rank], rank);
    }
    free(list);
}

static uint32_t least(const struct group *group, uint32_t address)
{
    uint32_t at = 0, best = group->nodes[0].rank;
    for (int bit = 31; bit >= 0; bit--) {
        at = group->nodes[at].child[address >> bit & 1];
        if (!at)
            break;
        if (group->nodes[at].rank < best)
            best = group->nodes[at].rank;
    }
    return best;
}

/* The last group that has a rule for the address chooses, since no rule here is marked last. */
static uint64_t __attribute__((noinline)) choose(const struct group *groups, uint32_t count, uint32_t address)
{
    while (count--) {
        uint32_t rank = least(&groups[count], address);
        if (rank != UINT32_MAX)
            return (uint64_t)groups[count].numbers[rank] + 1;
    }
    return 0;
}

int main(int argc, char **argv)
{
    if (argc != 5)
        return 2;
    int wide = atoi(argv[1]) > 2;
    uint32_t rules = (uint32_t)atoi(argv[2]), count = (uint32_t)atoi(argv[3]), rounds = (uint32_t)atoi(argv[4]);
    uint32_t packets[64];
    struct group *groups = calloc(count, sizeof *groups);
    state = 7;
    for (uint32_t i = 0; i < count; i++)
        make(&groups[i], rules, wide);
    for (int i = 0; i < 64; i++) {
        packets[i] = 0x0a000000 | next() % 0x10000;
        next();
        if (next() % 2 == 0) {
            uint32_t from = next() % 32;
            packets[i] = groups[from < count ? from : 0].values[next() % rules];
        }
    }
    uint64_t sum = 0;
    while (rounds--)
        for (int i = 0; i < 64; i++)
            sum = (sum ^ choose(groups, count, packets[i])) * UINT64_C(0x9e3779b97f4a7c15);
    printf("%llu\n", (unsigned long long)sum);
    return 0;
}
