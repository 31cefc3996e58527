/*
 * Plans a site where everyone sends to one collector: collect < LINK-FILE
 *
 * The file's origin is the collector, its wanted nodes are the senders. What is printed has the form of a sheet (docs/RULES.md):
 * a distance is that from the node to the collector, an arc the one by which the node sends, and a path leads from the sender to
 * the collector. The status is the refusal's number, 66 where the input cannot be read, 74 where the output cannot be written.
 */
#include "kestrelore.h"
#include <inttypes.h>
#include <stdio.h>
#include <stdlib.h>

enum { NODES = KESTRELORE_MOST_NODES, ARCS = KESTRELORE_MOST_ARCS, SENDERS = KESTRELORE_MOST_WANTED, LONGEST_INPUT = 65536 };

static uint8_t input[LONGEST_INPUT + 1], marks[ARCS];
static uint16_t tails[ARCS], heads[ARCS], senders[SENDERS], tree[NODES], path[NODES];
static uint32_t lengths[ARCS];
static uint64_t distances[NODES], prices[NODES];

/* Nearest first, and among nodes as near by their numbers. */
static int compare(const void *left, const void *right)
{
    uint16_t a = *(const uint16_t *)left, b = *(const uint16_t *)right;
    if (distances[a] != distances[b]) return distances[a] < distances[b] ? -1 : 1;
    return (a > b) - (a < b);
}

static void print_sheet(kestrelore_table_read table, kestrelore_planned plan)
{
    printf("reached %" PRIu32 " horizon %" PRIu64 " iterations %" PRIu64 "\n", plan.reached, plan.horizon, plan.iterations);
    printf("contractions %" PRIu64 " extensions %" PRIu64 " deletions %" PRIu64 "\n",
           plan.contractions, plan.extensions, plan.deletions);
    for (uint32_t node = 0; node < table.n; node++) {
        if (distances[node] == KESTRELORE_NO_DISTANCE) continue;
        printf("node %" PRIu32 " distance %" PRIu64 " price %" PRIu64, node, distances[node], prices[node]);
        if (tree[node] == KESTRELORE_NO_ARC) printf(" arc -\n");
        else printf(" arc %u\n", tree[node]);
    }
    qsort(senders, table.wanted, sizeof senders[0], compare);
    for (uint32_t i = 0; i < table.wanted; i++) {
        if (distances[senders[i]] == KESTRELORE_NO_DISTANCE) break;
        if (i > 0 && senders[i] == senders[i - 1]) continue;
        kestrelore_listed list = kestrelore_list_to_collector(table.origin, senders[i], tails, table.arcs, heads, table.arcs,
                                                              tree, table.n, path, NODES);
        printf("path %u:", senders[i]);
        for (uint32_t k = 0; k < list.count; k++) printf(" %u", path[k]);
        printf("\n");
    }
    unsigned counts[4] = {0};
    for (uint32_t arc = 0; arc < table.arcs; arc++) counts[marks[arc]]++;
    printf("marks %u %u %u %u\n", counts[0], counts[1], counts[2], counts[3]);
}

static uint32_t refused(uint32_t number, uint32_t place)
{
    printf("refused %" PRIu32 " at %" PRIu32 "\n", number, place);
    return number;
}

static uint32_t collect(size_t length)
{
    if (length > LONGEST_INPUT) return refused(KESTRELORE_COLUMNS, ARCS);
    kestrelore_table_read table =
        kestrelore_read_link_file(input, length, tails, ARCS, heads, ARCS, lengths, ARCS, senders, SENDERS);
    if (table.number != KESTRELORE_NONE) return refused(table.number, table.place);

    uint32_t n = table.n, m = table.arcs;
    kestrelore_planned plan = kestrelore_plan_to_collector(n, table.origin, tails, m, heads, m, lengths, m, senders, table.wanted,
                                                           distances, n, prices, n, tree, n, marks, m);
    if (plan.number != KESTRELORE_NONE) refused(plan.number, plan.place);
    if (plan.number == KESTRELORE_NONE || plan.number == KESTRELORE_NO_ROUTE) print_sheet(table, plan);
    return plan.number;
}

int main(void)
{
    size_t length = fread(input, 1, sizeof input, stdin);
    if (ferror(stdin)) return 66;
    uint32_t number = collect(length);
    return fflush(stdout) != 0 || ferror(stdout) ? 74 : (int)number;
}
