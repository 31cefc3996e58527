/* Plans the routes of a small table and prints the path to node 3, and whether that is within 5 and 6;
   then plans for nodes 0, 1 and 2, which send to collector 3, and prints the path from node 0. Of another
   table it prints the path to node 2, and which is kept: that or the one in use, which is just as long. Last
   it makes a test load of 4 nodes and prints how many arcs that has, and the first. */
#include "kestrelore.h"
#include <stdio.h>

static void print(kestrelore_planned plan, kestrelore_listed list, uint64_t distance, const uint16_t *path)
{
    printf("refusals %u %u, distance %u, path", plan.number, list.number, (unsigned)distance);
    for (uint32_t i = 0; i < list.count; i++) printf(" %u", path[i]);
    puts("");
}

static void keep(void)
{
    const uint16_t tails[] = {1, 0, 0, 0}, heads[] = {2, 2, 1, 1};
    const uint32_t lengths[] = {3, 10, 8, 7};
    const uint16_t wanted[] = {2}, standing[] = {0, 2};
    uint64_t distances[3], prices[3];
    uint16_t tree[3], fresh[3];
    uint8_t marks[4];
    kestrelore_planned plan = kestrelore_plan_routes(3, 0, tails, 4, heads, 4, lengths, 4, wanted, 1,
                                                     distances, 3, prices, 3, tree, 3, marks, 4);
    kestrelore_listed list = kestrelore_list_path(0, 2, tails, 4, heads, 4, tree, 3, fresh, 3);
    printf("fresh: ");
    print(plan, list, distances[2], fresh);
    kestrelore_kept kept = kestrelore_keep_path(3, tails, 4, heads, 4, lengths, 4, standing, 2, fresh, list.count);
    const uint16_t *path = kept.standing ? standing : fresh;
    printf("refusal %u, kept:", kept.number);
    for (uint32_t i = 0; i < kept.count; i++) printf(" %u", path[i]);
    puts("");
}

static void make(void)
{
    enum { ROOM = KESTRELORE_MOST_ARCS };
    static uint16_t tails[ROOM], heads[ROOM];
    static uint32_t lengths[ROOM];
    kestrelore_made made = kestrelore_make_load(4, 12345, 20000, 1000, tails, ROOM, heads, ROOM, lengths, ROOM);
    printf("load: refusal %u, %u arcs, the first from %u to %u, length %u\n",
           made.number, made.arcs, tails[0], heads[0], (unsigned)lengths[0]);
}

int main(void)
{
    const uint16_t tails[] = {0, 0, 1, 2, 1}, heads[] = {1, 2, 2, 3, 3};
    const uint32_t lengths[] = {2, 5, 3, 1, 9};
    const uint16_t wanted[] = {3}, senders[] = {0, 1, 2};
    uint64_t distances[4], prices[4];
    uint16_t tree[4], path[4];
    uint8_t marks[5];
    kestrelore_planned plan = kestrelore_plan_routes(4, 0, tails, 5, heads, 5, lengths, 5, wanted, 1,
                                                     distances, 4, prices, 4, tree, 4, marks, 5);
    kestrelore_listed list = kestrelore_list_path(0, 3, tails, 5, heads, 5, tree, 4, path, 4);
    print(plan, list, distances[3], path);
    for (uint64_t limit = 5; limit <= 6; limit++) {
        kestrelore_within within = kestrelore_within_limit(4, 0, 3, limit, tails, 5, heads, 5, lengths, 5);
        printf("refusal %u, within %u: %s\n", within.number, (unsigned)limit, within.within ? "yes" : "no");
    }
    plan = kestrelore_plan_to_collector(4, 3, tails, 5, heads, 5, lengths, 5, senders, 3,
                                        distances, 4, prices, 4, tree, 4, marks, 5);
    list = kestrelore_list_to_collector(3, 0, tails, 5, heads, 5, tree, 4, path, 4);
    printf("collector 3: ");
    print(plan, list, distances[0], path);
    keep();
    make();
    return ferror(stdout);
}
