/*
 * Kestrelore: shortest routes over a table of links, from one origin to the wanted nodes, or from
 * many senders to one collector.
 *
 * A table has n nodes, numbered from 0, and m arcs in three columns of equal length: the tail
 * and the head (node numbers) and the length of each arc. An arc's position counts from 0.
 *
 *   n                1 to KESTRELORE_MOST_NODES
 *   arcs             0 to KESTRELORE_MOST_ARCS; parallel arcs and loops are allowed
 *   length           1 to 4,294,967,294; KESTRELORE_DOWN says that the link is down
 *   wanted nodes     0 to KESTRELORE_MOST_WANTED; repeats and the origin may stand among them.
 *                    Senders likewise, with the collector for the origin
 *
 * Every function ends on every input. A list is a pointer and the number of its elements; the
 * pointer is not null and is aligned for its elements, also where the number is 0, and an output
 * list overlaps no other list of the call. Nothing outside the lists is written.
 *
 * Calls share nothing: there is no global state, no allocation and no call out of the library but
 * to memcpy and memset, so two threads may call at once. Stack needed, measured on x86-64
 * (docs/PERFORMANCE.md): planning, either way, 41,688 bytes, asking for a limit 41,272, keeping a
 * path 14,656, each other call less than 512.
 *
 * Every answer starts with a number and a place: kestrelore_refusal lists them. docs/RULES.md has
 * the rules of planning, the file format with an example byte by byte, and the order of the tests.
 */
#ifndef KESTRELORE_H
#define KESTRELORE_H

#include <stddef.h>
#include <stdint.h>

#ifdef __cplusplus
extern "C" {
#endif

#define KESTRELORE_VERSION "0.6.0"

/* The most nodes, arcs and wanted nodes of a table, and the bytes of the longest link file. */
#define KESTRELORE_MOST_NODES 1024
#define KESTRELORE_MOST_ARCS 6000
#define KESTRELORE_MOST_WANTED 1024
#define KESTRELORE_LONGEST_FILE 56055

/*
 * The length of a link that is down. Its arc is absent: it keeps its position and is tested like any
 * other, but it is in no walk and its mark is 1. A plan, the answer to a limit and the path that is
 * kept are those of the table without such arcs.
 */
#define KESTRELORE_DOWN UINT32_C(4294967295)

/* The entry of a tree column at the origin or collector and at nodes that were not reached. */
#define KESTRELORE_NO_ARC UINT16_C(65535)

/* The distance of nodes that were not reached. */
#define KESTRELORE_NO_DISTANCE UINT64_C(18446744073709551615)

/*
 * The number of an answer, and what its place says; the place is 0 where none is named. After every
 * refusal but KESTRELORE_NO_ROUTE the answer's other fields are 0 and every output list is
 * untouched; KESTRELORE_NO_ROUTE fills the four lists of the plan and carries all counts.
 */
typedef enum kestrelore_refusal {
    KESTRELORE_NONE = 0,          /* no refusal */
    KESTRELORE_NODE_COUNT = 1,    /* n is 0 or above 1,024 */
    KESTRELORE_COLUMNS = 2,       /* columns unequal, or more than 6,000 arcs; in a link file: record
                                     6,001 begins (place 6000) */
    KESTRELORE_BUFFERS = 3,       /* an output list of the plan is not n or m long; a reader's list is
                                     too short */
    KESTRELORE_ORIGIN = 4,        /* the origin, or the collector, is not below n */
    KESTRELORE_WANTED = 5,        /* more than 1,024 wanted nodes or senders (place 1024); one of them
                                     is not below n (its index); a node to list, or to ask for, is not
                                     below n (place 0) */
    KESTRELORE_ARC_END = 6,       /* an arc's tail or head is not below n (its position) */
    KESTRELORE_ARC_LENGTH = 7,    /* an arc's length is 0 (its position) */
    KESTRELORE_NO_ROUTE = 8,      /* a wanted node has no walk from the origin, or a sender none to the
                                     collector (the first such index); also where only links that are
                                     down lead there */
    KESTRELORE_CUT = 9,           /* the file is cut inside a field, or empty (the file's length) */
    KESTRELORE_BIT_MAP = 10,      /* a bit map has one of bits 3 to 7, or a needed field is absent (the
                                     bit map's offset) */
    KESTRELORE_IMPLIED_HEAD = 11, /* an implied head is above 65535 (the record's offset) */
    KESTRELORE_NEEDLESS = 12,     /* a field is present that says what its absence would say (the
                                     offset of its bit map) */
    KESTRELORE_ROOM = 13,         /* the output list is too short */
    KESTRELORE_NO_PATH = 14,      /* the tree column does not lead back to the origin, or not on to the
                                     collector */
    KESTRELORE_NO_WALK = 15,      /* the fresh path is empty, has more than 1,024 nodes or is no walk */
    KESTRELORE_LOAD_RANGE = 16,   /* the chance of a test load is above 65,536, or its largest length is 0
                                     or KESTRELORE_DOWN */
    KESTRELORE_LOAD_SIZE = 17     /* the test load has more than 6,000 arcs */
} kestrelore_refusal;

/* What planning answers. */
typedef struct kestrelore_planned {
    uint32_t number;       /* 0 to 8 */
    uint32_t place;
    uint32_t reached;      /* how many nodes were reached, the origin or collector included */
    uint64_t horizon;      /* the largest distance reached */
    uint64_t iterations;   /* contractions + extensions + deletions */
    uint64_t contractions;
    uint64_t extensions;
    uint64_t deletions;
    uint64_t scans;        /* iterations that are the first at their node, or before which the
                              node's children or the price of its remembered child, the best at
                              its last scan, have changed since that scan (docs/RULES.md) */
} kestrelore_planned;

/* What asking for a limit answers. */
typedef struct kestrelore_within {
    uint32_t number;       /* 0, 1, 2 or 4 to 7 */
    uint32_t place;
    uint32_t within;       /* 1: some walk to the node is at most as long as the limit; 0: none is */
    uint64_t iterations;   /* those made until the run ended */
} kestrelore_within;

/* What listing a path answers. */
typedef struct kestrelore_listed {
    uint32_t number;       /* 0, 1, 2, 4, 5, 13 or 14 */
    uint32_t place;
    uint32_t count;        /* how many nodes the path has, both ends included */
} kestrelore_listed;

/* What keeping a path answers. */
typedef struct kestrelore_kept {
    uint32_t number;       /* 0, 1, 2, 6, 7 or 15 */
    uint32_t place;
    uint32_t standing;     /* 1: the standing path is kept; 0: the fresh one is taken */
    uint32_t count;        /* how many nodes the kept or taken path has: all of that list */
} kestrelore_kept;

/* What reading a link file answers. */
typedef struct kestrelore_table_read {
    uint32_t number;       /* 0, 1, 2, 3, 5 or 9 to 12 */
    uint32_t place;
    uint32_t n;
    uint16_t origin;
    uint32_t arcs;         /* how many elements of the three columns were filled */
    uint32_t wanted;       /* how many elements of the wanted list were filled */
} kestrelore_table_read;

/* What writing a link file answers. */
typedef struct kestrelore_written {
    uint32_t number;       /* 0, 1, 2, 5 or 13 */
    uint32_t place;
    uint32_t length;       /* how many bytes the file has */
} kestrelore_written;

/* What making a test load answers. */
typedef struct kestrelore_made {
    uint32_t number;       /* 0, 1, 3, 16 or 17 */
    uint32_t place;
    uint32_t arcs;         /* how many elements of the three columns were filled */
} kestrelore_made;

/*
 * Plans shortest routes from the origin until every wanted node is reached.
 *
 * distances, prices and tree are exactly n long, marks exactly m long (3). Tested in the order of
 * the numbers 1 to 5, then 6 and 7 arc by arc, then 8. Filled where the number is 0 or 8:
 *
 *   distances  of a reached node the least length of all walks to it; else KESTRELORE_NO_DISTANCE
 *   prices     of a reached node horizon - distance; else 0. On every arc that is not down the
 *              tail's price is at most the length + the head's price, with equality along the
 *              returned walks
 *   tree       of a reached node the position of the last arc of its walk: the earliest listed of
 *              those that attain the distance; KESTRELORE_NO_ARC at the origin and elsewhere
 *   marks      3: the tree arc of a reached node. 1: any other arc into a reached node, or out of
 *              one and not kept; and every arc that is down. 2: kept into an unreached node. 0: both
 *              ends unreached
 */
kestrelore_planned kestrelore_plan_routes(
    uint32_t n, uint16_t origin,
    const uint16_t *tails, size_t tails_count,
    const uint16_t *heads, size_t heads_count,
    const uint32_t *lengths, size_t lengths_count,
    const uint16_t *wanted, size_t wanted_count,
    uint64_t *distances, size_t distances_count,
    uint64_t *prices, size_t prices_count,
    uint16_t *tree, size_t tree_count,
    uint8_t *marks, size_t marks_count);

/*
 * Plans shortest routes from the senders to a collector.
 *
 * The plan is kestrelore_plan_routes' of the table with each arc's tail and head exchanged, from the
 * collector to the senders, and every arc keeps its position. So lists, tests, answer and counts are
 * the same, 4 is about the collector, 5 and 8 are about the senders, and the lists say:
 *
 *   distances  of a reached node the least length of all walks from it to the collector; else
 *              KESTRELORE_NO_DISTANCE
 *   prices     of a reached node horizon - distance; else 0. On every arc that is not down the
 *              head's price is at most the length + the tail's price, with equality along the walks
 *              given
 *   tree       of a reached node the position of the first arc of its walk: the earliest listed of
 *              the arcs out of it that attain the distance; KESTRELORE_NO_ARC at the collector and
 *              elsewhere
 *   marks      3: the tree arc of a reached node. 1: any other arc out of a reached node, or into one
 *              and not kept; and every arc that is down. 2: kept out of an unreached node. 0: both
 *              ends unreached
 */
kestrelore_planned kestrelore_plan_to_collector(
    uint32_t n, uint16_t collector,
    const uint16_t *tails, size_t tails_count,
    const uint16_t *heads, size_t heads_count,
    const uint32_t *lengths, size_t lengths_count,
    const uint16_t *senders, size_t senders_count,
    uint64_t *distances, size_t distances_count,
    uint64_t *prices, size_t prices_count,
    uint16_t *tree, size_t tree_count,
    uint8_t *marks, size_t marks_count);

/*
 * Tells whether a node is within a limit: some walk from the origin to it is at most that long.
 *
 * The run is that of a plan for the wanted list of this one node, but it ends as soon as the origin's
 * price in the run (not the one that a plan hands over) is above the limit, the node is reached, or
 * the origin has no children. So its iterations are those of the plan, cut, and never more. within is
 * 1 where the node was reached, else 0. A node without a walk is within no limit: its number is 0 and
 * not KESTRELORE_NO_ROUTE. Tested in the order 1, 2, 4, 5, then 6 and 7 arc by arc.
 */
kestrelore_within kestrelore_within_limit(
    uint32_t n, uint16_t origin, uint16_t node, uint64_t limit,
    const uint16_t *tails, size_t tails_count,
    const uint16_t *heads, size_t heads_count,
    const uint32_t *lengths, size_t lengths_count);

/*
 * Lists the nodes of the walk to a node, from the origin to the node, by a plan's tree column.
 *
 * n is the tree column's length. The nodes stand at the start of output, the rest of which is
 * untouched; a path has at most n nodes. Tested in the order 1, 2, 4, 5, 14, 13.
 */
kestrelore_listed kestrelore_list_path(
    uint16_t origin, uint16_t node,
    const uint16_t *tails, size_t tails_count,
    const uint16_t *heads, size_t heads_count,
    const uint16_t *tree, size_t tree_count,
    uint16_t *output, size_t output_count);

/*
 * Lists the nodes of the walk from a node to the collector, from the node to the collector, by the
 * tree column of a plan to the collector.
 *
 * As kestrelore_list_path; an entry leads on where it is below m, the arc's tail is the node, and its
 * head is below n (14). 4 is about the collector.
 */
kestrelore_listed kestrelore_list_to_collector(
    uint16_t collector, uint16_t node,
    const uint16_t *tails, size_t tails_count,
    const uint16_t *heads, size_t heads_count,
    const uint16_t *tree, size_t tree_count,
    uint16_t *output, size_t output_count);

/*
 * Keeps a standing path while it is as short as a fresh one.
 *
 * Both are lists of nodes, as kestrelore_list_path and kestrelore_list_to_collector write them. A list
 * is a walk where its nodes are below n and each step from a node to the next has an arc that is not
 * down; a step counts with the shortest of them, and one node is a walk of total 0. The standing path
 * is kept where it has 1 to 1,024 nodes and is a walk that begins and ends as the fresh one does, with
 * a total no greater; it is never refused. Otherwise the fresh path is taken. Nothing is copied: the
 * nodes are the first count elements of standing, or of fresh. Tested in the order 1, 2, then 6 and 7
 * arc by arc, then 15.
 *
 * Where fresh was listed from a finished plan of the same table, the standing path is kept exactly
 * when it is still a walk between the same two nodes and no walk between them is shorter.
 */
kestrelore_kept kestrelore_keep_path(
    uint32_t n,
    const uint16_t *tails, size_t tails_count,
    const uint16_t *heads, size_t heads_count,
    const uint32_t *lengths, size_t lengths_count,
    const uint16_t *standing, size_t standing_count,
    const uint16_t *fresh, size_t fresh_count);

/*
 * Reads a link file.
 *
 * tails, heads and lengths are at least 6,000 long, wanted at least 1,024 (3, tested first). Their
 * starts are filled and the rest is untouched. The first fault from the left is reported. The
 * origin, wanted nodes, tails, heads and lengths are not tested: planning does that.
 */
kestrelore_table_read kestrelore_read_link_file(
    const uint8_t *file, size_t file_count,
    uint16_t *tails, size_t tails_count,
    uint16_t *heads, size_t heads_count,
    uint32_t *lengths, size_t lengths_count,
    uint16_t *wanted, size_t wanted_count);

/*
 * Writes a link file, the only one that reads back as this table.
 *
 * The file stands at the start of output, the rest of which is untouched. KESTRELORE_LONGEST_FILE
 * bytes are enough for every table. Tested in the order 1, 2, 5 (the count only), 13.
 */
kestrelore_written kestrelore_write_link_file(
    uint32_t n, uint16_t origin,
    const uint16_t *tails, size_t tails_count,
    const uint16_t *heads, size_t heads_count,
    const uint32_t *lengths, size_t lengths_count,
    const uint16_t *wanted, size_t wanted_count,
    uint8_t *output, size_t output_count);

/*
 * Makes a test load: the table that everybody makes of these four numbers.
 *
 * A state of 32 bits starts as the seed. Each draw replaces it by state * 1664525 + 1013904223,
 * wrapping, and gives the new state. For each pair of different nodes, by tail and then by head, one
 * draw decides: the pair has an arc where the draw / 65536 is below the chance, so a chance of 0 gives
 * none and one of 65,536 gives each pair an arc. Only where it has one, a second draw gives the length,
 * 1 + draw % largest.
 *
 * tails, heads and lengths are at least 6,000 long; their starts are filled and the rest is untouched.
 * There is no loop and no pair twice, and planning does not turn the table down, whichever of its nodes
 * are the origin and the wanted ones. Tested in the order 1, 3, 16, 17.
 */
kestrelore_made kestrelore_make_load(
    uint32_t n, uint32_t seed, uint32_t chance, uint32_t largest,
    uint16_t *tails, size_t tails_count,
    uint16_t *heads, size_t heads_count,
    uint32_t *lengths, size_t lengths_count);

#ifdef __cplusplus
}
#endif

#endif
