/* Prints the sizes, offsets and numbers of the header, as layout() of tests/abi.rs does. */
#include "kestrelore.h"
#include <stdio.h>

#define STRUCT(type) printf("%s %zu\n", #type, sizeof(type))
#define FIELD(type, field) printf("%s.%s %zu %zu\n", #type, #field, offsetof(type, field), sizeof(((type *)0)->field))
#define NUMBER(name) printf("%s %llu\n", #name, (unsigned long long)name)

int main(void)
{
    STRUCT(kestrelore_planned);
    FIELD(kestrelore_planned, number);
    FIELD(kestrelore_planned, place);
    FIELD(kestrelore_planned, reached);
    FIELD(kestrelore_planned, horizon);
    FIELD(kestrelore_planned, iterations);
    FIELD(kestrelore_planned, contractions);
    FIELD(kestrelore_planned, extensions);
    FIELD(kestrelore_planned, deletions);
    FIELD(kestrelore_planned, scans);
    STRUCT(kestrelore_within);
    FIELD(kestrelore_within, number);
    FIELD(kestrelore_within, place);
    FIELD(kestrelore_within, within);
    FIELD(kestrelore_within, iterations);
    STRUCT(kestrelore_listed);
    FIELD(kestrelore_listed, number);
    FIELD(kestrelore_listed, place);
    FIELD(kestrelore_listed, count);
    STRUCT(kestrelore_kept);
    FIELD(kestrelore_kept, number);
    FIELD(kestrelore_kept, place);
    FIELD(kestrelore_kept, standing);
    FIELD(kestrelore_kept, count);
    STRUCT(kestrelore_table_read);
    FIELD(kestrelore_table_read, number);
    FIELD(kestrelore_table_read, place);
    FIELD(kestrelore_table_read, n);
    FIELD(kestrelore_table_read, origin);
    FIELD(kestrelore_table_read, arcs);
    FIELD(kestrelore_table_read, wanted);
    STRUCT(kestrelore_written);
    FIELD(kestrelore_written, number);
    FIELD(kestrelore_written, place);
    FIELD(kestrelore_written, length);
    STRUCT(kestrelore_made);
    FIELD(kestrelore_made, number);
    FIELD(kestrelore_made, place);
    FIELD(kestrelore_made, arcs);
    NUMBER(KESTRELORE_MOST_NODES);
    NUMBER(KESTRELORE_MOST_ARCS);
    NUMBER(KESTRELORE_MOST_WANTED);
    NUMBER(KESTRELORE_LONGEST_FILE);
    NUMBER(KESTRELORE_DOWN);
    NUMBER(KESTRELORE_NO_ARC);
    NUMBER(KESTRELORE_NO_DISTANCE);
    NUMBER(KESTRELORE_NONE);
    NUMBER(KESTRELORE_NODE_COUNT);
    NUMBER(KESTRELORE_COLUMNS);
    NUMBER(KESTRELORE_BUFFERS);
    NUMBER(KESTRELORE_ORIGIN);
    NUMBER(KESTRELORE_WANTED);
    NUMBER(KESTRELORE_ARC_END);
    NUMBER(KESTRELORE_ARC_LENGTH);
    NUMBER(KESTRELORE_NO_ROUTE);
    NUMBER(KESTRELORE_CUT);
    NUMBER(KESTRELORE_BIT_MAP);
    NUMBER(KESTRELORE_IMPLIED_HEAD);
    NUMBER(KESTRELORE_NEEDLESS);
    NUMBER(KESTRELORE_ROOM);
    NUMBER(KESTRELORE_NO_PATH);
    NUMBER(KESTRELORE_NO_WALK);
    NUMBER(KESTRELORE_LOAD_RANGE);
    NUMBER(KESTRELORE_LOAD_SIZE);
    return 0;
}
