/* Builds the graph of a thread that stores an angle and then raises a mark, and runs it beside a thread that reads both:
   under PSO the mark can reach memory while the angle still waits. */
#include "nardiplex.h"

#include <stdio.h>
#include <string.h>

#define NODE_ROOM (400 * NARDIPLEX_NODE_WIDTH)
#define EDGE_ROOM (900 * NARDIPLEX_EDGE_WIDTH)

enum { ANGLE, MARK };

/* examples/angle_then_mark.txt */
static const char text[] = "pso\nstorec\t0\t7\nstorec\t1\t1\nreturn\n";

/* The reader: the mark into register 0, then the angle into register 1. */
static const uint32_t reader[] = {
    NARDIPLEX_LOAD, 0, MARK, 0, 0, NARDIPLEX_LOAD, 1, ANGLE, 0, 0, NARDIPLEX_RETURN, 0, 0, 0, 0,
};

/* Thread 0 stores twice, its mark reaches memory, and thread 1 loads twice. */
static const uint32_t schedule[] = {
    0, NARDIPLEX_PROGRAM, 0, NARDIPLEX_PROGRAM, 0, NARDIPLEX_REACH(MARK), 1, NARDIPLEX_PROGRAM, 1, NARDIPLEX_PROGRAM,
};

static const uint32_t memory[NARDIPLEX_VARIABLES];
static const uint32_t registers[NARDIPLEX_THREADS * NARDIPLEX_REGISTERS];

/* Rooms are static: they are larger than some stacks. A pointer with length 0 must not be null, so none is lent for the
   threads that aren't there but a place that is left alone. */
static uint32_t table[NARDIPLEX_TABLE_ROOM];
static uint32_t nodes[2][NODE_ROOM], edges[2][EDGE_ROOM];
static uint32_t none[5];

static size_t count(const uint64_t *answer, int i) { return (size_t)answer[i]; }

/* What a refusal says; 0 if there is none. */
static int refused(const char *call, const uint64_t *answer) {
    if (answer[NARDIPLEX_NUMBER] == NARDIPLEX_DONE) return 0;
    printf("%s refused: number %lu, place %lu\n", call, (unsigned long)answer[NARDIPLEX_NUMBER],
           (unsigned long)answer[NARDIPLEX_PLACE]);
    return 1;
}

/* The end state in words; `of` says what the names of waiting values are. */
static void show(const char *run, const char *of, const uint32_t *state, const uint64_t *answer) {
    int t, r;
    uint32_t i;
    printf("%s run: %lu steps\n", run, (unsigned long)answer[NARDIPLEX_STEPS]);
    printf("  in memory the angle is %lu and the mark is %lu\n", (unsigned long)state[NARDIPLEX_STATE_MEMORY(ANGLE)],
           (unsigned long)state[NARDIPLEX_STATE_MEMORY(MARK)]);
    for (t = 0; t < 2; t++) {
        printf("  thread %d stands at line %lu", t, (unsigned long)state[NARDIPLEX_STATE_LINE(t)]);
        for (r = 0; r < 2; r++)
            printf(", register %d is %lu", r, (unsigned long)state[NARDIPLEX_STATE_REGISTER(t, r)]);
        printf(", %lu waiting", (unsigned long)state[NARDIPLEX_STATE_COUNT(t)]);
        for (i = 0; i < state[NARDIPLEX_STATE_COUNT(t)]; i++)
            printf(", %lu %s %lu", (unsigned long)state[NARDIPLEX_STATE_VALUE(t, i)], of,
                   (unsigned long)state[NARDIPLEX_STATE_NAME(t, i)]);
        printf("\n");
    }
}

int main(void) {
    uint64_t answer[NARDIPLEX_ANSWER];
    uint32_t state[NARDIPLEX_STATE];
    size_t table_len, reader_len = sizeof reader / sizeof *reader, schedule_len = sizeof schedule / sizeof *schedule;
    uint32_t model;

    nardiplex_read((const uint8_t *)text, strlen(text), table, NARDIPLEX_TABLE_ROOM, answer);
    if (refused("read", answer)) return 1;
    model = (uint32_t)answer[NARDIPLEX_MODEL];
    table_len = NARDIPLEX_LINE_WIDTH * count(answer, NARDIPLEX_LINE_COUNT);
    printf("read: %s, %lu lines\n", model == NARDIPLEX_TSO ? "tso" : "pso", (unsigned long)answer[NARDIPLEX_LINE_COUNT]);

    nardiplex_build(model, table, table_len, nodes[0], NODE_ROOM, edges[0], EDGE_ROOM, answer);
    if (refused("build", answer)) return 1;
    printf("graph: %lu nodes, %lu edges\n", (unsigned long)answer[NARDIPLEX_NODE_TOTAL],
           (unsigned long)answer[NARDIPLEX_EDGE_TOTAL]);

    nardiplex_run_buffered(model, 2, table, table_len, reader, reader_len, none, 0, none, 0, memory, registers, schedule,
                           schedule_len, state, answer);
    if (refused("buffered run", answer)) return 1;
    show("buffered", "for variable", state, answer);

    nardiplex_run_generated(model, 2, table, table_len, reader, reader_len, none, 0, none, 0, nodes[0], NODE_ROOM,
                            edges[0], EDGE_ROOM, nodes[1], NODE_ROOM, edges[1], EDGE_ROOM, none + 1, 0, none + 2, 0,
                            none + 3, 0, none + 4, 0, memory, registers, schedule, schedule_len, state, answer);
    if (refused("generated run", answer)) return 1;
    show("generated", "of store line", state, answer);
    return 0;
}
