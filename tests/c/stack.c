/* How much stack each function of the library needs: it is called in a thread whose stack was painted before, and the
   deepest byte that lost its paint is looked for. The figure goes from the caller's frame down, so it has the arguments and
   the return address too. It fails where the header allows less. */
#define _GNU_SOURCE
#include "nardiplex.h"

#include <pthread.h>
#include <stdio.h>
#include <stdlib.h>
#include <string.h>

#define SIZE (4 << 20)
#define PAINT 0xa5

static uint8_t *stack;
static uintptr_t caller;

static uint32_t model, table[320], nodes[4][NARDIPLEX_NODE_ROOM], edges[4][NARDIPLEX_EDGE_ROOM];
static uint64_t answer[4];
static size_t table_len, room;
static const char *text;

static void *nothing(void *unused) {
    uint8_t here;
    caller = (uintptr_t)&here;
    return unused;
}

static void *reads(void *unused) {
    uint8_t here;
    caller = (uintptr_t)&here;
    nardiplex_read((const uint8_t *)text, strlen(text), table, 320, answer);
    return unused;
}

static void *builds(void *unused) {
    uint8_t here;
    caller = (uintptr_t)&here;
    nardiplex_build(model, table, table_len, nodes[0], NARDIPLEX_NODE_ROOM / room, edges[0], NARDIPLEX_EDGE_ROOM / room,
                    answer);
    return unused;
}

static uint32_t memory[16], registers[64], schedule[100], state[NARDIPLEX_STATE];
static size_t schedule_len;

static void *runs_buffered(void *unused) {
    uint8_t here;
    caller = (uintptr_t)&here;
    nardiplex_run_buffered(model, 4, table, table_len, table, table_len, table, table_len, table, table_len, memory,
                           registers, schedule, schedule_len, state, answer);
    return unused;
}

static void *runs_generated(void *unused) {
    uint8_t here;
    size_t n = NARDIPLEX_NODE_ROOM / room, e = NARDIPLEX_EDGE_ROOM / room;
    caller = (uintptr_t)&here;
    nardiplex_run_generated(model, 4, table, table_len, table, table_len, table, table_len, table, table_len, nodes[0], n,
                            edges[0], e, nodes[1], n, edges[1], e, nodes[2], n, edges[2], e, nodes[3], n, edges[3], e,
                            memory, registers, schedule, schedule_len, state, answer);
    return unused;
}

/* Bytes below the caller's frame that were written. */
static size_t used(void *(*call)(void *)) {
    pthread_attr_t attributes;
    pthread_t thread;
    uint8_t *low = stack;
    memset(stack, PAINT, SIZE);
    if (pthread_attr_init(&attributes) || pthread_attr_setstack(&attributes, stack, SIZE) ||
        pthread_create(&thread, &attributes, call, NULL) || pthread_join(thread, NULL)) {
        puts("no thread");
        exit(2);
    }
    pthread_attr_destroy(&attributes);
    while (*low == PAINT) low++;
    return (size_t)(caller - (uintptr_t)low);
}

/* The largest over all calls so far. */
static void most(size_t *deepest, void *(*call)(void *)) {
    size_t bytes = used(call);
    if (bytes > *deepest) *deepest = bytes;
}

/* Prints what was found; 1 if the header allows less. */
static int shown(const char *name, size_t bytes, size_t allowed) {
    printf("%-28s %6lu bytes of stack, the header allows %6lu\n", name, (unsigned long)bytes, (unsigned long)allowed);
    return bytes > allowed;
}

static const char *const texts[] = {
    "tso\nstorec\t0\t1\nload\t0\t1\nreturn\n",
    "pso\nstorec\t0\t1\nstorec\t1\t1\nstorer\t2\t1\nstorec\t3\t1\nstorec\t4\t1\nstorec\t5\t1\nload\t0\t3\nreturn\n",
    "tso\nset\t1\t0\nset\t2\t1\ncas\t0\t2\t1\t2\nbranch\t0\t5\njump\t2\nload\t3\t0\nset\t4\t1\nadd\t3\t3\t4\nsub\t3\t3\t4\n"
    "copy\t5\t3\nstorer\t0\t3\nload\t6\t0\nfence\nstorec\t2\t0\nreturn\n",
    "pso\nstorec\t0\t1\nstorec\t0\t2\nstorec\t1\t3\nload\t1\t0\nbranch\t1\t6\nset\t2\t3\nfence\ncas\t0\t1\t2\t3\njump\t0\n",
    "tso\nload\t0\t1\nstorer\t0\t0\nbranch\t0\t0\nreturn\n",
    "tso\nstorec\t0\t1\n",
    "tso\nstorec\t16\t1\nreturn\n",
    "tso\njump\t9\n",
    "pso\n",
    "pso\nset\t0\t4294967296\n",
};

int main(void) {
    size_t i, deepest[5] = {0, 0, 0, 0, 0};
    if (posix_memalign((void **)&stack, 4096, SIZE)) return 2;
    most(&deepest[0], nothing);
    for (i = 0; i < sizeof texts / sizeof *texts; i++) {
        text = texts[i];
        most(&deepest[1], reads);
        table_len = 5 * (size_t)answer[NARDIPLEX_LINE_COUNT];
        for (model = 0; model < 3; model++)
            for (room = 1; room < 100000; room *= 300) {
                most(&deepest[2], builds);
                for (schedule_len = 0; schedule_len <= 64; schedule_len++) {
                    /* thread after thread: program steps, and now and then a store reaches memory */
                    size_t k = schedule_len / 2;
                    if (schedule_len % 2 == 0) schedule[schedule_len] = (uint32_t)k % 4;
                    else schedule[schedule_len] = k % 12 < 8 ? 0 : 1 + (uint32_t)(k / 12) % 3;
                    if (schedule_len % 8 != 0) continue;
                    most(&deepest[3], runs_buffered);
                    if (schedule_len % 32 == 0) most(&deepest[4], runs_generated);
                }
            }
    }
    return shown("a thread that calls nothing", deepest[0], NARDIPLEX_STACK_READ) +
           shown("nardiplex_read", deepest[1], NARDIPLEX_STACK_READ) +
           shown("nardiplex_run_buffered", deepest[3], NARDIPLEX_STACK_RUN_BUFFERED) +
           shown("nardiplex_run_generated", deepest[4], NARDIPLEX_STACK_RUN_GENERATED) +
           shown("nardiplex_build", deepest[2], NARDIPLEX_STACK_BUILD);
}
