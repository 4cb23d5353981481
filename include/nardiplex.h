/*
 * Nardiplex: store buffer graphs of small threads, and their runs.
 *
 * A thread written for a machine with store buffers (TSO or PSO) becomes a plain program without them: its store buffer
 * graph. nardiplex_read reads a thread's text into a table, nardiplex_build builds the graph of a table,
 * nardiplex_run_buffered runs threads with their buffers, nardiplex_run_generated runs the graphs built for them.
 *
 * Every function is proved against its contract, for all inputs: it always returns, never fails and never reaches
 * outside the areas that it is lent. It allocates nothing, calls nothing but memcpy and the like, and keeps nothing between
 * calls, so calls with areas of their own may be made at the same time.
 *
 * What the proof rests on, and C doesn't hold a caller to:
 *   - No pointer is null, not even one with length 0: it then points to any aligned place, which is left alone.
 *   - Pointers are aligned for their type, and a slice has at least as many numbers (bytes for a text) as the length
 *     behind it says. Lengths count numbers, not bytes.
 *   - An array of fixed size really has that size: memory 16, registers 64, state 216, answer 4 numbers. These stand
 *     without a length.
 *   - An area lent for writing overlaps no other area of the same call, and nobody else reads or writes it during the
 *     call. Areas lent for reading may overlap each other; nobody writes them during the call.
 *   - The caller's stack has as many bytes left as NARDIPLEX_STACK_.. says for the function.
 *
 * Link with target/staticlib/libnardiplex.a, which `./library` writes (x86-64). C99 and C++.
 */
#ifndef NARDIPLEX_H
#define NARDIPLEX_H

#include <stddef.h>
#include <stdint.h>

/* Raised when a function, a number or a layout of this file changes. */
#define NARDIPLEX_VERSION 1

/* ---- Sizes ---------------------------------------------------------------------------------------------------- */

#define NARDIPLEX_TEXT 4096      /* bytes that a text may have */
#define NARDIPLEX_LINES 64       /* lines that a thread may have */
#define NARDIPLEX_LINE_WIDTH 5   /* numbers of a line in a table: kind, four fields */
#define NARDIPLEX_REGISTERS 16   /* registers of a thread, 0 to 15 */
#define NARDIPLEX_VARIABLES 16   /* variables that the threads share, 0 to 15 */
#define NARDIPLEX_WAITING 16     /* store lines of a thread, and stores that wait at once */
#define NARDIPLEX_THREADS 4      /* threads of a run */
#define NARDIPLEX_NODES 4096     /* nodes that a graph may have */
#define NARDIPLEX_NODE_WIDTH 18  /* numbers of a node record */
#define NARDIPLEX_EDGE_WIDTH 7   /* numbers of an edge record */
#define NARDIPLEX_NODE_EDGES 18  /* edges that may leave one node: a branch's two, and a put for each variable */
#define NARDIPLEX_ITEM_WIDTH 2   /* numbers of a schedule's item: thread, choice */
#define NARDIPLEX_ANSWER 4       /* numbers of an answer */

/* Room that is always enough, in numbers. With less, a thread that needs more is refused; nothing else changes. Room means
   whole records: a part record at the end of a room is set to 0. */
#define NARDIPLEX_TABLE_ROOM (NARDIPLEX_LINES * NARDIPLEX_LINE_WIDTH)                              /* 320 */
#define NARDIPLEX_NODE_ROOM (NARDIPLEX_NODES * NARDIPLEX_NODE_WIDTH)                               /* 73,728 */
#define NARDIPLEX_EDGE_ROOM (NARDIPLEX_NODES * NARDIPLEX_NODE_EDGES * NARDIPLEX_EDGE_WIDTH)        /* 516,096 */

/* ---- Models --------------------------------------------------------------------------------------------------- */

#define NARDIPLEX_TSO 0 /* one queue: only the oldest waiting store may reach memory */
#define NARDIPLEX_PSO 1 /* one queue for each variable: the oldest of each may reach memory */

/* ---- A thread's table ----------------------------------------------------------------------------------------- */

/*
 * Five numbers a line: its kind, then four fields, unused ones 0. Lines are numbered from 0. Below, r, s and t are
 * registers, x a variable, l a line, v a value. Values are unsigned 32-bit. Operands are read before a result is written.
 */
#define NARDIPLEX_SET 0     /* r v      r becomes v */
#define NARDIPLEX_COPY 1    /* r s      r becomes s */
#define NARDIPLEX_ADD 2     /* r s t    r becomes s + t modulo 2^32 */
#define NARDIPLEX_SUB 3     /* r s t    r becomes s - t modulo 2^32 */
#define NARDIPLEX_LOAD 4    /* r x      r becomes the newest waiting value for x, else the value of x in memory */
#define NARDIPLEX_STORER 5  /* x r      the value of r waits for x */
#define NARDIPLEX_STOREC 6  /* x v      v waits for x */
#define NARDIPLEX_FENCE 7   /*          passes when nothing waits */
#define NARDIPLEX_CAS 8     /* r x s t  when nothing waits: if x equals s, x becomes t and r 1; else r becomes 0 */
#define NARDIPLEX_BRANCH 9  /* r l      to line l if r is not 0, else to the next line */
#define NARDIPLEX_JUMP 10   /* l        to line l */
#define NARDIPLEX_RETURN 11 /*          takes no step; the thread has ended once nothing waits */
#define NARDIPLEX_KINDS 12

/* ---- A graph's records ---------------------------------------------------------------------------------------- */

/* A node record: the thread's line, how many stores wait, their lines (in queue order; under PSO by variable ascending,
   then oldest first), then zeros. Node 0 is line 0 with nothing waiting. */
#define NARDIPLEX_NODE_LINE 0
#define NARDIPLEX_NODE_COUNT 1
#define NARDIPLEX_NODE_STORES 2 /* up to 16 store lines from here */

/* An edge record: the node that it leaves, the node that it goes to, the operation, its four fields, unused ones 0. Edges
   stand in the order of the nodes that they leave; of one node the program edge or the two of a branch first. */
#define NARDIPLEX_EDGE_FROM 0
#define NARDIPLEX_EDGE_TO 1
#define NARDIPLEX_EDGE_OPERATION 2
#define NARDIPLEX_EDGE_FIELDS 3 /* four fields from here */

/* The operations of edges. Every store line l owns one auxiliary value, 0 at the start. */
#define NARDIPLEX_OP_SET 0    /* r v      as the line */
#define NARDIPLEX_OP_COPY 1   /* r s      as the line */
#define NARDIPLEX_OP_ADD 2    /* r s t    as the line */
#define NARDIPLEX_OP_SUB 3    /* r s t    as the line */
#define NARDIPLEX_OP_LOAD 4   /* r x      r becomes the value of x in memory */
#define NARDIPLEX_OP_TAKE 5   /* r l      r becomes the auxiliary of l */
#define NARDIPLEX_OP_KEEPR 6  /* l r      the auxiliary of l becomes r */
#define NARDIPLEX_OP_KEEPC 7  /* l v      the auxiliary of l becomes v */
#define NARDIPLEX_OP_PASS 8   /*          nothing: a fence or a jump */
#define NARDIPLEX_OP_CAS 9    /* r x s t  as the line */
#define NARDIPLEX_OP_IFNZ 10  /* r        taken when r is not 0 */
#define NARDIPLEX_OP_IFZ 11   /* r        taken when r is 0 */
#define NARDIPLEX_OP_PUT 12   /* x l      x in memory becomes the auxiliary of l */
#define NARDIPLEX_OPERATIONS 13

/* ---- A run's schedule and state ------------------------------------------------------------------------------- */

/*
 * A schedule's item is two numbers: a thread, and a choice of it. Choice 0 is its program step, choice 1 + x its waiting
 * store to x reaching memory. A lone last number is an item that names no choice.
 */
#define NARDIPLEX_PROGRAM 0
#define NARDIPLEX_REACH(x) (1 + (x))

/*
 * A state is 216 numbers: memory 16, then 50 for each of four threads: line, 16 registers, how many stores wait, 16
 * names, 16 values. A name is the variable of a waiting pair in the buffered run, the store line of an auxiliary value in
 * the generated run; the values of both runs are alike. They stand in queue order, under PSO by variable ascending, then
 * oldest first. Unused places are 0, and so are all 50 numbers of a thread beyond the count.
 */
#define NARDIPLEX_STATE 216
#define NARDIPLEX_THREAD_WIDTH 50
#define NARDIPLEX_STATE_MEMORY(x) (x)
#define NARDIPLEX_STATE_THREAD(t) (NARDIPLEX_VARIABLES + NARDIPLEX_THREAD_WIDTH * (t))
#define NARDIPLEX_STATE_LINE(t) (NARDIPLEX_STATE_THREAD(t))
#define NARDIPLEX_STATE_REGISTER(t, r) (NARDIPLEX_STATE_THREAD(t) + 1 + (r))
#define NARDIPLEX_STATE_COUNT(t) (NARDIPLEX_STATE_THREAD(t) + 17)
#define NARDIPLEX_STATE_NAME(t, i) (NARDIPLEX_STATE_THREAD(t) + 18 + (i))
#define NARDIPLEX_STATE_VALUE(t, i) (NARDIPLEX_STATE_THREAD(t) + 34 + (i))

/* ---- Answers -------------------------------------------------------------------------------------------------- */

/*
 * Every function writes four numbers into its answer: the number below, a place, and two more.
 *
 *                          third     fourth
 * nardiplex_read           model     lines     both 0 on a refusal
 * nardiplex_build          nodes     edges     both 0 on a refusal
 * both runs                thread    steps     thread: named for 2 to 13, else 0; steps: the items done, 0 on a refusal
 *                                              but 15, there the item's index
 *
 * A refusal sets every number of every area lent for writing to 0, the state among them. Only 15 doesn't: the graphs
 * stay, and the state is the one before that item. Without a refusal, a table holds its contents and then zeros to the
 * end of its room.
 */
#define NARDIPLEX_NUMBER 0
#define NARDIPLEX_PLACE 1
#define NARDIPLEX_MODEL 2       /* nardiplex_read */
#define NARDIPLEX_LINE_COUNT 3  /* nardiplex_read */
#define NARDIPLEX_NODE_TOTAL 2  /* nardiplex_build */
#define NARDIPLEX_EDGE_TOTAL 3  /* nardiplex_build */
#define NARDIPLEX_THREAD 2      /* the runs */
#define NARDIPLEX_STEPS 3       /* the runs */

#define NARDIPLEX_DONE 0            /* no refusal; place 0 */
#define NARDIPLEX_BAD_TEXT 1        /* over 4,096 bytes: place 0; else the first text line, from 1, that is no good */
#define NARDIPLEX_BAD_MODEL 2       /* model above 1; place 0 */
#define NARDIPLEX_NO_LINES 3        /* table empty; place 0 */
#define NARDIPLEX_TOO_MANY_LINES 4  /* over 320 numbers; in a text more lines than 64 or than the room holds; place 0 */
#define NARDIPLEX_RAGGED_TABLE 5    /* length not a multiple of 5; place 0 */
#define NARDIPLEX_BAD_FIELD 6       /* kind, register or variable out of range, unused field not 0; the lowest line */
#define NARDIPLEX_TOO_MANY_STORES 7 /* over 16 store lines; the 17th */
#define NARDIPLEX_BAD_TARGET 8      /* a target that is no line; the lowest line with one */
#define NARDIPLEX_NO_NEXT 9         /* last line neither jump nor return; that line */
#define NARDIPLEX_UNFENCED_LOOP 10  /* a reachable store can be reached again with no fence or cas; the lowest one */
#define NARDIPLEX_PENDING_FULL 11   /* 17 waiting stores: proved never to be given */
#define NARDIPLEX_TOO_MANY_NODES 12 /* more nodes than 4,096 or than the room holds; place 0 */
#define NARDIPLEX_TOO_MANY_EDGES 13 /* more edges than the room holds; place 0 */
#define NARDIPLEX_BAD_THREADS 14    /* no thread, or more than 4; place 0 */
#define NARDIPLEX_NO_SUCH_STEP 15   /* an item names no thread of the run, or a choice it hasn't got; the item's index */

/* ---- Stack ---------------------------------------------------------------------------------------------------- */

/* A call needs no more bytes of stack than this, its arguments and its return address among them. tests/c/stack.sh
   measures it; to what it finds at least 1,024 bytes are added. No function calls itself, and no size depends on an input. */
#define NARDIPLEX_STACK_READ 2048            /* measured: 263 */
#define NARDIPLEX_STACK_BUILD 8192           /* measured: 2,015 */
#define NARDIPLEX_STACK_RUN_BUFFERED 8192    /* measured: 6,495 */
#define NARDIPLEX_STACK_RUN_GENERATED 16384  /* measured: 9,023 */

/* ---- Functions ------------------------------------------------------------------------------------------------ */

#ifdef __cplusplus
extern "C" {
#endif

/*
 * Reads a thread's text into a table. answer: number, place, model, lines. It gives 1, then 4. The table holds five
 * numbers a line, then zeros; lend 5 * lines of it to the other functions, not the whole room. Registers, variables and
 * targets aren't judged here. A model line alone is read as no lines.
 *
 * A text's first line is `tso` or `pso`; each further line is a name (set, copy, add, sub, load, storer, storec, fence,
 * cas, branch, jump, return) and its fields, parted by one tab; every line ends in a line feed. Numbers are decimal up to
 * 4294967295, without leading zeros. The text needs no byte 0 at its end, and none may be counted in its length.
 */
void nardiplex_read(const uint8_t *text, size_t text_len, uint32_t *table, size_t table_len, uint64_t *answer);

/*
 * Builds the store buffer graph of a table into the lent rooms. answer: number, place, nodes, edges. It gives 2 to 13,
 * the lowest number first.
 */
void nardiplex_build(uint32_t model, const uint32_t *table, size_t table_len, uint32_t *nodes, size_t nodes_len,
                     uint32_t *edges, size_t edges_len, uint64_t *answer);

/*
 * Runs `threads` threads with their store buffers from the given memory (16 values) and registers (64: 16 for each of
 * four threads), along the schedule. Tables beyond the count aren't read. answer: number, place, thread, steps. It gives
 * 14, then 2 to 10 thread by thread, then 15. An empty schedule succeeds with 0 steps. state: 216 numbers.
 */
void nardiplex_run_buffered(uint32_t model, uint32_t threads, const uint32_t *t0, size_t t0_len, const uint32_t *t1,
                            size_t t1_len, const uint32_t *t2, size_t t2_len, const uint32_t *t3, size_t t3_len,
                            const uint32_t *memory, const uint32_t *registers, const uint32_t *schedule,
                            size_t schedule_len, uint32_t *state, uint64_t *answer);

/*
 * Builds the graph of each thread into its lent rooms (n0, e0 for thread 0, and so on) and runs the graphs, by their edge
 * records alone. The rest is as in nardiplex_run_buffered; for each thread it gives 2 to 13, against that thread's rooms,
 * before it looks at the next. The graphs stay in the rooms; rooms beyond the count become 0. Where every thread is
 * accepted, both runs give the same answer, and states that differ only in what names the waiting values.
 */
void nardiplex_run_generated(uint32_t model, uint32_t threads, const uint32_t *t0, size_t t0_len, const uint32_t *t1,
                             size_t t1_len, const uint32_t *t2, size_t t2_len, const uint32_t *t3, size_t t3_len,
                             uint32_t *n0, size_t n0_len, uint32_t *e0, size_t e0_len, uint32_t *n1, size_t n1_len,
                             uint32_t *e1, size_t e1_len, uint32_t *n2, size_t n2_len, uint32_t *e2, size_t e2_len,
                             uint32_t *n3, size_t n3_len, uint32_t *e3, size_t e3_len, const uint32_t *memory,
                             const uint32_t *registers, const uint32_t *schedule, size_t schedule_len, uint32_t *state,
                             uint64_t *answer);

#ifdef __cplusplus
}
#endif

#endif
