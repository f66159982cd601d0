/*
 * panel.c: a headset panel of a language lab. The teacher's task listens to a message buffer; a recorder and a student's line share a
 * tape, which a mutex guards, and blocks of a pool to record in. All nineteen calls are made, and each is printed with what its log tells.
 */
#include "shinepod.h"

#include <inttypes.h>
#include <stdio.h>
#include <stdlib.h>
#include <string.h>

/* The bytes of what the items of a log are made of. */
enum { TAG = 1, TASK = 1, FIELD = 4 };

static int32_t field(const uint8_t *at) {
    return (int32_t)((uint32_t)at[0] | (uint32_t)at[1] << 8 | (uint32_t)at[2] << 16 | (uint32_t)at[3] << 24);
}

static void print_running(int task) {
    if (task == 0)
        printf("; no task runs");
    else
        printf("; task %d runs", task);
}

/* Prints an item of a log and gives how many bytes it has: 0 if its first byte is that of no item. */
static size_t print_item(const uint8_t *item) {
    switch (item[0]) {
    case SHINEPOD_LOG_ANSWER:
        printf(" answer %" PRId32, field(item + TAG));
        return TAG + FIELD;
    case SHINEPOD_LOG_WAITS:
        printf(" waits");
        return TAG;
    case SHINEPOD_LOG_EXITS:
        printf(" exited");
        return TAG;
    case SHINEPOD_LOG_ENDED:
        printf(", task %d's wait ends with %" PRId32, item[TAG], field(item + TAG + TASK));
        return TAG + TASK + FIELD;
    case SHINEPOD_LOG_MESSAGE:
        printf(", task %d gets \"%.*s\"", item[TAG], SHINEPOD_MESSAGE_BYTES, (const char *)item + TAG + TASK);
        return TAG + TASK + SHINEPOD_MESSAGE_BYTES;
    case SHINEPOD_LOG_BLOCK:
        printf(", task %d gets block %" PRId32, item[TAG], field(item + TAG + TASK));
        return TAG + TASK + FIELD;
    case SHINEPOD_LOG_RUNS:
        print_running(item[TAG]);
        return TAG + TASK;
    case SHINEPOD_LOG_STOPS:
        printf(" stopped at %" PRId32, field(item + TAG));
        return TAG + FIELD;
    case SHINEPOD_LOG_TOO_LONG:
        printf(" too long");
        return TAG;
    default:
        return 0;
    }
}

/* Prints a record's log: the answer, what is delivered, the waits that ended, and the task that runs now. */
static void print_log(const uint8_t *log, size_t size) {
    for (size_t at = 0, bytes; at < size; at += bytes) {
        bytes = print_item(log + at);
        if (bytes == 0) {
            fprintf(stderr, "no item of a log begins with byte %d\n", log[at]);
            exit(EXIT_FAILURE);
        }
    }
    printf("\n");
}

static ER show(const shinepod *k, const char *call, shinepod_answer answer) {
    printf("%-60s", call);
    print_log(k->log, answer.written);
    return answer.code;
}

#define SHOW(k, call) show(k, #call, call)

/* The block that the last call was answered with: it stands behind the code. */
static INT block_got(const shinepod *k) {
    const uint8_t *item = k->log + TAG + FIELD;
    return item[0] == SHINEPOD_LOG_BLOCK ? field(item + TAG + TASK) : 0;
}

static void print_next(const shinepod *k, ID buffer) {
    size_t at, size;
    uint32_t area = shinepod_next_message(k->state, SHINEPOD_STATE_WORDS, k->store, SHINEPOD_STORE_BYTES, k->outbox,
                                          SHINEPOD_OUTBOX_BYTES, buffer, &at, &size);
    const char *bytes = (const char *)(area == SHINEPOD_IN_OUTBOX ? k->outbox : k->store);
    printf("next message of buffer %d: ", (int)buffer);
    if (area == SHINEPOD_NOWHERE)
        printf("none\n");
    else
        printf("\"%.*s\", in the %s from %zu on\n", (int)size, bytes + at, area == SHINEPOD_IN_STORE ? "store" : "outbox", at);
}

/* The numbers of what the panel is made of. The teacher is task 1, of priority 8. */
typedef struct {
    ID line, recorder, tape, calls, blocks;
} panel;

static panel lesson_begins(shinepod *k) {
    panel p;
    printf("The lesson begins\n");
    p.line = SHOW(k, shinepod_cre_tsk(k, 4));
    p.recorder = SHOW(k, shinepod_cre_tsk(k, 12));
    p.tape = SHOW(k, shinepod_cre_mtx(k, TA_INHERIT, 0));
    p.calls = SHOW(k, shinepod_cre_mbf(k, TA_TFIFO, 32, 16));
    p.blocks = SHOW(k, shinepod_cre_mpf(k, TA_TPRI | TA_RNG3, 2, SHINEPOD_BLOCK_BYTES));
    return p;
}

/* What every board function is lent. */
#define LENT(k) (k)->state, SHINEPOD_STATE_WORDS, (k)->store, SHINEPOD_STORE_BYTES, (k)->outbox, SHINEPOD_OUTBOX_BYTES

/*
 * The tasks of the status board. No task's state is 0, so a row that is left as it came is of no task. A table with a row less is left so
 * whole.
 */
static void task_rows(const shinepod *k) {
    shinepod_task_row rows[SHINEPOD_TASKS] = {{0}};
    printf("the board with a row less: %d", (int)shinepod_ref_tsk(LENT(k), rows, SHINEPOD_TASKS - 1));
    printf(", first row's state %u\n", rows[0].state);
    printf("the board: %d\n", (int)shinepod_ref_tsk(LENT(k), rows, SHINEPOD_TASKS));
    for (size_t i = 0; i < SHINEPOD_TASKS; i++) {
        const shinepod_task_row *row = &rows[i];
        if (row->state == 0) continue;
        printf("  task %zu: state %u, base %u, current %u", i + 1, row->state, row->base, row->current);
        if (row->state == TTS_WAI) printf(", waits for %02x %u, %d ms left", row->kind, row->object, row->left);
        printf("\n");
    }
}

/* The whole board; of mutexes, buffers and pools the first, which are there. */
static void board(const shinepod *k) {
    shinepod_mutex_row mutexes[SHINEPOD_MUTEXES];
    shinepod_buffer_row buffers[SHINEPOD_BUFFERS];
    shinepod_pool_row pools[SHINEPOD_POOLS];
    task_rows(k);
    if (shinepod_ref_mtx(LENT(k), mutexes, SHINEPOD_MUTEXES) == E_OK)
        printf("  mutex 1: holder %u, waiter %u\n", mutexes[0].holder, mutexes[0].waiter);
    if (shinepod_ref_mbf(LENT(k), buffers, SHINEPOD_BUFFERS) == E_OK)
        printf("  buffer 1: free %u, room %d, next %u, receiver %u, sender %u\n", buffers[0].free, buffers[0].room, buffers[0].next,
               buffers[0].receiver, buffers[0].sender);
    if (shinepod_ref_mpf(LENT(k), pools, SHINEPOD_POOLS) == E_OK)
        printf("  pool 1: free %u, waiter %u\n", pools[0].free, pools[0].waiter);
}

/* A recorder holds the tape, the line waits for it, and the recorder runs with the line's priority until it gives it up. */
static void tape(shinepod *k, const panel *p) {
    printf("\nThe tape\n");
    SHOW(k, shinepod_sta_tsk(k, p->recorder));
    SHOW(k, shinepod_rcv_mbf(k, p->calls, TMO_FEVR));
    SHOW(k, shinepod_loc_mtx(k, p->tape, TMO_FEVR));
    SHOW(k, shinepod_sta_tsk(k, p->line));
    SHOW(k, shinepod_loc_mtx(k, p->tape, 20));
    board(k);
    SHOW(k, shinepod_snd_mbf(k, p->calls, "tape ends", 10, TMO_POL));
    SHOW(k, shinepod_unl_mtx(k, p->tape));
    SHOW(k, shinepod_unl_mtx(k, p->tape));
    SHOW(k, shinepod_ext_tsk(k));
}

/* Two messages are stored, the third does not fit and waits for a millisecond; one is shown before it is received. */
static void messages(shinepod *k, const panel *p) {
    printf("\nThe messages\n");
    print_next(k, p->calls);
    SHOW(k, shinepod_snd_mbf(k, p->calls, "line 7 asks", 12, TMO_FEVR));
    SHOW(k, shinepod_snd_mbf(k, p->calls, "line 2 asks", 12, TMO_FEVR));
    SHOW(k, shinepod_snd_mbf(k, p->calls, "line 4 asks", 12, 1));
    print_next(k, p->calls);
    SHOW(k, shinepod_tick(k));
    SHOW(k, shinepod_rcv_mbf(k, p->calls, TMO_POL));
    print_next(k, p->calls);
}

/*
 * The teacher takes both blocks. Then all three want one: the teacher for a millisecond, the recorder, and the line, which is the least
 * urgent now. No task runs, so that only a tick is taken.
 */
static INT recordings(shinepod *k, const panel *p) {
    printf("\nThe recordings\n");
    SHOW(k, shinepod_get_mpf(k, p->blocks, TMO_FEVR));
    INT block = block_got(k);
    SHOW(k, shinepod_get_mpf(k, p->blocks, TMO_FEVR));
    SHOW(k, shinepod_chg_pri(k, p->line, 15));
    SHOW(k, shinepod_sta_tsk(k, p->line));
    SHOW(k, shinepod_get_mpf(k, p->blocks, 1));
    SHOW(k, shinepod_get_mpf(k, p->blocks, TMO_FEVR));
    SHOW(k, shinepod_get_mpf(k, p->blocks, TMO_FEVR));
    SHOW(k, shinepod_ext_tsk(k));
    SHOW(k, shinepod_tick(k));
    return block;
}

/*
 * The line is urgent again and passes the recorder in the pool's queue: the block that comes back is the line's. It hands the block on,
 * and makes itself less urgent once more.
 */
static void urgency(shinepod *k, const panel *p, INT block) {
    printf("\nThe line's urgency\n");
    SHOW(k, shinepod_chg_pri(k, p->line, TPRI_INI));
    SHOW(k, shinepod_rel_mpf(k, p->blocks, block));
    SHOW(k, shinepod_rel_mpf(k, p->blocks, block));
    SHOW(k, shinepod_chg_pri(k, TSK_SELF, 15));
}

/*
 * The recorder holds the tape and listens, the line waits for the tape. The teacher terminates the recorder: the tape is the line's, and
 * the recorder's block stays out.
 */
static void recorder_stops(shinepod *k, const panel *p) {
    printf("\nThe recorder stops\n");
    SHOW(k, shinepod_rcv_mbf(k, p->calls, TMO_POL));
    SHOW(k, shinepod_rcv_mbf(k, p->calls, 1));
    SHOW(k, shinepod_loc_mtx(k, p->tape, TMO_POL));
    SHOW(k, shinepod_rcv_mbf(k, p->calls, TMO_FEVR));
    SHOW(k, shinepod_loc_mtx(k, p->tape, TMO_FEVR));
    SHOW(k, shinepod_tick(k));
    SHOW(k, shinepod_del_tsk(k, p->recorder));
    SHOW(k, shinepod_ter_tsk(k, p->recorder));
    SHOW(k, shinepod_del_tsk(k, p->recorder));
}

/*
 * The line waits for a block that nobody returns. All is cleared away: the pool, and with it the line's wait; the tape, which the line
 * holds; the buffer, and with it a message; and the line.
 */
static void lesson_ends(shinepod *k, const panel *p) {
    printf("\nThe lesson ends\n");
    SHOW(k, shinepod_rcv_mbf(k, p->calls, 1));
    SHOW(k, shinepod_get_mpf(k, p->blocks, TMO_FEVR));
    SHOW(k, shinepod_tick(k));
    SHOW(k, shinepod_del_mpf(k, p->blocks));
    SHOW(k, shinepod_del_mtx(k, p->tape));
    SHOW(k, shinepod_snd_mbf(k, p->calls, "good bye", 9, TMO_POL));
    SHOW(k, shinepod_del_mbf(k, p->calls));
    print_next(k, p->calls);
    SHOW(k, shinepod_ter_tsk(k, p->line));
    SHOW(k, shinepod_del_tsk(k, p->line));
}

static void refusals(shinepod *k) {
    printf("\nRefusals\n");
    SHOW(k, shinepod_cre_tsk(k, SHINEPOD_PRIORITIES + 1));
    SHOW(k, shinepod_sta_tsk(k, SHINEPOD_TASKS + 1));
    SHOW(k, shinepod_rel_mpf(k, 1, 1));
    SHOW(k, shinepod_loc_mtx(k, 1, -2));
    shinepod_answer answer = shinepod_make(k, 0, 0, 0, 0, NULL, 0);
    printf("a call of kind 0 is unknown: %s\n", answer.outcome == SHINEPOD_UNKNOWN_KIND && answer.written == 0 ? "yes" : "no");
    k->state[0] ^= 1;
    SHOW(k, shinepod_tick(k));
    k->state[0] ^= 1;
}

static int is_valid(const shinepod *k, size_t store_bytes) {
    return shinepod_is_valid(k->state, SHINEPOD_STATE_WORDS, k->store, store_bytes, k->outbox, SHINEPOD_OUTBOX_BYTES);
}

/* The store's length is part of what is checked: with a byte less or a byte more every call answers E_SYS, and nothing is changed. */
static int tick_with_store(shinepod *k, size_t store_bytes) {
    static uint8_t store[SHINEPOD_STORE_BYTES + 1];
    static const uint8_t no_message[1];
    ER code;
    size_t written;
    memcpy(store, k->store, SHINEPOD_STORE_BYTES);
    shinepod_call(k->state, SHINEPOD_STATE_WORDS, store, store_bytes, k->outbox, SHINEPOD_OUTBOX_BYTES, k->log, SHINEPOD_LOG_BYTES,
                  TK_TICK, 0, 0, 0, no_message, 0, &code, &written);
    return (int)code;
}

static void lengths(shinepod *k) {
    printf("valid: %d, with a shorter store: %d\n", is_valid(k, SHINEPOD_STORE_BYTES), is_valid(k, SHINEPOD_STORE_BYTES - 1));
    printf("a tick with a byte of store less: %d, with one more: %d, with all of it: %d\n", tick_with_store(k, SHINEPOD_STORE_BYTES - 1),
           tick_with_store(k, SHINEPOD_STORE_BYTES + 1), tick_with_store(k, SHINEPOD_STORE_BYTES));
}

/* The records of a script, on the fresh kernel. */
static void script(shinepod *k) {
    static const uint8_t bytes[] = {TK_TICK, TK_GET_MPF, 1, 0, 0, 0, 0, 0, 0, 0, TK_SND_MBF};
    size_t at = 0, written = 0;
    ER code = E_OK;
    uint32_t outcome = SHINEPOD_ANSWERED;
    printf("\nA script\n");
    shinepod_start(k);
    while (outcome != SHINEPOD_OVER) {
        printf("record at %zu:", at);
        outcome = shinepod_run_record(k->state, SHINEPOD_STATE_WORDS, k->store, SHINEPOD_STORE_BYTES, k->outbox, SHINEPOD_OUTBOX_BYTES,
                                      k->log, SHINEPOD_LOG_BYTES, bytes, sizeof bytes, &at, &code, &written);
        print_log(k->log, written);
    }
}

int main(void) {
    static shinepod k;
    if (shinepod_start(&k) != E_OK) return EXIT_FAILURE;
    const panel p = lesson_begins(&k);
    tape(&k, &p);
    messages(&k, &p);
    INT block = recordings(&k, &p);
    urgency(&k, &p, block);
    recorder_stops(&k, &p);
    lesson_ends(&k, &p);
    refusals(&k);
    lengths(&k);
    script(&k);
    return EXIT_SUCCESS;
}
