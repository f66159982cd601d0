/*
 * shinepod.h: the kernel as a library for C. docs/LIBRARY.md says how to build and link it.
 *
 * All memory is the caller's. A kernel is four areas that the caller lends to each call, each as a pointer and a length:
 *
 *     state    SHINEPOD_STATE_WORDS words       which tasks, mutexes, buffers and pools there are, and the queues
 *     store    SHINEPOD_STORE_BYTES bytes       the messages of the buffers
 *     outbox   SHINEPOD_OUTBOX_BYTES bytes      the messages of the tasks that wait to send
 *     log      SHINEPOD_LOG_BYTES bytes         what the last call did
 *
 * Lengths are counted in elements. The library keeps nothing between calls, allocates nothing, and never fails but by its answer. Areas
 * may hold anything: what they hold is checked in each call, and an area of another length is refused.
 *
 * What is proved: for all areas, of all lengths and contents, and for all arguments, a function gives and leaves what its definition
 * says, and touches nothing else. Nothing is asked but what C itself cannot say, which is the caller's to keep:
 *
 *   - Every pointer is valid for as many elements as are handed over with it, aligned, and not null, also where the length is 0.
 *   - The areas, the message, the script, the rows and the results of one call do not overlap.
 *   - No other thread touches an area or the rows while a call runs: two threads may not use one kernel at a time. Two kernels are independent.
 */
#ifndef SHINEPOD_H
#define SHINEPOD_H

#include <stdbool.h>
#include <stddef.h>
#include <stdint.h>

/*
 * Every number: sizes SHINEPOD_.., codes E_.., kinds TK_.., items of a log SHINEPOD_LOG_.., states of a task TTS_.., and the outcomes
 * and places below. Made from the crates' sources.
 */
#include "shinepod_numbers.h"

#ifdef __cplusplus
extern "C" {
#endif

/* The manual's types. All are signed numbers of 32 bits here, attributes too. */
typedef int32_t INT;
typedef int32_t SZ;
typedef int32_t ER;
typedef int32_t ID;
typedef int32_t ATR;
typedef int32_t PRI;
typedef int32_t TMO;

/*
 * The manual's attributes. A mutex has one of the first four, a buffer one of the first two, a pool one of the first two plus one of
 * the protection levels TA_RNG0 to TA_RNG3, which have no effect. TA_TPRI orders a queue by priority; so do TA_INHERIT and TA_CEILING.
 */
#define TA_TFIFO SHINEPOD_BY_ARRIVAL
#define TA_TPRI SHINEPOD_BY_PRIORITY
#define TA_INHERIT SHINEPOD_INHERITS
#define TA_CEILING SHINEPOD_CEILINGED
#define TA_RNG0 (0 * SHINEPOD_PROTECTION)
#define TA_RNG1 (1 * SHINEPOD_PROTECTION)
#define TA_RNG2 (2 * SHINEPOD_PROTECTION)
#define TA_RNG3 (3 * SHINEPOD_PROTECTION)

/* Its timeouts, in milliseconds: not to wait, and to wait without end. For chg_pri: the caller, and the task's initial priority. */
#define TMO_POL 0
#define TMO_FEVR (-1)
#define TSK_SELF 0
#define TPRI_INI 0

/*
 * The areas become the fresh kernel: task 1 runs, and nothing else is there. E_OK; or E_SYS, and nothing is changed, if a length is
 * another. What the areas hold before does not matter.
 */
ER shinepod_fresh(uint32_t *state, size_t state_words, uint8_t *store, size_t store_bytes, uint8_t *outbox, size_t outbox_bytes);

/*
 * One call of the task that runs, by its kind (TK_..) and up to three fields in the manual's order; fields that the call has not are not
 * looked at. The message is that of TK_SND_MBF: its first msgsz bytes are sent, zeros where fewer are handed over. With a byte behind
 * them that is not zero the call is refused (E_PAR); no byte behind the first SHINEPOD_MESSAGE_BYTES is looked at. Gives
 *
 *     SHINEPOD_ANSWERED       *code is the answer: a number or 0 if all went well, else one of E_..
 *     SHINEPOD_WAITS          the caller waits; *code is 0
 *     SHINEPOD_EXITED         the caller has exited, by TK_EXT_TSK; *code is 0
 *     SHINEPOD_UNKNOWN_KIND   no call has the kind; nothing is changed, *code and *written are 0
 *
 * *written bytes at the front of the log area tell what happened, the rest of it stays as it came: the items of "The log" below.
 * A negative code leaves state, store and outbox as they came. E_SYS also says that an area has another length, or that
 * the areas are not valid (shinepod_is_valid): a log area of another length stays as it came too, and *written is 0.
 */
uint32_t shinepod_call(uint32_t *state, size_t state_words, uint8_t *store, size_t store_bytes, uint8_t *outbox, size_t outbox_bytes,
                       uint8_t *log, size_t log_bytes, uint8_t kind, int32_t first, int32_t second, int32_t third,
                       const uint8_t *message, size_t message_bytes, ER *code, size_t *written);

/*
 * The record at *at of a script: as shinepod_call, and *at goes on to the next record. Gives also
 *
 *     SHINEPOD_OVER           the script is over: at its end, or where a record has an unknown kind or is cut, or because it has more
 *                             than SHINEPOD_SCRIPT_BYTES bytes. The log says which. *at stays, *code is 0.
 *
 * With a log area of another length nothing is done: E_SYS, *written is 0, and *at stays. *at may be any number.
 */
uint32_t shinepod_run_record(uint32_t *state, size_t state_words, uint8_t *store, size_t store_bytes, uint8_t *outbox,
                             size_t outbox_bytes, uint8_t *log, size_t log_bytes, const uint8_t *script, size_t script_bytes,
                             size_t *at, ER *code, size_t *written);

/*
 * Where the next message of a buffer lies, which is the one that a receive would take. Gives SHINEPOD_IN_STORE or SHINEPOD_IN_OUTBOX: its
 * *size bytes lie in that area from *at on. SHINEPOD_NOWHERE, and both are 0, if there is no message or no such buffer, or if the areas
 * are not valid. Nothing is changed, and it lies there until the next call.
 */
uint32_t shinepod_next_message(const uint32_t *state, size_t state_words, const uint8_t *store, size_t store_bytes,
                               const uint8_t *outbox, size_t outbox_bytes, ID buffer, size_t *at, size_t *size);

/*
 * Whether the areas have their lengths and what they hold is valid: what document 01 calls sound, with what document 02 adds to it. The fresh kernel
 * is, and every call keeps it so. That calls lead there from the fresh kernel is not asked. Nothing is changed.
 */
bool shinepod_is_valid(const uint32_t *state, size_t state_words, const uint8_t *store, size_t store_bytes, const uint8_t *outbox,
                       size_t outbox_bytes);

/*
 * The status board: what the manual's tk_ref calls tell, of all objects of a kind at once. The four functions are in an archive of their
 * own, libboard.a. Each writes into rows that the caller lends, of which row n, counted from 1, is that of the object with number n. Gives
 *
 *     E_OK    the rows of all objects that exist are written
 *     E_SYS   an area has another length, or the areas are not valid (shinepod_is_valid); no row is written
 *     E_PAR   else, if there are fewer rows than numbers of the kind (SHINEPOD_TASKS and so on); no row is written
 *
 * A row that is not written stays as it came: that of a number that no object has, and those behind the last number. State, store and
 * outbox are only read. A task in a row is its number, 0 for none; the first that waits is the one that would be served first.
 */

/*
 * A task: its state (TTS_RUN, TTS_RDY, TTS_WAI or TTS_DMT), base and current priority; the object that it waits for, by the kind of the
 * call that creates such a one (TK_CRE_MTX, TK_CRE_MBF, TK_CRE_MPF) and its number, 0 and 0 for none; the milliseconds left of the wait,
 * -1 without end, 0 for no wait.
 */
typedef struct {
    uint32_t state, base, current, kind, object;
    int32_t left;
} shinepod_task_row;

/* A mutex: the task that holds it, and the first that waits for it. */
typedef struct {
    uint32_t holder, waiter;
} shinepod_mutex_row;

/*
 * A buffer: how many bytes of its bufsz no stored message takes; how many bytes are over for a message of maxmsz bytes, by what it
 * costs, or lacking, below 0, and 0 for an exact fit; the length of the next message (shinepod_next_message), 0 if there is none; the
 * first that waits to receive, and the first that waits to send.
 */
typedef struct {
    uint32_t free;
    int32_t room;
    uint32_t next, receiver, sender;
} shinepod_buffer_row;

/* A pool: how many blocks are free, and the first that waits for one. */
typedef struct {
    uint32_t free, waiter;
} shinepod_pool_row;

/* The status of the tasks: E_OK and a row for each that exists, or E_SYS or E_PAR and no row. */
ER shinepod_ref_tsk(const uint32_t *state, size_t state_words, const uint8_t *store, size_t store_bytes, const uint8_t *outbox,
                    size_t outbox_bytes, shinepod_task_row *rows, size_t row_count);

/* The same of the mutexes. */
ER shinepod_ref_mtx(const uint32_t *state, size_t state_words, const uint8_t *store, size_t store_bytes, const uint8_t *outbox,
                    size_t outbox_bytes, shinepod_mutex_row *rows, size_t row_count);

/* The same of the buffers. */
ER shinepod_ref_mbf(const uint32_t *state, size_t state_words, const uint8_t *store, size_t store_bytes, const uint8_t *outbox,
                    size_t outbox_bytes, shinepod_buffer_row *rows, size_t row_count);

/* The same of the pools. */
ER shinepod_ref_mpf(const uint32_t *state, size_t state_words, const uint8_t *store, size_t store_bytes, const uint8_t *outbox,
                    size_t outbox_bytes, shinepod_pool_row *rows, size_t row_count);

/*
 * The log. It is a row of items: a byte that says which one it is, and what follows it. A task is one byte; a code, a block and an offset
 * are four, the least first, a code signed.
 *
 *     SHINEPOD_LOG_ANSWER     code                             the call is answered with the code
 *     SHINEPOD_LOG_WAITS      nothing                          the caller waits
 *     SHINEPOD_LOG_EXITS      nothing                          the caller has exited
 *     SHINEPOD_LOG_ENDED      task, code                       the task's wait has ended with the code
 *     SHINEPOD_LOG_MESSAGE    task, SHINEPOD_MESSAGE_BYTES     the task got a message, with zeros behind it; the code before is its length
 *     SHINEPOD_LOG_BLOCK      task, block                      the task got a block of a pool, counted from 1; the code before is 0
 *     SHINEPOD_LOG_RUNS       task                             the task that runs now, 0 for none
 *     SHINEPOD_LOG_STOPS      offset                           the script stops there: unknown kind, cut body
 *     SHINEPOD_LOG_TOO_LONG   nothing                          the script has more than SHINEPOD_SCRIPT_BYTES bytes
 *
 * A call's log is one of the first three, which a message or a block of the caller's follows; then for each wait that ended, in order, its
 * item, which a message or a block of that task's follows; then the task that runs. Where a script is over, the log is one of the
 * last two, or has no item at the script's end.
 */

/* ---- The same in fewer words: areas of the right lengths in one place, and the manual's calls by their names. */

/* A kernel: its four areas, with the right lengths. There may be any number of them. */
typedef struct {
    uint32_t state[SHINEPOD_STATE_WORDS];
    uint8_t store[SHINEPOD_STORE_BYTES];
    uint8_t outbox[SHINEPOD_OUTBOX_BYTES];
    uint8_t log[SHINEPOD_LOG_BYTES];
} shinepod;

/* What shinepod_call gives: SHINEPOD_ANSWERED and so on, the code, and how many bytes of the kernel's log area are this call's log. */
typedef struct {
    uint32_t outcome;
    ER code;
    size_t written;
} shinepod_answer;

/* The kernel becomes the fresh one: always E_OK. Before that it may hold anything. */
static inline ER shinepod_start(shinepod *k) {
    return shinepod_fresh(k->state, SHINEPOD_STATE_WORDS, k->store, SHINEPOD_STORE_BYTES, k->outbox, SHINEPOD_OUTBOX_BYTES);
}

/* One call by its kind and fields. The message may be NULL where it has no bytes. */
static inline shinepod_answer shinepod_make(shinepod *k, uint8_t kind, int32_t first, int32_t second, int32_t third, const void *message,
                                            size_t message_bytes) {
    static const uint8_t none[1] = {0};
    shinepod_answer answer;
    const uint8_t *bytes = message_bytes == 0 ? none : (const uint8_t *)message;
    answer.outcome = shinepod_call(k->state, SHINEPOD_STATE_WORDS, k->store, SHINEPOD_STORE_BYTES, k->outbox, SHINEPOD_OUTBOX_BYTES,
                                   k->log, SHINEPOD_LOG_BYTES, kind, first, second, third, bytes, message_bytes, &answer.code,
                                   &answer.written);
    return answer;
}

/*
 * The nineteen calls, with the manual's names for their fields. Those that create answer the new number, rcv_mbf the message's length,
 * the others 0.
 */
static inline shinepod_answer shinepod_cre_tsk(shinepod *k, PRI itskpri) { return shinepod_make(k, TK_CRE_TSK, itskpri, 0, 0, NULL, 0); }

static inline shinepod_answer shinepod_del_tsk(shinepod *k, ID tskid) { return shinepod_make(k, TK_DEL_TSK, tskid, 0, 0, NULL, 0); }

static inline shinepod_answer shinepod_sta_tsk(shinepod *k, ID tskid) { return shinepod_make(k, TK_STA_TSK, tskid, 0, 0, NULL, 0); }

static inline shinepod_answer shinepod_ext_tsk(shinepod *k) { return shinepod_make(k, TK_EXT_TSK, 0, 0, 0, NULL, 0); }

static inline shinepod_answer shinepod_ter_tsk(shinepod *k, ID tskid) { return shinepod_make(k, TK_TER_TSK, tskid, 0, 0, NULL, 0); }

static inline shinepod_answer shinepod_chg_pri(shinepod *k, ID tskid, PRI tskpri) {
    return shinepod_make(k, TK_CHG_PRI, tskid, tskpri, 0, NULL, 0);
}

static inline shinepod_answer shinepod_cre_mtx(shinepod *k, ATR mtxatr, PRI ceilpri) {
    return shinepod_make(k, TK_CRE_MTX, mtxatr, ceilpri, 0, NULL, 0);
}

static inline shinepod_answer shinepod_del_mtx(shinepod *k, ID mtxid) { return shinepod_make(k, TK_DEL_MTX, mtxid, 0, 0, NULL, 0); }

static inline shinepod_answer shinepod_loc_mtx(shinepod *k, ID mtxid, TMO tmout) {
    return shinepod_make(k, TK_LOC_MTX, mtxid, tmout, 0, NULL, 0);
}

static inline shinepod_answer shinepod_unl_mtx(shinepod *k, ID mtxid) { return shinepod_make(k, TK_UNL_MTX, mtxid, 0, 0, NULL, 0); }

static inline shinepod_answer shinepod_cre_mbf(shinepod *k, ATR mbfatr, SZ bufsz, INT maxmsz) {
    return shinepod_make(k, TK_CRE_MBF, mbfatr, bufsz, maxmsz, NULL, 0);
}

static inline shinepod_answer shinepod_del_mbf(shinepod *k, ID mbfid) { return shinepod_make(k, TK_DEL_MBF, mbfid, 0, 0, NULL, 0); }

/* msgsz bytes are read from msg, but none for a number below 0, and no more than SHINEPOD_MESSAGE_BYTES: no other byte is handed over. */
static inline shinepod_answer shinepod_snd_mbf(shinepod *k, ID mbfid, const void *msg, INT msgsz, TMO tmout) {
    size_t bytes = msgsz < 0 ? 0 : msgsz < SHINEPOD_MESSAGE_BYTES ? (size_t)msgsz : SHINEPOD_MESSAGE_BYTES;
    return shinepod_make(k, TK_SND_MBF, mbfid, msgsz, tmout, msg, bytes);
}

/* The message stands in the log, behind the code. */
static inline shinepod_answer shinepod_rcv_mbf(shinepod *k, ID mbfid, TMO tmout) {
    return shinepod_make(k, TK_RCV_MBF, mbfid, tmout, 0, NULL, 0);
}

static inline shinepod_answer shinepod_cre_mpf(shinepod *k, ATR mpfatr, SZ mpfcnt, SZ blfsz) {
    return shinepod_make(k, TK_CRE_MPF, mpfatr, mpfcnt, blfsz, NULL, 0);
}

static inline shinepod_answer shinepod_del_mpf(shinepod *k, ID mpfid) { return shinepod_make(k, TK_DEL_MPF, mpfid, 0, 0, NULL, 0); }

/* The block stands in the log, behind the code: its number, counted from 1, which is what rel_mpf takes. */
static inline shinepod_answer shinepod_get_mpf(shinepod *k, ID mpfid, TMO tmout) {
    return shinepod_make(k, TK_GET_MPF, mpfid, tmout, 0, NULL, 0);
}

static inline shinepod_answer shinepod_rel_mpf(shinepod *k, ID mpfid, INT blf) {
    return shinepod_make(k, TK_REL_MPF, mpfid, blf, 0, NULL, 0);
}

/* One millisecond passes. */
static inline shinepod_answer shinepod_tick(shinepod *k) { return shinepod_make(k, TK_TICK, 0, 0, 0, NULL, 0); }

#ifdef __cplusplus
}
#endif

#endif
