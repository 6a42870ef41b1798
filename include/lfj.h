/*
 * lfj.h: fork-join annotation of half-motif clauses.
 *
 * The functions read a clause record, the bytes that describe a clause, and say
 * which of its goals may run side by side. They are proved: each answer and each
 * byte written is what the paper settles, for every input. They keep no state and
 * allocate nothing; each runs on a stack of 256 KB. The inline functions of this
 * header are not proved but tested.
 *
 * A record has version 1, or version 2 with a ground set and ticks at each goal.
 *
 * Link with liblfj.a, which `sh scripts/static-library.sh` writes to target/staticlib. A
 * program that calls the dispatcher, lfj_start or lfj_tick, is linked with liblfj_dispatch.a
 * too, which stands beside it.
 *
 * WHAT A CALLER OWES. The proof takes these for granted, and nothing tests them:
 *   - No pointer is null, save one beside a length of 0: that one is not looked at,
 *     by the layer further below. Arrays and `head` are never null.
 *   - The bytes of `record` (n of them) and of `text` (m) can be read, those of
 *     `out` (room), of an array, of `head` and of the row `heads` (k heads) read and
 *     written, and nothing else writes to any of them during the call.
 *   - Arrays, `head` and `heads` are aligned as C aligns their types, `heads` to 4.
 *   - What is written to (`out`, an array, `head`, `heads`) overlaps nothing else that
 *     is lent. `record` and `text` may overlap each other.
 *   - A length is at most the largest size of an object, PTRDIFF_MAX.
 * Another language calls the library itself, past that layer: there no pointer is
 * null, whatever the length.
 *
 * THE ANSWER is one word.
 *   bits 56 to 63   the refusal's number (enum lfj_number); 0 if the call was accepted
 *   refused:
 *     bits 0 to 31  the place, see lfj_words() and the paper
 *     bits 32 to 55 with number 13 the goals a, b, c, d, six bits each; else 0
 *   accepted: as each function says
 * The helpers below take an answer apart. A refused call changes nothing that is lent.
 *
 * Goals are numbered from 1, left to right. A set of goals has goal g at bit g - 1.
 * Variables are numbered from 0. A set of variables has variable x at bit x.
 */
#ifndef LFJ_H
#define LFJ_H

#include <stddef.h>
#include <stdint.h>

#ifdef __cplusplus
extern "C" {
#endif

/* This header's version: major * 10000 + minor * 100 + patch, and as text. */
#define LFJ_VERSION 10500
#define LFJ_VERSION_TEXT "1.5.0"

/* No record that is accepted is longer, in bytes. */
#define LFJ_RECORD_MAX 1910
/* The most goals of a clause. */
#define LFJ_GOAL_MAX 32
/* The most variables of a clause. */
#define LFJ_VARIABLE_MAX 64
/* The most ticks of a goal; the least is 1. */
#define LFJ_TICK_MAX 60000
/* The most passes that close the waits of a clause; the least is 1. */
#define LFJ_PASS_MAX 6
/* The longest form, in bytes: a buffer of this size is never too short. */
#define LFJ_FORM_MAX 146
/* A bound on the MEL annotation, in bytes: a buffer of this size is never too short,
 * by theorem. The longest that we know of has 192,127 bytes. */
#define LFJ_MEL_MAX 197162
/* The longest text that the check reads. */
#define LFJ_TEXT_MAX 512
/* The most heads of a dispatcher's row; the least is 1. */
#define LFJ_HEADS_MAX 8

/* The numbers of refusals. lfj_words() says what each means and what its place is. */
enum lfj_number {
    LFJ_ACCEPTED = 0,
    LFJ_SHORT_RECORD = 1,
    LFJ_BAD_MARK = 2,
    LFJ_BAD_VERSION = 3,
    LFJ_BAD_GOAL_COUNT = 4,
    LFJ_BAD_VARIABLE_COUNT = 5,
    LFJ_BAD_HEADER_SET = 6,
    LFJ_CUT_OFF = 7,
    LFJ_BAD_GOAL_SET = 8,
    LFJ_BAD_GOAL_TEXT = 9,
    LFJ_BAD_PAIR = 10,
    LFJ_LEFT_OVER = 11,
    LFJ_SHORT_BUFFER = 12,
    LFJ_NO_FORM = 13,
    LFJ_NO_GOAL = 14,
    LFJ_BAD_TEXT_LENGTH = 15,
    LFJ_BAD_GRAMMAR = 16,
    LFJ_BAD_GOAL_USE = 17,
    LFJ_BAD_GROUND_SET = 18,
    LFJ_BAD_TICKS = 19,
    LFJ_BAD_HEADS = 20
};

/* ---- The functions of the library ---- */

/* The library's version, as LFJ_VERSION says the header's. */
uint32_t lfj_version(void);

/*
 * Reads the record, of version 1 or 2. Accepted: the goal count, 1 to 32.
 * Refused by 1 to 11, 18 and 19, as every function below is.
 */
uint64_t lfj_read(const uint8_t *record, size_t n);

/*
 * The goals that wait for `goal`, directly or through others. Accepted: their set.
 * Refused by 14 for a goal outside 1 to the goal count.
 */
uint64_t lfj_after(const uint8_t *record, size_t n, uint32_t goal);

/*
 * The whole order. Row g - 1 gets the goals that wait for goal g, directly or
 * through others; rows above the goal count are 0. Accepted: the goal count.
 */
uint64_t lfj_order(const uint8_t *record, size_t n, uint32_t rows[LFJ_GOAL_MAX]);

/*
 * How many passes close the waits to that order. A pass adds exactly those waits that a
 * chain of two waits standing at its start gives; the last one adds none, and counts.
 * Accepted: the number, 1 to LFJ_PASS_MAX; 1 exactly if the waits were closed already.
 */
uint64_t lfj_passes(const uint8_t *record, size_t n);

/*
 * Writes the fork-join expression in house form into the first bytes of `out` and
 * keeps the rest. Accepted: its length.
 * Refused by 13 if no expression has the clause's order, then by 12 if `room` is
 * below the length, which is the place.
 */
uint64_t lfj_form(const uint8_t *record, size_t n, uint8_t *out, size_t room);

/*
 * The form's length, exactly: lfj_form with so much room is not refused by 12, and
 * with one byte less always is. Accepted: the length. Refused by 13.
 */
uint64_t lfj_form_length(const uint8_t *record, size_t n);

/*
 * Writes the MEL annotation into the first bytes of `out` and keeps the rest.
 * Accepted: its length. Refused by 12 if `room` is below the length, which is the
 * place; so a call with room 0 asks for the length.
 */
uint64_t lfj_mel(const uint8_t *record, size_t n, uint8_t *out, size_t room);

/*
 * Where the text of `goal` stands in the record. Accepted: its place, and at bits
 * 32 to 47 its length. Refused by 14 for a goal outside 1 to the goal count.
 */
uint64_t lfj_goal_text(const uint8_t *record, size_t n, uint32_t goal);

/*
 * Holds an expression, as text, against the record's order. Accepted: 0 if both
 * have the same order; else the first i, then j, for which just one of them has
 * goal i before goal j, i at bits 0 to 7 and j at bits 8 to 15. Bits 16 to 55 are 0
 * and kept for later.
 * Refused by 15 if the text is empty or above 512 bytes, 16 if it is not in the
 * grammar, 17 if it does not use each goal exactly once.
 */
uint64_t lfj_check(const uint8_t *record, size_t n, const uint8_t *text, size_t m);

/* The head set, into `head`. Accepted: the variable count, 0 to 64. */
uint64_t lfj_head(const uint8_t *record, size_t n, uint64_t *head);

/*
 * Place g - 1 gets the variables of goal g; places above the goal count are 0.
 * Accepted: the goal count.
 */
uint64_t lfj_goal_sets(const uint8_t *record, size_t n, uint64_t sets[LFJ_GOAL_MAX]);

/*
 * Place g - 1 gets the variables known ground at goal g, in version 1 the header's
 * at each goal; places above the goal count are 0. Accepted: the goal count.
 */
uint64_t lfj_ground_sets(const uint8_t *record, size_t n, uint64_t sets[LFJ_GOAL_MAX]);

/*
 * Place g - 1 gets the ticks of goal g, in version 1 always 1; places above the goal
 * count are 0. Accepted: the goal count.
 */
uint64_t lfj_ticks(const uint8_t *record, size_t n, uint32_t ticks[LFJ_GOAL_MAX]);

/*
 * Place x gets the variables that are listed as independent of variable x; so a pair
 * shows at both of its variables. Places at or above the variable count are 0.
 * Accepted: the variable count.
 */
uint64_t lfj_listed(const uint8_t *record, size_t n, uint64_t rows[LFJ_VARIABLE_MAX]);

/* ---- The dispatcher: a library of its own, liblfj_dispatch.a ----
 *
 * It runs a clause on 1 to 8 heads, one tick a call. The caller lends the row of heads,
 * passes the set of ended goals and gets it back; the library keeps neither. In a tick
 * every idle head, lowest first, takes the lowest goal, neither ended nor on a head, whose
 * predecessors have all ended; then every busy head works one tick, and at 0 left its goal
 * has ended and the head is idle. Clauses without a form are dispatched too.
 *
 * A run on three heads, from a start until all goals have ended:
 *
 *     struct lfj_row_head heads[3];
 *     uint32_t all = lfj_all_goals(lfj_goal_count(lfj_read(record, n)));
 *     uint64_t answer = lfj_start(record, n, heads, 3);
 *     uint32_t ticks = 0;
 *     while (lfj_refusal(answer) == LFJ_ACCEPTED && lfj_ended(answer) != all) {
 *         answer = lfj_tick(record, n, heads, 3, lfj_ended(answer));
 *         ticks++;
 *     }
 *
 * No tick of a run is refused. Any other call may be: its set is 0 then, as lfj_ended gives it,
 * and must not be stored over the caller's. Bits 0 to 31 of the answer are then the place.
 */

/*
 * A head: its goal, from 1, and the ticks that the goal still has. An idle head has zeros.
 * 8 bytes, the goal at 0 and the ticks left at 4, alignment 4.
 */
struct lfj_row_head {
    uint32_t goal;
    uint32_t left;
};

/* The layout that the library has: an array of negative length does not compile. */
struct lfj_row_head_alignment {
    char one;
    struct lfj_row_head head;
};
typedef char lfj_row_head_layout[sizeof(struct lfj_row_head) == 8 && offsetof(struct lfj_row_head, goal) == 0
                                     && offsetof(struct lfj_row_head, left) == 4
                                     && offsetof(struct lfj_row_head_alignment, head) == 4
                                 ? 1
                                 : -1];

/*
 * A start: makes all k heads idle, whatever they held. Accepted: 0, no goal has ended.
 * Refused by 20 if k is 0 or above LFJ_HEADS_MAX.
 */
uint64_t lfj_start(const uint8_t *record, size_t n, struct lfj_row_head *heads, size_t k);

/*
 * One tick, given the row and the set of ended goals that the start or tick before left.
 * Accepted: the set of ended goals after it. Once all goals have ended a tick changes
 * nothing.
 * Refused by 20 if k is 0 or above LFJ_HEADS_MAX; if a head's goal is above the goal count,
 * on two heads or ended; if the ticks left are 0 or above the goal's on a busy head, or not
 * 0 on an idle one; if an ended goal is above the goal count; or if a busy or ended goal has
 * a predecessor that has not ended.
 */
uint64_t lfj_tick(const uint8_t *record, size_t n, struct lfj_row_head *heads, size_t k,
                  uint32_t ended);

/* ---- Taking an answer apart ---- */

/* Of any answer: the refusal's number, 0 if the call was accepted. */
static inline unsigned lfj_refusal(uint64_t answer)
{
    return (unsigned)(answer >> 56);
}

/* Of a refusal: its place. */
static inline uint32_t lfj_place(uint64_t answer)
{
    return (uint32_t)(answer & UINT64_C(0xffffffff));
}

/*
 * Of refusal 13: its goals a, b, c, d for `which` 0 to 3. a is before c, b before c
 * and d, and no other order is among the four.
 */
static inline unsigned lfj_refusal_goal(uint64_t answer, unsigned which)
{
    return (unsigned)((answer >> (32 + 6 * (which & 3))) & 63);
}

/* Accepted by lfj_read, lfj_order or a function with a place a goal: the goal count. */
static inline unsigned lfj_goal_count(uint64_t answer)
{
    return (unsigned)(answer & 0xff);
}

/* Accepted by lfj_head or lfj_listed: the variable count. */
static inline unsigned lfj_variable_count(uint64_t answer)
{
    return (unsigned)(answer & 0xff);
}

/* Accepted by lfj_passes: the number of passes. */
static inline unsigned lfj_pass_count(uint64_t answer)
{
    return (unsigned)(answer & UINT64_C(0xffffffff));
}

/* Accepted by lfj_after: the set of goals. */
static inline uint32_t lfj_goal_set(uint64_t answer)
{
    return (uint32_t)(answer & UINT64_C(0xffffffff));
}

/* Accepted by lfj_start or lfj_tick: the set of ended goals. A refusal has none, here 0. */
static inline uint32_t lfj_ended(uint64_t answer)
{
    return lfj_refusal(answer) == LFJ_ACCEPTED ? lfj_goal_set(answer) : 0;
}

/* Accepted by lfj_form, lfj_form_length or lfj_mel: the length. */
static inline size_t lfj_length(uint64_t answer)
{
    return (size_t)(answer & UINT64_C(0xffffffff));
}

/* Accepted by lfj_goal_text: where the text starts in the record. */
static inline size_t lfj_text_place(uint64_t answer)
{
    return (size_t)(answer & UINT64_C(0xffffffff));
}

/* Accepted by lfj_goal_text: the text's length. */
static inline size_t lfj_text_length(uint64_t answer)
{
    return (size_t)((answer >> 32) & 0xffff);
}

/* Accepted by lfj_check: have both the same order? */
static inline int lfj_same(uint64_t answer)
{
    return answer == 0;
}

/* Accepted by lfj_check and not the same: i. */
static inline unsigned lfj_differs_i(uint64_t answer)
{
    return (unsigned)(answer & 0xff);
}

/* Accepted by lfj_check and not the same: j. */
static inline unsigned lfj_differs_j(uint64_t answer)
{
    return (unsigned)((answer >> 8) & 0xff);
}

/* ---- Sets and rows ---- */

/* Is `goal`, from 1, in a set of goals? */
static inline int lfj_has_goal(uint32_t set, unsigned goal)
{
    return goal >= 1 && goal <= LFJ_GOAL_MAX && ((set >> (goal - 1)) & 1) != 0;
}

/* The set of goals 1 to `goals`: what has ended at the end of a run. */
static inline uint32_t lfj_all_goals(unsigned goals)
{
    return goals < LFJ_GOAL_MAX ? (UINT32_C(1) << goals) - 1 : UINT32_MAX;
}

/* Is the head idle? */
static inline int lfj_is_idle(struct lfj_row_head head)
{
    return head.goal == 0;
}

/* Is `variable`, from 0, in a set of variables? */
static inline int lfj_has_variable(uint64_t set, unsigned variable)
{
    return variable < LFJ_VARIABLE_MAX && ((set >> variable) & 1) != 0;
}

/* By the rows of lfj_order: is goal i before goal j, so that j waits for i? */
static inline int lfj_before(const uint32_t rows[LFJ_GOAL_MAX], unsigned i, unsigned j)
{
    return i >= 1 && i <= LFJ_GOAL_MAX && lfj_has_goal(rows[i - 1], j);
}

/* By the rows of lfj_listed: is the pair of variables x and y listed as independent? */
static inline int lfj_is_listed(const uint64_t rows[LFJ_VARIABLE_MAX], unsigned x, unsigned y)
{
    return x < LFJ_VARIABLE_MAX && lfj_has_variable(rows[x], y);
}

/* ---- Refusals in words ---- */

/* What a refusal's number means, and what its place is. */
static inline const char *lfj_words(unsigned number)
{
    switch (number) {
    case LFJ_ACCEPTED: return "accepted";
    case LFJ_SHORT_RECORD: return "the record is below 24 bytes (place: its length)";
    case LFJ_BAD_MARK: return "the record does not start with LFJ";
    case LFJ_BAD_VERSION: return "the record's version is neither 1 nor 2";
    case LFJ_BAD_GOAL_COUNT: return "the goal count is not 1 to 32";
    case LFJ_BAD_VARIABLE_COUNT: return "the variable count is above 64";
    case LFJ_BAD_HEADER_SET:
        return "the head has a variable at or above the count (place 8), "
               "or a ground variable is outside the head (place 16)";
    case LFJ_CUT_OFF:
        return "the record ends within a goal's fixed part, 9 bytes or in version 2 19, "
               "within a text or a pair (place: its length)";
    case LFJ_BAD_GOAL_SET:
        return "a goal has a variable at or above the count (place: the set's start)";
    case LFJ_BAD_GOAL_TEXT:
        return "a goal's text length is not 1 to 24 (place: the length byte), "
               "or a byte of its text not 33 to 126 (place: that byte)";
    case LFJ_BAD_PAIR:
        return "a pair is not lower then higher, not below the variable count, "
               "or not above the one before (place: its first byte)";
    case LFJ_LEFT_OVER: return "bytes are left over (place: the first of them)";
    case LFJ_SHORT_BUFFER: return "the buffer is too short (place: the length needed)";
    case LFJ_NO_FORM: return "no fork-join expression has the clause's order";
    case LFJ_NO_GOAL: return "the clause has no such goal";
    case LFJ_BAD_TEXT_LENGTH: return "the expression's text is empty or above 512 bytes";
    case LFJ_BAD_GRAMMAR:
        return "the expression's text is not in the grammar from this place on";
    case LFJ_BAD_GOAL_USE:
        return "a number is no goal or was met before (place: its first byte), "
               "or a goal is missing (place: the text's length)";
    case LFJ_BAD_GROUND_SET:
        return "a goal's ground set lacks a variable of the one before, or has one that is "
               "in neither the head nor an earlier goal (place: the set's start)";
    case LFJ_BAD_TICKS: return "a goal's ticks are not 1 to 60000 (place: their first byte)";
    case LFJ_BAD_HEADS:
        return "the row has not 1 to 8 heads; or at a tick a head's goal is none of the clause, "
               "on two heads or ended, its ticks left are wrong, an ended goal is none of the "
               "clause, or a busy or ended goal has a predecessor that has not ended";
    default: return "a refusal that this header does not know";
    }
}

/*
 * Does the length byte of a goal's text stand at `place`? The walk goes from one goal's
 * length byte to the next: the text, then the sets and in version 2 the ticks lie between.
 */
static inline int lfj_is_length_byte(const uint8_t *record, size_t n, size_t place)
{
    size_t before = n > 4 && record[4] == 2 ? 18 : 8;
    size_t at = 24 + before;
    unsigned goal;
    for (goal = 1; goal < LFJ_GOAL_MAX && at < place && at < n; goal++)
        at += 1 + (size_t)record[at] + before;
    return at == place && at < n;
}

/* The number, of at most two digits, that starts at `place` of an expression's text. */
static inline unsigned lfj_number_at(const uint8_t *text, size_t m, size_t place)
{
    unsigned number = 0;
    size_t at;
    for (at = place; at < m && at - place < 2 && text[at] >= '0' && text[at] <= '9'; at++)
        number = 10 * number + (unsigned)(text[at] - '0');
    return number;
}

/*
 * What an answer says of the record and the text that were lent: as lfj_words, but for
 * 6, 9 and 17 just the half that applies. Without a text lend NULL and 0.
 */
static inline const char *lfj_refusal_words(uint64_t answer, const uint8_t *record, size_t n,
                                            const uint8_t *text, size_t m)
{
    size_t place = lfj_place(answer);
    switch (lfj_refusal(answer)) {
    case LFJ_BAD_HEADER_SET:
        return place == 8 ? "the head has a variable at or above the count (place 8)"
                          : "a ground variable is outside the head (place 16)";
    case LFJ_BAD_GOAL_TEXT:
        return lfj_is_length_byte(record, n, place)
                   ? "a goal's text length is not 1 to 24 (place: the length byte)"
                   : "a byte of a goal's text is not 33 to 126 (place: that byte)";
    case LFJ_BAD_GOAL_USE:
        if (place >= m)
            return "a goal is missing in the expression (place: the text's length)";
        return n > 5 && lfj_number_at(text, m, place) > record[5]
                   ? "a number is above the goal count (place: its first byte)"
                   : "a number was met before (place: its first byte)";
    default: return lfj_words(lfj_refusal(answer));
    }
}

/* ---- NULL where the length is 0 ----
 *
 * The proof asks for an address also where nothing is read there. So each name of a
 * function that is lent bytes stands for an inline function, which lends a byte of its
 * own where the length is 0 and then calls the library. The names are macros without
 * parameters: &lfj_read is a function's address as ever. After `#undef lfj_read` the
 * name is the library's own function again.
 */

/* `bytes`, or where their number is 0 a byte of our own. */
static inline const uint8_t *lfj_lent(const uint8_t *bytes, size_t length)
{
    static const uint8_t none = 0;
    return length != 0 ? bytes : &none;
}

/* The same of a buffer. */
static inline uint8_t *lfj_lent_room(uint8_t *out, size_t room)
{
    static uint8_t none = 0;
    return room != 0 ? out : &none;
}

/* The same of a row of heads. */
static inline struct lfj_row_head *lfj_lent_heads(struct lfj_row_head *heads, size_t k)
{
    static struct lfj_row_head none = {0, 0};
    return k != 0 ? heads : &none;
}

static inline uint64_t lfj_nullable_read(const uint8_t *record, size_t n)
{
    return lfj_read(lfj_lent(record, n), n);
}

static inline uint64_t lfj_nullable_after(const uint8_t *record, size_t n, uint32_t goal)
{
    return lfj_after(lfj_lent(record, n), n, goal);
}

static inline uint64_t lfj_nullable_order(const uint8_t *record, size_t n,
                                          uint32_t rows[LFJ_GOAL_MAX])
{
    return lfj_order(lfj_lent(record, n), n, rows);
}

static inline uint64_t lfj_nullable_passes(const uint8_t *record, size_t n)
{
    return lfj_passes(lfj_lent(record, n), n);
}

static inline uint64_t lfj_nullable_form(const uint8_t *record, size_t n, uint8_t *out,
                                         size_t room)
{
    return lfj_form(lfj_lent(record, n), n, lfj_lent_room(out, room), room);
}

static inline uint64_t lfj_nullable_form_length(const uint8_t *record, size_t n)
{
    return lfj_form_length(lfj_lent(record, n), n);
}

static inline uint64_t lfj_nullable_mel(const uint8_t *record, size_t n, uint8_t *out,
                                        size_t room)
{
    return lfj_mel(lfj_lent(record, n), n, lfj_lent_room(out, room), room);
}

static inline uint64_t lfj_nullable_goal_text(const uint8_t *record, size_t n, uint32_t goal)
{
    return lfj_goal_text(lfj_lent(record, n), n, goal);
}

static inline uint64_t lfj_nullable_check(const uint8_t *record, size_t n, const uint8_t *text,
                                          size_t m)
{
    return lfj_check(lfj_lent(record, n), n, lfj_lent(text, m), m);
}

static inline uint64_t lfj_nullable_head(const uint8_t *record, size_t n, uint64_t *head)
{
    return lfj_head(lfj_lent(record, n), n, head);
}

static inline uint64_t lfj_nullable_goal_sets(const uint8_t *record, size_t n,
                                              uint64_t sets[LFJ_GOAL_MAX])
{
    return lfj_goal_sets(lfj_lent(record, n), n, sets);
}

static inline uint64_t lfj_nullable_ground_sets(const uint8_t *record, size_t n,
                                                uint64_t sets[LFJ_GOAL_MAX])
{
    return lfj_ground_sets(lfj_lent(record, n), n, sets);
}

static inline uint64_t lfj_nullable_ticks(const uint8_t *record, size_t n,
                                          uint32_t ticks[LFJ_GOAL_MAX])
{
    return lfj_ticks(lfj_lent(record, n), n, ticks);
}

static inline uint64_t lfj_nullable_listed(const uint8_t *record, size_t n,
                                           uint64_t rows[LFJ_VARIABLE_MAX])
{
    return lfj_listed(lfj_lent(record, n), n, rows);
}

static inline uint64_t lfj_nullable_start(const uint8_t *record, size_t n,
                                          struct lfj_row_head *heads, size_t k)
{
    return lfj_start(lfj_lent(record, n), n, lfj_lent_heads(heads, k), k);
}

static inline uint64_t lfj_nullable_tick(const uint8_t *record, size_t n,
                                         struct lfj_row_head *heads, size_t k, uint32_t ended)
{
    return lfj_tick(lfj_lent(record, n), n, lfj_lent_heads(heads, k), k, ended);
}

#define lfj_read lfj_nullable_read
#define lfj_after lfj_nullable_after
#define lfj_order lfj_nullable_order
#define lfj_passes lfj_nullable_passes
#define lfj_form lfj_nullable_form
#define lfj_form_length lfj_nullable_form_length
#define lfj_mel lfj_nullable_mel
#define lfj_goal_text lfj_nullable_goal_text
#define lfj_check lfj_nullable_check
#define lfj_head lfj_nullable_head
#define lfj_goal_sets lfj_nullable_goal_sets
#define lfj_ground_sets lfj_nullable_ground_sets
#define lfj_ticks lfj_nullable_ticks
#define lfj_listed lfj_nullable_listed
#define lfj_start lfj_nullable_start
#define lfj_tick lfj_nullable_tick

#ifdef __cplusplus
}
#endif

#endif
