/*
 * Calls every function of lfj.h, and compares what they answer and write with values taken by
 * hand from the samples' descriptions; tests NULL where the length is 0, refused calls and the
 * words of refusals, and runs clauses on several heads to their end.
 *
 *   calls FOLDER     the folder of the samples
 *
 * Status 0 if all is right, 1 if not, 2 if a sample cannot be read.
 */
#include "lent.h"
#include "lfj.h"

static int wrong = 0;

static void hold(int right, const char *name, const char *what)
{
    if (!right) {
        fprintf(stderr, "%s: %s\n", name, what);
        wrong = 1;
    }
}

/* A sample: what its description says, a place a goal or a variable. */
struct known {
    const char *name;
    unsigned goals;
    unsigned variables;
    uint64_t head;
    uint32_t rows[5];
    uint64_t sets[5];
    uint64_t grounds[5];
    uint32_t ticks[5];
    uint64_t listed[5];
    const char *texts[5];
    const char *form;
    const char *mel;
};

static const struct known samples[] = {
    {"half-motif", 3, 3, 3, {4, 4, 0}, {1, 6, 5}, {0, 0, 0}, {1, 1, 1}, {6, 1, 1},
     {"half", "edge", "join"}, "(1&2),3", "(1&2),3"},
    {"ground-facts", 5, 3, 3, {0, 8, 0, 0, 0}, {1, 3, 1, 7, 1}, {1, 1, 1, 1, 1},
     {1, 1, 1, 1, 1}, {0, 0, 0},
     {"measure(Size)", "wind(Size,Thread)", "mark(Size)", "cross(Size,Thread,Edge)",
      "check(Size)"}, "1&(2,4)&3&5", "(ground(v1)=>1&2&3&4&5)"},
    {"durations", 4, 2, 3, {0, 8, 8, 0}, {0, 1, 2, 3}, {0, 0, 0, 0}, {40, 1200, 900, 60000},
     {2, 1}, {"spool", "half(Left)", "half(Right)", "finish(Left,Right)"},
     "1&((2&3),4)", "(ground(v0),ground(v1)=>1&2&3&4)"},
    {"ground-on-the-way", 4, 4, 7, {14, 8, 8, 0}, {1, 3, 13, 10}, {0, 1, 1, 1}, {1, 1, 1, 1},
     {0, 12, 10, 6},
     {"measure(Length)", "wind(Length,Left)", "edge(Length,Right,Seam)", "join(Left,Seam)"},
     "1,(2&3),4", "(ground(v0)=>1&2&3),4"},
};

#define SAMPLES (sizeof samples / sizeof samples[0])

static struct lent read_sample(const char *folder, const char *name)
{
    char path[1000];
    uint8_t record[LFJ_RECORD_MAX];
    FILE *file;
    size_t n;
    snprintf(path, sizeof path, "%s/%s.lfj", folder, name);
    file = fopen(path, "rb");
    n = file != NULL ? fread(record, 1, sizeof record, file) : 0;
    if (file == NULL || ferror(file) || n == 0) {
        perror(path);
        exit(2);
    }
    fclose(file);
    return lend_bytes(record, n);
}

/* The arrays of 32-bit and of 64-bit elements, and the functions that fill them. */
typedef uint64_t narrow_call(const uint8_t *record, size_t n, uint32_t *array);
typedef uint64_t wide_call(const uint8_t *record, size_t n, uint64_t *array);

/* Calls a function with a guarded array of `places` elements: it has to answer `count`, and
 * write `values` and then zeros. */
static void hold_narrow(const char *name, const char *function, narrow_call *call,
                        const struct lent *record, unsigned count, const uint32_t *values)
{
    struct lent lent = lend(LFJ_GOAL_MAX * sizeof(uint32_t));
    uint32_t *array = (uint32_t *)(void *)lent.bytes;
    unsigned i;
    hold(call(record->bytes, record->length, array) == count, name, function);
    hold(lent_kept(&lent, lent.length) && lent_kept(record, 0), name, "bytes around are kept");
    for (i = 0; i < LFJ_GOAL_MAX; i++)
        hold(array[i] == (i < count ? values[i] : 0), name, function);
    give_back(&lent);
}

static void hold_wide(const char *name, const char *function, wide_call *call,
                      const struct lent *record, unsigned places, unsigned count,
                      const uint64_t *values)
{
    struct lent lent = lend(places * sizeof(uint64_t));
    uint64_t *array = (uint64_t *)(void *)lent.bytes;
    unsigned i;
    hold(call(record->bytes, record->length, array) == count, name, function);
    hold(lent_kept(&lent, lent.length) && lent_kept(record, 0), name, "bytes around are kept");
    for (i = 0; i < places; i++)
        hold(array[i] == (i < count ? values[i] : 0), name, function);
    give_back(&lent);
}

static void test_arrays(const struct known *known, const struct lent *record)
{
    const char *name = known->name;
    uint64_t head = 0;
    hold_narrow(name, "lfj_order", lfj_order, record, known->goals, known->rows);
    hold_narrow(name, "lfj_ticks", lfj_ticks, record, known->goals, known->ticks);
    hold_wide(name, "lfj_goal_sets", lfj_goal_sets, record, LFJ_GOAL_MAX, known->goals,
              known->sets);
    hold_wide(name, "lfj_ground_sets", lfj_ground_sets, record, LFJ_GOAL_MAX, known->goals,
              known->grounds);
    hold_wide(name, "lfj_listed", lfj_listed, record, LFJ_VARIABLE_MAX, known->variables,
              known->listed);
    hold(lfj_variable_count(lfj_head(record->bytes, record->length, &head)) == known->variables,
         name, "lfj_head: the variable count");
    hold(head == known->head, name, "lfj_head: the head set");
}

static void test_rows(const struct known *known, const struct lent *record)
{
    uint32_t rows[LFJ_GOAL_MAX];
    uint64_t listed[LFJ_VARIABLE_MAX];
    unsigned i;
    unsigned j;
    lfj_order(record->bytes, record->length, rows);
    lfj_listed(record->bytes, record->length, listed);
    for (i = 0; i <= known->goals + 1; i++) {
        int inside = i >= 1 && i <= known->goals;
        uint64_t after = lfj_after(record->bytes, record->length, i);
        hold(lfj_refusal(after) == (inside ? LFJ_ACCEPTED : LFJ_NO_GOAL), known->name,
             "lfj_after: a goal outside");
        hold(!inside || lfj_goal_set(after) == known->rows[i - 1], known->name, "lfj_after");
        for (j = 0; j <= known->goals + 1; j++)
            hold(lfj_before(rows, i, j)
                     == (inside && j >= 1 && ((known->rows[i - 1] >> (j - 1)) & 1) != 0),
                 known->name, "lfj_before");
    }
    for (i = 0; i < known->variables; i++)
        for (j = 0; j < known->variables; j++)
            hold(lfj_is_listed(listed, i, j) == (int)((known->listed[i] >> j) & 1), known->name,
                 "lfj_is_listed");
}

typedef uint64_t writer(const uint8_t *record, size_t n, uint8_t *out, size_t room);

/* A writer gives this text with just enough room, and 12 with a byte less or no buffer. */
static void hold_text(const char *name, const char *function, writer *write,
                      const struct lent *record, const char *text)
{
    size_t length = strlen(text);
    struct lent enough = lend(length);
    struct lent less = lend(length - 1);
    uint64_t no_room = write(record->bytes, record->length, NULL, 0);
    uint64_t short_room = write(record->bytes, record->length, less.bytes, less.length);
    uint64_t written = write(record->bytes, record->length, enough.bytes, enough.length);
    hold(written == length && memcmp(enough.bytes, text, length) == 0, name, function);
    hold(lent_kept(&enough, length), name, "bytes around the text are kept");
    hold(lfj_refusal(short_room) == LFJ_SHORT_BUFFER && lfj_place(short_room) == length
             && lent_kept(&less, 0), name, "a byte less of room");
    hold(no_room == short_room, name, "a buffer of NULL and 0");
    give_back(&enough);
    give_back(&less);
}

static void test_texts(const struct known *known, const struct lent *record)
{
    const uint8_t *form = (const uint8_t *)known->form;
    const uint8_t *sequence = (const uint8_t *)"1,2,3,4,5";
    size_t m = 2 * known->goals - 1;
    unsigned goal;
    hold(lfj_goal_count(lfj_read(record->bytes, record->length)) == known->goals, known->name,
         "lfj_read");
    hold(lfj_pass_count(lfj_passes(record->bytes, record->length)) == 1, known->name,
         "lfj_passes: the waits are closed already");
    for (goal = 1; goal <= known->goals; goal++) {
        const char *text = known->texts[goal - 1];
        uint64_t answer = lfj_goal_text(record->bytes, record->length, goal);
        hold(lfj_refusal(answer) == LFJ_ACCEPTED && lfj_text_length(answer) == strlen(text)
                 && memcmp(record->bytes + lfj_text_place(answer), text, strlen(text)) == 0,
             known->name, "lfj_goal_text");
    }
    hold_text(known->name, "lfj_form", lfj_form, record, known->form);
    hold_text(known->name, "lfj_mel", lfj_mel, record, known->mel);
    hold(lfj_form_length(record->bytes, record->length) == strlen(known->form), known->name,
         "lfj_form_length");
    hold(lfj_same(lfj_check(record->bytes, record->length, form, strlen(known->form))),
         known->name, "lfj_check of the form");
    hold(!lfj_same(lfj_check(record->bytes, record->length, sequence, m)), known->name,
         "lfj_check of the goals in sequence");
    hold(lfj_refusal(lfj_check(record->bytes, record->length, NULL, 0)) == LFJ_BAD_TEXT_LENGTH,
         known->name, "lfj_check of a text of NULL and 0");
}

/* Every function on a record that is refused answers that refusal and keeps what is lent. */
static void hold_refused(const char *name, const uint8_t *record, size_t n, uint64_t refusal)
{
    struct lent lent = lend(LFJ_VARIABLE_MAX * sizeof(uint64_t));
    uint32_t *narrow = (uint32_t *)(void *)lent.bytes;
    uint64_t *wide = (uint64_t *)(void *)lent.bytes;
    struct lfj_row_head *heads = (struct lfj_row_head *)(void *)lent.bytes;
    const uint8_t one = '1';
    size_t k;
    hold(lfj_read(record, n) == refusal, name, "lfj_read");
    hold(lfj_after(record, n, 1) == refusal, name, "lfj_after");
    hold(lfj_order(record, n, narrow) == refusal, name, "lfj_order");
    hold(lfj_passes(record, n) == refusal, name, "lfj_passes");
    hold(lfj_form(record, n, lent.bytes, lent.length) == refusal, name, "lfj_form");
    hold(lfj_form(record, n, NULL, 0) == refusal, name, "lfj_form without a buffer");
    hold(lfj_form_length(record, n) == refusal, name, "lfj_form_length");
    hold(lfj_mel(record, n, lent.bytes, lent.length) == refusal, name, "lfj_mel");
    hold(lfj_mel(record, n, NULL, 0) == refusal, name, "lfj_mel without a buffer");
    hold(lfj_goal_text(record, n, 1) == refusal, name, "lfj_goal_text");
    hold(lfj_check(record, n, &one, 1) == refusal, name, "lfj_check");
    hold(lfj_check(record, n, NULL, 0) == refusal, name, "lfj_check without a text");
    hold(lfj_head(record, n, wide) == refusal, name, "lfj_head");
    hold(lfj_goal_sets(record, n, wide) == refusal, name, "lfj_goal_sets");
    hold(lfj_ground_sets(record, n, wide) == refusal, name, "lfj_ground_sets");
    hold(lfj_ticks(record, n, narrow) == refusal, name, "lfj_ticks");
    hold(lfj_listed(record, n, wide) == refusal, name, "lfj_listed");
    for (k = 0; k <= LFJ_HEADS_MAX + 1; k++) {
        hold(lfj_start(record, n, heads, k) == refusal, name, "lfj_start");
        hold(lfj_tick(record, n, heads, k, 0) == refusal, name, "lfj_tick");
    }
    hold(lfj_start(record, n, NULL, 0) == refusal, name, "lfj_start without heads");
    hold(lfj_tick(record, n, NULL, 0, 0) == refusal, name, "lfj_tick without heads");
    hold(lent_kept(&lent, 0), name, "a refused call changed what was lent");
    give_back(&lent);
}

static uint64_t refusal_word(unsigned number, size_t place)
{
    return ((uint64_t)number << 56) | (uint64_t)place;
}

/* Damages a byte of a record: it has to be refused so, and the words have to hold `words`. */
static void hold_damage(const struct known *known, const struct lent *record, size_t place,
                        uint8_t byte, unsigned number, size_t refused_at, const char *words)
{
    struct lent damaged = lend_bytes(record->bytes, record->length);
    uint64_t refusal = refusal_word(number, refused_at);
    const char *said;
    damaged.bytes[place] = byte;
    hold_refused(known->name, damaged.bytes, damaged.length, refusal);
    said = lfj_refusal_words(refusal, damaged.bytes, damaged.length, NULL, 0);
    if (strstr(said, words) == NULL) {
        fprintf(stderr, "%s: byte %lu: the words are: %s\n", known->name, (unsigned long)place,
                said);
        wrong = 1;
    }
    give_back(&damaged);
}

/* Refusals by damage to the header, and to each goal's length byte and text. */
static void test_refusals(const struct known *known, const struct lent *record)
{
    unsigned goal;
    hold_damage(known, record, 0, 'l', LFJ_BAD_MARK, 0, "start with LFJ");
    hold_damage(known, record, 8, 0x80, LFJ_BAD_HEADER_SET, 8, "the head has a variable");
    hold_damage(known, record, 16, 0x80, LFJ_BAD_HEADER_SET, 16, "outside the head");
    for (goal = 1; goal <= known->goals; goal++) {
        uint64_t text = lfj_goal_text(record->bytes, record->length, goal);
        size_t place = lfj_text_place(text);
        size_t last = place + lfj_text_length(text) - 1;
        hold_damage(known, record, place - 1, 0, LFJ_BAD_GOAL_TEXT, place - 1, "text length");
        hold_damage(known, record, place - 1, 25, LFJ_BAD_GOAL_TEXT, place - 1, "text length");
        hold_damage(known, record, place, ' ', LFJ_BAD_GOAL_TEXT, place, "a byte of");
        hold_damage(known, record, last, 127, LFJ_BAD_GOAL_TEXT, last, "a byte of");
    }
}

/* The words for a text that the check refuses. */
static void hold_text_words(const struct lent *record, const char *text, uint64_t refusal,
                            const char *words)
{
    const uint8_t *bytes = (const uint8_t *)text;
    size_t m = strlen(text);
    hold(lfj_check(record->bytes, record->length, bytes, m) == refusal, text, "the refusal");
    hold(strstr(lfj_refusal_words(refusal, record->bytes, record->length, bytes, m), words) != NULL,
         text, lfj_refusal_words(refusal, record->bytes, record->length, bytes, m));
}

/* By the first sample, which has three goals. */
static void test_text_words(const struct lent *record)
{
    hold_text_words(record, "1,2", refusal_word(LFJ_BAD_GOAL_USE, 3), "missing");
    hold_text_words(record, "1,2,4", refusal_word(LFJ_BAD_GOAL_USE, 4), "above the goal count");
    hold_text_words(record, "(1&31),2", refusal_word(LFJ_BAD_GOAL_USE, 3), "above the goal count");
    hold_text_words(record, "1,2,1", refusal_word(LFJ_BAD_GOAL_USE, 4), "met before");
    hold_text_words(record, "3&3", refusal_word(LFJ_BAD_GOAL_USE, 2), "met before");
    hold_text_words(record, "1,,2", refusal_word(LFJ_BAD_GRAMMAR, 2), "grammar");
}

/* The sample with the longest MEL annotation that we know of: just enough room, a byte less,
 * and the room that is always enough. */
static void test_long_mel(const struct lent *record)
{
    const char *name = "long-mel";
    size_t length = 192127;
    struct lent enough = lend(length);
    struct lent less = lend(length - 1);
    struct lent most = lend(LFJ_MEL_MAX);
    uint64_t refusal = refusal_word(LFJ_SHORT_BUFFER, length);
    hold(lfj_mel(record->bytes, record->length, enough.bytes, length) == length
             && lent_kept(&enough, length), name, "just enough room");
    hold(lfj_mel(record->bytes, record->length, less.bytes, length - 1) == refusal
             && lent_kept(&less, 0), name, "a byte less of room");
    hold(lfj_mel(record->bytes, record->length, most.bytes, LFJ_MEL_MAX) == length
             && lent_kept(&most, length), name, "room of LFJ_MEL_MAX");
    hold(memcmp(enough.bytes, most.bytes, length) == 0, name, "the same text in any room");
    give_back(&enough);
    give_back(&less);
    give_back(&most);
}

/* A record of so many goals, at most 24, in which each goal waits for the one before it alone:
 * goal g has variable g - 1, and the pairs of all other goals are listed. */
static struct lent chain_record(unsigned goals)
{
    uint8_t record[LFJ_RECORD_MAX] = {'L', 'F', 'J', 0, 1};
    size_t n = 24;
    unsigned i;
    unsigned j;
    record[5] = (uint8_t)goals;
    record[6] = (uint8_t)goals;
    for (i = 0; i < goals; i++) {
        record[15 - i / 8] |= (uint8_t)(1u << i % 8);
        record[n + 7 - i / 8] = (uint8_t)(1u << i % 8);
        record[n + 8] = 1;
        record[n + 9] = 'x';
        n += 10;
    }
    for (i = 0; i < goals; i++)
        for (j = i + 2; j < goals; j++) {
            record[n++] = (uint8_t)i;
            record[n++] = (uint8_t)j;
            record[7]++;
        }
    return lend_bytes(record, n);
}

/* The passes of chains: from these numbers of goals on one more. */
static void test_passes(void)
{
    static const unsigned from[LFJ_PASS_MAX] = {1, 3, 4, 6, 10, 18};
    unsigned wanted = 0;
    unsigned goals;
    for (goals = 1; goals <= 24; goals++) {
        struct lent record = chain_record(goals);
        wanted += wanted < LFJ_PASS_MAX && goals == from[wanted];
        hold(lfj_passes(record.bytes, record.length) == wanted, "a chain", "lfj_passes");
        hold(lfj_passes(record.bytes, record.length - (goals > 2 ? 1 : 0))
                 == (goals > 2 ? refusal_word(LFJ_CUT_OFF, record.length - 1) : wanted),
             "a chain that is cut off", "lfj_passes");
        hold(lent_kept(&record, 0), "a chain", "the record changed");
        give_back(&record);
    }
}

/* A run of a sample on k heads: T, its last working tick, and of each tick that is listed the
 * goals of the heads after it and the set of ended goals. */
struct known_run {
    const char *name;
    size_t k;
    unsigned last;
    struct {
        unsigned tick;
        uint32_t goals[3];
        uint32_t lefts[3];
        uint32_t ended;
    } after[4];
};

static const struct known_run runs[] = {
    {"half-motif", 1, 3, {{1, {0}, {0}, 1}, {2, {0}, {0}, 3}, {3, {0}, {0}, 7}, {4, {0}, {0}, 7}}},
    {"half-motif", 2, 2, {{1, {0}, {0}, 3}, {2, {0}, {0}, 7}, {3, {0}, {0}, 7}, {9, {0}, {0}, 7}}},
    {"durations", 3, 61200,
     {{1, {1, 2, 3}, {39, 1199, 899}, 0},
      {900, {0, 2, 0}, {0, 300, 0}, 5},
      {1201, {4, 0, 0}, {59999, 0, 0}, 7},
      {61200, {0}, {0}, 15}}},
    {"more-heads", 2, 13,
     {{2, {0}, {0}, 7},
      {3, {4, 5}, {2, 10}, 7},
      {12, {7, 5}, {1, 1}, 47},
      {13, {0}, {0}, 127}}},
    {"more-heads", 3, 16,
     {{2, {6, 0, 7}, {3, 0, 3}, 7},
      {3, {6, 4, 7}, {2, 2, 2}, 7},
      {5, {0}, {0}, 111},
      {16, {0}, {0}, 127}}},
    {"no-form", 2, 2, {{1, {0}, {0}, 3}, {2, {0}, {0}, 15}, {3, {0}, {0}, 15}, {4, {0}, {0}, 15}}},
};

#define RUNS (sizeof runs / sizeof runs[0])

/* Calls a tick on a guarded row. Where it is refused, by 20, the row has to stay. */
static uint64_t guarded_tick(const char *name, const struct lent *record, struct lent *row,
                             uint32_t ended)
{
    struct lfj_row_head *heads = (struct lfj_row_head *)(void *)row->bytes;
    size_t k = row->length / sizeof *heads;
    uint64_t answer = lfj_tick(record->bytes, record->length, heads, k, ended);
    int refused = lfj_refusal(answer) != LFJ_ACCEPTED;
    hold(lent_kept(row, refused ? 0 : row->length), name, "a tick changed what had to stay");
    hold(!refused || answer == refusal_word(LFJ_BAD_HEADS, 0), name, "another refusal");
    lent_remember(row);
    return answer;
}

/* Rows of two heads and sets of ended goals of the sample side-by-side, and whether a tick takes
 * them. Goal 2 waits for goal 1; they and goal 6 have 2, 6 and 7 ticks. */
static const struct {
    struct lfj_row_head heads[2];
    uint32_t ended;
    int taken;
    const char *what;
} states[] = {
    {{{0, 0}, {0, 0}}, 0, 1, "idle heads beside goals that are free"},
    {{{1, 2}, {6, 7}}, 0, 1, "busy heads"},
    {{{2, 6}, {0, 0}}, 1, 1, "a busy goal whose predecessor has ended"},
    {{{0, 0}, {0, 0}}, 127, 1, "all goals have ended"},
    {{{8, 1}, {0, 0}}, 0, 0, "a head's goal above the goal count"},
    {{{6, 1}, {6, 1}}, 0, 0, "a goal on two heads"},
    {{{0, 0}, {6, 1}}, 32, 0, "a head's goal that has ended"},
    {{{0, 0}, {1, 0}}, 0, 0, "a busy head without ticks left"},
    {{{1, 3}, {0, 0}}, 0, 0, "more ticks left than the goal's"},
    {{{0, 0}, {0, 1}}, 0, 0, "an idle head with ticks left"},
    {{{0, 0}, {0, 0}}, 128, 0, "an ended goal above the goal count"},
    {{{2, 6}, {0, 0}}, 0, 0, "a busy goal whose predecessor has not ended"},
    {{{0, 0}, {0, 0}}, 2, 0, "an ended goal whose predecessor has not ended"},
};

#define STATES (sizeof states / sizeof states[0])

static void test_states(const struct lent *record)
{
    size_t i;
    for (i = 0; i < STATES; i++) {
        struct lent row = lend_bytes((const uint8_t *)states[i].heads, sizeof states[i].heads);
        uint64_t answer = guarded_tick(states[i].what, record, &row, states[i].ended);
        hold((lfj_refusal(answer) == LFJ_ACCEPTED) == states[i].taken, "side-by-side",
             states[i].what);
        give_back(&row);
    }
}

/* Runs a sample to its end, and some ticks more. */
static void test_run(const struct known_run *known, const struct lent *record)
{
    struct lent row = lend(known->k * sizeof(struct lfj_row_head));
    struct lfj_row_head *heads = (struct lfj_row_head *)(void *)row.bytes;
    unsigned goals = lfj_goal_count(lfj_read(record->bytes, record->length));
    uint32_t ended = 0;
    unsigned listed = 0;
    unsigned tick;
    size_t i;
    hold(lfj_start(record->bytes, record->length, heads, known->k) == 0, known->name, "lfj_start");
    hold(lent_kept(&row, row.length), known->name, "lfj_start: bytes around are kept");
    for (i = 0; i < known->k; i++)
        hold(lfj_is_idle(heads[i]) && heads[i].left == 0, known->name, "lfj_start: an idle head");
    lent_remember(&row);
    for (tick = 1; listed < 4; tick++) {
        hold((ended == lfj_all_goals(goals)) == (tick > known->last), known->name, "the last tick");
        ended = lfj_ended(guarded_tick(known->name, record, &row, ended));
        if (tick != known->after[listed].tick)
            continue;
        hold(ended == known->after[listed].ended, known->name, "lfj_tick: the ended goals");
        for (i = 0; i < known->k; i++)
            hold(heads[i].goal == known->after[listed].goals[i]
                     && heads[i].left == known->after[listed].lefts[i], known->name,
                 "lfj_tick: a head");
        listed++;
    }
    give_back(&row);
}

/* 20 for a row of 0 or 9 heads, also without a row. */
static void test_row_lengths(const struct lent *record)
{
    static const size_t lengths[] = {0, LFJ_HEADS_MAX + 1, 1000};
    uint64_t refusal = refusal_word(LFJ_BAD_HEADS, 0);
    size_t i;
    for (i = 0; i < sizeof lengths / sizeof lengths[0]; i++) {
        struct lent row = lend(lengths[i] * sizeof(struct lfj_row_head));
        struct lfj_row_head *heads = (struct lfj_row_head *)(void *)row.bytes;
        memset(row.bytes, 0, row.length);
        lent_remember(&row);
        hold(lfj_start(record->bytes, record->length, heads, lengths[i]) == refusal
                 && lfj_tick(record->bytes, record->length, heads, lengths[i], 0) == refusal
                 && lent_kept(&row, 0), "a row", "of 0 or more than 8 heads");
        give_back(&row);
    }
    hold(lfj_start(record->bytes, record->length, NULL, 0) == refusal
             && lfj_tick(record->bytes, record->length, NULL, 0, 0) == refusal,
         "a row", "of NULL and 0");
}

int main(int argc, char **argv)
{
    struct lent special;
    size_t i;
    if (argc != 2) {
        fputs("usage: calls FOLDER     the folder of the samples\n", stderr);
        return 2;
    }
    hold(lfj_version() == LFJ_VERSION, "lfj_version", "another version than the header's");
    hold_refused("a record of NULL and 0", NULL, 0, refusal_word(LFJ_SHORT_RECORD, 0));
    for (i = 0; i < SAMPLES; i++) {
        struct lent record = read_sample(argv[1], samples[i].name);
        test_arrays(&samples[i], &record);
        test_rows(&samples[i], &record);
        test_texts(&samples[i], &record);
        test_refusals(&samples[i], &record);
        if (i == 0)
            test_text_words(&record);
        hold(lent_kept(&record, 0), samples[i].name, "the record changed");
        give_back(&record);
    }
    test_passes();
    for (i = 0; i < RUNS; i++) {
        struct lent record = read_sample(argv[1], runs[i].name);
        test_run(&runs[i], &record);
        test_row_lengths(&record);
        hold(lent_kept(&record, 0), runs[i].name, "the record changed");
        give_back(&record);
    }
    special = read_sample(argv[1], "side-by-side");
    test_states(&special);
    give_back(&special);
    special = read_sample(argv[1], "long-mel");
    test_long_mel(&special);
    give_back(&special);
    return wrong;
}
