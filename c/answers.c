/*
 * Answers the questions of the conformance kit by the functions of lfj.h:
 *
 *   kit/run.sh target/c/answers
 *
 * One line `OPERATION K INPUT..` in, one answer out; kit/README.md has the format. Whatever
 * is lent has guard bytes around it. A byte that changed though it had to stay is answered
 * by `error` and which; so is an order of which lfj_after says another row. A run is a start
 * and its ticks; the ticks of all goals and of the heaviest chain are summed here.
 */
#include "lent.h"
#include "lfj.h"
#include "text.h"

/* The buffers of the printed sheet: input beyond the first is not read. */
#define SHEET_INPUT 4096
#define SHEET_MEL 32768

/* The field K of a question: how many change requests have landed, the minor version. */
#define LANDED (LFJ_VERSION / 100 % 100)

static const char usage[] =
    "usage: answers < QUESTIONS\n"
    "Answers the conformance kit's questions, one a line, by the functions of lfj.h.\n"
    "Status 0 if all are read and answered, 2 if not, or with a wrong argument.\n";

/* What is wrong with a call, or NULL. */
static const char *wrong;

static void hold(int right, const char *words)
{
    if (!right && wrong == NULL)
        wrong = words;
}

static void refused(struct text *out, uint64_t answer)
{
    unsigned which;
    text_print(out, "refused %u %lu", lfj_refusal(answer), (unsigned long)lfj_place(answer));
    for (which = 0; which < 4 && lfj_refusal(answer) == LFJ_NO_FORM; which++)
        text_print(out, " %u", lfj_refusal_goal(answer, which));
}

static void answer_read(struct text *out, const struct lent *record, const char *field)
{
    uint64_t answer = lfj_read(record->bytes, record->length);
    (void)field;
    if (lfj_refusal(answer) == LFJ_ACCEPTED)
        text_print(out, "ok");
    else
        refused(out, answer);
}

static void answer_order(struct text *out, const struct lent *record, const char *field)
{
    struct lent lent = lend(LFJ_GOAL_MAX * sizeof(uint32_t));
    uint32_t *rows = (uint32_t *)(void *)lent.bytes;
    uint64_t answer = lfj_order(record->bytes, record->length, rows);
    int accepted = lfj_refusal(answer) == LFJ_ACCEPTED;
    unsigned goal;
    (void)field;
    hold(lent_kept(&lent, accepted ? lent.length : 0), "lfj_order changed a byte that it may not");
    if (accepted)
        text_print(out, "ok %u", lfj_goal_count(answer));
    else
        refused(out, answer);
    for (goal = 1; accepted && goal <= lfj_goal_count(answer); goal++) {
        text_print(out, " %08lx", (unsigned long)rows[goal - 1]);
        hold(lfj_after(record->bytes, record->length, goal) == rows[goal - 1],
             "lfj_after has another row than lfj_order");
    }
    for (; accepted && goal <= LFJ_GOAL_MAX; goal++)
        hold(rows[goal - 1] == 0, "lfj_order: a row above the goal count is not 0");
    give_back(&lent);
}

static void answer_passes(struct text *out, const struct lent *record, const char *field)
{
    uint64_t answer = lfj_passes(record->bytes, record->length);
    (void)field;
    if (lfj_refusal(answer) == LFJ_ACCEPTED)
        text_print(out, "ok %u", lfj_pass_count(answer));
    else
        refused(out, answer);
}

typedef uint64_t writer(const uint8_t *record, size_t n, uint8_t *out, size_t room);

/* Calls a writer. What it wrote stands in the first bytes of `buffer`. */
static uint64_t written(writer *write, const struct lent *record, const struct lent *buffer)
{
    uint64_t answer = write(record->bytes, record->length, buffer->bytes, buffer->length);
    int accepted = lfj_refusal(answer) == LFJ_ACCEPTED;
    hold(lent_kept(buffer, accepted ? lfj_length(answer) : 0),
         "a byte of the buffer changed that had to stay");
    return answer;
}

static void answer_written(struct text *out, writer *write, const struct lent *record,
                           const char *field)
{
    struct lent buffer = lend((size_t)strtoul(field, NULL, 10));
    uint64_t answer = written(write, record, &buffer);
    if (lfj_refusal(answer) != LFJ_ACCEPTED) {
        refused(out, answer);
    } else if (lfj_length(answer) <= buffer.length) {
        text_print(out, "ok %lu ", (unsigned long)lfj_length(answer));
        text_add_hex(out, buffer.bytes, lfj_length(answer));
    }
    give_back(&buffer);
}

static void answer_form(struct text *out, const struct lent *record, const char *field)
{
    answer_written(out, lfj_form, record, field);
}

static void answer_mel(struct text *out, const struct lent *record, const char *field)
{
    answer_written(out, lfj_mel, record, field);
}

static void answer_length(struct text *out, const struct lent *record, const char *field)
{
    uint64_t answer = lfj_form_length(record->bytes, record->length);
    (void)field;
    if (lfj_refusal(answer) == LFJ_ACCEPTED)
        text_print(out, "ok %lu", (unsigned long)lfj_length(answer));
    else
        refused(out, answer);
}

/* Adds the text of a goal. */
static void add_goal_text(struct text *out, const struct lent *record, uint64_t answer,
                          void (*add)(struct text *, const uint8_t *, size_t))
{
    size_t place = lfj_text_place(answer);
    size_t length = lfj_text_length(answer);
    hold(place <= record->length && length <= record->length - place, "a text behind the record");
    if (wrong == NULL)
        add(out, record->bytes + place, length);
}

static void answer_text(struct text *out, const struct lent *record, const char *field)
{
    uint32_t goal = (uint32_t)strtoul(field, NULL, 10);
    uint64_t answer = lfj_goal_text(record->bytes, record->length, goal);
    if (lfj_refusal(answer) != LFJ_ACCEPTED) {
        refused(out, answer);
        return;
    }
    text_print(out, "ok %lu %lu ", (unsigned long)lfj_text_place(answer),
               (unsigned long)lfj_text_length(answer));
    add_goal_text(out, record, answer, text_add_hex);
}

static void answer_check(struct text *out, const struct lent *record, const char *field)
{
    struct text text = {NULL, 0, 0};
    struct lent lent;
    uint64_t answer;
    hold(hex_read(field, &text), "the text is not hexadecimal");
    lent = lend_bytes((const uint8_t *)text.bytes, text.length);
    answer = lfj_check(record->bytes, record->length, lent.bytes, lent.length);
    hold(lent_kept(&lent, 0), "lfj_check changed the text");
    if (lfj_refusal(answer) != LFJ_ACCEPTED)
        refused(out, answer);
    else if (lfj_same(answer))
        text_print(out, "same");
    else
        text_print(out, "differs %u %u", lfj_differs_i(answer), lfj_differs_j(answer));
    give_back(&lent);
    free(text.bytes);
}

static void add_bytes(struct text *out, const uint8_t *bytes, size_t length)
{
    text_add(out, bytes, length);
}

/* A line of the sheet by a writer: its name and the text, or its refusal. */
static void add_written(struct text *sheet, const char *name, writer *write,
                        const struct lent *record, size_t room)
{
    struct lent buffer = lend(room);
    uint64_t answer = written(write, record, &buffer);
    text_print(sheet, "%s ", name);
    if (lfj_refusal(answer) == LFJ_ACCEPTED && lfj_length(answer) <= room)
        text_add(sheet, buffer.bytes, lfj_length(answer));
    else if (lfj_refusal(answer) == LFJ_NO_FORM)
        text_print(sheet, "none %u %u %u %u", lfj_refusal_goal(answer, 0),
                   lfj_refusal_goal(answer, 1), lfj_refusal_goal(answer, 2),
                   lfj_refusal_goal(answer, 3));
    else
        refused(sheet, answer);
    text_print(sheet, "\n");
    give_back(&buffer);
}

static void answer_sheet(struct text *out, const struct lent *input, const char *field)
{
    struct text sheet = {NULL, 0, 0};
    size_t n = input->length < SHEET_INPUT ? input->length : SHEET_INPUT;
    struct lent record = lend_bytes(input->bytes, n);
    uint64_t answer = lfj_read(record.bytes, n);
    unsigned goal;
    (void)field;
    if (lfj_refusal(answer) != LFJ_ACCEPTED) {
        refused(&sheet, answer);
        text_print(&sheet, "\n");
    } else {
        text_print(&sheet, "goals %u\n", lfj_goal_count(answer));
        for (goal = 1; goal <= lfj_goal_count(answer); goal++) {
            text_print(&sheet, "%u ", goal);
            add_goal_text(&sheet, &record, lfj_goal_text(record.bytes, n, goal), add_bytes);
            text_print(&sheet, "\n");
        }
        add_written(&sheet, "form", lfj_form, &record, LFJ_FORM_MAX);
        add_written(&sheet, "mel", lfj_mel, &record, SHEET_MEL);
    }
    hold(lent_kept(&record, 0), "the record changed");
    text_print(out, "ok ");
    text_add_hex(out, (const uint8_t *)sheet.bytes, sheet.length);
    give_back(&record);
    free(sheet.bytes);
}

/* A row of k heads to be lent. */
static struct lent lend_row(size_t k)
{
    return lend(k * sizeof(struct lfj_row_head));
}

static struct lfj_row_head *heads_of(const struct lent *row)
{
    return (struct lfj_row_head *)(void *)row->bytes;
}

/* Holds the row against the answer: one that is refused has to leave it as it was. */
static int row_accepted(uint64_t answer, const struct lent *row)
{
    int accepted = lfj_refusal(answer) == LFJ_ACCEPTED;
    hold(lent_kept(row, accepted ? row->length : 0), "a byte of the row changed that had to stay");
    hold(!accepted || answer == lfj_ended(answer), "an answer with bits beside the set");
    return accepted;
}

static void add_row(struct text *out, uint64_t answer, const struct lent *row, size_t k)
{
    size_t i;
    if (!row_accepted(answer, row)) {
        refused(out, answer);
        return;
    }
    text_print(out, "ok %08lx %lu", (unsigned long)lfj_ended(answer), (unsigned long)k);
    for (i = 0; i < k; i++)
        text_print(out, " %lu %lu", (unsigned long)heads_of(row)[i].goal,
                   (unsigned long)heads_of(row)[i].left);
}

static void answer_start(struct text *out, const struct lent *record, const char *field)
{
    size_t k = (size_t)strtoul(field, NULL, 10);
    struct lent row = lend_row(k);
    add_row(out, lfj_start(record->bytes, record->length, heads_of(&row), k), &row, k);
    give_back(&row);
}

static void answer_tick(struct text *out, const struct lent *record, const char *fields)
{
    char *rest;
    uint32_t ended = (uint32_t)strtoul(fields, &rest, 16);
    size_t k = (size_t)strtoul(rest, &rest, 10);
    struct lent row = lend_row(k);
    size_t i;
    for (i = 0; i < k; i++) {
        hold(*rest == ' ', "the row has fewer heads than it says");
        heads_of(&row)[i].goal = (uint32_t)strtoul(rest, &rest, 10);
        heads_of(&row)[i].left = (uint32_t)strtoul(rest, &rest, 10);
    }
    hold(*rest == '\0', "something stands behind the row");
    lent_remember(&row);
    if (wrong == NULL)
        add_row(out, lfj_tick(record->bytes, record->length, heads_of(&row), k, ended), &row, k);
    give_back(&row);
}

/* The ticks of the heaviest chain of an accepted record. A goal waits for lower numbers alone. */
static uint32_t heaviest_chain(const struct lent *record, const uint32_t ticks[LFJ_GOAL_MAX])
{
    uint32_t rows[LFJ_GOAL_MAX];
    uint32_t chains[LFJ_GOAL_MAX] = {0};
    uint32_t heaviest = 0;
    unsigned i;
    unsigned j;
    lfj_order(record->bytes, record->length, rows);
    for (j = 1; j <= LFJ_GOAL_MAX; j++) {
        for (i = 1; i < j; i++)
            if (lfj_before(rows, i, j) && chains[i - 1] > chains[j - 1])
                chains[j - 1] = chains[i - 1];
        chains[j - 1] += ticks[j - 1];
        if (chains[j - 1] > heaviest)
            heaviest = chains[j - 1];
    }
    return heaviest;
}

static void answer_run(struct text *out, const struct lent *record, const char *field)
{
    size_t k = (size_t)strtoul(field, NULL, 10);
    struct lent row = lend_row(k);
    uint64_t answer = lfj_start(record->bytes, record->length, heads_of(&row), k);
    int accepted = row_accepted(answer, &row);
    uint32_t all = lfj_all_goals(lfj_goal_count(lfj_read(record->bytes, record->length)));
    uint32_t ticks[LFJ_GOAL_MAX] = {0};
    uint32_t total = 0;
    uint32_t last = 0;
    unsigned goal;
    for (; accepted && wrong == NULL && lfj_ended(answer) != all; last++) {
        answer = lfj_tick(record->bytes, record->length, heads_of(&row), k, lfj_ended(answer));
        hold(row_accepted(answer, &row), "a tick of a run was refused");
    }
    lfj_ticks(record->bytes, record->length, ticks);
    for (goal = 1; goal <= LFJ_GOAL_MAX; goal++)
        total += ticks[goal - 1];
    if (accepted)
        text_print(out, "ok %lu %lu %lu", (unsigned long)last, (unsigned long)total,
                   (unsigned long)heaviest_chain(record, ticks));
    else
        refused(out, answer);
    give_back(&row);
}

/* An operation, and how many fields stand behind its record, as one text; a tick has more, two
 * for each head. */
struct operation {
    const char *name;
    int fields;
    void (*answer)(struct text *out, const struct lent *record, const char *field);
};

static const struct operation operations[] = {
    {"read", 0, answer_read},     {"order", 0, answer_order},   {"passes", 0, answer_passes},
    {"form", 1, answer_form},     {"length", 0, answer_length}, {"mel", 1, answer_mel},
    {"text", 1, answer_text},     {"check", 1, answer_check},   {"sheet", 0, answer_sheet},
    {"start", 1, answer_start},   {"tick", 2, answer_tick},     {"run", 1, answer_run},
};

static const struct operation *operation_called(const char *name)
{
    size_t i;
    for (i = 0; i < sizeof operations / sizeof operations[0]; i++)
        if (strcmp(operations[i].name, name) == 0)
            return &operations[i];
    return NULL;
}

/* Is it an operation that the library does not offer: the waits before closure, and what the
 * sheet's program leaves of its input? */
static int not_offered(const char *name)
{
    return strcmp(name, "waits") == 0 || strcmp(name, "unread") == 0;
}

/* How many words a text has; none if it is NULL. */
static int count_words(const char *text)
{
    int count = 0;
    for (; text != NULL && *text != '\0'; text++)
        count += *text != ' ' && (text[1] == ' ' || text[1] == '\0');
    return count;
}

/* Answers one question. Skipped is what the library does not offer, and what another number of
 * landed requests settles. */
static void answer_question(struct text *out, char *question)
{
    const char *name = strtok(question, " ");
    const char *landed = strtok(NULL, " ");
    const char *hex = strtok(NULL, " ");
    const char *fields = strtok(NULL, "");
    int count = count_words(fields);
    const struct operation *operation = name != NULL ? operation_called(name) : NULL;
    struct text bytes = {NULL, 0, 0};
    struct lent record;
    if (landed != NULL && (not_offered(name) || atoi(landed) != LANDED)) {
        text_print(out, "skip");
        return;
    }
    hold(operation != NULL, "no operation has this name");
    hold(operation != NULL && count >= operation->fields
             && (count == operation->fields || operation->answer == answer_tick),
         "the question has not as many fields as its operation");
    hold(hex != NULL && hex_read(hex, &bytes), "the record is not hexadecimal");
    record = lend_bytes((const uint8_t *)bytes.bytes, bytes.length);
    if (wrong == NULL)
        operation->answer(out, &record, fields);
    hold(lent_kept(&record, 0), "the record changed");
    give_back(&record);
    free(bytes.bytes);
}

/* The next line without its end, as a text that ends with a zero byte. 0 at the input's end. */
static int read_line(struct text *line)
{
    int byte = getchar();
    int more = byte != EOF;
    line->length = 0;
    for (; byte != EOF && byte != '\n'; byte = getchar()) {
        char sign = (char)byte;
        text_add(line, &sign, 1);
    }
    text_add(line, "", 1);
    return more;
}

/* 0, or 2 if something could not be read or written. */
static int finish(void)
{
    if (ferror(stdin)) {
        perror("answers: standard input");
        return 2;
    }
    if (fflush(stdout) != 0 || ferror(stdout)) {
        perror("answers: standard output");
        return 2;
    }
    return 0;
}

int main(int argc, char **argv)
{
    struct text line = {NULL, 0, 0};
    struct text out = {NULL, 0, 0};
    if (argc == 2 && strcmp(argv[1], "--help") == 0) {
        fputs(usage, stdout);
        return finish();
    }
    if (argc > 1) {
        fputs(usage, stderr);
        return 2;
    }
    while (read_line(&line)) {
        wrong = NULL;
        out.length = 0;
        answer_question(&out, line.bytes);
        if (wrong != NULL)
            printf("error %s\n", wrong);
        else
            printf("%.*s\n", (int)out.length, out.bytes);
    }
    free(line.bytes);
    free(out.bytes);
    return finish();
}
