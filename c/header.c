/* Tests the helpers of lfj.h on answers and arrays that the header's own words settle. Compiles
 * as C and as C++. No function of the library is called. */
#include "lfj.h"
/* A second time: the header is guarded. */
#include "lfj.h"

#include <stdio.h>
#include <string.h>

static int wrong = 0;

static void hold(int right, const char *what)
{
    if (!right) {
        fprintf(stderr, "%s\n", what);
        wrong = 1;
    }
}

static void test_answers(void)
{
    uint64_t accepted = 32;
    uint64_t after = UINT64_C(0x80000001);
    uint64_t refused = (UINT64_C(12) << 56) | 192127;
    uint64_t no_form = (UINT64_C(13) << 56) | (UINT64_C(2) << 32) | (UINT64_C(1) << 38)
                       | (UINT64_C(32) << 44) | (UINT64_C(3) << 50);
    uint64_t text = (UINT64_C(24) << 32) | 1376;
    uint64_t differs = (UINT64_C(31) << 8) | 32;

    hold(lfj_refusal(accepted) == LFJ_ACCEPTED && lfj_goal_count(accepted) == 32,
         "an accepted read");
    hold(lfj_variable_count(64) == 64, "a variable count");
    hold(lfj_pass_count(LFJ_PASS_MAX) == 6, "a number of passes");
    hold(lfj_goal_set(after) == UINT32_C(0x80000001), "a set of goals");
    hold(lfj_ended(after) == UINT32_C(0x80000001) && lfj_ended(refused) == 0,
         "the set of ended goals");
    hold(lfj_refusal(refused) == LFJ_SHORT_BUFFER && lfj_place(refused) == 192127,
         "a refusal's place");
    hold(lfj_refusal(no_form) == LFJ_NO_FORM && lfj_place(no_form) == 0, "refusal 13");
    hold(lfj_refusal_goal(no_form, 0) == 2 && lfj_refusal_goal(no_form, 1) == 1
             && lfj_refusal_goal(no_form, 2) == 32 && lfj_refusal_goal(no_form, 3) == 3,
         "the goals of refusal 13");
    hold(lfj_length(192127) == 192127, "a length");
    hold(lfj_text_place(text) == 1376 && lfj_text_length(text) == 24, "a goal's text");
    hold(lfj_same(0) && !lfj_same(differs), "the verdict");
    hold(lfj_differs_i(differs) == 32 && lfj_differs_j(differs) == 31, "the goals that differ");
}

static void test_sets(void)
{
    uint32_t goals = UINT32_C(0x80000001);
    uint64_t variables = UINT64_C(0x8000000000000001);
    uint32_t rows[LFJ_GOAL_MAX] = {0};
    uint64_t listed[LFJ_VARIABLE_MAX] = {0};

    rows[0] = UINT32_C(0x80000000);
    listed[63] = 1;
    hold(lfj_has_goal(goals, 1) && lfj_has_goal(goals, 32) && !lfj_has_goal(goals, 2)
             && !lfj_has_goal(goals, 0) && !lfj_has_goal(goals, 33), "the goals of a set");
    hold(lfj_all_goals(1) == 1 && lfj_all_goals(31) == UINT32_C(0x7fffffff)
             && lfj_all_goals(32) == UINT32_C(0xffffffff), "the set of all goals");
    hold(lfj_has_variable(variables, 0) && lfj_has_variable(variables, 63)
             && !lfj_has_variable(variables, 1) && !lfj_has_variable(variables, 64),
         "the variables of a set");
    hold(lfj_before(rows, 1, 32) && !lfj_before(rows, 32, 1) && !lfj_before(rows, 0, 32)
             && !lfj_before(rows, 2, 32) && !lfj_before(rows, 33, 32), "goal 1 before goal 32");
    hold(lfj_is_listed(listed, 63, 0) && !lfj_is_listed(listed, 0, 63)
             && !lfj_is_listed(listed, 64, 0), "a listed pair");
}

/* Each refusal by its name, its number, and a word that only it has. */
static const struct {
    enum lfj_number name;
    unsigned number;
    const char *word;
} refusals[] = {
    {LFJ_ACCEPTED, 0, "accepted"},
    {LFJ_SHORT_RECORD, 1, "below 24 bytes"},
    {LFJ_BAD_MARK, 2, "LFJ"},
    {LFJ_BAD_VERSION, 3, "version is"},
    {LFJ_BAD_GOAL_COUNT, 4, "goal count is"},
    {LFJ_BAD_VARIABLE_COUNT, 5, "variable count is"},
    {LFJ_BAD_HEADER_SET, 6, "outside the head"},
    {LFJ_CUT_OFF, 7, "ends within"},
    {LFJ_BAD_GOAL_SET, 8, "a goal has a variable"},
    {LFJ_BAD_GOAL_TEXT, 9, "text length"},
    {LFJ_BAD_PAIR, 10, "lower then higher"},
    {LFJ_LEFT_OVER, 11, "left over"},
    {LFJ_SHORT_BUFFER, 12, "buffer"},
    {LFJ_NO_FORM, 13, "no fork-join expression"},
    {LFJ_NO_GOAL, 14, "no such goal"},
    {LFJ_BAD_TEXT_LENGTH, 15, "512"},
    {LFJ_BAD_GRAMMAR, 16, "grammar"},
    {LFJ_BAD_GOAL_USE, 17, "met before"},
    {LFJ_BAD_GROUND_SET, 18, "ground set"},
    {LFJ_BAD_TICKS, 19, "ticks are"},
    {LFJ_BAD_HEADS, 20, "1 to 8 heads"},
};

#define REFUSALS (sizeof refusals / sizeof refusals[0])

static void test_words(void)
{
    size_t i;
    unsigned number;
    for (i = 0; i < REFUSALS; i++) {
        hold((unsigned)refusals[i].name == refusals[i].number, refusals[i].word);
        for (number = 0; number <= REFUSALS; number++)
            hold((strstr(lfj_words(number), refusals[i].word) != NULL)
                     == (number == refusals[i].number), refusals[i].word);
    }
    hold(lfj_refusal_words(UINT64_C(7) << 56, NULL, 0, NULL, 0) == lfj_words(LFJ_CUT_OFF),
         "the words of a refusal without halves");
}

static void test_heads(void)
{
    struct lfj_row_head heads[2] = {{0, 0}, {32, 60000}};
    const unsigned char *bytes = (const unsigned char *)heads;
    uint32_t goal;
    uint32_t left;
    memcpy(&goal, bytes + 8, sizeof goal);
    memcpy(&left, bytes + 12, sizeof left);
    hold(sizeof heads == 16 && goal == 32 && left == 60000, "the layout of a row of heads");
    hold(lfj_is_idle(heads[0]) && !lfj_is_idle(heads[1]), "an idle head");
}

static void test_version(void)
{
    char text[20];
    sprintf(text, "%d.%d.%d", LFJ_VERSION / 10000, LFJ_VERSION / 100 % 100, LFJ_VERSION % 100);
    hold(strcmp(LFJ_VERSION_TEXT, text) == 0, "the version as a number and as text");
}

int main(void)
{
    test_answers();
    test_sets();
    test_words();
    test_heads();
    hold(LFJ_RECORD_MAX == 24 + LFJ_GOAL_MAX * (19 + 24) + 2 * 255, "the longest record");
    test_version();
    return wrong;
}
