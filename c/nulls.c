/*
 * Tests that no function of the library is lent a null pointer where the length is 0: calls
 * every name of lfj.h with NULL, over functions of its own in place of the library's, which
 * see what arrives. Nothing is linked.
 */
#include "lfj.h"

#include <stdio.h>

static int calls = 0;
static int wrong = 0;

/* What a function of the library sees of a pointer and the length beside it. */
static void see(const char *name, const void *lent, size_t length)
{
    if (lent == NULL || length != 0) {
        fprintf(stderr, "%s: %s\n", name, lent == NULL ? "a null pointer" : "a length above 0");
        wrong = 1;
    }
}

static uint64_t called(const char *name, const uint8_t *record, size_t n)
{
    see(name, record, n);
    calls++;
    return 0;
}

static void call_all(void)
{
    uint32_t narrow[LFJ_GOAL_MAX] = {0};
    uint64_t wide[LFJ_VARIABLE_MAX] = {0};
    lfj_read(NULL, 0);
    lfj_after(NULL, 0, 1);
    lfj_order(NULL, 0, narrow);
    lfj_passes(NULL, 0);
    lfj_form(NULL, 0, NULL, 0);
    lfj_form_length(NULL, 0);
    lfj_mel(NULL, 0, NULL, 0);
    lfj_goal_text(NULL, 0, 1);
    lfj_check(NULL, 0, NULL, 0);
    lfj_head(NULL, 0, wide);
    lfj_goal_sets(NULL, 0, wide);
    lfj_ground_sets(NULL, 0, wide);
    lfj_ticks(NULL, 0, narrow);
    lfj_listed(NULL, 0, wide);
    lfj_start(NULL, 0, NULL, 0);
    lfj_tick(NULL, 0, NULL, 0, 1);
}

#undef lfj_read
#undef lfj_after
#undef lfj_order
#undef lfj_passes
#undef lfj_form
#undef lfj_form_length
#undef lfj_mel
#undef lfj_goal_text
#undef lfj_check
#undef lfj_head
#undef lfj_goal_sets
#undef lfj_ground_sets
#undef lfj_ticks
#undef lfj_listed
#undef lfj_start
#undef lfj_tick

uint64_t lfj_read(const uint8_t *record, size_t n)
{
    return called("lfj_read", record, n);
}

uint64_t lfj_after(const uint8_t *record, size_t n, uint32_t goal)
{
    return called("lfj_after", record, n) + goal;
}

uint64_t lfj_order(const uint8_t *record, size_t n, uint32_t rows[LFJ_GOAL_MAX])
{
    return called("lfj_order", record, n) + rows[0];
}

uint64_t lfj_passes(const uint8_t *record, size_t n)
{
    return called("lfj_passes", record, n);
}

uint64_t lfj_form(const uint8_t *record, size_t n, uint8_t *out, size_t room)
{
    see("lfj_form", out, room);
    return called("lfj_form", record, n);
}

uint64_t lfj_form_length(const uint8_t *record, size_t n)
{
    return called("lfj_form_length", record, n);
}

uint64_t lfj_mel(const uint8_t *record, size_t n, uint8_t *out, size_t room)
{
    see("lfj_mel", out, room);
    return called("lfj_mel", record, n);
}

uint64_t lfj_goal_text(const uint8_t *record, size_t n, uint32_t goal)
{
    return called("lfj_goal_text", record, n) + goal;
}

uint64_t lfj_check(const uint8_t *record, size_t n, const uint8_t *text, size_t m)
{
    see("lfj_check", text, m);
    return called("lfj_check", record, n);
}

uint64_t lfj_head(const uint8_t *record, size_t n, uint64_t *head)
{
    return called("lfj_head", record, n) + *head;
}

uint64_t lfj_goal_sets(const uint8_t *record, size_t n, uint64_t sets[LFJ_GOAL_MAX])
{
    return called("lfj_goal_sets", record, n) + sets[0];
}

uint64_t lfj_ground_sets(const uint8_t *record, size_t n, uint64_t sets[LFJ_GOAL_MAX])
{
    return called("lfj_ground_sets", record, n) + sets[0];
}

uint64_t lfj_ticks(const uint8_t *record, size_t n, uint32_t ticks[LFJ_GOAL_MAX])
{
    return called("lfj_ticks", record, n) + ticks[0];
}

uint64_t lfj_listed(const uint8_t *record, size_t n, uint64_t rows[LFJ_VARIABLE_MAX])
{
    return called("lfj_listed", record, n) + rows[0];
}

uint64_t lfj_start(const uint8_t *record, size_t n, struct lfj_row_head *heads, size_t k)
{
    see("lfj_start", heads, k);
    return called("lfj_start", record, n);
}

uint64_t lfj_tick(const uint8_t *record, size_t n, struct lfj_row_head *heads, size_t k,
                  uint32_t ended)
{
    see("lfj_tick", heads, k);
    return called("lfj_tick", record, n) + ended;
}

int main(void)
{
    call_all();
    if (calls != 16) {
        fprintf(stderr, "%d calls of 16 reached the library\n", calls);
        wrong = 1;
    }
    return wrong;
}
