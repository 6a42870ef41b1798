/*
 * Prints the sheet of a record file: its goals, fork-join expression and MEL
 * annotation, or why the record is refused. Lines as the paper's printed sheet has
 * them; with -v a refused record is explained on standard error.
 *
 *   sheet [-v] [FILE]     standard input if no file or `-` is named
 *
 * Exit status: 0 the sheet is printed, 1 the record is refused, 2 wrong usage, or
 * something could not be read or written.
 */
#include "lfj.h"

#include <stdio.h>
#include <string.h>

static const char usage[] =
    "usage: sheet [-v] [FILE]\n"
    "Prints the sheet of the record in FILE, or of standard input if no file or - is named.\n"
    "  -v          explains a refused record on standard error\n"
    "  --help      prints this\n"
    "  --version   prints the version of the header and of the library\n"
    "Exit status: 0 the sheet is printed, 1 the record is refused, 2 wrong usage, or\n"
    "something could not be read or written.\n";

/* The sheet's buffers: input beyond the first is not read. */
static uint8_t record[4096];
static uint8_t mel[32768];

static void print_bytes(const uint8_t *bytes, size_t length)
{
    fwrite(bytes, 1, length, stdout);
    putchar('\n');
}

static void print_goals(size_t n, unsigned goals)
{
    unsigned goal;
    for (goal = 1; goal <= goals; goal++) {
        uint64_t answer = lfj_goal_text(record, n, goal);
        printf("%u ", goal);
        print_bytes(record + lfj_text_place(answer), lfj_text_length(answer));
    }
}

static void print_form(size_t n)
{
    uint8_t form[LFJ_FORM_MAX];
    uint64_t answer = lfj_form(record, n, form, sizeof form);
    if (lfj_refusal(answer) == LFJ_ACCEPTED) {
        printf("form ");
        print_bytes(form, lfj_length(answer));
    } else {
        printf("form none %u %u %u %u\n", lfj_refusal_goal(answer, 0),
               lfj_refusal_goal(answer, 1), lfj_refusal_goal(answer, 2),
               lfj_refusal_goal(answer, 3));
    }
}

static void print_mel(size_t n)
{
    uint64_t answer = lfj_mel(record, n, mel, sizeof mel);
    if (lfj_refusal(answer) == LFJ_ACCEPTED) {
        printf("mel ");
        print_bytes(mel, lfj_length(answer));
    } else {
        printf("mel refused %u %lu\n", lfj_refusal(answer), (unsigned long)lfj_place(answer));
    }
}

/* Prints the sheet of the first n bytes of the record. Gives the status. */
static int print_sheet(size_t n, int explain)
{
    uint64_t answer = lfj_read(record, n);
    if (lfj_refusal(answer) != LFJ_ACCEPTED) {
        printf("refused %u %lu\n", lfj_refusal(answer), (unsigned long)lfj_place(answer));
        if (explain)
            fprintf(stderr, "%s\n", lfj_refusal_words(answer, record, n, NULL, 0));
        return 1;
    }
    printf("goals %u\n", lfj_goal_count(answer));
    print_goals(n, lfj_goal_count(answer));
    print_form(n);
    print_mel(n);
    return 0;
}

/* Reads the record, and prints its sheet. Gives the status. */
static int sheet_of(const char *name, int explain)
{
    int named = name != NULL && strcmp(name, "-") != 0;
    FILE *file = named ? fopen(name, "rb") : stdin;
    size_t n;
    if (file == NULL) {
        perror(name);
        return 2;
    }
    n = fread(record, 1, sizeof record, file);
    if (ferror(file)) {
        perror(named ? name : "standard input");
        return 2;
    }
    if (named)
        fclose(file);
    return print_sheet(n, explain);
}

/* The status, or 2 if what was printed cannot be written. */
static int finish(int status)
{
    int failed = fflush(stdout) != 0 || ferror(stdout);
    if (fclose(stdout) != 0 || failed) {
        perror("sheet: standard output");
        return 2;
    }
    return status;
}

int main(int argc, char **argv)
{
    int explain = argc > 1 && strcmp(argv[1], "-v") == 0;
    const char *name = argc > 1 + explain ? argv[1 + explain] : NULL;

    if (argc == 2 && strcmp(argv[1], "--help") == 0) {
        fputs(usage, stdout);
        return finish(0);
    }
    if (argc == 2 && strcmp(argv[1], "--version") == 0) {
        printf("sheet %s, library %lu\n", LFJ_VERSION_TEXT, (unsigned long)lfj_version());
        return finish(0);
    }
    if (argc > 2 + explain || (name != NULL && name[0] == '-' && name[1] != '\0')) {
        fputs(usage, stderr);
        return 2;
    }
    return finish(sheet_of(name, explain));
}
