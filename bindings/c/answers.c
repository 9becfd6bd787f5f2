/* What the calls answer of a file of expressions, as bindings/tests/program.py prints it. */
#define _POSIX_C_SOURCE 200809L

#include "test.h"

#include <stdio.h>
#include <stdlib.h>
#include <string.h>

/* Puts the end of a line in the place of each pilcrow. */
static void break_lines(char *text)
{
    char *to = text;
    for (const char *from = text; *from; from++) {
        bool is_pilcrow = from[0] == '\xc2' && from[1] == '\xb6';
        *to++ = is_pilcrow ? '\n' : *from;
        from += is_pilcrow;
    }
    *to = 0;
}

/* Cuts the line at its tabs into four texts. */
static bool is_cut(char *line, char *fields[4])
{
    fields[0] = line;
    for (int i = 1; i < 4; i++) {
        char *tab = strchr(fields[i - 1], '\t');
        if (!tab)
            return false;
        *tab = 0;
        fields[i] = tab + 1;
    }
    return true;
}

static void print_answers(int number, char *fields[4])
{
    Given g = given(fields[0], fields[1], NULL);
    for (Call call = FMT; call < CALLS; call++) {
        g.records = text_of(fields[call == PRUNE ? 3 : 2]);
        Answered a = answered(call, &g);
        printf("# %d %s %s\n", number, NAMES[call], a.status ? "stopped" : "answered");
        fwrite(a.text, 1, a.answer.needed, stdout);
        if (a.status)
            putchar('\n');
        free(a.text);
    }
}

int answers(const char *path)
{
    FILE *file = fopen(path, "r");
    if (!file) {
        perror(path);
        return 2;
    }
    char *line = NULL, *fields[4];
    size_t room = 0;
    int number = 0;
    while (getline(&line, &room, file) > 0) {
        line[strcspn(line, "\n")] = 0;
        break_lines(line);
        if (!is_cut(line, fields)) {
            fprintf(stderr, "%s:%d: no four texts\n", path, number + 1);
            break;
        }
        print_answers(++number, fields);
    }
    bool is_whole = feof(file);
    free(line);
    fclose(file);
    return is_whole ? 0 : 2;
}
