/* The cells and texts of a row are put into its lines. */
#define _XOPEN_SOURCE 700
#include "cases.h"
#include <ctype.h>
#include <dirent.h>
#include <stdio.h>
#include <stdlib.h>
#include <string.h>

cased *cases;
size_t cases_many;

/* Where a {NAME} ends that begins here, or nothing. */
static const char *end_of_place(const char *at) {
    const char *end = at + 1;
    while (isupper((unsigned char)*end)) end++;
    return *at == '{' && end > at + 1 && *end == '}' ? end + 1 : 0;
}

/* The cell or the text of a name. A cell that was used is marked. */
static const char *value_of(const cased *it, list cells, char *used, const char *name) {
    for (size_t i = 0; i < it->row->columns.many; i++) {
        if (strcmp(it->row->columns.at[i], name) == 0) {
            used[i] = 1;
            return cells.at[i];
        }
    }
    for (size_t i = it->of->texts.many; i; i -= 2) {
        if (strcmp(it->of->texts.at[i - 2], name) == 0) return it->of->texts.at[i - 1];
    }
    fail(it->of, it->row->line, "{%s} has no value", name);
    return 0;
}

static char *put_in(const cased *it, list cells, char *used, const char *text) {
    bytes made = {0};
    const char *end;
    add(&made, "", 0);
    while (*text) {
        if ((end = end_of_place(text))) {
            add_text(&made, value_of(it, cells, used, cut(text + 1, end - 1)));
            text = end;
        } else {
            add(&made, text++, 1);
        }
    }
    return made.at;
}

/* These lines, filled; a text of several lines makes several of one. */
static list filled(const cased *it, list cells, char *used, list lines) {
    bytes judged = {0};
    list made = {0};
    if (!lines.many) return made;
    made = split(put_in(it, cells, used, joined(lines)), '\n');
    if (!text_of(made, &judged)) fail(it->of, it->row->line, "no escape begins so in %s", joined(made));
    return made;
}

static void add_piece(cased *it, list cells, char *used, const piece *from) {
    piece made = *from;
    made.lines = filled(it, cells, used, from->lines);
    if (from->words) made.words = put_in(it, cells, used, from->words);
    it->pieces = more(it->pieces, (it->pieces_many + 1) * sizeof made);
    it->pieces[it->pieces_many++] = made;
}

static int has_piece(const row *of, const char *name) {
    for (size_t i = 0; i < of->pieces_many; i++) {
        if (strcmp(of->pieces[i].name, name) == 0) return 1;
    }
    return 0;
}

static list cells_of(const reader *of, const row *row, char *line) {
    list cells = {0}, raw = split(line, '|');
    if (row->columns.many < 2) {
        push(&cells, line);
        return cells;
    }
    for (size_t i = 0; i < raw.many; i++) {
        char *at = raw.at[i] + strspn(raw.at[i], " "), *end = at + strlen(at);
        while (end > at && end[-1] == ' ') end--;
        push(&cells, cut(at, end));
    }
    if (cells.many != row->columns.many) fail(of, row->line, "%zu columns, but %s", row->columns.many, line);
    return cells;
}

static void add_case(const reader *of, const row *row, char *line) {
    cased it = {.of = of, .row = row, .title = row->title};
    list cells = cells_of(of, row, line);
    char *used = more(0, row->columns.many);
    memset(used, 0, row->columns.many);
    for (size_t i = 0; i < of->pieces_many; i++) {
        if (!has_piece(row, of->pieces[i].name)) add_piece(&it, cells, used, &of->pieces[i]);
    }
    for (size_t i = 0; i < row->pieces_many; i++) add_piece(&it, cells, used, &row->pieces[i]);
    for (size_t i = 0; i < row->calls.many; i++) push(&it.calls, put_in(&it, cells, used, row->calls.at[i]));
    it.text = filled(&it, cells, used, row->text);
    it.onlys = more(0, row->only_many * sizeof *it.onlys);
    for (size_t i = 0; i < row->only_many; i++) it.onlys[i] = (only){row->onlys[i].start, filled(&it, cells, used, row->onlys[i].lines)};
    for (size_t i = 0; i < row->columns.many; i++) {
        if (!used[i]) fail(of, row->line, "no line of the row has {%s}", row->columns.at[i]);
    }
    if (row->columns.many) {
        bytes title = {0};
        add_text(&title, row->title);
        add_text(&title, " [");
        add_text(&title, line);
        add_text(&title, "]");
        it.title = title.at;
    }
    cases = more(cases, (cases_many + 1) * sizeof it);
    cases[cases_many++] = it;
}

static void add_cases(const reader *of) {
    for (size_t i = 0; i < of->rows_many; i++) {
        const row *row = &of->rows[i];
        if (!row->calls.many || row->status < 0) fail(of, row->line, "the row needs a $ line and an exit");
        if (row->columns.many && !row->table.many) fail(of, row->line, "the row's table is empty");
        for (size_t j = 0; j < (row->table.many ? row->table.many : 1); j++) add_case(of, row, row->table.many ? row->table.at[j] : "");
    }
}

char *path_of(const char *folder, const char *name) {
    bytes made = {0};
    add_text(&made, folder);
    add_text(&made, "/");
    add_text(&made, name);
    return made.at;
}

static int is_rows(const struct dirent *it) {
    size_t many = strlen(it->d_name);
    return many > 5 && strcmp(it->d_name + many - 5, ".rows") == 0;
}

void read_cases(const char *top) {
    struct dirent **found;
    char *folder = path_of(top, "tests/rows");
    int many = scandir(folder, &found, is_rows, alphasort);
    for (int i = 0; i < many; i++) {
        reader *of = more(0, sizeof *of);
        *of = read_rows(path_of(folder, found[i]->d_name), cut(found[i]->d_name, strchr(found[i]->d_name, '.')));
        add_cases(of);
    }
}
