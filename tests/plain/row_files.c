/* The reader of rows. A value that was made stays until the program ends. */
#include "row_files.h"
#include <ctype.h>
#include <errno.h>
#include <stdarg.h>
#include <stdio.h>
#include <stdlib.h>
#include <string.h>

void *more(void *old, size_t size) {
    void *made = realloc(old, size ? size : 1);
    if (!made) {
        fputs("run: no memory\n", stderr);
        exit(1);
    }
    return made;
}

void add(bytes *to, const char *at, size_t many) {
    to->at = more(to->at, to->many + many + 1);
    memcpy(to->at + to->many, at, many);
    to->many += many;
    to->at[to->many] = 0;
}

void add_text(bytes *to, const char *text) { add(to, text, strlen(text)); }

void push(list *to, char *text) {
    to->at = more(to->at, (to->many + 1) * sizeof *to->at);
    to->at[to->many++] = text;
}

char *cut(const char *from, const char *end) {
    bytes made = {0};
    add(&made, from, (size_t)(end - from));
    return made.at;
}

list split(const char *text, char at) {
    list parts = {0};
    for (const char *end; (end = strchr(text, at)); text = end + 1) push(&parts, cut(text, end));
    push(&parts, cut(text, text + strlen(text)));
    return parts;
}

int begins(const char *text, const char *with) { return strncmp(text, with, strlen(with)) == 0; }

void fail(const reader *of, size_t line, const char *why, ...) {
    va_list words;
    va_start(words, why);
    fprintf(stderr, "run: %s:%zu: ", of->path, line);
    vfprintf(stderr, why, words);
    fputc('\n', stderr);
    va_end(words);
    exit(1);
}

/* All bytes of a file. */
int read_file(const char *path, bytes *to) {
    FILE *file = fopen(path, "rb");
    char some[65536];
    size_t count;
    if (!file) return 0;
    add(to, "", 0);
    while ((count = fread(some, 1, sizeof some, file)) > 0) add(to, some, count);
    fclose(file);
    return 1;
}

/* The bytes of an escape, or of a character; a \ at the end is nothing. Nothing if no escape begins so. */
static const char *unescape_one(const char *at, bytes *to) {
    static const char names[] = "nrt0\\", values[] = "\n\r\t\0\\";
    const char *found;
    char byte;
    if (*at != '\\') {
        add(to, at, 1);
        return at + 1;
    }
    if (!at[1]) return at + 1;
    if (at[1] == 'x' && isxdigit((unsigned char)at[2]) && isxdigit((unsigned char)at[3])) {
        char digits[3] = {at[2], at[3], 0};
        byte = (char)strtol(digits, 0, 16);
        add(to, &byte, 1);
        return at + 4;
    }
    if (!(found = strchr(names, at[1]))) return 0;
    add(to, values + (found - names), 1);
    return at + 2;
}

int unescape(const char *text, bytes *to) {
    add(to, "", 0);
    while (*text) {
        if (!(text = unescape_one(text, to))) return 0;
    }
    return 1;
}

static int ends_open(const char *line) {
    size_t many = 0, length = strlen(line);
    while (many < length && line[length - 1 - many] == '\\') many++;
    return many % 2;
}

int unescape_line(const char *line, bytes *to) {
    if (!unescape(line, to)) return 0;
    if (!ends_open(line)) add(to, "\n", 1);
    return 1;
}

int text_of(list lines, bytes *to) {
    add(to, "", 0);
    for (size_t i = 0; i < lines.many; i++) {
        if (!unescape_line(lines.at[i], to)) return 0;
    }
    return 1;
}

static list block(reader *of) {
    list lines = {0};
    while (of->at < of->lines.many && begins(of->lines.at[of->at], "  ")) push(&lines, of->lines.at[of->at++] + 2);
    return lines;
}

/* What is beside a heading's colon, or else the indented lines that follow. */
static list text_at(reader *of, char *beside) {
    list one = {0};
    if (!*beside) return block(of);
    push(&one, beside + 1);
    return one;
}

static row *this_row(reader *of) {
    if (!of->rows_many) fail(of, of->at, "there is no row yet: a row begins with ==");
    return &of->rows[of->rows_many - 1];
}

static void begin_row(reader *of, char *title) {
    for (size_t i = 0; i < of->rows_many; i++) {
        if (strcmp(of->rows[i].title, title) == 0) fail(of, of->at, "two rows are called %s", title);
    }
    of->rows = more(of->rows, (of->rows_many + 1) * sizeof *of->rows);
    of->rows[of->rows_many++] = (row){.title = title, .line = of->at, .status = -1};
}

static void add_piece(reader *of, piece made) {
    piece **to = of->rows_many ? &this_row(of)->pieces : &of->pieces;
    size_t *many = of->rows_many ? &this_row(of)->pieces_many : &of->pieces_many;
    *to = more(*to, (*many + 1) * sizeof **to);
    (*to)[(*many)++] = made;
}

/* Past `many` characters from this set, of which there is one at least. */
static char *past(char *at, int (*is)(int)) {
    while (is((unsigned char)*at)) at++;
    return at;
}

static int is_name(int c) { return islower(c) || isdigit(c); }

static int is_beside(const char *at) { return !*at || *at == ' '; }

static int read_exit(reader *of, char *line) {
    char *at = past(line + 5, isdigit);
    int in_ticks = begins(at, " in ticks:");
    row *to;
    if (at == line + 5) return 0;
    if (in_ticks) at += 9;
    if (*at != ':' || !is_beside(at + 1)) return 0;
    to = this_row(of);
    if (to->status >= 0) fail(of, of->at, "the row has two exits");
    to->status = atoi(line + 5);
    to->in_ticks = in_ticks;
    to->text = text_at(of, at + 1);
    return 1;
}

static int read_only(reader *of, char *line) {
    size_t length = strlen(line);
    row *to;
    if (length < 13 || line[length - 1] != ':' || line[11] == ' ') return 0;
    to = this_row(of);
    to->onlys = more(to->onlys, (to->only_many + 1) * sizeof *to->onlys);
    to->onlys[to->only_many++] = (only){cut(line + 11, line + length - 1), block(of)};
    return 1;
}

static int read_table(reader *of, char *line) {
    char *at = line + 3;
    row *to;
    do {
        char *begin = at + 1;
        at = past(begin, isupper);
        if (at == begin) return 0;
    } while (*at == ' ');
    if (strcmp(at, ":") != 0) return 0;
    to = this_row(of);
    to->columns = split(cut(line + 4, at), ' ');
    to->table = block(of);
    return 1;
}

char *joined(list lines) {
    bytes made = {0};
    add(&made, "", 0);
    for (size_t i = 0; i < lines.many; i++) {
        if (i) add(&made, "\n", 1);
        add_text(&made, lines.at[i]);
    }
    return made.at;
}

static int read_let(reader *of, char *line) {
    char *at = past(line + 4, isupper);
    if (at == line + 4 || *at != ':' || !is_beside(at + 1)) return 0;
    push(&of->texts, cut(line + 4, at));
    push(&of->texts, joined(text_at(of, at + 1)));
    return 1;
}

static int read_piece(reader *of, char *line) {
    char *at = past(line, is_name), *name = cut(line, at), *end;
    long times = 1;
    if (!islower((unsigned char)*line)) return 0;
    if (begins(at, " = ") && at[3] && !strpbrk(at + 3, " \t")) {
        add_piece(of, (piece){.name = name, .path = at + 3});
    } else if (begins(at, " <- ") && at[4]) {
        add_piece(of, (piece){.name = name, .words = at + 4});
    } else {
        if (begins(at, " (") && (end = past(at + 2, isdigit)) > at + 2 && begins(end, " times)")) {
            times = atol(at + 2);
            at = end + 7;
        }
        if (*at != ':' || !is_beside(at + 1)) return 0;
        add_piece(of, (piece){.name = name, .lines = text_at(of, at + 1), .times = times});
    }
    return 1;
}

static int read_heading(reader *of, char *line) {
    if (begins(line, "== ") && line[3] && line[3] != ' ') {
        begin_row(of, line + 3);
    } else if (strcmp(line, "$") == 0 || (begins(line, "$ ") && line[2])) {
        push(&this_row(of)->calls, line[1] ? line + 2 : line + 1);
    } else if (strcmp(line, "large") == 0) {
        this_row(of);
    } else {
        return (begins(line, "exit ") && read_exit(of, line)) || (begins(line, "lines from ") && read_only(of, line)) ||
               (begins(line, "for ") && read_table(of, line)) || (begins(line, "let ") && read_let(of, line)) || read_piece(of, line);
    }
    return 1;
}

reader read_rows(const char *path, const char *group) {
    reader of = {.path = path, .group = group};
    bytes all = {0};
    if (!read_file(path, &all)) fail(&of, 0, "%s", strerror(errno));
    of.lines = split(all.at, '\n');
    while (of.at < of.lines.many) {
        char *line = of.lines.at[of.at++];
        if (line[strspn(line, " \t\r")] && *line != '#' && !read_heading(&of, line)) {
            fail(&of, of.at, "a line at the left edge is ==, $, exit, for, let, lines from, large, or a file");
        }
    }
    return of;
}
