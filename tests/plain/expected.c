/* A pattern is a row of tokens, which a text must fit one after the other. */
#include "expected.h"
#include <ctype.h>
#include <stdio.h>
#include <stdlib.h>
#include <string.h>

enum { CYCLES_A_TICK = 2048, SHOWN = 300, MOST_NAMES = 64 };

typedef struct {
    enum { LITERAL, ANY_LINES, ANY_PART, NUMBER } kind;
    bytes literal;
    int name;
} token;

typedef struct {
    token *at;
    size_t many;
    char *names[MOST_NAMES];
    int names_many;
} pattern;

/* Where each named number is in the text. */
typedef struct {
    const char *at[MOST_NAMES];
    size_t many[MOST_NAMES];
} numbers;

static token *put(pattern *to, int kind) {
    to->at = more(to->at, (to->many + 1) * sizeof *to->at);
    to->at[to->many] = (token){.kind = kind, .name = -1};
    return &to->at[to->many++];
}

static bytes *literal(pattern *to) {
    if (!to->many || to->at[to->many - 1].kind != LITERAL) put(to, LITERAL);
    return &to->at[to->many - 1].literal;
}

static int name_of(pattern *to, char *name) {
    for (int i = 0; i < to->names_many; i++) {
        if (strcmp(to->names[i], name) == 0) return i;
    }
    if (to->names_many == MOST_NAMES) {
        fputs("run: a row has too many names of numbers\n", stderr);
        exit(1);
    }
    to->names[to->names_many] = name;
    return to->names_many++;
}

/* Where a <...> or <NAME> ends that begins here, or nothing. */
static const char *end_of_free(const char *at) {
    const char *end = at + 1;
    if (begins(at, "<...>")) return at + 5;
    while (isupper((unsigned char)*end)) end++;
    return *at == '<' && end > at + 1 && *end == '>' ? end + 1 : 0;
}

static void put_line(pattern *to, const char *line) {
    const char *from = line, *end;
    if (strcmp(line, "...") == 0) {
        put(to, ANY_LINES);
        return;
    }
    for (const char *at = line; *at;) {
        if (!(end = end_of_free(at))) {
            at++;
            continue;
        }
        unescape(cut(from, at), literal(to));
        if (at[1] == '.') {
            put(to, ANY_PART);
        } else {
            put(to, NUMBER)->name = name_of(to, cut(at + 1, end - 1));
        }
        from = at = end;
    }
    unescape_line(from, literal(to));
}

static int match(const pattern *of, size_t i, const char *at, const char *end, numbers *found);

static int match_number(const pattern *of, size_t i, const char *at, const char *end, numbers *found) {
    int name = of->at[i].name;
    const char *old = found->at[name];
    if (old) {
        size_t many = found->many[name];
        return (size_t)(end - at) >= many && memcmp(at, old, many) == 0 && match(of, i + 1, at + many, end, found);
    }
    for (size_t many = 1; at + many <= end && isdigit((unsigned char)at[many - 1]); many++) {
        found->at[name] = at;
        found->many[name] = many;
        if (match(of, i + 1, at + many, end, found)) return 1;
    }
    found->at[name] = 0;
    return 0;
}

static int match(const pattern *of, size_t i, const char *at, const char *end, numbers *found) {
    if (i == of->many) return at == end;
    switch (of->at[i].kind) {
    case LITERAL: {
        const bytes *it = &of->at[i].literal;
        return (size_t)(end - at) >= it->many && memcmp(at, it->at, it->many) == 0 && match(of, i + 1, at + it->many, end, found);
    }
    case NUMBER:
        return match_number(of, i, at, end, found);
    case ANY_PART:
        for (;; at++) {
            if (match(of, i + 1, at, end, found)) return 1;
            if (at == end || *at == '\n') return 0;
        }
    case ANY_LINES:
        for (;; at++) {
            if (match(of, i + 1, at, end, found)) return 1;
            if (!(at = memchr(at, '\n', (size_t)(end - at)))) return 0;
        }
    }
    return 0;
}

int fits(list lines, const bytes *text) {
    pattern of = {0};
    numbers found = {0};
    for (size_t i = 0; i < lines.many; i++) put_line(&of, lines.at[i]);
    return match(&of, 0, text->at, text->at + text->many, &found);
}

static const char *end_of_line(const char *at, const char *end) {
    const char *line = memchr(at, '\n', (size_t)(end - at));
    return line ? line + 1 : end;
}

bytes stamps_as_ticks(const bytes *text) {
    bytes made = {0};
    const char *at = text->at, *end = at + text->many;
    add(&made, "", 0);
    while (at < end) {
        const char *next = end_of_line(at, end), *digits = at + (*at == '-'), *stop = digits;
        while (stop < next && isdigit((unsigned char)*stop)) stop++;
        if (stop > digits && (stop == next || *stop == ' ')) {
            char tick[32];
            long stamp = atol(at), ticks = stamp / CYCLES_A_TICK;
            if (stamp % CYCLES_A_TICK < 0) ticks--;
            add(&made, tick, (size_t)sprintf(tick, "%ld", ticks));
            at = stop;
        }
        add(&made, at, (size_t)(next - at));
        at = next;
    }
    return made;
}

bytes lines_from(const char *start, const bytes *text) {
    bytes first = {0}, made = {0};
    const char *at = text->at, *end = at + text->many;
    unescape(start, &first);
    add(&made, "", 0);
    while (at < end) {
        const char *next = end_of_line(at, end);
        if ((size_t)(next - at) >= first.many && memcmp(at, first.at, first.many) == 0) add(&made, at, (size_t)(next - at));
        at = next;
    }
    return made;
}

char *shown(const bytes *text) {
    bytes made = {0};
    add_text(&made, "\"");
    for (size_t i = 0; i < text->many && made.many < SHOWN; i++) {
        unsigned char it = (unsigned char)text->at[i];
        char escaped[8];
        if (it == '\n') {
            add_text(&made, "\\n");
        } else {
            add(&made, escaped, (size_t)sprintf(escaped, it < ' ' || it > '~' ? "\\x%02X" : "%c", it));
        }
    }
    add_text(&made, made.many < SHOWN ? "\"" : "\" ..");
    return made.at;
}
