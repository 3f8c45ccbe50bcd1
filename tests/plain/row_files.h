/* Reads the worked rows of tests/rows as row_files.py does. tests/README.md has the form of these files. */
#ifndef ROW_FILES_H
#define ROW_FILES_H
#include <stddef.h>

/* Bytes, after which there is always a NUL that doesn't count. */
typedef struct {
    char *at;
    size_t many;
} bytes;

typedef struct {
    char **at;
    size_t many;
} list;

/* A part of a file: lines, so many times; or a file of the repository; or what the program prints for these words. */
typedef struct {
    char *name, *path, *words;
    list lines;
    long times;
} piece;

typedef struct {
    char *start;
    list lines;
} only;

typedef struct {
    char *title;
    size_t line, pieces_many, only_many;
    list calls, columns, table, text;
    piece *pieces;
    only *onlys;
    int status, in_ticks;
} row;

/* One file of rows. Its texts are a name and a value in turn. */
typedef struct {
    const char *path, *group;
    list lines, texts;
    size_t at, pieces_many, rows_many;
    piece *pieces;
    row *rows;
} reader;

void *more(void *old, size_t size);
void add(bytes *to, const char *at, size_t many);
void add_text(bytes *to, const char *text);
void push(list *to, char *text);
/* A copy of these bytes. */
char *cut(const char *from, const char *end);
list split(const char *text, char at);
char *joined(list lines);
int begins(const char *text, const char *with);
int read_file(const char *path, bytes *to);

/* The bytes of a text: \n, \r, \t, \0, \\ and \xHH are one byte each, and a \ at its end is nothing. 0 if no escape begins so. */
int unescape(const char *text, bytes *to);
/* The same of a line, with its line feed, unless its end is escaped; and of lines. */
int unescape_line(const char *line, bytes *to);
int text_of(list lines, bytes *to);

/* Says what is wrong with a line of a file of rows, and ends. */
void fail(const reader *of, size_t line, const char *why, ...);
reader read_rows(const char *path, const char *group);
#endif
