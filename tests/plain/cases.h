/* The cases of the rows: one for each line of a row's table, or one if it has none. */
#ifndef CASES_H
#define CASES_H
#include "row_files.h"

/* A row with the cells of one line of its table in their places. The words of a call are one text. */
typedef struct {
    const reader *of;
    const row *row;
    char *title;
    list calls, text;
    piece *pieces;
    size_t pieces_many;
    only *onlys;
} cased;

extern cased *cases;
extern size_t cases_many;

char *path_of(const char *folder, const char *name);
/* Reads all rows of a repository, in the order of their files' names. */
void read_cases(const char *top);
#endif
