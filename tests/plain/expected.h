/* Whether a text is one that a row expects. */
#ifndef EXPECTED_H
#define EXPECTED_H
#include "row_files.h"

/* A text for a line of a report: one line, and not too long. */
char *shown(const bytes *text);

/* Whether the text fits these lines, in which a line ... is any lines, <...> any part of a line, and <N> a decimal number, the
   same wherever N is written. */
int fits(list lines, const bytes *text);

/* The text with the number of its tick in place of the stamp that begins each line. */
bytes stamps_as_ticks(const bytes *text);

/* The lines of a text that begin so. */
bytes lines_from(const char *start, const bytes *text);
#endif
