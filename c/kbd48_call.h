/* The whole program as one call: the words of a command line and files in memory go in, a text and an exit come out. So
   `kbd48 compile`, `run`, `trace` or `cert` (`docs/FORMATS.md`) can be used with no process and no file system. It is in a
   library of its own, libkbd48_call, which `c/build --call` makes; the keyboard of kbd48.h needs none of it. */
#ifndef KBD48_CALL_H
#define KBD48_CALL_H
#include <stddef.h>
#include <stdint.h>

#ifdef __cplusplus
extern "C" {
#endif

/* A piece of `bytes`: the number of its first byte, and that of the first byte after it. */
typedef struct {
    size_t start, end;
} kbd48_piece;

/* A file: the name by which a word names it (UTF-8), and what it holds. */
typedef struct {
    kbd48_piece name, file;
} kbd48_named;

/* How the call ended: how many bytes of the room for the text are taken, and the exit of `docs/FORMATS.md`. */
typedef struct {
    size_t length;
    uint8_t exit;
} kbd48_said;

/* Runs the program with these words, the command first, over these files. Words, names and files are pieces of `bytes`, so
   that nothing in them needs an end. The text goes to `text`. If it needs more room than `text_length`, the exit is 6, as
   of an output that is full: call again with more. `said` and `text` are written only if the result is 0. The result is
   0 if there is an answer, which may be a refusal with its exit; 2 if there is no memory for words, files and text; 5 if a
   piece isn't within the bytes, or a word or a name is no UTF-8 text, which is judged before memory is taken. No file is read and nothing is kept between calls.
   The caller ensures that no pointer is null, and that no two of a call overlap. */
int32_t kbd48_call(const uint8_t *bytes, size_t length, const kbd48_piece *words, size_t words_length,
                   const kbd48_named *files, size_t files_length, uint8_t *text, size_t text_length, kbd48_said *said);

#ifdef __cplusplus
}
#endif
#endif
