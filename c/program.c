/* The program kbd48 by the one call of kbd48_call.h, with files, standard input and standard output.

   A file is read when the program asks for it: a call without it has the exit 5, and the next word that isn't an option is its
   name. So files are read in the order of the words, each once, and only if those before it are right. The call sees a file under a name
   that is longer than any word, so a file that is named twice is read twice. /dev/stdin is the standard input on every
   system. The text is printed when the call has ended. With BOTH the program also opens a keyboard of the other library. */
#include "kbd48_call.h"
#ifdef BOTH
#include "kbd48.h"
#endif
#include <errno.h>
#include <signal.h>
#include <stdbool.h>
#include <stdio.h>
#include <stdlib.h>
#include <string.h>
#ifdef _WIN32
#include <fcntl.h>
#include <io.h>
#endif

enum { CALL_DONE = 0, CALL_NO_MEMORY = 2, CALL_NO_SUCH_PIECE = 5 };
enum { EXIT_READ = 5, EXIT_WRITE = 6, EXIT_MEMORY = 7 };
enum { MOST_OF_A_FILE = 4194304 + 1, MOST_OF_A_DUMP = 1 << 28, FIRST_ROOM = 1 << 20, MOST_ROOM = 1 << 29 };

/* The words and files of a call: `bytes` has them all. */
typedef struct {
    uint8_t *bytes;
    size_t used, room;
    kbd48_piece *words;
    kbd48_named *files;
    size_t word_count, file_count, longest, most;
} request;

static void no_memory(void) { exit(EXIT_MEMORY); }

static void *memory_for(void *old, size_t size) {
    void *at = realloc(old, size);
    if (!at) no_memory();
    return at;
}

static uint8_t *room_for(request *it, size_t size) {
    while (it->room - it->used < size) it->bytes = memory_for(it->bytes, it->room = 2 * (it->room + size));
    return it->bytes + it->used;
}

/* The name of the file of a word: so many of the first bytes, which are all alike. */
static kbd48_piece name_of(const request *it, size_t number) { return (kbd48_piece){0, it->longest + number}; }

/* Whether the C library had no memory for a file. */
static bool lacks_memory(void) {
#ifdef ENOMEM
    return errno == ENOMEM;
#else
    return false;
#endif
}

/* What a file has, as far as the longest limit and a byte; false if there is no such file or it can't be read. For a dump that
   is longer there is no memory. */
static bool has_read(request *it, FILE *file, kbd48_piece *piece) {
    if (!file) return false;
    piece->start = it->used;
    for (size_t left = it->most, size; left > 0; left -= size) {
        size = left < 65536 ? left : 65536;
        size = fread(room_for(it, size), 1, size, file);
        if (size == 0) break;
        it->used += size;
    }
    piece->end = it->used;
    if (it->most == MOST_OF_A_DUMP && piece->end - piece->start == MOST_OF_A_DUMP) no_memory();
    return !ferror(file);
}

/* Adds the file that a word names. */
static bool has_added(request *it, size_t number, const char *word) {
    kbd48_named added = {name_of(it, number), {0, 0}};
    errno = 0;
    FILE *file = fopen(word, "rb");
    if (!file && !strcmp(word, "/dev/stdin")) file = stdin;
    bool whole = has_read(it, file, &added.file);
    if (!whole && lacks_memory()) no_memory();
    if (file && file != stdin) fclose(file);
    if (!whole) return false;
    it->words[number] = added.name;
    it->files[it->file_count++] = added;
    return true;
}

static request request_of(int argc, char **argv) {
    request it = {.word_count = argc > 1 ? (size_t)argc - 1 : 0, .most = MOST_OF_A_FILE};
    if (argc > 1 && !strcmp(argv[1], "capture")) it.most = MOST_OF_A_DUMP;
    for (size_t i = 0; i < it.word_count; i++)
        if (strlen(argv[i + 1]) > it.longest) it.longest = strlen(argv[i + 1]);
    it.words = memory_for(NULL, (it.word_count + 1) * sizeof *it.words);
    it.files = memory_for(NULL, (it.word_count + 1) * sizeof *it.files);
    size_t names = it.longest + it.word_count;
    memset(room_for(&it, names + 1), 'f', names);
    it.used = names;
    for (size_t i = 0; i < it.word_count; i++) {
        const char *word = argv[i + 1];
        size_t length = strlen(word), start = it.used;
        if (length) memcpy(room_for(&it, length), word, length);
        it.used += length;
        it.words[i] = (kbd48_piece){start, it.used};
    }
    return it;
}

/* The text of a call, as long as the program says; it has the exit 6 if there is no room. Returns the call's status. */
static int32_t answered(const request *it, uint8_t **text, kbd48_said *said) {
    for (size_t room = FIRST_ROOM;; room *= 8) {
        *text = memory_for(*text, room);
        int32_t status = kbd48_call(it->bytes, it->used, it->words, it->word_count, it->files, it->file_count, *text, room, said);
        if (status != CALL_DONE || said->exit != EXIT_WRITE || room >= MOST_ROOM) return status;
    }
}

static void set_up_streams(void) {
#ifdef SIGPIPE
    signal(SIGPIPE, SIG_IGN); /* an output whose reader has gone has the exit 6 */
#endif
#ifdef _WIN32
    _setmode(_fileno(stdin), _O_BINARY);
    _setmode(_fileno(stdout), _O_BINARY);
#endif
}

int main(int argc, char **argv) {
#ifdef BOTH
    kbd48 keyboard = KBD48_EMPTY;
    if (kbd48_open_sample(&keyboard) != KBD48_DONE || kbd48_close(&keyboard) != KBD48_DONE) return 71;
#endif
    set_up_streams();
    request it = request_of(argc, argv);
    uint8_t *text = NULL;
    kbd48_said said = {0, 0};
    for (size_t next = 1;; next++) {
        int32_t status = answered(&it, &text, &said);
        if (status == CALL_NO_SUCH_PIECE && it.word_count > 0) { /* a word that is no text: no form of a call has it */
            it.word_count = it.file_count = 0;
            continue;
        }
        if (status != CALL_DONE) return EXIT_MEMORY;
        while (next < it.word_count && argv[next + 1][0] == '-') next++;
        if (said.exit != EXIT_READ || next >= it.word_count || !has_added(&it, next, argv[next + 1])) break;
    }
    if (fwrite(text, 1, said.length, stdout) != said.length || fflush(stdout)) return EXIT_WRITE;
    return said.exit;
}
