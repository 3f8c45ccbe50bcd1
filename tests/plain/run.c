/* Runs the worked rows and the stored examples over the program, if there is neither Python nor Node:

     tests/run_plain PROGRAM     compiles this and runs it:
     run TOP PROGRAM [SECONDS]   TOP is the repository's folder
     run TOP --list              prints the calls of the rows, and runs none

   It does what tests/run does. A line is printed for each call that fails, or hasn't ended after so many seconds (60). The last
   line is `N passed, N failed`; the status is 1 if a call failed, or if nothing was run. */
#define _XOPEN_SOURCE 700
#include "cases.h"
#include "expected.h"
#include <ctype.h>
#include <fcntl.h>
#include <signal.h>
#include <stdio.h>
#include <stdlib.h>
#include <string.h>
#include <sys/wait.h>
#include <unistd.h>

enum { MOST_LANES = 64 };

static char *top, *program, *work;
static unsigned seconds = 60;
static long passed, failed;

static void report(const char *group, const char *title, const char *call, const char *wrong) {
    bytes line = {0};
    const char *parts[] = {group, ": ", title, *title ? ": " : "", "kbd48 ", call, " ", wrong, "\n"};
    for (size_t i = 0; i < sizeof parts / sizeof *parts; i++) add_text(&line, parts[i]);
    fwrite(line.at, 1, line.many, stdout);
    fflush(stdout);
    failed++;
}

static char *text(const char *form, const char *first, const char *second) {
    size_t size = strlen(form) + strlen(first) + strlen(second) + 1;
    char *made = more(0, size);
    snprintf(made, size, form, first, second);
    return made;
}

static char *number(long it) {
    char *made = more(0, 24);
    sprintf(made, "%ld", it);
    return made;
}

static void become(char **words, const char *folder, const char *out, const char *beside) {
    int in = open("/dev/null", O_RDONLY), to = open(out, O_WRONLY | O_CREAT | O_TRUNC, 0600), err = open(beside, O_WRONLY | O_CREAT | O_TRUNC, 0600);
    dup2(in, 0);
    dup2(to, 1);
    dup2(err, 2);
    if (chdir(folder) == 0) {
        alarm(seconds);
        execv(program, words);
    }
    _exit(127);
}

/* What a call comes to, in a folder; or what is wrong with it, if it doesn't end in time. Its words are bytes. */
static char *called(list words, const char *folder, long *status, bytes *out, bytes *beside) {
    char *out_path = path_of(work, "out"), *beside_path = path_of(work, "beside");
    int ended;
    list all = {0};
    pid_t child;
    push(&all, program);
    for (size_t i = 0; i < words.many; i++) push(&all, words.at[i]);
    push(&all, 0);
    if ((child = fork()) == 0) become(all.at, folder, out_path, beside_path);
    if (child < 0 || waitpid(child, &ended, 0) < 0) return "couldn't be made";
    if (!read_file(out_path, out) || !read_file(beside_path, beside)) return "left no output";
    *status = WIFEXITED(ended) ? WEXITSTATUS(ended) : -WTERMSIG(ended);
    return *status == -SIGALRM ? text("hasn't ended after %s s%s", number((long)seconds), "") : 0;
}

static list words_of(const char *call) {
    list words = {0}, raw = split(call, ' ');
    for (size_t i = 0; *call && i < raw.many; i++) {
        bytes word = {0};
        add(&word, "", 0);
        if (strcmp(raw.at[i], "\"\"") != 0) unescape(raw.at[i], &word);
        push(&words, word.at);
    }
    return words;
}

/* Adds a part of a file. What the program makes of the files before it must be an answer; otherwise it says why it isn't. */
static char *add_part(const piece *from, const char *folder, bytes *to) {
    bytes made = {0}, beside = {0};
    long status;
    char *wrong;
    if (from->path) return read_file(path_of(top, from->path), to) ? 0 : text("has no files: there is no %s%s", from->path, "");
    for (long i = 0; !from->words && i < from->times; i++) text_of(from->lines, to);
    if (!from->words) return 0;
    if ((wrong = called(words_of(from->words), folder, &status, &made, &beside))) return wrong;
    add(to, made.at, made.many);
    return status == 0 ? 0 : text("has no files: kbd48 %s ended with %s", from->words, number(status));
}

static int needs_others(const cased *it, const char *name) {
    for (size_t i = 0; i < it->pieces_many; i++) {
        if (strcmp(it->pieces[i].name, name) == 0 && it->pieces[i].words) return 1;
    }
    return 0;
}

/* Makes a file, which is named first by this part. */
static char *make_file(const cased *it, size_t first, const char *folder) {
    const char *name = it->pieces[first].name;
    bytes all = {0};
    char *wrong = 0;
    FILE *file;
    add(&all, "", 0);
    for (size_t i = first; i < it->pieces_many && !wrong; i++) {
        if (strcmp(it->pieces[i].name, name) == 0) wrong = add_part(&it->pieces[i], folder, &all);
    }
    if (wrong) return wrong;
    file = fopen(path_of(folder, name), "wb");
    if (!file || fwrite(all.at, 1, all.many, file) != all.many || fclose(file) != 0) return "has no files: they can't be written";
    return 0;
}

static int is_first(const cased *it, size_t at) {
    for (size_t i = 0; i < at; i++) {
        if (strcmp(it->pieces[i].name, it->pieces[at].name) == 0) return 0;
    }
    return 1;
}

/* Those that the program makes of others come last. */
static char *make_files(const cased *it, const char *folder) {
    char *wrong = 0;
    for (int late = 0; late < 2; late++) {
        for (size_t i = 0; i < it->pieces_many && !wrong; i++) {
            if (is_first(it, i) && needs_others(it, it->pieces[i].name) == late) wrong = make_file(it, i, folder);
        }
    }
    return wrong;
}

static char *difference(const cased *it, long status, bytes out) {
    bytes lines = {0};
    add_text(&lines, joined(it->text));
    if (status != it->row->status) {
        return text(text("ended with %s instead of %s, and printed %%s%%s", number(status), number(it->row->status)), shown(&out), "");
    }
    if (it->row->in_ticks) out = stamps_as_ticks(&out);
    if (!fits(it->text, &out)) return text("printed %s instead of %s", shown(&out), shown(&lines));
    for (size_t i = 0; i < it->row->only_many; i++) {
        bytes found = lines_from(it->onlys[i].start, &out), wanted = {0};
        text_of(it->onlys[i].lines, &wanted);
        if (found.many != wanted.many || memcmp(found.at, wanted.at, found.many) != 0) {
            return text("has these lines from %s: %s", it->onlys[i].start, shown(&found));
        }
    }
    return 0;
}

static void run_case(const cased *it) {
    char *folder = path_of(work, "XXXXXX"), *no_files;
    bytes first = {0};
    if (!mkdtemp(folder)) exit(1);
    no_files = make_files(it, folder);
    for (size_t i = 0; i < it->calls.many; i++) {
        bytes out = {0}, beside = {0};
        long status = 0;
        char *wrong = no_files ? no_files : called(words_of(it->calls.at[i]), folder, &status, &out, &beside);
        int is_called = !wrong;
        if (is_called) wrong = difference(it, status, out);
        if (is_called && !wrong && beside.many) wrong = text("printed %s on standard error%s", shown(&beside), "");
        if (is_called && !wrong && first.at && (first.many != out.many || memcmp(first.at, out.at, out.many) != 0)) {
            wrong = text("printed %s, and its row's first call %s", shown(&out), shown(&first));
        }
        if (is_called && !first.at) first = out;
        if (wrong) report(it->of->group, it->title, it->calls.at[i], wrong);
        else passed++;
    }
    for (size_t i = 0; i < it->pieces_many; i++) unlink(path_of(folder, it->pieces[i].name));
    rmdir(folder);
}

/* The bytes of an example's word, in which \0 and up to three octal digits are one. */
static char *octal(const char *word) {
    bytes made = {0};
    add(&made, "", 0);
    while (*word) {
        char byte = *word++;
        if (byte == '\\' && *word == '0') {
            int value = 0;
            word++;
            for (int i = 0; i < 3 && *word >= '0' && *word <= '7'; i++) value = 8 * value + *word++ - '0';
            byte = (char)value;
        }
        add(&made, &byte, 1);
    }
    return made.at;
}

/* An example: a status, the file with the expected text, and words. */
static void run_example(const char *line) {
    bytes out = {0}, beside = {0}, wanted = {0};
    char *folder = path_of(top, "examples"), *wrong;
    const char *expected = strchr(line, ' ') + 1, *call = strchr(expected, ' ');
    list raw = {0}, words = {0};
    long status;
    if (call) raw = split(call + 1, ' ');
    for (size_t i = 0; i < raw.many; i++) push(&words, octal(raw.at[i]));
    wrong = called(words, folder, &status, &out, &beside);
    if (!wrong && !read_file(path_of(folder, call ? cut(expected, call) : (char *)expected), &wanted)) wrong = "has no expected text";
    if (!wrong && (status != atol(line) || out.many != wanted.many || memcmp(out.at, wanted.at, out.many) != 0)) {
        wrong = text("ended with %s and printed %s", number(status), shown(&out));
    }
    if (wrong) report("examples", "", call ? call + 1 : "", wrong);
    else passed++;
}

/* Runs each of the cases and examples whose number is this one, in turn. */
static void run_lane(list examples, size_t lane, size_t lanes) {
    for (size_t i = lane; i < cases_many; i += lanes) run_case(&cases[i]);
    for (size_t i = lane; i < examples.many; i += lanes) {
        if (isdigit((unsigned char)*examples.at[i])) run_example(examples.at[i]);
    }
}

/* Runs them all, in as many processes as there are processors. Each leaves its counts in a pipe. */
static int run_all(void) {
    bytes commands = {0};
    list examples = {0};
    long counts[2];
    int ends[2];
    size_t lanes = (size_t)sysconf(_SC_NPROCESSORS_ONLN);
    char *room = work;
    if (lanes < 1 || lanes > MOST_LANES) lanes = 1;
    if (read_file(path_of(top, "examples/commands"), &commands)) examples = split(commands.at, '\n');
    if (pipe(ends) != 0) return 1;
    for (size_t lane = 0; lane < lanes; lane++) {
        if (!mkdtemp(work = path_of(room, "XXXXXX"))) return 1;
        if (fork() == 0) {
            run_lane(examples, lane, lanes);
            unlink(path_of(work, "out"));
            unlink(path_of(work, "beside"));
            rmdir(work);
            counts[0] = passed;
            counts[1] = failed;
            _exit(write(ends[1], counts, sizeof counts) == sizeof counts ? 0 : 1);
        }
    }
    close(ends[1]);
    for (size_t heard = 0; heard < lanes; heard++) {
        if (read(ends[0], counts, sizeof counts) != sizeof counts) {
            fputs("run: a process of the runner broke down\n", stderr);
            return 1;
        }
        passed += counts[0];
        failed += counts[1];
    }
    while (wait(0) > 0) { }
    rmdir(room);
    printf("%ld passed, %ld failed\n", passed, failed);
    return failed || !passed;
}

int main(int many, char **words) {
    char room[] = "/tmp/kbd48-rows-XXXXXX";
    if (many < 3 || many > 4) {
        fputs("usage: run TOP PROGRAM [SECONDS] | run TOP --list\n", stderr);
        return 2;
    }
    top = words[1];
    program = words[2];
    if (many == 4) seconds = (unsigned)atoi(words[3]);
    read_cases(top);
    if (strcmp(program, "--list") == 0) {
        for (size_t i = 0; i < cases_many; i++) {
            for (size_t j = 0; j < cases[i].calls.many; j++) printf("%s: %s: kbd48 %s\n", cases[i].of->group, cases[i].title, cases[i].calls.at[j]);
        }
        return 0;
    }
    if (access(program, X_OK) != 0 || !mkdtemp(work = room)) {
        fprintf(stderr, "run: %s isn't a program, or there is no room in /tmp\n", program);
        return 1;
    }
    return run_all();
}
