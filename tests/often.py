"""often: a program that is loaded once and begun often. Each call is a process of its own, forked where the C library's start
of the program is called, so nothing of an earlier call is in it; loading and linking, which is most of a start, is done
once. It needs `cc`. It is no command: tests/hostile and tests/outputs read it."""
import os
import resource
import select
import signal
import struct
import subprocess

# It stands before the C library's start of a program. Requests come on standard input: how many words, how many bytes, and
# the words, each with its zero; answers go to standard output: the status, and the processor time in microseconds. What a
# call prints, and what it says on standard error, go into the two files that its first words name.
SOURCE = r"""
#define _GNU_SOURCE
#include <dlfcn.h>
#include <fcntl.h>
#include <stdint.h>
#include <stdlib.h>
#include <sys/mman.h>
#include <sys/resource.h>
#include <sys/wait.h>
#include <unistd.h>

enum { ROOM = 1 << 22, WORDS = 1 << 16 };

typedef int (*Main)(int, char **, char **);
typedef int (*Start)(Main, int, char **, void (*)(void), void (*)(void), void (*)(void), void *);

static void take(void *to, size_t size) {
    for (char *at = to; size > 0;) {
        ssize_t got = read(0, at, size);
        if (got <= 0) _exit(got < 0);
        at += got;
        size -= got;
    }
}

static void open_as(int as, const char *name, int flags) {
    int made = open(name, flags, 0600);
    if (made < 0 || dup2(made, as) < 0) _exit(98);
    close(made);
}

// In the child alone it comes back, with the words of a call; behind them stands an empty environment.
static int serve(char *seconds, char ***words) {
    char *text = mmap(NULL, ROOM, PROT_READ | PROT_WRITE, MAP_PRIVATE | MAP_ANONYMOUS, -1, 0);
    char **all = mmap(NULL, WORDS * sizeof *all, PROT_READ | PROT_WRITE, MAP_PRIVATE | MAP_ANONYMOUS, -1, 0);
    rlim_t limit = strtoul(seconds, NULL, 10);
    if (text == MAP_FAILED || all == MAP_FAILED) _exit(97);
    for (;;) {
        uint32_t sizes[2];
        take(sizes, sizeof sizes);
        if (sizes[0] < 3 || sizes[0] > WORDS - 2 || sizes[1] > ROOM) _exit(96);
        take(text, sizes[1]);
        char *at = text;
        for (uint32_t i = 0; i < sizes[0]; i++) {
            all[i] = at;
            while (*at++) { }
        }
        all[sizes[0]] = all[sizes[0] + 1] = NULL;
        pid_t child = fork();
        if (child == 0) {
            if (setrlimit(RLIMIT_CPU, &(struct rlimit){limit, limit + 1}) != 0) _exit(95);
            open_as(0, "/dev/null", O_RDONLY);
            open_as(1, all[0], O_WRONLY | O_CREAT | O_TRUNC);
            open_as(2, all[1], O_WRONLY | O_CREAT | O_TRUNC);
            *words = all + 2;
            return sizes[0] - 2;
        }
        int status;
        struct rusage used;
        if (child < 0 || wait4(child, &status, 0, &used) != child) _exit(94);
        int64_t answer[2];
        answer[0] = WIFSIGNALED(status) ? -WTERMSIG(status) : WEXITSTATUS(status);
        answer[1] = (used.ru_utime.tv_sec + used.ru_stime.tv_sec) * 1000000 + used.ru_utime.tv_usec + used.ru_stime.tv_usec;
        if (write(1, answer, sizeof answer) != sizeof answer) _exit(93);
    }
}

int __libc_start_main(Main main, int count, char **words, void (*begin)(void), void (*end)(void), void (*linker)(void), void *stack) {
    Start start = (Start)dlsym(RTLD_NEXT, "__libc_start_main");
    if (count != 2) _exit(98);
    count = serve(words[1], &words);
    return start(main, count, words, begin, end, linker, stack);
}
"""


def made(work):
    """The library that makes a program begin often, built in this folder."""
    source, library = os.path.join(work, "often.c"), os.path.join(work, "often.so")
    with open(source, "w", encoding="ascii") as out:
        out.write(SOURCE)
    subprocess.run(["cc", "-O1", "-shared", "-fPIC", "-o", library, source, "-ldl"], check=True)
    return library


def alone(program, words, seconds, waiting):
    """A call by a start of its own: its status (None where it doesn't end), what it prints, and that on standard error."""
    with subprocess.Popen([program, *words], stdin=subprocess.DEVNULL, stdout=subprocess.PIPE, stderr=subprocess.PIPE,
                          close_fds=False) as child:
        resource.prlimit(child.pid, resource.RLIMIT_CPU, (seconds, seconds + 1))
        try:
            out, err = child.communicate(timeout=waiting)
        except subprocess.TimeoutExpired:
            child.kill()
            return None, b"", b""
        return child.returncode, out, err


class Often:
    """A program that was loaded, with the processor time that each of its calls may take, and the time to wait for one."""

    def __init__(self, program, library, work, seconds, waiting):
        self.program, self.library, self.seconds, self.waiting = program, library, seconds, waiting
        self.work, self.longest, self.child = work, 0, None

    def begin(self):
        """Loads the program."""
        self.child = subprocess.Popen([self.program, str(self.seconds)], stdin=subprocess.PIPE, stdout=subprocess.PIPE,
                                      env={"LD_PRELOAD": self.library}, process_group=0)

    def end(self):
        """Ends it, with a call that still goes on."""
        if self.child:
            os.killpg(self.child.pid, signal.SIGKILL)
            self.child.wait()
            self.child.stdin.close()
            self.child.stdout.close()
            self.child = None

    def place(self, number, what):
        """The file of what call `number` prints."""
        return os.path.join(self.work, "%s.%d.%d" % (what, os.getpid(), number))

    def calls(self, given):
        """What calls come to, one after another, each by its words: its status (None where it doesn't end), what it prints, and
        that on standard error."""
        answers = []
        while len(answers) < len(given):
            answers += self.some(given[len(answers):], len(answers))
        return answers

    def some(self, given, first):
        """The same of the first of these calls, however many, up to one that doesn't end."""
        if not self.child:
            self.begin()
        for number, words in enumerate(given, first):
            places = [os.fsencode(self.place(number, what)) for what in ("out", "err")]
            text = b"".join(word + b"\0" for word in [*places, b"kbd48", *words])
            self.child.stdin.write(struct.pack("II", len(words) + 3, len(text)) + text)
        self.child.stdin.flush()
        answers = []
        for number in range(first, first + len(given)):
            if not select.select([self.child.stdout], [], [], self.waiting)[0]:
                self.end()
                return [*answers, (None, b"", b"")]
            answer = os.read(self.child.stdout.fileno(), 16)
            if len(answer) < 16:
                raise RuntimeError("the program can't be begun often: %d" % self.child.wait())
            status, used = struct.unpack("qq", answer)
            self.longest = max(self.longest, used)
            answers.append((status, *(said(self.place(number, what)) for what in ("out", "err"))))
        return answers


def said(name):
    """What stands in a file, which goes."""
    with open(name, "rb") as file:
        text = file.read()
    os.unlink(name)
    return text
