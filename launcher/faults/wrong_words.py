"""Words that the program refuses: which of them is wrong, and what would be right. The forms are those of the man page."""
from __future__ import annotations

import os
import re
import shlex
import subprocess
from dataclasses import dataclass
from pathlib import Path

from . import kinds, vcd
from .near import nearest

FORMS = Path(__file__).resolve().parent.parent / "forms"
# Words that people say for a command.
OTHERS = {
    "assemble": "asm", "assembler": "asm", "as": "asm", "disasm": "list", "disassemble": "list", "dump": "list", "listing": "list",
    "build": "compile", "make": "compile", "firmware": "compile", "image": "compile", "simulate": "run", "sim": "run", "emulate": "run",
    "execute": "run", "exec": "run", "start": "run", "model": "expect", "wave": "trace", "waves": "trace", "vcd": "capture", "wires": "trace",
    "decode": "capture", "analyse": "capture", "analyze": "capture", "captured": "capture", "listen": "capture", "sniff": "capture",
    "debugger": "debug", "gdb": "debug", "certify": "cert", "check": "cert", "keys": "type", "typing": "type", "bench": "sample",
    "benchmark": "sample", "scan": "words", "feed": "words", "byte": "words", "bytes": "words", "single": "step", "trial": "sample",
}
COUNTS = {"step": (0, 1_000_000, "a number of steps"), "sample": (1, 10_000, "a number of strokes")}
MOST_BYTES = 4096
# Options of other programs that name the file for the text.
OUTPUTS = ("-o", "--output", "--out")
# A line that would be right may take as many corrections.
MOST_CORRECTIONS = 4
FILES = {"IMAGE": "hex", "SOURCE": "asm", "LAYOUT": "layout", "KEYS": "keys", "SCRIPT": "script", "CERT": "cert", "TEXT": "text", "DUMP": "vcd"}
WHAT = {
    "IMAGE": "a HEX image", "SOURCE": "an assembler source", "LAYOUT": "a layout", "KEYS": "a key file", "SCRIPT": "a script",
    "CERT": "a certificate", "TEXT": "a text", "DUMP": "a value change dump", "COUNT": "a number", "BYTE": "a byte",
    "CLOCK": "the clock's signal", "DATA": "the data wire's signal",
}
# A file of the repository for each operand, for what is to be copied.
SAMPLES = {
    "IMAGE": "examples/us84.hex", "SOURCE": "examples/four_keys.asm", "LAYOUT": "examples/us84.toml", "KEYS": "examples/typing_hi.keys",
    "SCRIPT": "examples/make_code.script", "CERT": "examples/delay.cert", "TEXT": "examples/hello.text", "DUMP": "examples/captures/right.vcd", "COUNT": "25", "BYTE": "1C",
}


@dataclass(frozen=True)
class Form:
    """A command's form: its line, its operands, the names of signals that may follow them, both or none, and its options; each
    option with whether a BYTE follows it. An option before the operands is the first of them."""

    line: str
    command: str
    operands: list[str]
    signals: list[str]
    options: dict[str, bool]


@dataclass(frozen=True)
class Wrong:
    """The word that is wrong, by its place among the words (their number, if one is missing), and what is to say of it; a line of
    words that would be right."""

    at: int
    why: str
    right: list[str] | None = None


def forms():
    """The form of each command; another one that begins with an option is found by both words."""
    printed = subprocess.run([FORMS], stdout=subprocess.PIPE, check=True, text=True).stdout
    found = {}
    for line in map(str.strip, printed.splitlines()):
        words = re.sub(r"\[[^]]*\]", "", line).split()[1:]
        options = {it: bool(value) for it, value in re.findall(r"(--\w+)( BYTE)?", line) if it not in words}
        signals = " ".join(re.findall(r"\[([A-Z ]+)\]", line)).split()
        found[" ".join(words[: 2 if words[1].startswith("-") else 1])] = Form(line, words[0], [it for it in words[1:] if it != "..."], signals, options)
    return found


def form_of(words, every):
    """The form that the words are to have, or None if their first is no command."""
    return every.get(" ".join(words[:2])) or every.get(words[0])


def leading(form, every):
    """The options that come right after a command, before its operands."""
    return [it.operands[0] for it in every.values() if it.command == form.command and it.operands[0].startswith("-")]


def shown(words):
    """Words as a shell reads them, with nothing in them that would move the cursor; the launcher's copy of the standard input is - again."""
    stdin = os.environ.get("KBD48_STDIN")
    plain = ("-" if stdin and word == stdin else word for word in words)
    return " ".join(shlex.quote("".join(it if it.isprintable() else "?" for it in word)) for word in plain)


def explained(words):
    """The lines that say which word is wrong."""
    every = forms()
    if not words:
        return ["no command is given; the forms are", *(f"  {it.line}" for it in every.values())]
    if words[0] not in every:
        return [*of_no_command(words, every), "the forms are", *(f"  {it.line}" for it in every.values())]
    form = form_of(words, every)
    wrong = first_wrong(form, words, every)
    if not wrong:
        return [f"the form is {form.line}"]
    given, before = shown(["kbd48", *words]), shown(["kbd48", *words[: wrong.at]])
    width = len(shown(words[wrong.at : wrong.at + 1])) or 1
    lines = [given, " " * (len(before) + 1) + "^" * width, wrong.why]
    right = corrected(wrong.right, every)
    if right is not None:
        lines.append(f"did you mean {shown(['kbd48', *right])}")
        form = form_of(right, every)
    return [*lines, f"the form is {form.line}; kbd48 {form.command} --help says more"]


def corrected(right, every):
    """A line of words in which nothing is wrong, or None if there is none to suggest."""
    for _ in range(MOST_CORRECTIONS):
        wrong = right and first_wrong(form_of(right, every), right, every)
        if not wrong:
            return right and with_signals(form_of(right, every), right)
        right = wrong.right
    return None


def with_signals(form, words):
    """The words with the names of the dump's two signals, if they must be said; None if it isn't known which they are."""
    if not form.signals or len(words) != 1 + len(form.operands) or not os.path.isfile(words[-1]):
        return words
    signals = vcd.signals_of(words[-1])
    if {*vcd.USUAL} <= {*signals}:
        return words
    return [*words, *signals] if len(signals) == 2 else None


def of_no_command(words, every):
    """What is said of a first word that is no command."""
    word = words[0]
    plain = word.lstrip("-").lower()
    if os.path.isfile(word):
        kind = kinds.of_file(word)
        return [f"{word} is a file, and a command comes first" + (f": {kinds.said(kind, word)}" if kind else "")]
    if plain == "help" and words[1:2] and words[1] in every:
        return [f"kbd48 {words[1]} --help says more of it"]
    if plain in ("prove", "test", "help", "version", "completion"):
        return [f"{word}: did you mean kbd48 --{plain}? It is given alone"]
    commands = [it.command for it in every.values()]
    meant = plain if plain in commands else OTHERS.get(plain) or nearest(plain, [*commands, *OTHERS])
    meant = OTHERS.get(meant, meant)
    return [f"there is no command {shown([word])}" + (f"; did you mean {shown(['kbd48', meant, *words[1:]])}" if meant else "")]


def first_wrong(form, words, every):
    """The first word that is wrong, or None."""
    if form.command == "words":
        return wrong_byte(words)
    for at, word in enumerate(words[2:], 2):
        if word in leading(form, every):
            return late(words, at)
    names = words[1 : 1 + len(form.operands)]
    for at, operand in enumerate(form.operands, 1):
        wrong = wrong_operand(form, words, at, operand, every)
        if wrong:
            return wrong
    at = len(names) + 1
    return wrong_signals(form, words, at, every) or wrong_rest(form, words, at + len(words[at : at + len(form.signals)]), every)


def late(words, at):
    """An option that isn't right after the command. The layout comes before the dump."""
    names = words[1:at] + words[at + 1 :]
    if words[at] in names:
        return Wrong(at, f"{words[at]} is there twice", [words[0], *names])
    if [(kinds.of_file(it) or {}).get("kind") for it in names[:2] if os.path.isfile(it)] == [FILES["DUMP"], FILES["LAYOUT"]]:
        names[:2] = reversed(names[:2])
    return Wrong(at, f"{words[at]} comes right after {words[0]}", [words[0], words[at], *names])


def wrong_operand(form, words, at, operand, every):
    """What is wrong with the word in an operand's place."""
    if operand.startswith("-"):
        return None
    if at >= len(words):
        return missing(form, words, at, operand)
    word = words[at]
    if operand == "COUNT":
        return (wrong_option(form, words, at, every) if word.startswith("--") else None) or wrong_count(form, words, at)
    if word == "":
        return Wrong(at, f"the name of {WHAT[operand]} is empty: a variable of the shell may have no value")
    if word.startswith("-") and word != "-":
        return misplaced_option(form, words, at, operand, every)
    if operand == "IMAGE" and form.command == "step" and word.isdigit() and not os.path.exists(word):
        image = words[at + 1] if words[at + 1 : at + 2] else SAMPLES["IMAGE"]
        return Wrong(at, "the image comes before the number of steps", [form.command, image, word])
    return None


def missing(form, words, at, operand):
    """A word that isn't there. A file that is there may be another one's."""
    given = words[1:at]
    kinds_given = {name: (kinds.of_file(name) or {}) for name in given if os.path.isfile(name)}
    for place, (name, kind) in enumerate(zip(given, form.operands), 1):
        found = kinds_given.get(name)
        if found and kind in FILES and found["kind"] != FILES[kind] and found["kind"] in [FILES.get(it) for it in form.operands]:
            by_kind = {it["kind"]: other for other, it in kinds_given.items() if it}
            rest = [by_kind.get(FILES.get(it)) or sample_beside(it, given) for it in form.operands]
            return Wrong(place, f"{shown([name])} is {found['is']}, and {WHAT[kind]} comes in its place", [form.command, *rest])
        if found == {} and kind == "LAYOUT" and operand == "TEXT":
            return Wrong(place, f"{shown([name])} isn't a layout, which comes before the text", [form.command, SAMPLES["LAYOUT"], name])
    why = {"COUNT": f"{COUNTS.get(form.command, (0, 0, 'a number'))[2]} is missing"}.get(operand, f"{operand} is missing: {WHAT[operand]}")
    return Wrong(at, why, [form.command, *given, *(sample_beside(it, given) for it in form.operands[at - 1 :])])


def sample_beside(operand, given):
    """A file for an operand: of an image the one beside a file that is given, or else the sample. An option is itself."""
    if operand.startswith("-"):
        return operand
    images = (os.path.splitext(name)[0] + ".hex" for name in given) if operand == "IMAGE" else ()
    return next((it for it in images if os.path.isfile(it)), SAMPLES[operand])


def misplaced_option(form, words, at, operand, every):
    """A word with a dash in a file's place."""
    word = words[at].split("=")[0]
    if word in form.options:
        taken = 2 if form.options[word] else 1
        rest = words[1:at] + words[at + taken :]
        enough = len(rest) >= len(form.operands)
        return Wrong(at, "options come after the files", [form.command, *rest, *words[at : at + taken]] if enough else None)
    wrong = wrong_option(form, words, at, every)
    return wrong or Wrong(at, f"{WHAT[operand]} is to be named here, and a file's name doesn't begin with -: write ./{words[at]} for such a file")


def wrong_count(form, words, at):
    """What is wrong with a COUNT."""
    least, most, what = COUNTS[form.command]
    word = words[at]
    if re.fullmatch(r"[0-9]{1,7}", word) and least <= int(word) <= most:
        return None
    right = None
    plain = re.sub(r"[,_'. ](?=\d{3}\b)", "", word)
    if re.fullmatch(r"[0-9]+", plain) and least <= int(plain) <= most:
        right = str(int(plain))
    elif found := re.fullmatch(r"(?:0x|\$)([0-9a-f]+)|([0-9][0-9a-f]*)h", word, re.IGNORECASE):
        right = str(int(found[1] or found[2], 16))
    elif found := re.fullmatch(r"([0-9]+)(k|e3)", word, re.IGNORECASE):
        right = f"{found[1]}000"
    elif found := re.fullmatch(r"\+([0-9]+)", word):
        right = found[1]
    fits = right is not None and least <= int(right) <= most
    return Wrong(at, f"{shown([word])} is no COUNT: {what}, from {least} to {most:,}, in decimal digits alone",
                 [*words[:at], right, *words[at + 1 :]] if fits else None)


def wrong_byte(words):
    """What is wrong with the bytes of `words`."""
    if len(words) == 1:
        return Wrong(1, "a BYTE is missing: two hexadecimal digits, as the keyboard sends them", ["words", "1C", "F0", "1C"])
    for at, word in enumerate(words[1:], 1):
        if re.fullmatch("[0-9A-Fa-f]{2}", word):
            continue
        right = [it for other in words[1:] for it in bytes_in(other)]
        fits = all(re.fullmatch("[0-9A-Fa-f]{2}", it) for it in right)
        if os.path.isfile(word):
            return Wrong(at, f"{word} is a file, and words takes bytes of two hexadecimal digits: xargs kbd48 words < {shlex.quote(word)} gives it those of a file")
        return Wrong(at, f"{shown([word])} is no BYTE: two hexadecimal digits, without 0x, h or a comma", ["words", *right] if fits else None)
    return Wrong(MOST_BYTES + 1, f"there are {len(words) - 1:,} bytes, and at most {MOST_BYTES:,} are taken") if len(words) - 1 > MOST_BYTES else None


def bytes_in(word):
    """The bytes that a word of another form writes."""
    parts = [it for it in re.split(r"[\s,;:]+", word) if it]
    found = []
    for part in parts:
        digits = re.sub(r"^(0x|\\x|\$|x)|h$", "", part, flags=re.IGNORECASE)
        if re.fullmatch("[0-9A-Fa-f]+", digits) and (len(digits) % 2 == 0 or len(digits) == 1):
            digits = digits.rjust(2, "0")
            found += [digits[it : it + 2].upper() for it in range(0, len(digits), 2)]
        else:
            found.append(part)
    return found


def wrong_signals(form, words, at, every):
    """What is wrong with the names of signals, which are there both or not at all."""
    given = words[at : at + len(form.signals)]
    for place, (word, signal) in enumerate(zip(given, form.signals), at):
        if word == "":
            return Wrong(place, f"the name of {WHAT[signal]} is empty: a variable of the shell may have no value")
        wrong = wrong_option(form, words, place, every)
        if wrong:
            return wrong
    if len(given) != 1:
        return None
    signals = vcd.signals_of(words[at - 1])
    if given[0] not in signals and (re.search(r"\.\w+$", given[0]) or os.path.isfile(given[0])):
        return extra(form, words, at)
    right = [*words, *(it for it in signals if it != given[0])] if given[0] in signals and len(signals) == 2 else words[:at]
    return Wrong(at + 1, f"{form.signals[1]} is missing: the name of {WHAT[form.signals[1]]}", right)


def wrong_rest(form, words, at, every):
    """What is wrong with the words after the operands: options, or nothing."""
    seen = []
    while at < len(words):
        word = words[at]
        if word not in form.options:
            return wrong_option(form, words, at, every) or extra(form, words, at)
        if word in seen:
            return Wrong(at, f"{word} is there twice", words[:at] + words[at + 1 + form.options[word] :])
        others = [it for it in ("--steps", "--trace", "--seen") if it in (word, *seen)]
        if form.command == "board" and len(others) == 2:
            return Wrong(at, f"{others[0]} and {others[1]} exclude each other", words[:at] + words[at + 1 :])
        seen.append(word)
        if form.options[word]:
            at += 1
            value = words[at] if at < len(words) else ""
            if not re.fullmatch("[0-9A-Fa-f]{2}", value):
                right = bytes_in(value)
                fits = len(right) == 1 and re.fullmatch("[0-9A-F]{2}", right[0])
                why = f"a BYTE is missing after {word}: two hexadecimal digits" if at >= len(words) else f"{shown([value])} is no BYTE: two hexadecimal digits"
                return Wrong(at, why, [*words[:at], right[0] if fits else "55", *words[at + 1 :]] if fits or at >= len(words) else None)
        at += 1
    return None


def wrong_option(form, words, at, every):
    """What is wrong with a word that has the form of an option, or None if it has another one."""
    word = words[at]
    if not word.startswith("-") or word == "-":
        return None
    name, equals, value = word.partition("=")
    if name in OUTPUTS:
        return output_named(form, words, at, value, every)
    if equals and name in form.options:
        given = [name, *([value] if form.options[name] else [])]
        return Wrong(at, "a blank is between an option and its value" if form.options[name] else f"{name} has no value", [*words[:at], *given, *words[at + 1 :]])
    if equals and name in leading(form, every):
        after = every[f"{form.command} {name}"].operands[1].lower()
        return Wrong(at, f"a blank is between {name} and the {after}", [*words[:at], name, value, *words[at + 1 :]])
    without = words[:at] + words[at + 1 + has_value(form, words, at) :]
    options = [*form.options, *(it for it in leading(form, every) if it not in words)]
    others = [it.command for it in every.values() if name in it.options or (name in it.operands and it.command != form.command)]
    if others:
        mine = f"; the options of {form.command} are {' '.join(options)}" if options else f"; {form.command} has no options"
        return Wrong(at, f"{name} is an option of {' and '.join(others)}{mine}", without)
    meant = nearest(name.lstrip("-"), [it.lstrip("-") for it in options])
    if meant:
        return Wrong(at, f"there is no option {name}", [*words[:at], f"--{meant}", *words[at + 1 :]])
    what = f"its options are {' '.join(options)}" if options else f"{form.command} has no options"
    return Wrong(at, f"there is no option {shown([name])}: {what}", without)


def has_value(form, words, at):
    """Whether the word after an unknown option is its value: no file, and one more than the command takes."""
    plain = [it for it in words[1:] if not it.startswith("-")]
    after = words[at + 1] if at + 1 < len(words) else "-"
    return not after.startswith("-") and not os.path.isfile(after) and len(plain) > len(form.operands)


def output_named(form, words, at, value, every):
    """An option that would name the file for the text."""
    named = value or (words[at + 1] if at + 1 < len(words) else "FILE")
    left = words[:at] + words[at + (1 if value else 2) :]
    right = shown(["kbd48", *(corrected(left, every) or left)])
    return Wrong(at, f"{form.command} names no file for its text, which goes to the standard output: {right} > {shlex.quote(named)}")


def extra(form, words, at):
    """A word too many: often the file into which the text is to go, or a sign of the shell's."""
    word, right = words[at], words[:at]
    if word.isidentifier() and f"--{word}" in form.options:
        return Wrong(at, f"{word} is an option, which begins with --", [*right, f"--{word}", *words[at + 1 :]])
    if at == len(words) - 1 and re.search(r"\.\w+$", word) and not os.path.exists(word):
        said = shown(["kbd48", *(with_signals(form, right) or right)])
        return Wrong(at, f"{form.command} names no file for its text, which goes to the standard output: {said} > {shlex.quote(word)}")
    if os.path.isfile(word) and len(form.operands) == 1 and form.operands[0] in FILES:
        return Wrong(at, f"{form.command} takes one file at a time", right)
    return Wrong(at, f"{shown([word])} is a word too many", right)
