#!/usr/bin/env python3
"""Prints what lab/src/boards answers in Node of every board of examples/boards, stored or drawn, as JSON: words, files, and the
status, the text and the remarks. The page must give the same. .ci/kle compares the answers with the stored ones."""

from __future__ import annotations

import json
import subprocess
import sys
from importlib.machinery import SourceFileLoader
from importlib.util import module_from_spec, spec_from_loader
from pathlib import Path

sys.dont_write_bytecode = True
BOARDS = Path(__file__).resolve().parent.parent.parent / "examples/boards"


def script(path: Path):
    """A script as a module."""
    module = module_from_spec(spec_from_loader(path.name, SourceFileLoader(path.name, str(path))))
    sys.modules[path.name] = module
    module.__loader__.exec_module(module)
    return module


def stored() -> list[tuple[list[str], dict[str, str]]]:
    """The words and the files of each stored case. The page takes no file that is no text."""
    found = []
    for line in (BOARDS / "cases").read_text(encoding="ascii").splitlines():
        if line and not line.startswith("#"):
            words = line.split()[2:]
            try:
                found.append((words, {word: (BOARDS / word).read_bytes().decode("utf-8") for word in words if (BOARDS / word).is_file()}))
            except UnicodeDecodeError:
                continue
    return found


def main() -> None:
    """Prints the answers, which one call of Node gives."""
    wild = script(BOARDS / "wild")
    boards = [*stored(), *((case.words, case.files) for case in wild.cases())]
    asked = json.dumps([{"words": words, "files": files} for words, files in boards])
    subprocess.run(["node", Path(__file__).with_name("answers.mjs")], input=asked, text=True, check=True)


if __name__ == "__main__":
    main()
