"""What the scripts here share: packages of Debian, unpacked in a folder without an installation, and a line for each try."""
import os
import re
import subprocess
from pathlib import Path

MIRROR = "http://deb.debian.org/debian"
KEYRING = "/usr/share/keyrings/debian-archive-keyring.gpg"
APT = """\
Dir::Etc::sourcelist "{apt}/sources.list";
Dir::Etc::sourceparts "-";
Dir::State "{apt}/state";
Dir::State::status "/var/lib/dpkg/status";
Dir::Cache "{apt}/cache";
APT::Sandbox::User "";
"""


class Failure(Exception):
    """Why it can't go on."""


def run(words, **options):
    """A command; what it says is shown if it fails."""
    done = subprocess.run([str(word) for word in words], stdout=subprocess.PIPE, stderr=subprocess.STDOUT, text=True, **options)
    if done.returncode:
        raise Failure(f"{' '.join(map(str, words))} ended with {done.returncode}:\n{done.stdout[-3000:]}")
    return done.stdout


def suite():
    """The name of this release of Debian."""
    words = dict(re.findall(r'^(\w+)="?([^"\n]*)', Path("/etc/os-release").read_text(), re.M))
    if words.get("ID") != "debian":
        raise Failure(f"it needs Debian, and this is {words.get('ID')}")
    return words["VERSION_CODENAME"]


def apt(work):
    """Where apt-get runs: lists and cache are in work/apt, so the system's stay as they are. What it fetches is in
    work/packages."""
    folder, packages = work / "apt", work / "packages"
    for path in (folder / "state" / "lists" / "partial", folder / "cache" / "archives" / "partial", packages):
        path.mkdir(parents=True, exist_ok=True)
    lines = [f"{kind} [signed-by={KEYRING}] {MIRROR} {suite()} main" for kind in ("deb", "deb-src")]
    (folder / "sources.list").write_text("\n".join(lines) + "\n")
    (folder / "apt.conf").write_text(APT.format(apt=folder))
    return {"cwd": packages, "env": {**os.environ, "APT_CONFIG": str(folder / "apt.conf")}}


def unpack(work, packages):
    """Packages, unpacked in work/root."""
    run(["apt-get", "download", *packages], **apt(work))
    for package in packages:
        for file in (work / "packages").glob(f"{package}_*.deb"):
            run(["dpkg", "-x", file, work / "root"])


def fetch(work, source, packages):
    """A source package as an archive in work/packages, and other packages unpacked in work/root. Returns the archive."""
    where = apt(work)
    run(["apt-get", "update"], **where)
    run(["apt-get", "--download-only", "--tar-only", "source", source], **where)
    unpack(work, packages)
    return next(where["cwd"].glob(f"{source}_*.orig.tar.*"))


class Report:
    """A line for each try."""

    def __init__(self):
        self.failed = 0

    def line(self, what, came, good):
        """What was tried, what came of it, and whether it should."""
        self.failed += not good
        print(f"{what:<34} {came:<50} {'as expected' if good else 'NOT AS EXPECTED'}", flush=True)

    def equal(self, what, came, wanted):
        """What came must be this text."""
        self.line(what, came if came == wanted else f"{came!r} in place of {wanted!r}", came == wanted)
