"""A QEMU that runs: its monitor types, and its guest prints."""
import json
import os
import subprocess
import time
from contextlib import contextmanager
from pathlib import Path

from building import EXAMPLES, LINUX
from debian import Failure

LINUX_WORDS = "console=ttyS0 console=tty0 nosmp rdinit=/bin/sh"  # its shell reads the keyboard, its messages go to the serial port
SECONDS = 60  # a guest that takes longer hangs
LAST, LAST_WORD = "ctrl-minus", "0C1F"  # the stroke that ends a session


class Machine:
    """A QEMU that runs."""

    def __init__(self, build, kind, options, load):
        self.cache = build.cache
        self.printed, self.log = self.cache / "printed", self.cache / "log"
        for file in (self.printed, self.log):
            file.unlink(missing_ok=True)
        words = [self.cache / f"qemu-{kind}", "-M", options.get("machine", "isapc"), "-L", build.root / "usr/share/seabios",
                 "-display", "none", "-vga", "none", "-nic", "none", "-parallel", "none", "-qmp", "stdio",
                 "-global", "apic-common.vapic=off"]  # its rom isn't built
        words += self.linux(build) if options.get("linux") else self.sector()
        if options.get("bios"):
            words += ["-bios", options["bios"]]
        if load:
            words += ["-incoming", f"exec:cat {load}"]
        environment = {**os.environ, "LD_LIBRARY_PATH": build.environment()["LD_LIBRARY_PATH"], "KBD48_LOG": str(self.log),
                       "KBD48_LAYOUT": str(EXAMPLES / "us84.toml"), "KBD48_IMAGE": str(self.cache / "us84.bin")}
        environment.pop("KBD48_HELP", None)
        if options.get("help"):
            environment["KBD48_HELP"] = options["help"]
        self.process = subprocess.Popen([str(word) for word in words], env=environment, stdin=subprocess.PIPE,
                                        stdout=subprocess.PIPE, stderr=subprocess.DEVNULL, text=True)
        self.process.stdout.readline()
        self.ask("qmp_capabilities")

    def sector(self):
        """It boots our sector, which prints to QEMU's debugging port."""
        return ["-m", "8", "-serial", "null", "-drive", f"format=raw,snapshot=on,file={self.cache}/words.img", "-chardev",
                f"file,id=printed,path={self.printed}", "-device", "isa-debugcon,iobase=0xe9,chardev=printed"]

    def linux(self, build):
        """It boots Linux, which prints to the serial port."""
        return ["-m", "192", "-cpu", "pentium3", "-serial", f"file:{self.printed}", "-L", build.build / "pc-bios" / "optionrom",
                "-kernel", build.root / LINUX / "linux", "-initrd", build.root / LINUX / "initrd.gz", "-append", LINUX_WORDS]

    def ask(self, command, **arguments):
        """What the monitor returns for a command. Events are left out."""
        self.process.stdin.write(json.dumps({"execute": command, "arguments": arguments}) + "\n")
        self.process.stdin.flush()
        for line in self.process.stdout:
            answer = json.loads(line)
            if "return" in answer:
                return answer["return"]
            if "error" in answer:
                raise Failure(f"QEMU's monitor says: {answer['error']['desc']}")
        raise Failure(f"QEMU ended with {self.process.wait()}")

    def press(self, keys, ms=60, pause=0.06):
        """Strokes one after another, each key down for so many milliseconds."""
        for key in keys:
            self.ask("human-monitor-command", **{"command-line": f"sendkey {key} {ms}"})
            time.sleep(ms / 1000 + pause)

    def edge(self, key, down):
        """A key goes down or up."""
        event = {"type": "key", "data": {"down": down, "key": {"type": "qcode", "data": key}}}
        self.ask("input-send-event", events=[event])

    def words(self):
        """What the guest has printed since it was booted first, or loaded."""
        return self.printed.read_text(errors="replace").split() if self.printed.exists() else []

    def wait(self, done, seconds=SECONDS):
        """Until the words that were printed are enough, or the time is over. Whether they are."""
        for _ in range(seconds * 10):
            if done(self.words()):
                return True
            time.sleep(0.1)
        return False

    def wait_for_boot(self, boots=1):
        """Until the guest has begun to ask for keys."""
        return self.wait(lambda words: words.count("booted") == boots and words[-3:-2] == ["booted"])

    def typed(self, keys, ms=60, pause=0.06):
        """The words that these strokes make."""
        before = len(self.words())
        self.press([*keys, LAST], ms, pause)
        self.wait(lambda words: LAST_WORD in words[before:], 10)
        return [word for word in self.words()[before:] if word != LAST_WORD]

    def save(self, file):
        """Stops the machine, and saves its state."""
        self.ask("stop")
        self.ask("migrate", uri=f"exec:cat > {file}")
        self.until(lambda: self.ask("query-migrate").get("status") == "completed")

    def go_on(self):
        """The machine goes on after its state was loaded."""
        self.until(lambda: self.ask("query-status")["status"] == "paused")
        self.ask("cont")

    def until(self, done):
        """Until it is done; or it isn't done in time."""
        for _ in range(SECONDS * 10):
            if done():
                return
            time.sleep(0.1)
        raise Failure("QEMU saves or loads no state")

    def ticks(self):
        """The processor's time that it took, in seconds."""
        fields = Path(f"/proc/{self.process.pid}/stat").read_text().rsplit(")", 1)[1].split()
        return (int(fields[11]) + int(fields[12])) / os.sysconf("SC_CLK_TCK")


@contextmanager
def machine(build, kind, load=None, **options):
    """A machine, until it is no more needed."""
    made = Machine(build, kind, options, load)
    try:
        yield made
    finally:
        made.process.kill()
        made.process.wait()
