"""QEMU's source, fetched from Debian, and the programs that are made of it and of our files."""
import hashlib
import os
import re
import shutil
import sys
from pathlib import Path

HERE = Path(__file__).resolve().parent
sys.path.insert(0, str(HERE.parent))
from debian import Failure, fetch, run, unpack  # noqa: E402: it is beside this folder

EXAMPLES = HERE.parent.parent
VERSION = "7.2.0"
PACKAGES = ["libglib2.0-0", "libglib2.0-dev", "libglib2.0-dev-bin", "libpcre2-dev", "libpcre2-8-0", "libffi-dev", "libmount-dev",
            "libselinux1-dev", "libsepol-dev", "libblkid-dev", "libpixman-1-dev", "libpixman-1-0", "libfdt-dev", "libfdt1",
            "zlib1g-dev", "meson", "nasm", "seabios", "bochsbios"]
INSTALLER = "debian-installer-12-netboot-i386"
LINUX = "usr/lib/debian-installer/images/12/i386/text/debian-installer/i386"
DEVICES = "CONFIG_ISAPC=y\nCONFIG_I440FX=y\nCONFIG_ISA_DEBUG=y\n"
OPTIONS = ["--target-list=i386-softmmu", "--without-default-features", "--without-default-devices", "--with-devices-i386=kbd48",
           "--enable-tcg", "--disable-tools", "--disable-guest-agent", "--disable-docs", "--disable-werror", "--disable-debug-info",
           "--disable-install-blobs", "--audio-drv-list="]
LIBRARY = ["kbd48_all.c", "libkbd48.a"]  # either is enough
HALVES = ["libkbd48_halves.a"]
# Each QEMU: which of its files has which of ours in its place, and what it is linked with.
OWN, WHOLE, KEYBOARD, CONTROLLER = "own", "whole", "keyboard", "controller"
KINDS = {
    OWN: ({}, []),
    WHOLE: ({"pckbd.c": "kbd48_pckbd.c"}, [LIBRARY]),
    KEYBOARD: ({"ps2.c": "kbd48_ps2.c"}, [LIBRARY, HALVES]),
    CONTROLLER: ({"pckbd.c": "kbd48_i8042.c"}, [HALVES]),
}
JOBS = 2
NICE = ["nice", "-n", "10"]


class Build:
    """QEMU's source, and the programs that were made of it."""

    def __init__(self, cache, library):
        self.cache, self.library = cache, library
        self.source, self.root = cache / f"qemu-{VERSION}", cache / "root"
        self.build, self.input = self.source / "build", self.source / "hw" / "input"

    def environment(self):
        """What QEMU's scripts need to find what is unpacked in the root folder."""
        libraries = self.root / "usr/lib/x86_64-linux-gnu"
        return {**os.environ, "PATH": f"/usr/bin:{os.environ['PATH']}", "LD_LIBRARY_PATH": str(libraries),
                "PYTHONPATH": str(self.root / "usr/lib/python3/dist-packages"), "PKG_CONFIG_SYSROOT_DIR": str(self.root),
                "PKG_CONFIG_LIBDIR": f"{libraries}/pkgconfig:{self.root}/usr/share/pkgconfig"}

    def prepare(self):
        """Fetches and configures, unless that was done."""
        if (self.build / "build.ninja").exists():
            return
        self.cache.mkdir(parents=True, exist_ok=True)
        archive = fetch(self.cache, "qemu", PACKAGES)
        if not archive.name.startswith(f"qemu_{VERSION[:3]}+"):
            raise Failure(f"this release has no QEMU {VERSION[:3]}")
        run(["tar", "-xf", archive, "-C", self.cache])
        for name in ("pckbd.c", "ps2.c"):
            shutil.copy(self.input / name, self.cache / name)
        (self.source / "configs/devices/i386-softmmu/kbd48.mak").write_text(DEVICES)
        rules = self.source / "meson.build"  # Debian's package has no firmware, so there is none to unpack
        rules.write_text(rules.read_text().replace("unpack_edk2_blobs = bzip2.found()", "unpack_edk2_blobs = false"))
        meson = self.root / "usr/bin/meson"
        meson.write_text(re.sub(r"\A#!.*", "#!/usr/bin/python3", meson.read_text()))
        self.link([])
        self.build.mkdir(exist_ok=True)
        words = [f"--meson={meson}", f"--extra-ldflags=-L{self.root}/usr/lib/x86_64-linux-gnu {self.cache}/library.o",
                 f"--extra-cflags=-O1 -I{self.root}/usr/include"]
        run([*NICE, "../configure", *OPTIONS, *words], cwd=self.build, env=self.environment())

    def has(self, names):
        """The first of these files that the library has, or None."""
        return next((self.library / name for name in names if (self.library / name).exists()), None)

    def kinds(self):
        """The QEMUs whose parts the library has."""
        return [kind for kind, (_, parts) in KINDS.items() if all(map(self.has, parts))]

    def object(self, file):
        """The object of a source or of an archive."""
        made, how = self.cache / f"{file.stem}.o", ["gcc", "-O2", "-c"] if file.suffix == ".c" else ["ld", "-r", "--whole-archive"]
        self.make(made, [file], lambda: run([*NICE, *how, file, "-o", made]))
        return made

    def make(self, target, sources, build):
        """Builds a target, unless it was made of the same bytes."""
        digest, note = hashlib.sha256(b"".join(file.read_bytes() for file in sources)).hexdigest(), Path(f"{target}.sum")
        if not target.exists() or not note.exists() or note.read_text() != digest:
            build()
            note.write_text(digest)

    def link(self, parts):
        """Makes the object that QEMU is linked with."""
        empty = self.cache / "empty.c"
        empty.write_text("typedef int empty;\n")
        files = [self.has(names) for names in parts] or [empty]
        run(["ld", "-r", *map(self.object, files), "-o", self.cache / "library.o"])

    def program(self, kind):
        """QEMU with these of its files replaced."""
        replaced, linked = KINDS[kind]
        headers = [*sorted(self.library.glob("kbd48*.h")), *sorted(HERE.glob("*.h"))] if replaced else []
        sources = [*(HERE / ours for ours in replaced.values()), *map(self.has, linked), *headers]
        self.make(self.cache / f"qemu-{kind}", sources, lambda: self.compile(kind, headers))

    def compile(self, kind, headers):
        """The same, in any case."""
        replaced, linked = KINDS[kind]
        for name in ("pckbd.c", "ps2.c"):
            shutil.copy(self.cache / name, self.input / name)
        for name, ours in replaced.items():
            shutil.copy(HERE / ours, self.input / name)
            shutil.copy(self.cache / name, self.input / f"qemu_{name}")
        for header in headers:
            shutil.copy(header, self.input)
        self.link(linked)
        run([*NICE, "ninja", f"-j{JOBS}", "qemu-system-i386"], cwd=self.build, env=self.environment())
        shutil.copy(self.build / "qemu-system-i386", self.cache / f"qemu-{kind}")

    def linux(self):
        """The installer's kernel, and QEMU's roms that boot it."""
        if not (self.root / LINUX).exists():
            unpack(self.cache, [INSTALLER])
        roms = self.build / "pc-bios" / "optionrom"
        run(["make", "-C", roms, "CC=cc -Wl,--build-id=none"], env=self.environment())

    def image(self):
        """The program memory of the sample layout."""
        run(["objcopy", "-I", "ihex", "-O", "binary", "--pad-to", "2048", EXAMPLES / "us84.hex", self.cache / "us84.bin"])

    def sector(self, name):
        """A boot sector of guest/."""
        sector = self.cache / f"{name}.img"
        run([self.root / "usr/bin/nasm", "-f", "bin", "-I", f"{HERE}/guest/", "-o", sector, HERE / "guest" / f"{name}.asm"])
        return sector
