"""Runs scripts on another Linux kernel under an emulator: the replay is the kernel's only program, but for an init."""
from __future__ import annotations

import os
from dataclasses import dataclass, field
from pathlib import Path

from reference.machine import Machine, read

from .programs import COMPARE, Programs, Trouble, call_shapes

EMULATOR = "qemu-system-x86_64"
PATIENCE_OF_ALL = 120
DIRECTORY, PROGRAM, PLAIN, DEVICE = 0o040755, 0o100755, 0o100644, 0o020600


@dataclass
class Emulated:
    """What another kernel answered."""
    release: str = ""
    machine: Machine = field(default_factory=Machine)
    traces: dict[str, list[str]] = field(default_factory=dict)
    troubles: dict[str, str] = field(default_factory=dict)


def padded(data: bytes) -> bytes:
    """Bytes up to a multiple of four."""
    return data + bytes(-len(data) % 4)


def entry(number: int, name: str, mode: int, data: bytes = b"", device: tuple[int, int] = (0, 0)) -> bytes:
    """A file of an archive of cpio(5), in the form `newc`."""
    fields = [number, mode, 0, 0, 1, 0, len(data), 0, 0, *device, len(name) + 1, 0]
    return padded(b"070701" + b"".join(b"%08x" % value for value in fields) + name.encode() + b"\0") + padded(data)


def archive(programs: dict[str, bytes], scripts: list[Path]) -> bytes:
    """The machine's first files. Scripts are named by their place, so that names needn't differ."""
    parts = [entry(1, "dev", DIRECTORY), entry(2, "dev/console", DEVICE, device=(5, 1)), entry(3, "scripts", DIRECTORY)]
    parts += [entry(10 + at, name, PROGRAM, data) for at, (name, data) in enumerate(programs.items())]
    parts += [entry(100 + at, f"scripts/{at:06d}", PLAIN, path.read_bytes()) for at, path in enumerate(scripts)]
    return b"".join(parts) + entry(0, "TRAILER!!!", 0)


def compiled(programs: Programs, name: str, sources: list[Path]) -> bytes:
    """A program without shared libraries."""
    path = programs.folder / name
    status, _, errors = programs.run([os.environ.get("CC", "cc"), "-std=gnu11", "-O2", "-static", call_shapes(), "-o", str(path),
                                      *map(str, sorted(sources))])
    if status != 0:
        raise Trouble(f"{name} can't be compiled without shared libraries: {errors}")
    return path.read_bytes()


def read_output(text: str, scripts: list[Path]) -> Emulated:
    """What a machine told of its runs, an emulated one on its second serial line."""
    found, name, lines = Emulated(), "", []
    for line in text.splitlines():
        word, _, rest = line.partition(" ")
        if word == "@kernel":
            found.release = rest
        elif word == "@begin":
            name, lines = rest, []
        elif word == "@end" and name == "--machine":
            found.machine = read("\n".join(lines))
        elif word == "@end":
            path = str(scripts[int(name)])
            found.traces[path] = lines
            if rest != "0":
                found.troubles[path] = lines[-1] if lines else f"ended with {rest}"
            lines = []
        else:
            lines.append(line)
    if "@off" not in text.splitlines():
        raise Trouble(f"the machine broke off behind {len(found.traces)} scripts")
    return found


def emulate(programs: Programs, kernel: Path, scripts: list[Path]) -> Emulated:
    """Runs all scripts on a kernel's image."""
    replay = compiled(programs, "replay.static", list((COMPARE / "replay").glob("*.c")))
    init = compiled(programs, "init.static", [COMPARE / "emulated/init.c"])
    first, told, console = (programs.folder / name for name in ("first.cpio", "told", "console"))
    first.write_bytes(archive({"init": init, "linux_replay": replay}, scripts))
    status, _, errors = programs.run([
        EMULATOR, "-machine", "accel=tcg", "-m", "768", "-nodefaults", "-display", "none", "-no-reboot",
        "-kernel", str(kernel), "-initrd", str(first), "-append", "console=ttyS0 quiet panic=-1",
        "-serial", f"file:{console}", "-serial", f"file:{told}"], PATIENCE_OF_ALL + len(scripts))
    if status != 0 or not told.exists():
        raise Trouble(f"{EMULATOR} ended with {status}: {errors.strip()}")
    return read_output(told.read_bytes().decode("latin-1").replace("\r", ""), scripts)
