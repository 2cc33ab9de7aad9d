"""What the scripts of bench/ share: the kit, its programs, and how instructions are counted.

Programs are for x86-64. There `perf` counts, or valgrind where perf may not; a kit for another machine may bring an emulator, whose log
tells what it runs. No count is a time.
"""
import os
import platform
import re
import shutil
import subprocess
import sys
import tempfile
from pathlib import Path

TARGET = "x86_64-unknown-linux-gnu"
ROOT = Path(__file__).resolve().parent.parent


class Broken(Exception):
    """Nothing could be measured."""


def tool(name):
    found = shutil.which(name)
    if not found:
        raise Broken(f"there is no `{name}` here")
    return found


def call(words, **more):
    """Runs a command that has to succeed."""
    ran = subprocess.run([str(w) for w in words], capture_output=True, **more)
    if ran.returncode:
        said = (ran.stdout + ran.stderr).decode(errors="replace").splitlines()
        raise Broken("\n".join([f"{Path(words[0]).name} ended with status {ran.returncode}; its last words:", *said[-8:]]))
    return ran


class Kit:
    """The kit of the `rt` that is on the path: what is linked and run is what rt links and runs."""

    def __init__(self):
        self.rt = tool("rt")
        home = Path(self.rt).resolve().parent.parent
        self.machine = platform.machine()
        self.link, self.tools = home / "bin/rattle-link", home / "toolchain"
        for part in (self.tools / "bin/clang", self.link, self.loader):
            if not part.exists():
                raise Broken(f"the kit at {home} has no {part.relative_to(home)}")

    @property
    def loader(self):
        return self.tools / "lib/ld-linux-x86-64.so.2"

    def build(self, into, name, source, small_board=False):
        """Our program of that name and a C one, at paths of one length: where the stack begins hangs on that, and so do some counts."""
        into.mkdir()
        ours, plain = into / "ours", into / "them"
        shutil.copy(self.small_board() if small_board else self.proved(name), ours)
        # for the processor that rt builds for
        call([self.tools / "bin/clang", f"--target={TARGET}", "-march=x86-64-v2", "-O3", "-fPIE", "-Wall", "-Werror",
              *(["-DSMALL_BOARD"] if small_board else []), "-c", ROOT / "bench" / source, "-o", into / "plain.o"])
        call([self.link, "--target", TARGET, "--toolchain", self.tools, "-o", plain, into / "plain.o"])
        return ours, plain

    def proved(self, name):
        """Our program of that name: rt runs it, here on no input, only where it has proved it."""
        ran = subprocess.run([self.rt, "run"], cwd=ROOT / "crates" / name, stdin=subprocess.DEVNULL, capture_output=True)
        said = ran.stderr.decode(errors="replace").splitlines()
        if not any(line.startswith(f"rt: running out/{name};") for line in said):
            raise Broken("\n".join([f"{name} is not proved; the last words of `rt run`:", *said[-8:]]))
        return ROOT / "crates" / name / "out" / name

    def small_board(self):
        call([ROOT / "bin/small-board"])
        return ROOT / "target/small-board/sbrlist"

    @property
    def emulator(self):
        """What runs programs for x86-64 on another machine, where the kit has it."""
        found = self.tools / "bin/qemu-x86_64"
        return found if found.exists() else None

    def words(self, program):
        """A program under the kit's loader and C library."""
        return [str(w) for w in (self.loader, "--library-path", self.tools / "lib", program)]

    def runs(self, program):
        """The words that run a program here."""
        return [*([str(self.emulator)] if self.emulator else []), *self.words(program)]

    def output(self, program, text):
        """What a program writes, a character for each byte."""
        return call(self.runs(program), input=text, env={}).stdout.decode("latin-1")


# ---- counting: each takes the words that run a program and its input, and gives what it wrote and the instructions


def traced(emulator, words, text, env=None):
    """What a program wrote, to either side, and how often each instruction ran, by its address."""
    # The emulator tells each stretch of code once, instruction by instruction, and then each run of it. Its log goes down a pipe and is stored nowhere.
    reader, writer = os.pipe()
    with tempfile.TemporaryFile() as given, tempfile.TemporaryFile() as wrote, tempfile.TemporaryFile() as aside:
        given.write(text)
        given.seek(0)
        ran = subprocess.Popen([str(emulator), "-d", "op,exec,nochain", "-D", f"/dev/fd/{writer}", *words],
                               stdin=given, stdout=wrote, stderr=aside, pass_fds=[writer], env=env or {})
        os.close(writer)
        here, runs, told = {}, [], None  # the number of the stretch that lies at a place; each stretch and its runs
        with open(reader, "rb", 1 << 20) as log:
            for line in log:
                if line.startswith(b"Trace "):
                    at = line[9:line.index(b"[")]  # where its code lies in the emulator
                    if told is not None:  # just made: another may have lain there before
                        here[at] = len(runs)
                        runs.append([told, 0])
                        told = None
                    runs[here[at]][1] += 1
                elif line.startswith(b" ---- "):
                    told.append(int(line[6:22], 16))
                elif line.startswith(b"OP:"):
                    told = []
        if ran.wait():
            raise Broken(f"{Path(words[-1]).name} ended with status {ran.returncode}")
        wrote.seek(0)
        aside.seek(0)
        times = {}
        for stretch, count in runs:
            for address in stretch:
                times[address] = times.get(address, 0) + count
        return wrote.read().decode("latin-1"), aside.read().decode("latin-1"), times


def by_emulator(emulator):
    def count(words, text):
        wrote, _, times = traced(emulator, words, text)
        return wrote, sum(times.values())

    return count


def by_perf(perf):
    def count(words, text):
        with tempfile.NamedTemporaryFile() as told:
            ran = call([perf, "stat", "-x,", "-e", "instructions:u", "-o", told.name, "--", *words], input=text, env={})
            found = re.findall(rb"^(\d+),[^,]*,[^,]*instructions", told.read(), re.M)  # one for each kind of core
        if not found:
            raise Broken("perf counts no instructions here")
        return ran.stdout.decode("latin-1"), sum(map(int, found))

    return count


def by_valgrind(valgrind):
    def count(words, text):
        ran = call([valgrind, "--tool=callgrind", "--callgrind-out-file=/dev/null", *words], input=text, env={})
        found = re.search(rb"Collected : (\d+)", ran.stderr)
        if not found:
            raise Broken("valgrind counts no instructions here")
        return ran.stdout.decode("latin-1"), int(found[1])

    return count


def counter(kit, program):
    """The first way to count that works here."""
    if kit.emulator:
        return "the kit's emulator", by_emulator(kit.emulator)
    if kit.machine != "x86_64":
        raise Broken(f"nothing here runs a program for x86-64 on {kit.machine}")
    for name, by in (("perf", by_perf), ("valgrind", by_valgrind)):
        if shutil.which(name):
            try:
                by(shutil.which(name))(kit.words(program), b"")
                return name, by(shutil.which(name))
            except Broken as wrong:
                print(f"bench: not by {name}: {wrong}", file=sys.stderr)
    raise Broken("neither perf nor valgrind counts instructions here")


def script(main):
    """Runs a script: its status is what main tells, and 2 where nothing can be measured."""
    try:
        sys.exit(main())
    except Broken as wrong:
        print(f"bench: {wrong}", file=sys.stderr)
        sys.exit(2)
