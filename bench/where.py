"""Where the instructions of a row are spent: by kind, and by stretches of code that always run together, with the disassembly's own words.

It takes the kit's emulator, which tells what it runs, and a disassembler for x86-64 (`llvm-objdump`, or an `objdump` that reads it). All that our programs
call is put into `main` by the compiler, so that a stretch is told by what it does and not by a function's name.
"""
import re
import shutil
import subprocess

from kit import Broken, traced

MOST = 14  # stretches that are told
UNIT = {"reading": "frame", "in_place": "frame", "slices": "frame", "searched": "byte", "writing": "frame", "checksum": "call", "giving": "call",
        "listing": "byte"}
KINDS = ("16-byte moves", "other moves", "tests and jumps", "calls", "arithmetic")


def disassembly(program):
    """Each instruction's words, by its address in the file."""
    for name in ("llvm-objdump", "objdump"):
        if shutil.which(name):
            ran = subprocess.run([name, "-d", "--no-show-raw-insn", str(program)], capture_output=True)
            found = re.findall(r"^\s*([0-9a-f]+):\s+(\S.*)$", ran.stdout.decode(errors="replace"), re.M)
            if found:
                return {int(at, 16): " ".join(words.split("#")[0].split("<")[0].split()) for at, words in found}
    raise Broken("there is no llvm-objdump here, and no objdump that reads x86-64")


def kind(words):
    name = words.split()[0]
    if re.match(r"v?mov(aps|ups|apd|upd|dqa|dqu)$", name) and "(" in words:
        return "16-byte moves"
    if re.match(r"mov|push|pop|lea", name) and not re.match(r"movmsk", name):
        return "other moves"
    if re.match(r"j|cmp|test|set|cmov|bt", name):
        return "tests and jumps"
    if re.match(r"call|ret", name):
        return "calls"
    return "arithmetic"


def runs(kit, program, text):
    """How often each instruction of the program ran, by its address in the file, and how many ran in the C library and its loader."""
    if not kit.emulator:
        raise Broken("the kit has no emulator, which --where takes")
    _, aside, times = traced(kit.emulator, kit.words(program), text, {"LD_DEBUG": "files"})
    found = re.search(rf"file={re.escape(str(program))} .*?base: 0x([0-9a-f]+)\s+size: 0x([0-9a-f]+)", aside, re.S)
    if not found:
        raise Broken("the loader does not tell where the program lies")
    base, size = (int(n, 16) for n in found.groups())
    own = {at - base: n for at, n in times.items() if base <= at < base + size}
    return own, sum(times.values()) - sum(own.values())


def stretches(cost, words):
    """Instructions one after another that ran equally often: how often, and their addresses."""
    out = []
    for at in sorted(words):
        n = cost.get(at, 0)
        if out and out[-1][0] == n and words[out[-1][1][-1]].split()[0] not in ("jmp", "ret", "retq"):
            out[-1][1].append(at)
        elif n:
            out.append((n, [at]))
        else:
            out.append((0, [at]))
    return sorted((part for part in out if part[0]), key=lambda part: -part[0] * len(part[1]))


def tell(kit, row, programs):
    if not kit.emulator:
        raise Broken("the kit has no emulator, which --where takes")
    unit, units = UNIT[row.part], row.frames or row.units
    for name, program in zip(("ours", "C"), programs):
        words = disassembly(program)
        (more, beside), (less, beside_less) = (runs(kit, program, text) for text in (row.more, row.less))
        cost = {at: (n - less.get(at, 0)) / units for at, n in more.items()}
        kinds = dict.fromkeys(KINDS, 0)
        for at, n in cost.items():
            kinds[kind(words[at])] += n
        print(f"\n{name}: {sum(cost.values()):.1f} instructions a {unit}, and {(beside - beside_less) / units:.1f} in the C library")
        print("  " + ", ".join(f"{what} {n:.1f}" for what, n in kinds.items()))
        print(f"  stretches that take the most, instructions a {unit}:")
        for n, part in stretches(cost, words)[:MOST]:
            inside = [kind(words[at]) for at in part]
            many = "; ".join(f"{inside.count(what)} {what}" for what in KINDS if what in inside)
            print(f"  {n * len(part):8.1f} = {n:6.2f} x {len(part):3} at {part[0]:x}: {many}: {words[part[0]]} .. {words[part[-1]]}")
