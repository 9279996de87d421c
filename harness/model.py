"""Read by harness/model: takes down what a run executes, and puts it through models of processors.

qemu logs the address of every instruction. One that is passed once a step tells the steps apart, and the
instructions of some hundred of them go through llvm-mca. It knows how many instructions a processor takes at once
and how long each of them is; it knows nothing of caches, of branches that are guessed wrongly, or of loads that wait
for stores.
"""
import collections
import re
import subprocess
import sys
import tempfile
from pathlib import Path

STEPS = 4096
FROM, MODELLED = 1000, 360
ADDRESS = re.compile(r"\[[0-9a-f]+/([0-9a-f]+)/")
# What names an address, which stands too far away in a text without its place.
AWAY = re.compile(r"^(?:b|bl|b\.\w+|cbz|cbnz|tbz|tbnz|adr|adrp)\b")


def programs(binary):
    """The names of the programs of the measurements, in their order."""
    return subprocess.run(["qemu-aarch64", binary, "programs"], check=True, capture_output=True, text=True).stdout.splitlines()


def executed(binary, engine, program):
    """The addresses of all instructions that a run makes."""
    with tempfile.TemporaryDirectory() as folder:
        log = Path(folder, "log")
        words = ["-cpu", "neoverse-n1", "-singlestep", "-d", "exec,nochain", "-D", log]
        subprocess.run(["qemu-aarch64", *words, binary, engine, str(program), "1"], check=True)
        with log.open() as lines:
            return [int(found[1], 16) for found in map(ADDRESS.search, lines) if found]


def texts(llvm, binary):
    """The text of each instruction, by its address."""
    words = [f"llvm-objdump-{llvm}", "-d", "--no-show-raw-insn", "--mattr=+all", binary]
    listing = subprocess.run(words, check=True, capture_output=True, text=True).stdout
    found = {}
    for line in listing.splitlines():
        if match := re.match(r"\s*([0-9a-f]+):\s+(.*)$", line):
            text = re.sub(r"<[^>]*>", "", match[2].split("//")[0]).strip()
            found[int(match[1], 16)] = re.sub(r"0x[0-9a-f]+$", "#0", text) if AWAY.match(text) else text
    return found


def cycles(llvm, cpu, text):
    """How many cycles a processor takes for the text. A call costs what is in it, and nothing else."""
    words = [f"llvm-mca-{llvm}", "-mtriple=aarch64", f"-mcpu={cpu}", "-iterations=1", "-call-latency=1"]
    words += ["--instruction-info=false", "--resource-pressure=false"]
    said = subprocess.run(words, input=text, check=True, capture_output=True, text=True).stdout
    return int(re.search(r"Total Cycles:\s+(\d+)", said)[1])


def measured(llvm, binary, cpus, engine, program, text_of):
    passed = executed(binary, engine, program)
    counts = collections.Counter(passed)
    once = next(at for at in passed if counts[at] == STEPS)
    steps = [place for place, at in enumerate(passed) if at == once]
    chosen = passed[steps[FROM] : steps[FROM + MODELLED]]
    text = "".join(text_of[at] + "\n" for at in chosen)
    return [(steps[-1] - steps[0]) / (STEPS - 1)] + [cycles(llvm, cpu, text) / MODELLED for cpu in cpus]


def main():
    llvm, binary, named = sys.argv[1:]
    cpus = named.split(",")
    text_of = texts(llvm, binary)
    print("A step on Arm: card, hand-tuned, and hand-tuned to card")
    print(f"{'a run':<15} | " + " | ".join(f"{name:<20}" for name in ["instructions", *(f"cycles, {cpu}" for cpu in cpus)]))
    for number, name in enumerate(programs(binary)):
        card, tuned = (measured(llvm, binary, cpus, engine, number, text_of) for engine in ["card", "tuned"])
        print(f"{name:<15} | " + " | ".join(f"{c:6.1f} {t:6.1f} {t / c:6.2f}" for c, t in zip(card, tuned)))


main()
