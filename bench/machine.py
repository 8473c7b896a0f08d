"""What the scripts here share: the program built, the machine's name and load, and a saved output."""
import contextlib
import datetime
import itertools
import os
import re
import shutil
import subprocess
import sys

HERE = os.path.dirname(os.path.abspath(__file__))
# What a script needs of runs, ports and pages is in the package harness, which is imported behind this module.
sys.dont_write_bytecode = True
sys.path.insert(0, os.path.join(HERE, "..", "tests"))
CRATE = os.path.join(HERE, "..", "crates", "studio_bench")


# The processors that programs are built for: a name, and the words of it for our compiler and for C's.
BUILDS = {"default": ([], []), "x86-64-v3": (["--cpu=x86-64-v3"], ["-march=x86-64-v3"])}


def build(folder: str, name: str = "default") -> str:
    """Builds studio_bench for a processor, and answers where a copy of it is."""
    ran = subprocess.run(["rt", "run", *BUILDS[name][0]], cwd=CRATE, capture_output=True, text=True)
    if ran.returncode != 0:
        sys.exit(ran.stdout + ran.stderr)
    program = os.path.join(folder, "ours-" + name)
    shutil.copy(os.path.join(CRATE, "out", "studio_bench"), program)
    return program


def build_c(folder: str, source: str, name: str = "default") -> str:
    """Builds a C program that stands here for a processor, and answers where it is."""
    program = os.path.join(folder, f"{source}-{name}")
    subprocess.run(["cc", "-O3", *BUILDS[name][1], os.path.join(HERE, source + ".c"), "-o", program], check=True)
    return program


def field(program, words, place):
    """The number at a place of the line that the program prints for these words."""
    ran = subprocess.run([program, *map(str, words)], check=True, capture_output=True, text=True)
    return int(ran.stdout.split()[place])


def in_real_time() -> list[str]:
    """Returns the words that start a program at a real-time priority, or none if the system doesn't let them."""
    words = ["chrt", "--fifo", "50"]
    return words if subprocess.run([*words, "true"], stderr=subprocess.DEVNULL).returncode == 0 else []


def load() -> str:
    return f"{os.getloadavg()[0]:.1f}"


def ticks():
    """The ticks of all processors since the system began, and of these the ones that the host of a virtual machine
    took."""
    with open("/proc/stat") as file:
        fields = [int(field) for field in file.readline().split()[1:9]]
    return sum(fields), fields[7]


BEGAN = ticks()


def taken():
    """The percentage of the processors' time that the host of a virtual machine took since the script began."""
    every, host = (now - then for now, then in zip(ticks(), BEGAN))
    return 100 * host / max(every, 1)


def create(name, day):
    """A new file for the output of a run: NAME-DAY.txt, or NAME-DAY-2.txt and so on if the day has some already."""
    for number in itertools.count(1):
        suffix = f"-{number}" if number > 1 else ""
        with contextlib.suppress(FileExistsError):
            return open(os.path.join(HERE, "results", f"{name}-{day}{suffix}.txt"), "x")


def save(name: str, words: str, before: str, lines: list[str]) -> None:
    """Prints the lines under a head that names the run and the machine, and saves them by the day."""
    with open("/proc/cpuinfo") as file:
        model = re.search(r"model name\s*: (.*)", file.read())
    day = datetime.date.today().isoformat()
    machine = f"{os.cpu_count()} processors, {model.group(1) if model else 'unknown'}"
    script = "/".join(os.path.abspath(sys.argv[0]).split("/")[-2:])
    text = (
        "\n".join(
            [
                f"{script} {words}".strip()
                + f", {day}, {machine}, load {before} to {load()}, {taken():.0f} % taken by the host",
                "",
                *lines,
            ]
        )
        + "\n"
    )
    print(text, end="")
    with create(name, day) as file:
        file.write(text)
