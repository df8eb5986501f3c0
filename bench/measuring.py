"""measuring.py: how a command is timed, and what is said of the machine; used by run.py, threads.py and growth.py."""
import argparse
import datetime
import os
import platform
import re
import shutil
import signal
import statistics
import subprocess
import sys
import threading
import time

import figures

TOP = os.path.dirname(os.path.dirname(os.path.abspath(__file__)))
PROGRAM = os.path.join(TOP, "out", "cmbsim")


class Run:
    """One run of a command: its status, wall and processor seconds, and peak memory in bytes."""

    def __init__(self, status, wall, processor, memory, late):
        self.status, self.wall, self.processor, self.memory, self.late = status, wall, processor, memory, late


TIME = "/usr/bin/time"

# A command is ended together with those that it started. A session of its own does this too, but the scheduler may
# weigh sessions, and then a priority that was given to this script isn't the command's.
OWN_GROUP = {"process_group": 0} if sys.version_info >= (3, 11) else {"start_new_session": True}


def peak_of(path):
    """The peak memory that TIME wrote, in bytes; it counts in kilobytes."""
    with open(path) as file:
        return int(file.read().split()[-1]) * 1024


def once_with_peak(command, stdin, stdout, limit, cwd, folder):
    """Runs a command as `once` does, under TIME where it is there, so that its peak memory isn't that of this script,
    from which the system begins to count."""
    if not os.path.exists(TIME):
        return once(command, stdin, stdout, limit, cwd)
    note = os.path.join(folder, "peak")
    run = once([TIME, "-f", "%M", "-o", note] + command, stdin, stdout, limit, cwd)
    if not run.late:
        run.memory = peak_of(note)
    return run


def once(command, stdin=None, stdout=None, limit=120.0, cwd=None):
    """Runs a command to its end, or for `limit` seconds."""
    late = threading.Event()
    with open(stdin or os.devnull, "rb") as source, open(stdout or os.devnull, "wb") as sink:
        start = time.perf_counter()
        child = subprocess.Popen(command, stdin=source, stdout=sink, stderr=subprocess.DEVNULL, cwd=cwd, **OWN_GROUP)

        def stop():
            late.set()
            os.killpg(child.pid, signal.SIGKILL)
        timer = threading.Timer(limit, stop)
        timer.start()
        _, status, usage = os.wait4(child.pid, 0)
        wall = time.perf_counter() - start
        timer.cancel()
        child.returncode = os.waitstatus_to_exitcode(status)
    return Run(child.returncode, wall, usage.ru_utime + usage.ru_stime, usage.ru_maxrss * 1024, late.is_set())


class Sample:
    """Several runs of one command."""

    def __init__(self, runs):
        self.runs = runs
        self.status = next((run.status for run in runs if run.status), 0)
        self.late = any(run.late for run in runs)
        self.best = min(run.wall for run in runs)
        self.median = statistics.median(run.wall for run in runs)
        self.processor = min(run.processor for run in runs)

    @property
    def fine(self):
        return not self.late and self.status == 0


def sample(command, stdin=None, times=3, limit=120.0, cwd=None):
    """So many runs; fewer where one fails or comes to the limit."""
    runs = []
    for _ in range(times):
        runs.append(once(command, stdin, None, limit, cwd))
        if runs[-1].late or runs[-1].status:
            break
    return Sample(runs)


def build():
    """Builds the program, as `make build` at the top does."""
    subprocess.run(["make", "build"], cwd=TOP, check=True, stdout=sys.stderr)


def parser(text, limit, quick):
    """A parser of the words that each script takes. A run has so many seconds, or fewer with --quick."""
    words = argparse.ArgumentParser(description=text, formatter_class=argparse.RawDescriptionHelpFormatter)
    words.add_argument("--quick", action="store_true", help="small sizes, for less than a minute in all")
    words.add_argument("--times", type=int, default=3, help="how often each command is timed")
    words.add_argument("--limit", type=float, help=f"seconds after which a run is ended; {limit:.0f}, or {quick:.0f} with --quick")
    words.add_argument("--no-build", action="store_true")
    words.add_argument("--record", action="store_true", help="write the table to bench/FIGURES.md too; only of all circuits in full size")
    words.add_argument("--out", default=os.path.join(TOP, "bench", "out"))
    words.set_defaults(limits=(limit, quick), short=False, only=None)
    return words


def add_choice(words, names):
    """Adds the words that choose circuits; `names` has those of the full size or of the short one."""
    words.add_argument("--short", action="store_true", help="the short runs that older figures have")
    words.add_argument("--only", action="append", choices=names("--short" in sys.argv), help="this circuit; may be given more than once")


def begin(words):
    """Reads the words, makes the folder for what is written, and builds the program."""
    options = words.parse_args()
    if options.quick and options.short:
        words.error("--quick and --short are two sizes")
    if options.record and (options.quick or options.short or options.only):
        words.error("--record is for all circuits in full size")
    options.machine = machine() + [f"{size} sizes" for size in ("quick", "short") if getattr(options, size)]
    options.limit = options.limit or options.limits[options.quick]
    os.makedirs(options.out, exist_ok=True)
    if not options.no_build:
        build()
    return options


def reference(folder):
    """The C simulator that CREF names: a binary, or a C source that is compiled. None where there is none."""
    path = os.environ.get("CREF")
    if not path:
        return None
    if not path.endswith(".c"):
        return path
    binary = os.path.join(folder, "cref")
    subprocess.run(["gcc", "-O2", "-o", binary, path], check=True)
    return binary


def first_line(*command):
    try:
        return subprocess.run(command, capture_output=True, text=True).stdout.splitlines()[0]
    except (OSError, IndexError):
        return "none"


def field(path, name):
    try:
        with open(path) as file:
            found = re.search(rf"^{name}\s*:\s*(.*)$", file.read(), re.M)
            return found.group(1) if found else "unknown"
    except OSError:
        return "unknown"


def machine():
    """The date, the machine's kind, its load, and the compilers."""
    memory = field("/proc/meminfo", "MemTotal").split()[0]
    memory = f"{int(memory) / 1048576:.0f} GB" if memory.isdigit() else memory
    lines = [
        f"{datetime.datetime.now(datetime.timezone.utc):%Y-%m-%d %H:%M} UTC",
        f"{field('/proc/cpuinfo', 'model name')}, {os.cpu_count()} processors, {memory}, {platform.system()} {platform.machine()}",
        f"load before the run {os.getloadavg()[0]:.1f}",
        f"commit {first_line('git', '-C', TOP, 'rev-parse', '--short', 'HEAD')}"]
    if os.environ.get("CREF"):
        lines.append(f"C simulator by {first_line('gcc', '--version')}, -O2" if os.environ["CREF"].endswith(".c") else "C simulator as CREF names it")
    if shutil.which("iverilog"):
        lines.append(first_line("iverilog", "-V"))
    return lines


def write_report(options, name, lines, rows):
    """Prints a table below what is said of the machine, and writes it to the output folder."""
    report = "\n".join(options.machine + lines) + "\n\n" + table(rows) + "\n"
    print(report)
    with open(os.path.join(options.out, f"{name}.md"), "w") as file:
        file.write(report)


def record(options, name, lines, rows):
    """Writes a table to the section of this name in bench/FIGURES.md, with what is said of the machine."""
    figures.record(name, "; ".join(options.machine + lines) + ".\n\n" + table(rows))


def words_of(folder):
    """The words of the program's line for a circuit, and its netlist."""
    with open(os.path.join(folder, "options")) as file:
        words = ["run"] + file.read().split()
    for table in ("delays", "stimuli", "clocks", "initial"):
        path = os.path.join(folder, table + ".csv")
        if os.path.exists(path):
            words += ["--" + table, path]
    return words, os.path.join(folder, "netlist.bench")


def apart(work):
    """Does some work in a process of its own, so that this script stays small."""
    sys.stdout.flush()
    child = os.fork()
    if child == 0:
        try:
            work()
            os._exit(0)
        except BaseException as error:
            print(error, file=sys.stderr)
            os._exit(1)
    if os.waitstatus_to_exitcode(os.waitpid(child, 0)[1]):
        raise RuntimeError("a circuit wasn't made")


def table(rows):
    """Rows of texts as a Markdown table; the first is the header, and columns but the first stand to the right."""
    widths = [max(len(row[i]) for row in rows) for i in range(len(rows[0]))]

    def line(row):
        return "| " + " | ".join(cell.ljust(w) if i == 0 else cell.rjust(w) for i, (cell, w) in enumerate(zip(row, widths))) + " |"
    rule = "|" + "|".join("-" * (w + 2) if i == 0 else "-" * (w + 1) + ":" for i, w in enumerate(widths)) + "|"
    return "\n".join([line(rows[0]), rule] + [line(row) for row in rows[1:]])


def short(seconds):
    """Seconds as a number that reads well."""
    return f"{seconds * 1000:.0f} ms" if seconds < 10 else f"{seconds:.1f} s"
