"""What the measures by the clock share: programs, processor time, and what a request costs a server that wrk asks."""
import os, shutil, subprocess, sys

sys.path.insert(0, f"{os.path.dirname(os.path.realpath(__file__))}/../../test/lib")
sys.dont_write_bytecode = True
from checks import PACKAGES, program_of

SECONDS = 4
TICKS = os.sysconf("SC_CLK_TCK")
POSTED = 'wrk.method = "POST" wrk.body = string.rep("x", 1000)'


def need(table, *tools):
    """Ends where one of these tools isn't there."""
    for tool in tools:
        if not shutil.which(tool):
            sys.exit(f"bench {table}: {tool} is missing; Debian has it: apt-get install {PACKAGES[tool]}")


def needed_program(table, name, words):
    """The proved program, or that in the folder that the words name. Ends where there is none."""
    program = program_of(name, *words)
    if not program:
        sys.exit(f"bench {table}: there is no proved {name} here; bin/prove {name} makes it")
    return program


def of_all_threads(pid):
    """Seconds on a processor of a process, to the system's tick, with those of threads that have ended."""
    with open(f"/proc/{pid}/stat") as stat:
        fields = stat.read().rsplit(")", 1)[1].split()
    return (int(fields[11]) + int(fields[12])) / TICKS


def of_one_thread(pid):
    """Those of a process with one thread, to the nanosecond: ticks would miss what runs for microseconds at a time."""
    with open(f"/proc/{pid}/schedstat") as stat:
        return int(stat.read().split()[0]) / 1e9


def cost(processor_time, pid, url, connections, script, place):
    """Processor microseconds of a server for a request, by so many connections."""
    words = ["wrk", "-d", f"{SECONDS}s", "-c", str(connections), "-t", "1", url]
    if script:
        with open(f"{place}/script.lua", "w") as file:
            file.write(script)
        words[1:1] = ["-s", f"{place}/script.lua"]
    before = processor_time(pid)
    text = subprocess.run(words, stdout=subprocess.PIPE, timeout=60).stdout.decode()
    spent = processor_time(pid) - before
    if "Non-2xx" in text or "requests in" not in text:
        return "failed"
    count = int(text.split(" requests in")[0].split()[-1])
    return f"{spent / count * 1e6:.1f}" if count else "none"
