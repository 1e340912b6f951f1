"""Runs of the program, for the scripts beside this one."""
import os
import re
import resource
import shutil
import subprocess
import sys
import tempfile

RUNS = 3

# GNU time, which tells the greatest resident set of the process that it starts.
TIME = "/usr/bin/time"


def arguments():
    """The program, the folder of its data, and the numbers that were named."""
    crate, _command, *numbers = sys.argv[1:]
    return os.path.join(crate, "out", "tlbox"), os.path.join(crate, "data"), [int(number) for number in numbers]


def write(path, content):
    with open(path, "wb") as file:
        file.write(content)


def run_once(words, out, status=0, input_path=None):
    """One run, which writes to a file and has to end with this status. It reads a file where one is named."""
    with open(input_path or os.devnull, "rb") as given:
        run = subprocess.run(words, stdin=given, stdout=out, stderr=subprocess.STDOUT, check=False)
    if run.returncode != status:
        sys.exit("%s ended with status %d" % (" ".join(words), run.returncode))


def spent():
    """The processor time of all runs so far, in seconds: their own and the system's for them."""
    used = resource.getrusage(resource.RUSAGE_CHILDREN)
    return used.ru_utime + used.ru_stime


def least_time(words, answer, status=0, input_path=None):
    """The least processor time of some runs in seconds. They write to a file, and have to end with this status."""
    times = []
    for _ in range(RUNS):
        with open(answer, "wb") as file:
            begin = spent()
            run_once(words, file, status, input_path)
            times.append(spent() - begin)
    return min(times)


def told(words, report, pattern, input_path, status=0):
    """The number that a report has after a pattern, after one run that writes it."""
    with open(os.devnull, "wb") as nowhere:
        run_once(words, nowhere, status, input_path)
    with open(report, encoding="utf-8", errors="replace") as file:
        found = re.search(pattern, file.read())
    return int(found.group(1)) if found else None


def peak_memory(words, input_path=None, status=0):
    """The greatest resident set of one run in bytes, or None without GNU time."""
    if not os.path.exists(TIME):
        return None
    with tempfile.NamedTemporaryFile() as report:
        kilobytes = told([TIME, "-f", "%M", "-o", report.name, *words], report.name, r"(\d+)\s*$", input_path, status)
    return None if kilobytes is None else kilobytes * 1024


def instructions(words, input_path=None):
    """The instructions of one run by callgrind, or None without valgrind."""
    if shutil.which("valgrind") is None:
        return None
    with tempfile.NamedTemporaryFile() as report:
        grind = ["valgrind", "--tool=callgrind", "--callgrind-out-file=/dev/null", "--log-file=" + report.name]
        return told(grind + words, report.name, r"Collected : (\d+)", input_path)


def last_line(path):
    with open(path, encoding="ascii") as file:
        return file.read().splitlines()[-1]
