"""Runs programs, and measures what each run takes."""
import filecmp
import os
import re
import subprocess
import sys
import tempfile
import time

GNU_TIME = '/usr/bin/time'


def run(words, out=subprocess.DEVNULL, wanted=0):
    """Seconds of the processor and by the clock, and peak memory in KiB, of one run.

    Where another status than 0 is wanted, the error line goes where the output goes.
    """
    begun = time.perf_counter()
    try:
        process = subprocess.Popen(words, stdout=out, stderr=subprocess.STDOUT if wanted else None)
    except OSError as error:
        sys.exit(f'cannot run {words[0]}: {error.strerror}')
    _, status, usage = os.wait4(process.pid, 0)
    clock = time.perf_counter() - begun
    process.returncode = os.waitstatus_to_exitcode(status)
    if process.returncode != wanted:
        sys.exit(f'status {process.returncode}: {" ".join(words)}')
    return usage.ru_utime + usage.ru_stime, clock, usage.ru_maxrss


def peak(words, out, wanted=0):
    """Peak memory in MB."""
    if not os.access(GNU_TIME, os.X_OK):
        return run(words, out, wanted)[2] * 1024 / 1e6
    with tempfile.NamedTemporaryFile('r') as told:
        run([GNU_TIME, '-q', '-f', '%M', '-o', told.name] + words, out, wanted)
        return int(told.read()) * 1024 / 1e6


def instructions(words):
    """How many instructions a run takes, by perf, or where that counts none by valgrind."""
    ways = ((['perf', 'stat', '-x,', '-e', 'instructions:u'], r'^([0-9]+),,instructions'),
            (['valgrind', '--tool=cachegrind', '--cache-sim=no', '--cachegrind-out-file=/dev/null'],
             r'I +refs: +([0-9,]+)'))
    for tool, told in ways:
        try:
            done = subprocess.run(tool + words, stdout=subprocess.DEVNULL, stderr=subprocess.PIPE,
                                  encoding='ascii', check=False)
        except OSError:
            continue
        found = re.search(told, done.stderr, re.M)
        if found and done.returncode == 0:
            return int(found.group(1).replace(',', ''))
    sys.exit(f'perf and valgrind count nothing of {" ".join(words)}')


def seconds_in_turn(programs, words, wanted, runs):
    """The least seconds of each program."""
    least = [float('inf')] * len(programs)
    for _ in range(runs):
        for i, program in enumerate(programs):
            least[i] = min(least[i], run([program] + words, wanted=wanted)[0])
    return [max(seconds, 1e-4) for seconds in least]


def peaks_and_same(programs, words, wanted):
    """The peak of each program in MB, and whether both wrote the same bytes."""
    with tempfile.NamedTemporaryFile() as one, tempfile.NamedTemporaryFile() as two:
        peaks = [peak([program] + words, out, wanted) for program, out in zip(programs, (one, two))]
        return peaks, filecmp.cmp(one.name, two.name, shallow=False)
