"""Times the program and Python's json on the same file, in turns, best of three; orjson too, where it is there.

Python 3.8 or later. Times are user and system seconds.
"""
import importlib.util
import os
import subprocess
import sys
import tempfile

ROUND_TRIPS = {
    "json": "import json,sys; sys.stdout.write(json.dumps(json.load(open(sys.argv[1])), separators=(',',':')))",
    "orjson": "import orjson,sys; sys.stdout.buffer.write(orjson.dumps(orjson.loads(open(sys.argv[1],'rb').read())))",
}


def run_once(words, folder, name):
    """Seconds and peak memory in MB of one run over the file as its input, which must end with status 0."""
    with open(os.path.join(folder, name), "rb") as source, open(os.path.join(folder, "out"), "wb") as out:
        child = subprocess.Popen(words, cwd=folder, stdin=source, stdout=out)
        _, status, usage = os.wait4(child.pid, 0)
    if status != 0:
        sys.exit("%s ended with status %d" % (words[0], os.waitstatus_to_exitcode(status)))
    return usage.ru_utime + usage.ru_stime, usage.ru_maxrss / 1024


def best(programs, folder, name):
    """The least seconds and the greatest peak of three runs of each."""
    turns = [[run_once(words, folder, name) for words in programs] for _ in range(3)]
    return [(min(r[0] for r in runs), max(r[1] for r in runs)) for runs in zip(*turns)]


def compare(name, what, make, arguments, count, crate="ms_cli", words=None):
    """Times all on the file that `make(path, count)` writes, and prints the times, the memory and the ratios.

    `words` are what the program of `crate` is called with; where none are said, those that print the file.
    """
    here = os.path.dirname(os.path.abspath(__file__))
    built = os.path.join(here, "..", "crates", crate, "out", crate)
    program = os.path.abspath(arguments[0] if arguments else built)
    count = int(arguments[1]) if len(arguments) > 1 else count
    modules = [module for module in ROUND_TRIPS if importlib.util.find_spec(module)]
    programs = [[program] + ([name, "-o", "-"] if words is None else words)]
    programs += [[sys.executable, "-c", ROUND_TRIPS[module], name] for module in modules]
    with tempfile.TemporaryDirectory() as folder:
        path = os.path.join(folder, name)
        make(path, count)
        size = os.path.getsize(path) / 1e6
        ours, *theirs = best(programs, folder, name)
    print("%d %s, %.1f MB in, best of three" % (count, what, size))
    print("%-14s %6.2f s  %6.0f MB" % ((crate,) + ours))
    for module, run in zip(modules, theirs):
        print("%-14s %6.2f s  %6.0f MB  %.2f of ours" % (("python " + module,) + run + (run[0] / ours[0],)))
