"""all: runs every test module, each in a process of its own, as many at a time as there are processors. Ends with 1 if one fails.

The largest files go first, since they mostly take longest. What a module prints comes in one piece when it ends.
"""

import os
import re
import subprocess
import sys
from concurrent.futures import ThreadPoolExecutor, as_completed
from pathlib import Path

HERE = Path(__file__).resolve().parent


def run(path):
    """The module's name, its status and what it printed."""
    command = [sys.executable, "-m", "unittest", "discover", "-s", str(HERE), "-p", path.name]
    done = subprocess.run(command, stdout=subprocess.PIPE, stderr=subprocess.STDOUT, stdin=subprocess.DEVNULL, text=True)
    return path.stem, done.returncode, done.stdout


def main():
    modules = sorted(HERE.glob("test_*.py"), key=lambda path: -path.stat().st_size)
    count, failed = 0, []
    with ThreadPoolExecutor(os.cpu_count() or 1) as pool:
        for future in as_completed([pool.submit(run, path) for path in modules]):
            name, status, said = future.result()
            ran = re.search(r"^Ran (\d+) tests?", said, re.M)
            if status != 0 or ran is None or ran[1] == "0":
                failed.append(name)
                print(said, flush=True)
            else:
                count += int(ran[1])
                print(f"{name}: {ran[0]}, {said.strip().splitlines()[-1]}", flush=True)
    if failed:
        sys.exit(f"FAILED: {', '.join(sorted(failed))}")
    print(f"{len(modules)} modules, {count} tests: OK")


main()
