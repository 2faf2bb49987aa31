"""A set of scenarios in parts: python3 set.py SCHEDULER PARTS CODE SET CURVE OPTION.. prints what `scenarios` prints of the whole set.

The OPTIONs are those of `scenarios`. A part that has no values is named with its status and its fault. Then nothing is printed, and the
run ends with 1.
"""

import os
import shutil
import subprocess
import sys
import tempfile

from distributed import Client
from spread import answers

# In the PATH, or in the clone that this script is of.
BESIDE = os.path.join(os.path.dirname(os.path.realpath(__file__)), "..", "..", "desk", "tilugba-desk")
DESK = shutil.which("tilugba-desk") or BESIDE


def read(path):
    with open(path, "rb") as file:
        return file.read()


def run_desk(name, *words):
    status = subprocess.run([DESK, name, *words], check=False).returncode
    if status != 0:
        sys.exit(status)


def values_of(client, parts, files, options):
    """Replaces each part by its values, and says whether all parts have them."""
    results = answers(client, ["scenarios", "code", "set", "curve", *options], [{**files, "set": read(part)} for part in parts])
    for part, (status, output) in zip(parts, results):
        if status == 0:
            with open(part, "wb") as file:
                file.write(output)
        else:
            print(f"{os.path.basename(part)}: status {status} {output.decode(errors='replace').strip()}", file=sys.stderr)
    return all(status == 0 for status, _ in results)


scheduler, count, code, whole, curve, *options = sys.argv[1:]
mode = options[options.index("--mean") + 1]
with tempfile.TemporaryDirectory() as folder:
    run_desk("split-set", whole, count, folder)
    parts = [os.path.join(folder, name) for name in sorted(os.listdir(folder))]
    with Client(scheduler) as client:
        if not values_of(client, parts, {"code": read(code), "curve": read(curve)}, options):
            sys.exit(1)
    run_desk("join-sets", mode, *parts)
