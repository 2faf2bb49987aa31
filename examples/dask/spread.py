"""Runs of the program over the workers of a Dask cluster, as functions for your own scripts.

A worker needs the program, whose path it has in its environment as TILUGBA, and no shared folder: a run gets and gives bytes.
"""

import os
import subprocess
import sys
import tempfile
from decimal import Context, Decimal, Inexact

import cloudpickle
from distributed import get_worker

# A worker gets these functions with each task, and so need not have this file.
cloudpickle.register_pickle_by_value(sys.modules[__name__])
EXACT = Context(prec=100, traps=[Inexact])


def is_of_the_machine(status):
    """Whether another machine may do better: statuses 3, 4, 9 and 13, and runs that were ended by a signal. All others are final."""
    return status in (3, 4, 9, 13) or not 0 <= status <= 128


def run(words, files):
    """A run on the worker that has the task: its status, its output and the worker."""
    with tempfile.TemporaryDirectory() as folder:
        for name, data in files.items():
            with open(os.path.join(folder, name), "wb") as file:
                file.write(data)
        done = subprocess.run([os.environ["TILUGBA"], *words], cwd=folder, stdout=subprocess.PIPE, check=False)
    return done.returncode, done.stdout, get_worker().address


def answers(client, words, jobs):
    """The status and the output of each job, in their order. A job is the files of a run, {name: bytes}."""
    done = client.gather(client.map(run, [words] * len(jobs), jobs))
    tried = [{worker} for _, _, worker in done]
    for _ in client.nthreads():
        workers = set(client.nthreads())
        again = {}
        for n, (status, _, _) in enumerate(done):
            if is_of_the_machine(status) and workers - tried[n]:
                # It is not pure here: Dask would give the answer that it has for the same words and files.
                again[n] = client.submit(run, words, jobs[n], workers=list(workers - tried[n]), pure=False)
        for n, task in again.items():
            done[n] = task.result()
            tried[n].add(done[n][2])
    return [(status, output) for status, output, _ in done]


def total(client, words, jobs):
    """The sum of the values that these runs of `value` print, without any rounding."""
    values = answers(client, words, jobs)
    faults = [(n, status, output) for n, (status, output) in enumerate(values) if status != 0]
    if faults:
        raise ValueError(f"the first of {len(faults)} faults: {faults[0]}")
    result = Decimal(0)
    for _, output in values:
        result = EXACT.add(result, Decimal(output.decode().strip()))
    return result
