"""Calls that are asked by the thousand: on the processors of this machine, over Dask, or by Slurm.

- `asks`: what a call is, what its answer depends on, and a piece of work that is sent away as one.
- `kept`: answers in a folder, so that what was asked once is not asked again.
- `spread`: where calls are asked. `dask` and `slurm` are loaded if they are named.
- `options`: the words by which a subcommand takes all of this.

The answers are the same wherever they come from, and in the order in which they were asked for.
"""
