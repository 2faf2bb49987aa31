"""The subcommands of `tilugba-desk`, a module each: the module `value_by_day` is the subcommand
`value-by-day`.

To add one, put a module here; nothing else lists it. It has

- a docstring, whose first line says in a few words what the subcommand does (it is shown by
  `tilugba-desk --help`), and whose rest is shown below it by `tilugba-desk NAME --help`;
- `configure(parser)`, which adds the arguments to an `argparse.ArgumentParser`. `--program` and
  `--seconds` are there already;
- `run(arguments, desk)`, which does the work and returns the status. It prints by `desk.write` and
  runs the program by `desk.program.run`; `desk.tell` writes lines to standard error.

A command ends early by raising `program.Stop(status, message)`; a fault of the program is one too,
by `Answer.expected`. The message is printed behind `tilugba-desk NAME: ` on standard error. The
statuses are those of the program (`program.Status`), with 2 for words that no subcommand takes, and
70 for what is the desk's own.

Its tests are `desk/tests/test_NAME.py`, and its section with what it prints is in `docs/DESK.md`.
"""
