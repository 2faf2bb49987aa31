"""How the program is compiled, proved and found: what tools/build-program, tools/compile-program and tools/run-program share."""
