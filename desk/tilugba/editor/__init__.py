"""The language server: what an editor shows of a text while it is written.

- `protocol`: messages on two streams.
- `documents`: open texts, and places in them; columns are bytes here and UTF-16 units in the
  protocol.
- `diagnostics`: faults as one types, by the parser, and on save, by the program.
- `navigation`: definition and references of names, outline.
- `hovers`, `completion`: what is said of a place, and what may stand there.
- `server`: the requests, and what answers them.
"""
