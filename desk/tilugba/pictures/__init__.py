"""Pictures of tables as SVG, which need no other program: for `exposure`, and within the page of
`report`.

- `svg`: elements and their text.
- `scale`: from numbers to places on the picture, and the round numbers at its side.
- `panel`: a frame with its scales, its names and what is drawn in it: lines in steps, or bars.
- `lines`: a picture of several panels below each other.

Amounts become floats here, to be drawn and never to be told: every number is in a table too.
"""
