"""The whole page: its parts in order, and how it looks."""

from __future__ import annotations

from html import escape

from . import sections
from .html import said, tag
from .sections import Told

# Nothing is asked of any host, and nothing runs.
POLICY = "default-src 'none'; style-src 'unsafe-inline'"
STYLE = """
:root { color-scheme: light; }
body {
  font: 16px/1.5 "DejaVu Sans", Verdana, Arial, sans-serif;
  color: #1a1a1a; background: white;
  margin: 0 auto; max-width: 62rem; padding: 1rem;
}
h1 { font-size: 1.6rem; line-height: 1.2; margin: 0.5rem 0; }
h2 { font-size: 1.25rem; margin: 2rem 0 0.5rem; border-bottom: 2px solid #0072b2; }
h3 { font-size: 1rem; margin: 1rem 0 0.2rem; }
p { margin: 0.4rem 0; }
.wide, .picture { overflow-x: auto; margin: 0.5rem 0; }
.picture svg { display: block; width: 100%; min-width: 36rem; }
table { border-collapse: collapse; font-size: 0.875rem; }
caption { text-align: left; font-weight: bold; padding: 0.5rem 0; }
th, td {
  padding: 0.25rem 0.75rem 0.25rem 0; border-bottom: 1px solid #d8d8d8;
  text-align: left; vertical-align: top;
}
th.n, td.n { text-align: right; white-space: nowrap; font-variant-numeric: tabular-nums; }
pre {
  background: #f4f4f4; padding: 0.5rem; margin: 0.3rem 0; font-size: 0.8rem;
  white-space: pre-wrap; overflow-wrap: anywhere;
}
@media (max-width: 40rem) { body { font-size: 15px; padding: 0.6rem; } h1 { font-size: 1.3rem; } }
@media print {
  body { font-size: 10pt; max-width: none; padding: 0; }
  .wide, .picture { overflow: visible; }
  .picture svg { min-width: 0; }
  article, .picture, tr { break-inside: avoid; }
  h2, h3, caption { break-after: avoid; }
  thead { display: table-header-group; }
}
"""


def page(told: Told) -> str:
    """The page as HTML."""
    head = [
        '<meta charset="utf-8">',
        f'<meta http-equiv="Content-Security-Policy" content="{escape(POLICY)}">',
        '<meta name="viewport" content="width=device-width, initial-scale=1">',
        said("title", f"{told.title}, {told.day}"),
        f"<style>{STYLE}</style>",
    ]
    parts = [
        said("h1", f"{told.title}, {told.day}"),
        sections.overview(told),
        sections.payments(told),
        sections.needs(told),
        sections.values(told),
        sections.contracts(told),
        sections.receipt(told),
    ]
    body = tag("main", "\n".join(part for part in parts if part))
    return (
        f'<!DOCTYPE html>\n<html lang="en">\n{tag("head", *head)}\n{tag("body", body)}\n</html>\n'
    )
