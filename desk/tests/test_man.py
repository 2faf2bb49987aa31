"""The page of man has each subcommand, in order, and no other."""

import re
import unittest

from tests.support import TOP
from tilugba import cli


class Man(unittest.TestCase):
    def test_subcommands(self) -> None:
        page = (TOP / "man" / "tilugba-desk.1").read_text()
        told = [it.replace("\\-", "-") for it in re.findall(r"^\.It Cm (\S+)$", page, re.M)]
        self.assertEqual(told, cli.names())
