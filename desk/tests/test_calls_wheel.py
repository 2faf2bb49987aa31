"""The wheel: the same files give the same bytes, and it installs without a network and answers from
any folder.
"""

import os
import subprocess
import sys
import unittest
import zipfile
from pathlib import Path
from unittest import mock

import wheel_backend
from tests.support import DESK, TOP, Room
from tests.test_calls import LOAN, the_library
from tilugba import engines

USE = """
import sys, tilugba
flows = tilugba.flows(sys.argv[1])
print(flows[1].amount, tilugba.__file__, tilugba.calls.found.engine.engine.native.path)
"""
# What an older processor tells of itself.
OLD = "flags : fpu sse2 cx16 pni ssse3 lahf_lm popcnt sse4_1\n"


class Wheel(Room):
    """A wheel over the library that the tests call."""

    def setUp(self) -> None:
        super().setUp()
        self.enterContext(
            mock.patch.dict(os.environ, {engines.LIBRARY_VARIABLE: str(the_library())})
        )

    def build(self, name: str) -> Path:
        folder = self.folder / name
        folder.mkdir()
        return folder / wheel_backend.build_wheel(str(folder))

    def test_the_same_files_give_the_same_wheel(self) -> None:
        first, second = self.build("first"), self.build("second")
        self.assertEqual(first.read_bytes(), second.read_bytes())
        self.assertEqual(
            first.name,
            f"tilugba-{(TOP / 'VERSION').read_text().strip()}-py3-none-manylinux_2_17_x86_64.whl",
        )
        with zipfile.ZipFile(first) as wheel:
            self.assertIsNone(wheel.testzip())
            names = wheel.namelist()
            self.assertEqual(wheel.read("tilugba/libtilugba.so"), the_library().read_bytes())
        self.assertIn("tilugba/commands/__init__.py", names)
        self.assertFalse([name for name in names if "__pycache__" in name or "tests" in name])

    def test_without_a_library_it_says_what_to_do(self) -> None:
        with mock.patch.dict(os.environ, {engines.LIBRARY_VARIABLE: "/none.so"}), self.assertRaises(
            SystemExit
        ) as caught:
            wheel_backend.build_wheel(str(self.folder))
        self.assertIn("tools/build-library", str(caught.exception))

    def test_it_installs_without_a_network(self) -> None:
        place = self.folder / "venv"
        made = subprocess.run(
            [sys.executable, "-m", "venv", place], capture_output=True, text=True, check=False
        )
        if made.returncode:
            self.skipTest(f"there is no venv: {made.stdout}{made.stderr}")
        python = place / "bin/python"
        said = subprocess.run(
            [python, "-m", "pip", "install", "--no-index", "-q", DESK],
            capture_output=True,
            text=True,
            check=False,
        )
        self.assertEqual(said.returncode, 0, said.stdout + said.stderr)
        self.assertFalse((DESK / "build").exists())
        clean = {
            name: value
            for name, value in os.environ.items()
            if not name.startswith(("TILUGBA", "PYTHON"))
        }
        used = subprocess.run(
            [python, "-c", USE, LOAN],
            cwd="/",
            env=clean,
            capture_output=True,
            text=True,
            check=False,
        )
        self.assertEqual(used.returncode, 0, used.stderr)
        amount, package, library = used.stdout.split()
        self.assertEqual((amount, Path(library).parent), ("105.00", Path(package).parent))
        self.assertTrue(Path(package).is_relative_to(place))
        asked = subprocess.run(
            [place / "bin/tilugba-desk", "--help"],
            cwd="/",
            env=clean,
            capture_output=True,
            text=True,
            check=False,
        )
        self.assertEqual(asked.returncode, 0, asked.stderr)
        self.refuses_an_older_processor(python, Path(package).with_name("native.py"), clean)

    def refuses_an_older_processor(
        self, python: Path, native: Path, environment: dict[str, str]
    ) -> None:
        """The installed package is imported where the file that it asks tells of an older
        processor.
        """
        told = self.file("cpuinfo", OLD)
        native.write_text(native.read_text().replace("/proc/cpuinfo", str(told)))
        tried = subprocess.run(
            [python, "-c", "import tilugba"],
            cwd="/",
            env=environment,
            capture_output=True,
            text=True,
            check=False,
        )
        self.assertEqual(tried.returncode, 1)
        wanted = (
            "ImportError: the library of tilugba needs a processor of x86-64-v2, and this one "
            "lacks sse4_2"
        )
        self.assertEqual(tried.stderr.splitlines()[-1], wanted)


if __name__ == "__main__":
    unittest.main()
