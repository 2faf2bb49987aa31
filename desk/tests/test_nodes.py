"""The nodes of a contract, and what cannot be numbered. tests/nodes compares the numbers with those
of refusals.
"""

from tests.support import Room, run_desk

HEAD = "portfolio 1; amounts 2; party A, B; asset EUR;\nnum FX : 4 in 0.5000 .. 2.0000;\n"


class Nodes(Room):
    def test_places_and_words(self) -> None:
        book = self.file(
            "book", HEAD + "contract c = both(zero,\n  scale(-1.50, pay(EUR, A, B)));\n"
        )
        wanted = [
            "0\tline 3 column 14\tboth",
            "1\tline 3 column 19\tzero",
            "2\tline 4 column 3\tscale",
            "3\tline 4 column 9\t-1.50",
            "4\tline 4 column 16\tpay",
        ]
        ran = run_desk("nodes", "c", book)
        self.assertEqual((ran.status, ran.output.splitlines(), ran.errors), (0, wanted, ""))

    def test_a_tree_for_graphviz(self) -> None:
        choice = "if (obs(FX, 0) > -1.5) within 5 then zero else after(2, pay(EUR, A, B))"
        text = f"contract c = {choice};\n"
        ran = run_desk("nodes", "c", self.file("book", HEAD + text), "--dot")
        wanted = [
            'n0 [label="0: if within 5", shape=box]',
            "n0 -> n1",
            "n0 -> n4",
            "n0 -> n5",
            'n1 [label="1: >", shape=oval]',
            "n1 -> n2",
            "n1 -> n3",
            'n2 [label="2: obs(FX, 0)", shape=oval]',
            'n3 [label="3: -1.5", shape=oval]',
            'n4 [label="4: zero", shape=box]',
            'n5 [label="5: after 2", shape=box]',
            "n5 -> n6",
            'n6 [label="6: pay(EUR, A, B)", shape=box]',
        ]
        lines = [it.strip() for it in ran.output.splitlines()]
        self.assertEqual(
            (ran.status, lines[0], lines[2:-1], lines[-1]), (0, 'digraph "c" {', wanted, "}")
        )

    def test_a_fault_elsewhere_does_not_matter(self) -> None:
        book = self.file("book", HEAD + "contract a = both(zero);\ncontract c = zero;\n")
        self.assertEqual(run_desk("nodes", "c", book).output, "0\tline 4 column 14\tzero\n")
        ran = run_desk("nodes", "a", book)
        self.assertEqual((ran.status, ran.output), (1, ""))
        self.assertIn("fault text syntax line 3 column 23", ran.errors)

    def test_what_has_no_nodes(self) -> None:
        book = self.file("book", HEAD + "contract c = zero;\n")
        for name, file, said in ("FX", book, "no contract or code of this name: FX"), (
            "c", self.folder / "none", "No such file"
        ):
            ran = run_desk("nodes", name, file)
            self.assertEqual((ran.status, ran.output), (1, ""))
            self.assertIn(said, ran.errors)
            self.assertEqual(ran.errors.count("\n"), 1)

    def test_a_broken_head(self) -> None:
        ran = run_desk("nodes", "c", self.file("book", "portfolio 9; contract c = zero;"))
        self.assertEqual(ran.status, 1)
        self.assertIn("line 1 column 11", ran.errors)
