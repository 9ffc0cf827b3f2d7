"""Cost against iterations."""
import os
import unittest

from common import EXAMPLES, ToolCase, needs_matplotlib

THREE = os.path.join(EXAMPLES, "three.vrp")


class ConvergeTest(ToolCase):
    """The table and the picture."""

    def test_table_of_the_real_program(self):
        table = self.succeed("converge", THREE, "--seed", 1, "--iterations", "0,1")
        self.assertEqual(table.splitlines()[0], "iterations,cost")
        self.assertEqual(table.splitlines()[2], "1,20")

    def test_one_run_for_each_number_of_iterations(self):
        table = self.succeed("converge", THREE, "--seed", 2, "--iterations", "0,5,7", program=self.made_up_program())
        self.assertEqual(table, "iterations,cost\n0,20\n5,20\n7,20\n")
        self.assertEqual(self.calls(), [f"2 {iterations} {THREE}" for iterations in (0, 5, 7)])

    def test_nothing_feasible(self):
        program = self.made_up_program()
        self.succeed("converge", THREE, "--seed", 4, "--iterations", "1", "--csv", self.path("table.csv"), program=program)
        self.assertEqual(self.read("table.csv"), "iterations,cost\n1,inf\n")

    @needs_matplotlib
    def test_picture(self):
        for seed in (2, 4):
            words = ["--seed", seed, "--iterations", "0,5", "-o", self.path("picture.svg")]
            self.succeed("converge", THREE, *words, program=self.made_up_program())
            self.assertIn(f"three.vrp, seed {seed}", self.read("picture.svg"))

    def test_refusals(self):
        program = self.made_up_program()
        refused = self.write("refused.vrp", "")
        for told, words in (
            ("line 7: rule 2 NoKeyword", [refused, "--seed", 1, "--csv", self.path("new.csv")]),
            ("not rising numbers", [THREE, "--seed", 1, "--iterations", "5,5"]),
            ("not rising numbers", [THREE, "--seed", 1, "--iterations", "1,x"]),
            ("not a number from 0 to 4294967295", [THREE, "--seed", 2**32]),
            ("its folder isn't there", [THREE, "--seed", 1, "--csv", self.path("absent", "new.csv")]),
            ("it is no plain file", [THREE, "--seed", 1, "--csv", "/dev/null"]),
            ("ends in .svg or .png", [THREE, "--seed", 1, "-o", "picture"]),
        ):
            with self.subTest(told):
                self.refuse(told, "converge", *words, program=program)
        self.refuse("cannot be run", "converge", THREE, "--seed", 1, program=self.path("absent"))
        self.refuse("not what the program prints", "converge", THREE, "--seed", 1, program="/bin/true")


if __name__ == "__main__":
    unittest.main()
