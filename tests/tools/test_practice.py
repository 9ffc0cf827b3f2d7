"""The commands of docs/PRACTICE.md, as they are written."""
import os
import re
import shutil
import subprocess
import unittest

from common import TOP, ToolCase, needs_bash, needs_make, needs_man, needs_matplotlib, needs_parallel


def commands():
    """The blocks of commands that the page marks as such."""
    with open(os.path.join(TOP, "docs", "PRACTICE.md"), encoding="utf-8") as file:
        return "".join(re.findall(r"^```sh\n(.*?)^```$", file.read(), re.MULTILINE | re.DOTALL))


@needs_bash
@needs_make
@needs_man
@needs_matplotlib
@needs_parallel
class PracticeTest(ToolCase):
    """The page's examples."""

    def test_commands(self):
        for name in ("docs", "examples", "tools", "Makefile"):
            (shutil.copytree if os.path.isdir(os.path.join(TOP, name)) else shutil.copy)(os.path.join(TOP, name), self.path(name))
        os.mkdir(self.path("bin"))
        script = '#!/bin/sh\nif [ "$1" = --print-program ]; then echo "$PYVRP"; else exec "$PYVRP" "$@"; fi\n'
        os.chmod(self.write("bin/pyvrp", script), 0o755)
        answer = subprocess.run(["bash", "-euo", "pipefail", "-c", commands()], cwd=self.folder, capture_output=True, text=True, check=False)
        told = [line for line in answer.stderr.splitlines() if not line.startswith("converge: run ")]
        self.assertEqual((answer.returncode, told), (0, []))
        self.assertIn("Cost 20\n", answer.stdout)
        self.assertEqual(len(self.read("practice", "sweep", "table.csv").splitlines()), 11)
        made = self.files("practice")
        self.assertTrue({"deliveries.svg", "progress.svg", "progress.csv", "solomon-tenths.vrp", "installed/bin/pyvrp"} <= set(made))


if __name__ == "__main__":
    unittest.main()
