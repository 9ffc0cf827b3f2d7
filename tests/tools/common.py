"""What the tests of the tools share: a scratch folder, calls of tools, made-up programs and instances."""
import importlib.util
import os
import random
import shutil
import subprocess
import sys
import tempfile
import unittest

TOP = os.path.dirname(os.path.dirname(os.path.dirname(os.path.abspath(__file__))))
EXAMPLES = os.path.join(TOP, "examples")
sys.path.insert(0, os.path.join(TOP, "tools"))

needs_matplotlib = unittest.skipUnless(
    importlib.util.find_spec("matplotlib"), "matplotlib isn't installed (Debian: apt-get install python3-matplotlib)"
)
needs_parallel = unittest.skipUnless(shutil.which("parallel"), "GNU parallel isn't installed (Debian: apt-get install parallel)")
needs_make = unittest.skipUnless(shutil.which("make"), "make isn't installed (Debian: apt-get install make)")
needs_man = unittest.skipUnless(shutil.which("man"), "man isn't installed (Debian: apt-get install man-db)")
needs_bash = unittest.skipUnless(shutil.which("bash"), "bash isn't installed (Debian: apt-get install bash)")

# A program that knows each seed's cost: seed 1 finds 30, 2 finds 20, 3 finds 20, 4 finds nothing, and others cost their seed.
# Its table is right; it takes the words that the real one takes, and notes each call in the file calls beside it.
MADE_UP = """#!/bin/sh
echo "$2 $4 $5" >> "$(dirname "$0")/calls"
sleep {seconds}
name=$(basename "$5" .vrp)
[ "$name" = refused ] && {{ echo "pyvrp: refused: line 7: rule 2 NoKeyword" >&2; exit 1; }}
case $2 in 1) cost=30 ;; 2|3) cost=20 ;; 4) cost= ;; *) cost=$2 ;; esac
[ "$cost" ] && printf 'Route #1: %s\\nCost %s\\n\\n' "$2" "$cost"
printf '%-24s %-2s %20s %10s\\n' Instance OK Obj. 'Iters. (#)'
if [ "$cost" ]; then printf '%-24s %-2s %20s %10s\\n' "$name" Y "$cost" "$4"; else printf '%-24s %-2s %20s %10s\\n' "$name" N inf "$4"; fi
printf 'Feasible: %s of 1\\n' "${{cost:+1}}"
"""


class ToolCase(unittest.TestCase):
    """Tests in a scratch folder."""

    def setUp(self):
        self.folder = tempfile.mkdtemp(prefix="tools-test-")
        self.addCleanup(shutil.rmtree, self.folder)

    def path(self, *names):
        """A path in the scratch folder."""
        return os.path.join(self.folder, *names)

    def write(self, name, text):
        """Writes a file of the scratch folder, and returns its path."""
        with open(self.path(name), "w", encoding="utf-8", newline="") as file:
            file.write(text)
        return self.path(name)

    def read(self, *names):
        """The text of a file of the scratch folder."""
        with open(self.path(*names), encoding="utf-8", newline="") as file:
            return file.read()

    def command(self, tool, *words):
        """The words that call a tool by this interpreter."""
        return [sys.executable, os.path.join(TOP, "tools", tool), *map(str, words)]

    def call(self, tool, *words, program=None):
        """Calls a tool in the scratch folder."""
        environment = {**os.environ, "PYVRP": program or os.environ["PYVRP"]}
        return subprocess.run(
            self.command(tool, *words), cwd=self.folder, env=environment, capture_output=True, text=True, check=False
        )

    def succeed(self, tool, *words, program=None):
        """Calls a tool that has to succeed, and returns what it printed."""
        answer = self.call(tool, *words, program=program)
        self.assertEqual(answer.returncode, 0, answer.stderr)
        return answer.stdout

    def refuse(self, told, tool, *words, program=None):
        """Calls a tool that has to refuse its input in these words, with a status other than 0 and without any new file."""
        before = self.files()
        answer = self.call(tool, *words, program=program)
        self.assertNotEqual(answer.returncode, 0)
        self.assertIn(told, answer.stderr)
        self.assertNotIn("Traceback", answer.stderr)
        self.assertEqual(self.files(), before)

    def files(self, *names):
        """The bytes of the files below a folder, by path; those that made-up programs note their calls in are left out."""
        top, found = self.path(*names), {}
        for folder, _, files in os.walk(top):
            for name in files:
                if name != "calls":
                    with open(os.path.join(folder, name), "rb") as file:
                        found[os.path.relpath(os.path.join(folder, name), top)] = file.read()
        return found

    def made_up_program(self, seconds=0):
        """The program that knows each seed's cost."""
        path = self.write("program", MADE_UP.format(seconds=seconds))
        os.chmod(path, 0o755)
        return path

    def calls(self):
        """The calls of the made-up program: seed, iterations and instance."""
        return self.read("calls").splitlines() if os.path.exists(self.path("calls")) else []

    def solve(self, instance, name="solution.txt"):
        """The program's answer to an instance with one iteration, as a file."""
        words = [os.environ["PYVRP"], "--seed", "1", "--max_iterations", "1", instance]
        return self.write(name, subprocess.run(words, capture_output=True, text=True, check=True).stdout)


def random_instance(clients, capacity=100):
    """The text of an instance with demands of at most a tenth of the capacity."""
    draw = random.Random(7)
    lines = [f"DIMENSION : {clients + 1}", "EDGE_WEIGHT_TYPE : EUC_2D", f"CAPACITY : {capacity}", "NODE_COORD_SECTION"]
    lines += [f"{node} {draw.randrange(1000)} {draw.randrange(1000)}" for node in range(1, clients + 2)]
    lines += ["DEMAND_SECTION", "1 0"] + [f"{node} {draw.randrange(1, capacity // 10)}" for node in range(2, clients + 2)]
    return "\n".join(lines + ["EOF"]) + "\n"
