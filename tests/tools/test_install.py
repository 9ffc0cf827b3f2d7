"""Installing the program, its manual page and its completion."""
import os
import subprocess
import unittest

from common import EXAMPLES, TOP, ToolCase, needs_bash, needs_make, needs_man

INSTALLED = ["bin/pyvrp", "share/bash-completion/completions/pyvrp", "share/man/man1/pyvrp.1"]
COMPLETE = """. "$1"; shift
COMP_WORDS=("$@") COMP_CWORD=$(($# - 1))
_pyvrp
printf '%s\\n' "${COMPREPLY[@]}"
"""


class InstallTest(ToolCase):
    """What stands where."""

    def make(self, *words):
        """Calls make at the top."""
        return subprocess.run(["make", "-C", TOP, "--no-print-directory", *words], capture_output=True, text=True, check=False)

    @needs_make
    def test_install_and_uninstall(self):
        words = [f"PREFIX={self.path('a prefix')}", f"PROGRAM={os.environ['PYVRP']}"]
        self.assertEqual(self.make("install", *words).returncode, 0)
        self.assertEqual(sorted(self.files("a prefix")), INSTALLED)
        program = self.path("a prefix", "bin", "pyvrp")
        self.assertIn("Cost 20\n", self.read(self.solve_with(program)))
        self.assertEqual(self.make("uninstall", *words).returncode, 0)
        self.assertEqual(self.files("a prefix"), {})

    def solve_with(self, program):
        """The answer of an installed program to the plainest instance."""
        words = [program, "--seed", "1", "--max_iterations", "1", os.path.join(EXAMPLES, "three.vrp")]
        return self.write("answer.txt", subprocess.run(words, capture_output=True, text=True, check=True).stdout)

    @needs_make
    def test_folder_for_packages(self):
        words = [f"DESTDIR={self.path('package')}", "PREFIX=/usr", f"PROGRAM={os.environ['PYVRP']}"]
        self.assertEqual(self.make("install", *words).returncode, 0)
        self.assertEqual(sorted(self.files("package", "usr")), INSTALLED)

    @needs_make
    def test_nothing_is_installed_without_the_program(self):
        answer = self.make("install", f"PREFIX={self.path('prefix')}", f"PROGRAM={self.path('absent')}")
        self.assertNotEqual(answer.returncode, 0)
        self.assertEqual(self.files(), {})

    @needs_make
    def test_check_is_the_gate(self):
        self.assertEqual(self.make("--dry-run", "check").stdout, ".ci/run\n")

    @needs_man
    def test_manual_page(self):
        words = ["man", "--warnings", "-E", "UTF-8", "-l", "-Tutf8", os.path.join(TOP, "docs", "pyvrp.1")]
        answer = subprocess.run(words, capture_output=True, text=True, check=False)
        self.assertEqual((answer.returncode, answer.stderr), (0, ""))
        self.assertIn("the words are wrong", answer.stdout)

    @needs_bash
    def test_completion(self):
        for name in ("one.vrp", "other.vrp", "notes.txt", "only.txt"):
            self.write(name, "")
        os.mkdir(self.path("older"))
        before = ["pyvrp", "--seed", "1", "--max_iterations", "1"]
        for words, wanted in (
            (["pyvrp", ""], ["--seed"]),
            (["pyvrp", "--seed", ""], []),
            (["pyvrp", "--seed", "1", "--m"], ["--max_iterations"]),
            ([*before, "o"], ["older", "one.vrp", "other.vrp"]),
            ([*before, "only"], ["only.txt"]),
            ([*before, "one.vrp", ""], []),
        ):
            with self.subTest(words):
                script = ["bash", "-c", COMPLETE, "bash", os.path.join(TOP, "tools", "completion.bash"), *words]
                answer = subprocess.run(script, cwd=self.folder, capture_output=True, text=True, check=True).stdout
                self.assertEqual(sorted(answer.split()), wanted)


if __name__ == "__main__":
    unittest.main()
