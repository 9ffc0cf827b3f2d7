"""Sweeps over instances and seeds."""
import os
import signal
import subprocess
import time
import unittest

from common import EXAMPLES, TOP, ToolCase, needs_parallel, random_instance

THREE, WINDOWS = os.path.join(EXAMPLES, "three.vrp"), os.path.join(EXAMPLES, "windows.vrp")
HEAD = "instance,runs,feasible,mean,best,best_seed,best_known,gap_percent\n"

# Stands for ssh: notes the host, and runs the words behind it in another folder with a bare environment.
SHELL = """#!/bin/sh
echo "$1" >> "$(dirname "$0")/hosts"
shift
[ "$1" = -- ] && shift
cd / && exec env -i PATH="$PATH" HOME=/ sh -c "$*"
"""


def heed_interrupts():
    """Lets a new process be interrupted, also where this one isn't, as in the background."""
    signal.signal(signal.SIGINT, signal.SIG_DFL)


class SweepCase(ToolCase):
    """Calls of a sweep."""

    def words(self, folder, *instances, seeds="1-5", iterations=7, jobs=2):
        """The words of a sweep."""
        words = ["--seeds", seeds, "--iterations", iterations, "--jobs", jobs, *(instances or (THREE, WINDOWS))]
        return [*words, "--to", self.path(folder)]


@needs_parallel
class SweepTest(SweepCase):
    """Results, and what is done again."""

    def test_best_by_cost_and_then_seed_with_gap(self):
        known = self.write("known.csv", "instance,cost\nthree,10\nother,3\n")
        words = self.words("sweep", seeds="1-4,50") + ["--best-known", known]
        self.succeed("sweep", *words, program=self.made_up_program())
        rows = "three,5,4,30.00,20,2,10,100.000\nwindows,5,4,30.00,20,2,,\n"
        self.assertEqual(self.read("sweep", "table.csv"), HEAD + rows)
        self.assertEqual(self.read("sweep", "best", "three.sol"), "Route #1: 2\nCost 20\n")
        self.assertEqual(len(self.files("sweep", "runs")), 10)
        self.assertEqual(len(self.calls()), 10)

    def test_nothing_feasible(self):
        self.succeed("sweep", *self.words("sweep", THREE, seeds="4"), program=self.made_up_program())
        self.assertEqual(self.read("sweep", "table.csv"), HEAD + "three,1,0,inf,inf,,,\n")
        self.assertEqual(self.files("sweep", "best"), {})

    def test_the_same_for_any_number_of_jobs(self):
        large = self.write("large.vrp", random_instance(200))
        for jobs in (1, 4):
            self.succeed("sweep", *self.words(f"jobs-{jobs}", THREE, WINDOWS, large, seeds="1-3", iterations=1, jobs=jobs))
        self.assertEqual(self.files("jobs-1"), self.files("jobs-4"))
        self.assertEqual(len(self.files("jobs-1", "best")), 3)

    def test_over_machines(self):
        program = self.made_up_program()
        self.succeed("sweep", *self.words("here"), program=program)
        os.chmod(self.write("shell", SHELL), 0o755)
        machines = self.write("machines", f"{self.path('shell')} one\n{self.path('shell')} two\n")
        self.succeed("sweep", *self.words("there"), "--sshloginfile", machines, program=program)
        self.assertEqual(self.files("here"), self.files("there"))
        self.assertEqual(set(self.read("hosts").split()), {"one", "two"})

    def test_interrupted(self):
        program = self.made_up_program(seconds=0.3)
        self.succeed("sweep", *self.words("whole"), program=program)
        for number in (signal.SIGINT, signal.SIGTERM):
            with self.subTest(number):
                self.interrupt(number, f"cut-{number}", program)
        self.assertFalse([path for path in self.files() if ".part-" in path])

    def interrupt(self, number, folder, program):
        """Interrupts a sweep behind its first result, looks at what is left, and calls it again."""
        command = self.command("sweep", *self.words(folder))
        how = {"env": {**os.environ, "PYVRP": program}, "stderr": subprocess.PIPE, "text": True, "start_new_session": True}
        with subprocess.Popen(command, preexec_fn=heed_interrupts, **how) as running:
            while running.poll() is None and not self.files(folder):
                time.sleep(0.02)
            os.kill(running.pid, number)
            self.assertIn("interrupted", running.communicate()[1])
        self.assertEqual(running.returncode, 1)
        left = self.files(folder)
        self.assertTrue(0 < len(left) < 10 and all(path.startswith("runs/") for path in left))
        calls = len(self.calls())
        self.succeed("sweep", *self.words(folder), program=program)
        self.assertEqual(self.files(folder), self.files("whole"))
        self.assertEqual(len(self.calls()) - calls, 10 - len(left))

    def test_what_is_done_is_not_done_again(self):
        program = self.made_up_program()
        self.succeed("sweep", *self.words("sweep", seeds="1-2"), program=program)
        self.succeed("sweep", *self.words("sweep", seeds="1-2"), program=program)
        self.assertEqual(len(self.calls()), 4)
        self.succeed("sweep", *self.words("sweep", seeds="1-3"), program=program)
        self.assertEqual(len(self.calls()), 6)

    def test_another_instance_number_of_iterations_or_program(self):
        program = self.made_up_program()
        instance = self.write("one.vrp", "1")
        self.succeed("sweep", *self.words("sweep", instance, seeds="1"), program=program)
        self.write("one.vrp", "2")
        self.succeed("sweep", *self.words("sweep", instance, seeds="1"), program=program)
        self.succeed("sweep", *self.words("sweep", instance, seeds="1", iterations=8), program=program)
        self.write("program", self.read("program").replace("1) cost=30", "1) cost=31"))
        self.succeed("sweep", *self.words("sweep", instance, seeds="1", iterations=8), program=program)
        self.assertEqual(len(self.calls()), 4)
        self.assertEqual(self.read("sweep", "table.csv"), HEAD + "one,1,1,31.00,31,1,,\n")

    def test_table_and_best_solutions_are_of_one_call(self):
        program = self.made_up_program()
        self.succeed("sweep", *self.words("sweep"), program=program)
        self.succeed("sweep", *self.words("sweep", THREE), program=program)
        self.assertEqual(list(self.files("sweep", "best")), ["three.sol"])

    def test_a_refused_instance_and_a_mended_one(self):
        program = self.made_up_program()
        self.succeed("sweep", *self.words("sweep"), program=program)
        refused = self.write("refused.vrp", "")
        answer = self.call("sweep", *self.words("sweep", THREE, refused), program=program)
        self.assertEqual(answer.returncode, 1)
        self.assertIn("refused.vrp: status 1 at seed 1 and 7 iterations: pyvrp: refused: line 7: rule 2 NoKeyword", answer.stderr)
        self.assertIn("a job failed", answer.stderr)
        self.assertTrue(all(path.startswith("runs/") and "refused" not in path for path in self.files("sweep")))
        self.write("program", self.read("program").replace('"$name" = refused', '"$name" = other'))
        self.succeed("sweep", *self.words("sweep", THREE, refused), program=program)
        self.assertIn("\nrefused,5,4,", self.read("sweep", "table.csv"))

    def test_names_with_blanks_and_signs(self):
        os.mkdir(self.path("a folder"))
        instance = self.write("a folder/it's $1 & more.vrp", "")
        self.succeed("sweep", *self.words("the sweep", instance, seeds="1"), program=self.made_up_program())
        self.assertEqual(list(self.files("the sweep", "best")), ["it's $1 & more.sol"])

    def test_array_of_slurm(self):
        program = self.made_up_program()
        self.succeed("sweep", *self.words("sweep", seeds="1-2"), program=program)
        told = self.succeed("sweep", *self.words("array", seeds="1-2"), "--list", program=program)
        self.assertIn("4 jobs in ", told)
        for task in range(4):
            self.assertEqual(self.run_task(task), 0)
        self.assertEqual(self.run_task(4), 1)
        os.remove(self.path("array", "jobs.sh"))
        calls = len(self.calls())
        self.succeed("sweep", *self.words("array", seeds="1-2"), program=program)
        self.assertEqual(len(self.calls()), calls)
        self.assertEqual(self.files("array"), self.files("sweep"))

    def run_task(self, task):
        """The status of a task of the array."""
        command = ["sh", os.path.join(TOP, "tools", "sweep.sbatch"), self.path("array", "jobs.sh")]
        environment = {**os.environ, "SLURM_ARRAY_TASK_ID": str(task)}
        return subprocess.run(command, env=environment, stderr=subprocess.DEVNULL, check=False).returncode


class RefusalTest(SweepCase):
    """What a sweep refuses before it begins."""

    def test_words(self):
        program = self.made_up_program()
        for told, words in (
            ("cannot be read", self.words("sweep", self.path("absent.vrp"))),
            ("has the same name", self.words("sweep", THREE, THREE)),
            ("not seeds as in", self.words("sweep", seeds="3-1")),
            ("not seeds as in", self.words("sweep", seeds="1,x")),
            ("not seeds as in", self.words("sweep", seeds=str(2**32))),
            ("--jobs at least 1", self.words("sweep", jobs=0)),
            ("cannot be made", self.words("program/sweep")),
        ):
            with self.subTest(told):
                self.refuse(told, "sweep", *words, program=program)
        self.refuse("cannot be read", "sweep", *self.words("sweep"), program=self.path("absent"))
        self.refuse("absent: cannot be read", "sweep", *self.words("sweep"), "--sshloginfile", self.path("absent"), program=program)

    def test_a_folder_that_holds_something_else(self):
        os.makedirs(self.path("mine", "best"))
        self.write("mine/best/three.sol", "mine")
        self.refuse("isn't empty, and isn't a sweep's folder", "sweep", *self.words("mine"), program=self.made_up_program())

    def test_best_known(self):
        for line, text in ((1, "three,20\n"), (2, "instance,cost\nthree\n"), (3, "instance,cost\nthree,20\nwindows,x\n")):
            with self.subTest(line):
                known = self.write("known.csv", text)
                self.refuse(f"known.csv: line {line}: ", "sweep", *self.words("sweep"), "--best-known", known)

    def test_without_gnu_parallel(self):
        path = os.environ["PATH"]
        os.environ["PATH"] = self.folder
        self.addCleanup(os.environ.__setitem__, "PATH", path)
        answer = self.call("sweep", *self.words("sweep"), program=self.made_up_program())
        self.assertIn("apt-get install parallel", answer.stderr)
        self.assertEqual((answer.returncode, self.files("sweep")), (1, {}))


if __name__ == "__main__":
    unittest.main()
