"""Calls of the program, and what it prints."""
import os
import re
import subprocess
from dataclasses import dataclass

from vrp.files import InputFault

TOP = os.path.dirname(os.path.dirname(os.path.dirname(os.path.abspath(__file__))))
HEADER = re.compile(r"^Instance +OK +Obj\. +Iters\. \(#\)\n", re.MULTILINE)
ROW = re.compile(r".* ([YNR]) +(\d{1,30}|inf|-) +\d+", re.ASCII)


@dataclass
class Outcome:
    """What a run printed: the text of routes and cost, the cost (None where nothing feasible was found), the whole text."""

    solution: str
    cost: int
    printed: str


def find_program():
    """The program's path: `PYVRP` of the environment, or the built program of this repository."""
    given = os.environ.get("PYVRP")
    if given:
        return os.path.abspath(given) if os.path.exists(given) else given
    found = subprocess.run([os.path.join(TOP, "bin", "pyvrp"), "--print-program"], stdout=subprocess.PIPE, text=True, check=False)
    if found.returncode:
        raise InputFault("bin/pyvrp", 0, "the program can't be built; PYVRP=PROGRAM names another one")
    return found.stdout.strip()


def read_outcome(path, printed):
    """The outcome that a printed text tells."""
    header = HEADER.search(printed)
    rows = [found for found in map(ROW.fullmatch, printed[header.end():].splitlines()) if found] if header else []
    if len(rows) != 1:
        raise InputFault(path, 0, "not what the program prints for one instance")
    solution = printed[: header.start()].removesuffix("\n")
    cost = int(rows[0][2]) if rows[0][1] == "Y" else None
    if solution and not solution.endswith(f"Cost {cost}\n") or bool(solution) != (cost is not None):
        raise InputFault(path, 0, "routes and table of the printed text don't agree")
    return Outcome(solution, cost, printed)


def run_program(program, seed, iterations, instance):
    """Runs the program on one instance."""
    words = [program, "--seed", str(seed), "--max_iterations", str(iterations), instance]
    try:
        answer = subprocess.run(words, capture_output=True, encoding="utf-8", errors="replace", check=False)
    except OSError as fault:
        raise InputFault(program, 0, f"cannot be run ({fault.strerror})") from None
    if answer.returncode:
        told = answer.stderr.strip() or "nothing said"
        raise InputFault(instance, 0, f"status {answer.returncode} at seed {seed} and {iterations} iterations: {told}")
    return read_outcome(instance, answer.stdout)
