"""One job of a sweep: job.py PROGRAM ITERATIONS SEED INSTANCE RESULT; what the program prints is written whole or not at all."""
import os
import sys

sys.path.insert(0, os.path.dirname(os.path.dirname(os.path.abspath(__file__))))

from vrp.files import run_tool, write_text
from vrp.program import run_program


def main():
    """Runs the program where the result isn't there."""
    program, iterations, seed, instance, result = sys.argv[1:]
    if not os.path.exists(result):
        printed = run_program(program, seed, iterations, instance).printed
        os.makedirs(os.path.dirname(result), exist_ok=True)
        write_text(result, printed)


if __name__ == "__main__":
    run_tool(main)
