"""Instructions of a program, counted by callgrind (valgrind), which does not depend on the machine's load."""
import pathlib
import re
import subprocess

INPUTS = pathlib.Path(__file__).resolve().parent / "c" / "inputs"


def count(command, name):
    """Instructions of a program on the input `name` of c/inputs, and what it writes."""
    with open(INPUTS / name, "rb") as f:
        run = subprocess.run(["valgrind", "--tool=callgrind", "--callgrind-out-file=/dev/null"] + command, stdin=f,
                             stdout=subprocess.PIPE, stderr=subprocess.PIPE)
    return int(re.search(rb"Collected : (\d+)", run.stderr)[1]), run.stdout
