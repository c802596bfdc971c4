"""What the scripts of this folder share: the program of a crate, proved and built."""
import os
import shutil
import subprocess
import sys

CRATES = os.path.join(os.path.dirname(os.path.dirname(os.path.abspath(__file__))), "crates")


def program_of(crate, words):
    """The path of a crate's program, which `rt run` proves, builds and runs once with these words. Where there is
    no rt it is the program that stands. The end of the script where there is none, with what is missing.
    """
    folder = os.path.join(CRATES, crate)
    program = os.path.join(folder, "out", crate)
    if shutil.which("rt"):
        print(f"bench: proving and building crates/{crate}", file=sys.stderr)
        run = subprocess.run(
            ["rt", "run", "--", *words], cwd=folder, stdout=subprocess.DEVNULL, stderr=subprocess.PIPE, text=True)
        if run.returncode != 0:
            sys.exit(f"{run.stderr}bench: crates/{crate} was not built")
    elif os.path.exists(program):
        print("rt is not on the path: taking the program that is there")
    else:
        sys.exit(f"bench: crates/{crate} is not built, and there is no rt on the path")
    return program
