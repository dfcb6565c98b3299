"""The program that the tools run."""
import os
import subprocess
import sys

TOP = os.path.dirname(os.path.dirname(os.path.abspath(__file__)))


def program(named=None):
    """The path of the program: the one named, else that of the variable TARDIS, else this repository's, which is proved first if necessary. How
    far the proof is comes on standard error, and if it fails, this process ends with 4."""
    named = named or os.environ.get("TARDIS")
    if named:
        return os.path.abspath(named)
    if subprocess.run([f"{TOP}/tardis", "--prove"], check=False).returncode:
        sys.exit(4)
    return f"{TOP}/proved/tardis"
