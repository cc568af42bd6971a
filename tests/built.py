"""Where the built program is."""
import os
import subprocess

TOP = os.path.dirname(os.path.dirname(os.path.abspath(__file__)))


def program():
    """The path of the program itself, after it was built where a source is newer."""
    subprocess.run([os.path.join(TOP, "nofjand")], stdout=subprocess.DEVNULL, stderr=subprocess.DEVNULL)
    return os.path.join(TOP, "crates", "lw_program", "out", "lw_program")
