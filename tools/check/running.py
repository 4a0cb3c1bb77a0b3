"""How the checks of this folder run a program that `tools/make` built."""
import pathlib
import platform

ROOT = pathlib.Path(__file__).resolve().parents[2]
# How long a program may take. It takes far less, but for a machine that is busy.
SECONDS = 30


# Programs are for x86-64.
def command(name):
    program = [ROOT / "target/bin" / name]
    return program if platform.machine() == "x86_64" else ["qemu-x86_64", *program]
