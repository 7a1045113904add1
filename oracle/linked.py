"""Programs in C over the static library: compiled for x86-64, as bin/x86-64 has it, and the commands that run them."""
import subprocess
from pathlib import Path

ROOT = Path(__file__).resolve().parent.parent
FLAGS = ["-std=c11", "-Wall", "-Wextra", "-Werror", "-O2", "-static", "-I", ROOT / "include"]


def answered(command, *words):
    """The line that a command of bin/ prints. What it says meanwhile, as of a proof, goes through."""
    done = subprocess.run([ROOT / "bin" / command, *words], stdin=subprocess.DEVNULL, stdout=subprocess.PIPE, text=True, check=True)
    return done.stdout.strip()


def built(name):
    """The command that runs oracle/NAME.c, which is compiled to target/NAME/NAME."""
    compiler, emulator = answered("x86-64", "compiler"), answered("x86-64", "emulator")
    library = Path(answered("prove", "library")) / "libexports.a"
    program = ROOT / "target" / name / name
    program.parent.mkdir(parents=True, exist_ok=True)
    subprocess.run([compiler, *FLAGS, "-o", program, ROOT / "oracle" / f"{name}.c", library], check=True)
    return [emulator, str(program)] if emulator else [str(program)]
