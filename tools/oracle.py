"""Builds and runs the programs of oracle/, for make_cases.py and make_listing.py."""
import os
import subprocess
from pathlib import Path

ROOT = Path(__file__).resolve().parent.parent
TARGET = ROOT / "target" / "oracle"


def build():
    env = {**os.environ, "CARGO_TARGET_DIR": str(TARGET)}
    subprocess.run(["cargo", "build", "--release", "--offline", "-q"], cwd=ROOT / "oracle", env=env, check=True)


def run(program, lines=(), args=()):
    """The answers to case lines, or what the program prints to its arguments."""
    text_in = "".join(line + "\n" for line in lines).encode()
    done = subprocess.run([TARGET / "release" / program, *args], input=text_in, stdout=subprocess.PIPE, check=True)
    return done.stdout.decode().split("\n")[:-1]
