"""Builds the second reader and asks a program for its answer to an input."""

import pathlib
import subprocess

ROOT = pathlib.Path(__file__).resolve().parent.parent
TARGET = ROOT / "target" / "second"


def build():
    """Builds the second reader below target/ and gives its path."""
    command = ["cargo", "build", "--quiet", "--release", "--offline", "--jobs", "1"]
    command += ["--manifest-path", str(ROOT / "second" / "Cargo.toml"), "--target-dir", str(TARGET)]
    subprocess.run(command, check=True)
    return str(TARGET / "release" / "second_reader")


def ask(command, data):
    """The bytes that a program prints for an input; a program that does not end has no answer."""
    try:
        done = subprocess.run(command, input=data, stdout=subprocess.PIPE, stderr=subprocess.DEVNULL, timeout=20)
    except subprocess.TimeoutExpired:
        return b"(no end within 20 seconds)\n"
    return done.stdout
