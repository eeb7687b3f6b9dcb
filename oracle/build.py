#!/usr/bin/env python3
"""Builds the oracle over the sources of pp-rs 0.2.1.

usage: build.py PPRS_FOLDER

The folder has token.rs, pp.rs and pp/if_parser.rs; its lexer is not used. They are put, unchanged, beside the oracle's own
sources in oracle/target/build, and the program is oracle/target/build/target/release/oracle.
"""

import shutil
import subprocess
import sys
from pathlib import Path

HERE = Path(__file__).resolve().parent
BUILD = HERE / "target" / "build"
PROGRAM = BUILD / "target" / "release" / "oracle"
TAKEN = ("token.rs", "pp.rs", "pp/if_parser.rs")


class BuildError(Exception):
    pass


def copy(source, target):
    """Copies what has changed, so that nothing is compiled twice."""
    data = source.read_bytes()
    if not target.is_file() or target.read_bytes() != data:
        target.parent.mkdir(parents=True, exist_ok=True)
        target.write_bytes(data)


def build(folder):
    """Builds the program and answers its path."""
    folder = Path(folder)
    missing = [name for name in TAKEN if not (folder / name).is_file()]
    if missing:
        raise BuildError(f"{folder} has no {', '.join(missing)}")
    if shutil.which("cargo") is None:
        raise BuildError("cargo is not on the path")
    copy(HERE / "Cargo.toml", BUILD / "Cargo.toml")
    for source in (HERE / "src").glob("*.rs"):
        copy(source, BUILD / "src" / source.name)
    for name in TAKEN:
        copy(folder / name, BUILD / "src" / name)
    cargo = ["cargo", "build", "--release", "--offline", "--quiet"]
    done = subprocess.run(cargo, cwd=BUILD, stdout=subprocess.PIPE, stderr=subprocess.STDOUT, text=True)
    if done.returncode != 0:
        raise BuildError(f"cargo build failed:\n{done.stdout}")
    return PROGRAM


def main(arguments):
    if len(arguments) != 1:
        print("usage: build.py PPRS_FOLDER", file=sys.stderr)
        return 2
    try:
        print(build(arguments[0]))
    except (BuildError, OSError) as error:
        print(f"build.py: {error}", file=sys.stderr)
        return 1
    return 0


if __name__ == "__main__":
    sys.exit(main(sys.argv[1:]))
