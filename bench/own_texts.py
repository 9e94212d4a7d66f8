#!/usr/bin/env python3
"""Writes one program in two forms: as `sample_opt` reads it, and as `mlir-opt` does in its generic form.

    own_texts.py COUNT FOLDER    FOLDER/own.plir and FOLDER/own.mlir, of so many functions

Each function has ten operations of a dialect's own: nine sums, each of the two values before it, and a return.
"""
import sys
from pathlib import Path

TYPE = "builtin.integer si32"


def lines_of(number):
    """The lines of a function, in both forms."""
    yield f"builtin.func @f{number}: builtin.function <({TYPE}, {TYPE})->({TYPE})> {{^entry(a: {TYPE}, b: {TYPE}):", \
        '"func.func"() ({\n^bb0(%a: si32, %b: si32):'
    last, before = "a", "b"
    for place in range(9):
        yield f"x{place} = sample.add ({last}, {before}) [] []: <({TYPE}, {TYPE})->({TYPE})>;", \
            f'%x{place} = "sample.add"(%{last}, %{before}) : (si32, si32) -> si32'
        last, before = f"x{place}", last
    yield f"sample.return ({last}) [] []: <({TYPE})->()>}}", \
        f'"sample.return"(%{last}) : (si32) -> ()\n' \
        f'}}) {{function_type = (si32, si32) -> si32, sym_name = "f{number}"}} : () -> ()'


def main(count, folder):
    with open(folder / "own.plir", "w") as ours, open(folder / "own.mlir", "w") as theirs:
        print("builtin.module @m {^b():", file=ours)
        print('"builtin.module"() ({', file=theirs)
        for number in range(count):
            print(";" if number else "", end="", file=ours)
            for mine, other in lines_of(number):
                print(mine, file=ours)
                print(other, file=theirs)
        print("}", file=ours)
        print("}) : () -> ()", file=theirs)


main(int(sys.argv[1]), Path(sys.argv[2]))
