#!/usr/bin/env python3
"""The cases of the gate's program `vectors`, and what the second program prints for them.

    second/vectors.py COUNT SEED   writes crates/vectors/stdin and crates/vectors/stdout

Every kind of case is there; texts that are longer than LONGEST bytes are left out, to keep the files small.
"""
import os

import generate
import programs

LONGEST = 40000
FOLDER = os.path.join(os.path.dirname(programs.HERE), "crates", "vectors")


def main():
    count, seed = programs.arguments(__doc__)
    programs.build()
    with open(os.path.join(FOLDER, "stdin"), "wb") as given, open(os.path.join(FOLDER, "stdout"), "wb") as wanted:
        for _, program, text in generate.cases(count, seed):
            if len(text) <= LONGEST:
                given.write(b"%s %d\n%s\n" % (program.encode(), len(text), text))
                wanted.write(b"%s:\n%s" % (program.encode(), programs.run(programs.second(program), text)[0]))


if __name__ == "__main__":
    main()
