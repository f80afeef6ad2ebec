# SPDX-License-Identifier: MIT OR Apache-2.0
"""Does what ./pcid-audit does until the proved program is there.

usage: python3 build/unbuilt.py ARGUMENT..

What needs no program is answered at once. For all else an unproved program is built if there is none, and
then does what is asked: its output and its status are the program's, and one line on standard error says that
nothing here proves them.
"""
import os
import sys

sys.dont_write_bytecode = True
sys.path[0] = os.path.abspath(os.path.join(os.path.dirname(__file__), ".."))
from build import arguments, unproved

NOT_PROVED = ("pcid-audit: this answer comes from sources that are not proved here; to prove them: rt ci, or "
              "./pcid-audit --prove")
BUILT_FIRST = " (first they are built without proofs, which takes a minute or two)"
NOT_BUILT = 70


def main():
    words = sys.argv[1:]
    known = arguments.answer(words, sys.stdout.isatty())
    if known:
        sys.stdout.write(known.output)
        sys.stderr.write(known.errors)
        return known.status
    try:
        is_built = unproved.is_current()
        print(NOT_PROVED + ("" if is_built else BUILT_FIRST), file=sys.stderr, flush=True)
        if not is_built:
            unproved.build_once()
        os.execv(unproved.PROGRAM, [unproved.PROGRAM, *words])
    except (unproved.NotBuilt, OSError) as error:
        print(f"pcid-audit: not built: {error}", file=sys.stderr)
    return NOT_BUILT


if __name__ == "__main__":
    sys.exit(main())
