#!/usr/bin/env python3
"""hulls.py [PROGRAM [COUNT [SEED]]]: asks the built program for `aff` of some random values, always the same ones, and compares each answer with
the affine hull that libisl finds, without the congruences that this one keeps beside its equations, and with what a search over the points of
a window finds. Told are values whose hulls differ, and the milliseconds of a processor that both took for all hulls, without reading the
values. With `-` for PROGRAM libisl alone is asked.
"""
import ctypes
import ctypes.util
import itertools
import os
import random
import resource
import subprocess
import sys
import time

sys.path.insert(0, os.path.dirname(os.path.abspath(__file__)))
from points import points  # noqa: E402

WINDOW = range(-2, 3)


def library():
    """libisl, with the types of the calls that are used."""
    isl = ctypes.CDLL(ctypes.util.find_library("isl"))
    pointer = ctypes.c_void_p
    isl.isl_ctx_alloc.restype = pointer
    for name, given, answer in [("set_read_from_str", [pointer, ctypes.c_char_p], pointer), ("set_affine_hull", [pointer], pointer),
                                ("map_remove_divs", [pointer], pointer), ("set_is_equal", [pointer, pointer], ctypes.c_int),
                                ("set_to_str", [pointer], pointer), ("set_free", [pointer], pointer)]:
        call = getattr(isl, f"isl_union_{name}")
        call.argtypes, call.restype = given, answer
    return isl, pointer(isl.isl_ctx_alloc())


def term(rng, names):
    parts = [(rng.choice([-3, -2, -1, 1, 1, 2, 3]), f"*{name}") for name in names if rng.random() < 0.6] + [(rng.randint(-4, 4), "")]
    return "0" + "".join(f" {'-' if number < 0 else '+'} {abs(number)}{name}" for number, name in parts)


def comparison(rng, names):
    kind = rng.random()
    if kind < 0.15:
        return f"({term(rng, names)}) mod {rng.randint(2, 5)} = {rng.randint(0, 1)}"
    return f"{term(rng, names)} {'=' if kind < 0.4 else rng.choice(['<=', '>='])} 0"


def value(rng):
    """A set with a parameter or none, in up to two spaces, its points within the window."""
    params = rng.choice([[], ["n"]])
    pieces = []
    for _ in range(rng.choice([1, 1, 2, 2, 3])):
        space, width = rng.choice([("S", 2), ("S", 2), ("R", 3), ("W", 1)])
        names = [f"i{k}" for k in range(width)]
        rows = [f"{WINDOW[0]} <= {name} <= {WINDOW[-1]}" for name in params + names]
        rows += [comparison(rng, params + names) for _ in range(rng.randint(0, 3))]
        pieces.append(f"{space}[{', '.join(names)}] : {' and '.join(rows)}")
    return ("[n] -> " if params else "") + "{ " + "; ".join(pieces) + " }"


def left_of(row, basis):
    """A multiple of the row without multiples of those of the basis, each of which is kept under its first column that is not 0."""
    for column, other in sorted(basis.items()):
        if row[column]:
            row = [a * other[column] - row[column] * b for a, b in zip(row, other)]
    return row


def basis_of(rows):
    basis = {}
    for row in rows:
        left = left_of(row, basis)
        if any(left):
            basis[next(k for k, number in enumerate(left) if number)] = left
    return basis


def is_hull(text, hull):
    """Whether the hull has in the window, space by space, exactly the points that lie on all forms which vanish at those of the value."""
    of_value, of_hull = points(text, WINDOW), points(hull, WINDOW)
    for space in {space for space, _ in of_value | of_hull}:
        own = [numbers for other, numbers in of_value if other == space]
        found = {tuple(numbers) for other, numbers in of_hull if other == space}
        basis = basis_of([[*numbers, 1] for numbers in own])
        for point in itertools.product(WINDOW, repeat=len(next(iter(own or found)))):
            if (point in found) != (bool(own) and not any(left_of([*point, 1], basis))):
                return False
    return True


def seconds(program, statements):
    """The processor time of the program for a script."""
    before = resource.getrusage(resource.RUSAGE_CHILDREN).ru_utime
    subprocess.run([program], input="".join(f"h := {statement};\n" for statement in statements), text=True, check=True)
    return resource.getrusage(resource.RUSAGE_CHILDREN).ru_utime - before


def main():
    program = sys.argv[1] if len(sys.argv) > 1 else "crates/iscc/out/iscc"
    count = int(sys.argv[2]) if len(sys.argv) > 2 else 1000
    rng = random.Random(int(sys.argv[3]) if len(sys.argv) > 3 else 7)
    isl, context = library()
    wrong, theirs, texts = 0, 0.0, [value(rng) for _ in range(count)]
    for text in texts:
        read = isl.isl_union_set_read_from_str(context, text.encode())
        start = time.process_time()
        hull = isl.isl_union_set_affine_hull(read)
        theirs += time.process_time() - start
        hull = isl.isl_union_map_remove_divs(hull)
        if program == "-":
            shown = ctypes.string_at(isl.isl_union_set_to_str(hull)).decode()
            same = True
        else:
            done = subprocess.run([program], input=f"aff ({text});", capture_output=True, text=True, timeout=60, check=False)
            shown = done.stdout.strip() if done.returncode == 0 else f"status {done.returncode}"
            same = done.returncode == 0 and isl.isl_union_set_is_equal(hull, isl.isl_union_set_read_from_str(context, shown.encode())) == 1
        isl.isl_union_set_free(hull)
        same = same and is_hull(text, shown)
        wrong += not same
        if not same:
            print(f"{text}\n  {shown}")
    ours = 0.0 if program == "-" else seconds(program, [f"aff ({text})" for text in texts]) - seconds(program, texts)
    print(f"{count} values, {wrong} wrong, libisl {theirs * 1000:.0f} ms, the program {ours * 1000:.0f} ms")
    return 1 if wrong else 0


if __name__ == "__main__":
    sys.exit(main())
