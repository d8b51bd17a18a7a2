#!/usr/bin/env python3
"""Prints README's table of times anew: statements by the program that is named, beside libisl.

    bench/beside.py PROGRAM

Each figure is milliseconds of a processor, the least of five turns. Of the program: a script of bindings and of so many copies of the
statement, less one of the bindings alone; so reading and printing count. Of libisl: its call on values that were read before.
"""
import ctypes
import ctypes.util
import os
import resource
import subprocess
import sys
import time

TURNS = 5
TRIANGLE = "[n] -> { S[i,j] : 0 <= i < n and 0 <= j <= i }"
OTHER = "[n] -> { S[i,j] : 0 <= i and i <= n-1 and 0 <= j and j <= i }"
WRITES = "[n,m] -> { S[i,j] -> A[i,j+1] : 0 <= i < n and 0 <= j < m }"
READS = "[n,m] -> { S[i,j] -> A[i+1,k] : 0 <= i < n and 0 <= j < m and j-1 <= k <= j+1 }"
STEP = "[n] -> { S[i,j,k] -> S[i,j,k+1] : 0 <= i, j, k and i, j, k+1 < n }"
TILES = "[n] -> { S[i,j,k] -> [floor(i/32), floor(j/32), floor(k/32), i, j, k] : 0 <= i, j, k < n }"
ORDER = TILES.replace(" : 0 <= i, j, k < n", "")
IMAGES = "[n] -> { S[i] -> A[j,k] : 0 <= i < n and i <= j < n and j <= k and k < n }"
SQUARE = "{ [i,j] : 0 <= i < 300 and 0 <= j < 300 }"
# A nest: its domain, writes, reads and times.
NESTS = {
    "stencil": ("{ S[t,i] : 0 <= t < 4 and 0 <= i < 8 }", "{ S[t,i] -> A[t,i] }", "{ S[t,i] -> A[t-1,j] : i-1 <= j <= i+1 }",
                "{ S[t,i] -> [t,i] : 0 <= t < 4 and 0 <= i < 8 }"),
    "matrix product": ("[n] -> { S[i,j,k] : 0 <= i, j, k < n }", "{ S[i,j,k] -> C[i,j] }",
                       "{ S[i,j,k] -> C[i,j]; S[i,j,k] -> A[i,k]; S[i,j,k] -> B[k,j] }", "{ S[i,j,k] -> [i,j,k] }"),
    "LU": ("[n] -> { S[k,i] : 0 <= k < i < n; T[k,i,j] : 0 <= k < n and k < i < n and k < j < n }",
           "{ S[k,i] -> A[i,k]; T[k,i,j] -> A[i,j] }",
           "{ S[k,i] -> A[i,k]; S[k,i] -> A[k,k]; T[k,i,j] -> A[i,j]; T[k,i,j] -> A[i,k]; T[k,i,j] -> A[k,j] }",
           "{ S[k,i] -> [k,0,i,0]; T[k,i,j] -> [k,1,i,j] }"),
}
TIMES = {
    "triangle": "[n] -> { S[i,j] -> [i,j] : 0 <= j <= i < n }",
    "LU": "[n] -> { S[k,i] -> [k,0,i,0] : 0 <= k < i < n; T[k,i,j] -> [k,1,i,j] : 0 <= k < i < n and k < j < n }",
    "tiled product": TILES,
}
SPACES = [" ; ".join(f"{a}{n}[i] -> {b}{n}[i] : 0 <= i <= 9" for n in range(4000)) for a, b in ["ST", "TU"]]


class Library:
    """libisl: its calls by their names, each with the kinds of what it takes: `v` a value, `s` a text, `p` a pointer."""

    def __init__(self):
        self.calls = ctypes.CDLL(ctypes.util.find_library("isl"))
        self.calls.isl_ctx_alloc.restype = ctypes.c_void_p
        self.context = ctypes.c_void_p(self.calls.isl_ctx_alloc())

    def call(self, name, *given, number=False):
        """A call that takes values and answers one, or a number."""
        function = getattr(self.calls, f"isl_{name}")
        function.restype = ctypes.c_int if number else ctypes.c_void_p
        return function(*[ctypes.c_void_p(value) if isinstance(value, int) else value for value in given])

    def read(self, kind, text):
        return self.call(f"{kind}_read_from_str", self.context, text.encode())

    def copied(self, kind, value):
        return self.call(f"{kind}_copy", value)


isl = Library()


def free(kind, value):
    isl.call(f"{kind}_free", value)


def operation(kind, name, *texts, turned=False):
    """What calls an operation on copies of values, the last of which may be turned before."""
    values = [isl.read(kind, text) for text in texts]

    def work():
        copies = [isl.copied(kind, value) for value in values]
        if turned:
            copies[-1] = isl.call(f"{kind}_reverse", copies[-1])
        free(kind, isl.call(f"{kind}_{name}", *copies))

    return work


def equal(first, second):
    a, b = isl.read("union_set", first), isl.read("union_set", second)
    return lambda: isl.call("union_set_is_equal", a, b, number=True)


def literal(text):
    return lambda: free("union_set", isl.read("union_set", text))


def listing(text):
    """Each point, handed to `isl_point_free`, whose answer is the one that goes on."""
    value = isl.read("union_set", text)
    return lambda: isl.call("union_set_foreach_point", value, isl.calls.isl_point_free, None, number=True)


def legal(steps, tiles):
    d, t = isl.read("union_map", steps), isl.read("union_map", tiles)

    def work():
        order = isl.call("union_map_lex_lt_union_map", isl.copied("union_map", t), isl.copied("union_map", t))
        isl.call("union_map_is_subset", d, order, number=True)
        free("union_map", order)

    return work


def last(nest):
    domain, writes, reads, times = NESTS[nest]

    def accesses(text):
        return isl.call("union_map_intersect_domain", isl.read("union_map", text), isl.read("union_set", domain))

    values = [accesses(reads), accesses(writes), isl.read("union_map", "{ }"), isl.read("union_map", times)]

    def work():
        found = [ctypes.c_void_p() for _ in range(4)]
        isl.call("union_map_compute_flow", *[isl.copied("union_map", value) for value in values], *map(ctypes.byref, found), number=True)
        for answer in found:
            free("union_map", answer.value)

    return work


def loops(text):
    times = isl.read("union_map", text)

    def work():
        build = isl.call("ast_build_from_context", isl.read("set", "{ : }"))
        free("ast_node", isl.call("ast_build_node_from_schedule_map", build, isl.copied("union_map", times)))
        free("ast_build", build)

    return work


def bindings(nest):
    domain, writes, reads, times = NESTS[nest]
    return f"D := {domain}; W := {writes} * D; R := {reads} * D; T := {times};"


# A row of README: what each figure is of: bindings, the statement, how often, and what calls libisl.
ROWS = [
    ("a literal of two coordinates", [("", f"{TRIANGLE};", 2000, literal(TRIANGLE))]),
    ("`a + b` of triangles", [(f"a := {TRIANGLE}; b := {OTHER};", "c := a + b;", 20000, operation("union_set", "union", TRIANGLE, OTHER))]),
    ("`a = b`", [(f"a := {TRIANGLE}; b := {OTHER};", "a = b;", 5000, equal(TRIANGLE, OTHER))]),
    ("`m . n^-1`", [(f"m := {WRITES}; n := {READS};", "c := m . n^-1;", 2000,
                     operation("union_map", "apply_range", WRITES, READS, turned=True))]),
    ("`.` of 4,000 pieces in as many spaces",
     [("".join(f"{name} := {{ {pieces} }};" for name, pieces in zip("ab", SPACES)), "c := a . b;", 3,
       operation("union_map", "apply_range", *(f"{{ {pieces} }}" for pieces in SPACES)))]),
    ("`scan` of 90,000 elements", [(f"a := {SQUARE};", "scan a;", 5, listing(SQUARE))]),
    ("`lexmin` of a map", [(f"m := {IMAGES};", "c := lexmin m;", 1000, operation("union_map", "lexmin", IMAGES))]),
    ("`last` of a stencil, a matrix product, LU",
     [(bindings(nest), "c := last W before R under T;", count, last(nest))
      for nest, count in [("stencil", 200), ("matrix product", 50), ("LU", 10)]]),
    ("`d <= (T << T)` of tiles, three dimensions", [(f"d := {STEP}; T := {ORDER};", "d <= (T << T);", 100, legal(STEP, ORDER))]),
    ("`codegen` of a triangle, LU, a tiled product",
     [(f"m := {times};", "codegen m;", 100, loops(times)) for times in TIMES.values()]),
]


def of_program(program, script):
    """The milliseconds of a processor that the program takes for a script, the least of the turns."""
    least = None
    for _ in range(TURNS):
        before = resource.getrusage(resource.RUSAGE_CHILDREN)
        subprocess.run([program], input=script.encode(), stdout=subprocess.DEVNULL, check=True)
        after = resource.getrusage(resource.RUSAGE_CHILDREN)
        used = 1000 * (after.ru_utime + after.ru_stime - before.ru_utime - before.ru_stime)
        least = used if least is None else min(least, used)
    return least


def of_library(work, count):
    least = None
    for _ in range(TURNS):
        before = time.process_time()
        for _ in range(count):
            work()
        used = 1000 * (time.process_time() - before) / count
        least = used if least is None else min(least, used)
    return least


def main(program):
    print("What | iscc | isl\n---|---|---")
    for name, figures in ROWS:
        ours = [(of_program(program, before + statement * count) - of_program(program, before)) / count
                for before, statement, count, _ in figures]
        theirs = [of_library(work, max(1, count // 5)) for _, _, count, work in figures]
        print(name, *(", ".join(f"{figure:.2g}" for figure in each) for each in (ours, theirs)), sep=" | ", flush=True)
    return 0


if __name__ == "__main__":
    if len(sys.argv) != 2:
        sys.exit(__doc__)
    sys.exit(main(os.path.abspath(sys.argv[1])))
