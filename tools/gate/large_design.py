#!/usr/bin/env python3
"""large_design.py FOLDER: writes files there. large.design is a design of 1,048,576 bytes, 500 objects and 30 threads, the most that one may have,
and of 14,000 operations: 400 of one passive object, 400 of one protected object, and 64 of passive objects that call each other in a chain. Under
large.arrivals its trace has over 100,000 bytes. units.ada is a program of 5,000 units, which are too many."""
import pathlib
import sys

COSTS = "COSTS ASSIGN = 1; TEST = 1; TURN = 1; CALL = 1; NULL = 1; PUT = 1; FINISH = 1; END COSTS;\n"
MOST_BYTES, OPERATIONS, OBJECTS, THREADS, CHAIN, WIDEST, UNITS = 1048576, 14000, 500, 30, 64, 400, 5000


def passive(name: str, ops: list[str], blocks: list[str], needs: str = "") -> str:
    provides = " ".join(f"{op};" for op in ops)
    bodies = "\n".join(f"OPERATION {op} IS BEGIN {block} END {op};" for op, block in zip(ops, blocks))
    return f"OBJECT {name} IS PASSIVE PROVIDES {provides}{needs}\n{bodies}\nEND {name};\n"


def protected(name: str, ops: list[str]) -> str:
    provides = " ".join(f"{op} PAER;" for op in ops)
    bodies = "\n".join(f"OPERATION {op} IS BEGIN null; END {op};" for op in ops)
    return f"OBJECT {name} IS PROTECTED PROVIDES {provides}\n{bodies}\nEND {name};\n"


def cyclic(name: str, period: int, block: str, needs: str = "") -> str:
    return (f"OBJECT {name} IS CYCLIC ATTRIBUTES PERIOD = {period}; DEADLINE = {period}; THREAD_BUDGET = {period};{needs}\n"
            f"THREAD {block} END THREAD; END {name};\n")


def large() -> str:
    chain = [passive(f"c{k}", ["f"], [f"c{k + 1}.f;" if k < CHAIN else "null;"], f" REQUIRES c{k + 1}.f;" if k < CHAIN else "")
             for k in range(1, CHAIN + 1)]
    # The others are passive, but for the object of protected operations and the one around all.
    count, some = OBJECTS - CHAIN - THREADS - 2, OPERATIONS - CHAIN - 2 * WIDEST
    sizes = [WIDEST] + [some // (count - 1) + (k < some % (count - 1)) for k in range(count - 1)]
    names = [f"o{n}" for n in range(1, WIDEST + 1)]
    wide = [passive(f"p{k}", names[:many], ["null;"] * many) for k, many in enumerate(sizes, 1)]
    last = names[-1]
    threads = [cyclic(f"t{k}", 10000, f"c1.f; p{k}.o1; p1.{last}; g.{last};", f" REQUIRES c1.f; p{k}.o1; p1.{last}; g.{last};")
               for k in range(1, THREADS + 1)]
    objects = "".join([*chain, *wide, protected("g", names), *threads])
    text = f"DESIGN large IS\n{COSTS}OBJECT w IS ACTIVE\nOBJECTS\n{objects}END w;\nEND large;\n"
    left = MOST_BYTES - len(text)
    assert left >= 0
    lines, rest = divmod(left, 64)
    return text + ("--" + "-" * 61 + "\n") * lines + (" " * (rest - 1) + "\n" if rest else "")


def units(program: str) -> str:
    """Returns a program with so many passive units more, ahead of its own."""
    heads = "".join(f"   package u{k} is\n      procedure f;\n   end u{k};\n" for k in range(UNITS))
    body = "      procedure f is\n      begin\n         null;\n      end f;\n"
    bodies = "".join(f"   package body u{k} is\n{body}   end u{k};\n" for k in range(UNITS))
    before, head, rest = program.partition("package d is\n")
    between, own, behind = rest.partition("package body d is\n")
    return before + head + heads + between + own + bodies + behind


folder = sys.argv[1]
with open(f"{folder}/large.design", "w", encoding="ascii") as it:
    it.write(large())
with open(f"{folder}/large.arrivals", "w", encoding="ascii") as it:
    it.write("UNTIL 1000000;\n")
with open(pathlib.Path(__file__).parents[2] / "examples/one_cyclic_task.ada", encoding="ascii") as it:
    small = it.read()
with open(f"{folder}/units.ada", "w", encoding="ascii") as it:
    it.write(units(small))
