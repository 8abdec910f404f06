#!/usr/bin/env python3
"""Prints a source of some size for the measurements of docs/PERFORMANCE.md: sources.py KIND KIB."""
import sys


def sources(kind, size):
    if kind == "functions":
        line = "fun f%d(x: INT32) -> INT32 = x + 1:32;\n"
        text, n = "", 0
        while len(text) + len(line % n) <= size:
            text, n = text + line % n, n + 1
        return text
    if kind == "sums":
        operators = max(1, (size // 1024 - 40) // 4)
        return "".join(f"fun g{n}(x: INT32) -> INT32 = x{' + x' * operators};\n" for n in range(1024))
    if kind == "calls":
        calls = max(1, (size // 1024 - 45) // 9)
        body = lambda n: "+".join(f"g{(n * 7 + k) % (n or 1)}(x)" for k in range(calls)) if n else "x"
        return "".join(f"fun g{n}(x: INT32) -> INT32 = {body(n)};\n" for n in range(1024))
    if kind == "chain":
        line = lambda n, operators: f"fun g{n}(x: INT32) -> INT32 = {'~' * operators}{f'g{n - 1}(x)' if n else 'x'};\n"
        operators = max(1, (size - sum(len(line(n, 0)) for n in range(1024))) // 1024)
        return "".join(line(n, operators) for n in range(1024))
    if kind == "parentheses":
        one = "(" * 250 + "1:32" + ")" * 250
        return "fun f(x: INT32) -> INT32 = f(" + ", ".join([one] * (size // (len(one) + 2) - 1)) + ");\n"
    if kind == "arms":
        return "fun f(x: INT32) -> INT32 = match x with {" + "".join(f" {n}:32 => x;" for n in range(size // 16)) + " _ => x; };\n"
    if kind == "sum":
        return "fun f(x: INT32) -> INT32 = x" + "+x" * (size // 2 - 20) + ";\n"
    if kind == "datatypes":
        each = min(512, size // 256 // 7)
        return "".join(f"type T{t:x} = C{t:x}_0{''.join(f'|C{t:x}_{n:x}' for n in range(1, each))};\n" for t in range(256))
    if kind == "constructors":
        half = size // 2 // 9
        types = [list(range(start, min(half, start + 512))) for start in range(0, half, 512)]
        text = "".join(f"type T{t:x} = {'|'.join(f'C{n:05x}' for n in cases)};\n" for t, cases in enumerate(types))
        last = len(types) - 1
        uses = (size - len(text)) // 9 // 2 - 8
        picked = [types[last][n % len(types[last])] for n in range(uses)]
        bodies = [picked[n : n + 200] for n in range(0, uses, 200)]
        return text + "".join(
            f"fun f{n}(x: BOOL) -> T{last:x} = " + "".join(f"let x=C{c:05x} in " for c in body) + f"C{body[0]:05x};\n"
            for n, body in enumerate(bodies)
        )
    if kind == "literals":
        return "fun f(x: INT32) -> INT32 = match x with {" + "".join(f"{n}:32=>x;" for n in range(20000)) + "_=>x;};\n"
    if kind == "rows":
        return "type Instr = Aa(a: INT16);\ndecode {\n" + "".join(f"[{n}:16 a:16] => Aa(a);\n" for n in range(512)) + "}\n"
    if kind == "variables":
        fields = lambda ty: ", ".join(f"a{n}: {ty}" for n in range(16))
        names = iter(f"v{n:x}" for n in range(16 * 16 * 16))
        row = lambda make: ", ".join(make() for _ in range(16))
        pattern = "B(" + row(lambda: "C(" + row(lambda: "D(" + row(lambda: next(names)) + ")") + ")") + ")"
        uses = "+".join("v0" for _ in range(120))
        text = f"type B = B({fields('C')});\ntype C = C({fields('D')});\ntype D = D({fields('INT1')});\nfun f(b: B) -> INT1 = match b with {{ {pattern} => "
        lets = (size - len(text)) // (len(uses) + 12)
        return text + "".join(f"let w={uses} in " for _ in range(min(lets, 120))) + "v0; };\n"
    raise SystemExit(__doc__)


if len(sys.argv) != 3:
    raise SystemExit(__doc__)
sys.stdout.write(sources(sys.argv[1], int(sys.argv[2]) * 1024))
