"""Writes the texts that run-reader reads into the current folder."""


def write(name, text):
    with open(f"{name}.m", "w") as it:
        it.write(text)


MIB = 1048576
PARTS = {
    "flat": 'rule "Go" n[i] = I & x.f != true ==> n[i] := T; x.f := y + 1; end;\n',
    "parentheses": "invariant " + "(" * 99 + "a" + ")" * 99 + ";\n",
    "tests": "startstate " + "if a then " * 99 + "b := c " + "end " * 99 + "end;\n",
    "words": "rule begin undefine a; clear b; return endrule;\n",
}
for size in (1, 2):
    for name, part in PARTS.items():
        write(f"{name}_{size}_MiB", part * (size * MIB // len(part)))
for count in (100_000, 200_000):
    write(f"{count}_items", "invariant a;" * count)
    write(f"{count}_operands", "invariant a" + " + b" * count)
    write(f"{count}_statements", "startstate " + "a := b; " * count + "end")
