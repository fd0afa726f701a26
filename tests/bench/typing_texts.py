#!/usr/bin/env python3
"""Writes texts of at most 1 MiB, each with many of one form, into the folder where it runs."""
MIB = 1048576
HEAD = '''const SIZE : 3;
type NODE : scalarset(SIZE); STATE : enum { I, T, C, E };
  LINE : record s : STATE; d : 0..3 end;
var n : array [NODE] of LINE; x : boolean; y : 0..3;
'''
START = 'startstate x := true end;\n'


def write(name, head, part, behind, most=10 ** 9):
    """`part` gives the k-th part; as many stand in the text as fit into 1 MiB."""
    parts, size, k = [], len(head) + len(behind), 0
    while k < most:
        one = part(k)
        if size + len(one) > MIB:
            break
        parts.append(one)
        size += len(one)
        k += 1
    with open(f'{name}.m', 'w') as file:
        file.write(head + ''.join(parts) + behind)


STEP = 'if n[i].s = I & x then n[i].s := T; n[i].d := y + 1; x := isundefined(n[j].d) end; '
CLAIM = '(n[i].s = I -> x) & (n[i].d < y + 1 | !x) & '
write('rules', HEAD, lambda k: f'ruleset i : NODE; j : NODE do rule "R{k}" x ==> {STEP * 11}end end;\n', START, 1000)
write('invariants', HEAD, lambda k: f'ruleset i : NODE do invariant "V{k}" {CLAIM * 21}x end;\n', START, 1000)
write('routines', HEAD, lambda k: f'procedure P{k}(i : NODE; j : NODE); {STEP * 3}end;\n', START)
write('functions', HEAD + 'function F0(v : 0..3) : 0..3; return v end;\n',
      lambda k: f'function F{k + 1}(v : 0..3) : 0..3; return v + y end;\n', START)
write('types', HEAD, lambda k: f'type T{k} : record a, b : LINE; c : array [STATE] of 0..{k % 200} end;\n', START)
write('constants', HEAD + 'const C0 : 1;\n', lambda k: f'const C{k + 1} : C{k} + 1 - 1;\n', START)
write('enums', HEAD, lambda k: 'type E%d : enum { %s };\n' % (k, ', '.join(f'e{k}_{i}' for i in range(256))), START)
write('locals', HEAD, lambda k: f'procedure P{k}(); var a, b : LINE; c : 0..3; begin a := b; c := a.d end;\n', START)
write('refused', HEAD, lambda k: f'const C{k} : {k % 1000};\n', 'const D : unknown;\n' + START)
write('twice', HEAD, lambda k: f'const C{k} : {k % 1000};\n', 'const C0 : 1;\n' + START)
write('records', HEAD + 'type R : record a0 : boolean',
      lambda k: f'; a{k + 1} : boolean', ' end;\n' + START)
write('quantifiers', HEAD, lambda k: f'invariant "V{k}" ' + '(forall i : 0..98 do forall j : 0..9 do y < 4 end end) & ' * 3 + 'x;\n', START, 1000)
write('calls', HEAD + 'function F0(v : 0..3) : 0..3; return v end;\n',
      lambda k: f'function F{k + 1}(v : 0..3) : 0..3; return F{k}(v) end;\n', START)
write('calls_over_nodes', HEAD + 'function F0(v : boolean) : boolean; return v end;\n',
      lambda k: f'function F{k + 1}(v : boolean) : boolean; return exists i : NODE do F{k}(v) & F{k}(n[i].s = I) end end;\n',
      START)
FIELDS = '; '.join(f'a{k} : boolean' for k in range(20000))
BACK = '; '.join(f'a{k} : boolean' for k in reversed(range(20000)))
write('last_fields', HEAD + f'type R : record {FIELDS} end;\nprocedure P(var r : R);\n', lambda k: 'r.a19999 := r.a0; ',
      'end;\n' + START)
write('copies', HEAD + f'type R : record {FIELDS} end; S : record {BACK} end;\nprocedure P(var r : R; s : S);\n',
      lambda k: 'r := s; ', 'end;\n' + START, 10)
