"""Writes the instances of the benchmark: DIMACS, then a line `a LITERALS 0` for each call.

A line of literals is a clause, and a line that begins with `a` asks whether the clauses so far can be
satisfied with these literals true. The numbers are drawn with fixed seeds.
"""
import random


def pigeonhole(pigeons, holes):
    """Each pigeon has a hole, and no two have the same."""
    def sits(p, h):
        return p * holes + h + 1
    clauses = [[sits(p, h) for h in range(holes)] for p in range(pigeons)]
    clauses += [[-sits(p, h), -sits(q, h)]
                for h in range(holes) for p in range(pigeons) for q in range(p)]
    return pigeons * holes, clauses


def random_3sat(variables, ratio, seed):
    """So many clauses a variable, each of three different variables with random signs."""
    draw = random.Random(seed)
    clauses = []
    for _ in range(int(variables * ratio)):
        chosen = draw.sample(range(1, variables + 1), 3)
        clauses.append([v if draw.random() < 0.5 else -v for v in chosen])
    return variables, clauses


def chain(length):
    """The first variable is true, and each implies the next."""
    return length, [[1]] + [[-i, i + 1] for i in range(1, length)]


def calls(variables, count, width, seed):
    """Calls under so many random assumptions each."""
    draw = random.Random(seed)
    out = []
    for _ in range(count):
        chosen = draw.sample(range(1, variables + 1), width)
        out.append([v if draw.random() < 0.5 else -v for v in chosen])
    return out


def write(name, formula, asked):
    variables, clauses = formula
    with open(name + '.cnf', 'w') as f:
        f.write(f'p cnf {variables} {len(clauses)}\n')
        for c in clauses:
            f.write(' '.join(map(str, c + [0])) + '\n')
        for a in asked:
            f.write(' '.join(['a'] + [str(l) for l in a + [0]]) + '\n')


if __name__ == '__main__':
    write('pigeons_7_6', pigeonhole(7, 6), [[]])
    for seed in range(10):
        write(f'random_150_{seed}', random_3sat(150, 4.26, seed), [[]])
    write('chain_10000', chain(10000), [[]])
    write('chain_100000', chain(100000), [[]])
    write('calls_easy', random_3sat(150, 3.0, 5), calls(150, 2000, 8, 6))
    write('calls_wide', random_3sat(2000, 3.0, 5), calls(2000, 2000, 30, 6))
    write('calls_hard', random_3sat(150, 3.8, 99), calls(150, 2000, 8, 7))
