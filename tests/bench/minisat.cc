// Runs minisat, as a library, on an instance of the benchmark.
#include <minisat/core/Solver.h>

#include <cstdio>
#include <cstdlib>
#include <fstream>
#include <sstream>
#include <string>

using namespace Minisat;

static void read(Solver &solver, const std::string &line, vec<Lit> &out) {
  std::istringstream in(line);
  int number;
  while (in >> number && number != 0) {
    int variable = std::abs(number) - 1;
    while (solver.nVars() <= variable) solver.newVar();
    out.push(mkLit(variable, number < 0));
  }
}

int main(int count, char **words) {
  if (count < 2) return 2;
  std::ifstream file(words[1]);
  Solver solver;
  int satisfied = 0, cores = 0;
  std::string line;
  while (std::getline(file, line)) {
    if (line.empty() || line[0] == 'p') continue;
    vec<Lit> lits;
    if (line[0] == 'a') {
      read(solver, line.substr(1), lits);
      if (solver.solve(lits)) satisfied++; else cores++;
    } else {
      read(solver, line, lits);
      solver.addClause_(lits);
    }
  }
  std::printf("sat %d unsat %d chains %llu\n", satisfied, cores, (unsigned long long)solver.conflicts);
  return 0;
}
