// OpenFst's composition of the same machines: costs in the tropical semiring, counts in the real one, both of floats.
// Building the machines is not in the time.
//
// openfst REPEATS < case
#include <fst/fstlib.h>

#include <chrono>
#include <cstdio>
#include <iostream>
#include <sstream>
#include <string>
#include <vector>
using namespace fst;
static std::vector<uint32_t> words() {
  std::string l;
  std::getline(std::cin, l);
  std::istringstream in(l);
  std::vector<uint32_t> v;
  uint64_t x;
  while (in >> x) v.push_back((uint32_t)x);
  return v;
}
static TropicalWeight weight(uint32_t w, TropicalWeight) {
  return w == 4294967295u ? TropicalWeight::Zero() : TropicalWeight((float)w);
}
static RealWeight weight(uint32_t w, RealWeight) { return RealWeight((float)w); }
template <class Arc>
static VectorFst<Arc> build(const std::vector<uint32_t>& w) {
  const typename Arc::Weight kind;
  VectorFst<Arc> f;
  size_t S = w[0];
  for (size_t s = 0; s < S; s++) f.AddState();
  if (w[2]) f.SetStart(w[2] - 1);
  for (size_t s = 0; s < S; s++) {
    if (w[6 + 3 * s + 1]) f.SetFinal(s, weight(w[6 + 3 * s + 2], kind));
    for (uint32_t t = w[6 + 3 * s]; t; t = w[6 + 3 * S + 5 * (t - 1) + 4]) {
      const uint32_t* r = &w[6 + 3 * S + 5 * (t - 1)];
      f.AddArc(s, Arc(r[0], r[1], weight(r[2], kind), r[3]));
    }
  }
  return f;
}
template <class Arc>
static void measure(int n, uint32_t filter, const std::vector<uint32_t>& w1, const std::vector<uint32_t>& w2) {
  auto m1 = build<Arc>(w1), m2 = build<Arc>(w2);
  m1.Properties(kOLabelSorted, true);
  m2.Properties(kILabelSorted, true);
  ComposeFilter filters[] = {SEQUENCE_FILTER, ALT_SEQUENCE_FILTER, MATCH_FILTER,
                             NULL_FILTER,     TRIVIAL_FILTER,      NO_MATCH_FILTER};
  ComposeOptions opts(false, filters[filter]);
  VectorFst<Arc> out;
  double best = 1e9;
  for (int i = 0; i < n; i++) {
    auto t0 = std::chrono::steady_clock::now();
    Compose(m1, m2, &out, opts);
    double s = std::chrono::duration<double>(std::chrono::steady_clock::now() - t0).count();
    if (s < best) best = s;
  }
  size_t arcs = 0;
  for (int s = 0; s < out.NumStates(); s++) arcs += out.NumArcs(s);
  printf("openfst best %.9f states %d transitions %zu\n", best, out.NumStates(), arcs);
}
int main(int argc, char** argv) {
  int n = argc > 1 ? atoi(argv[1]) : 1;
  auto settings = words(), m1 = words(), m2 = words();
  if (settings[0] == 0)
    measure<StdArc>(n, settings[1], m1, m2);
  else
    measure<RealArc>(n, settings[1], m1, m2);
}
