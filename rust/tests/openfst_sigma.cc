// Composes two compiled machines by OpenFst's library, with its sigma matcher on one of them or on both: its tools have no
// option for that matcher. `openfst.py --sigma` builds this and holds the program beside it.
//
//     openfst_sigma FIRST SECOND FILTER SIGMA1 REWRITE1 SIGMA2 REWRITE2 > COMPOSED
//
// A sigma label is a number, -1: none. The filters are named as by fstcompose, the rewrite modes auto, always, never.
// Nothing is taken out (connect is false). OpenFst's errors end the program with status 1.
#include <cstdlib>
#include <iostream>
#include <map>
#include <memory>
#include <string>

#include <fst/fstlib.h>

using fst::StdArc;
using Machine = fst::Fst<StdArc>;
using Matcher = fst::SigmaMatcher<fst::SortedMatcher<Machine>>;

struct Operand {
  std::unique_ptr<Machine> machine;
  std::unique_ptr<Matcher> matcher;
};

Operand Read(const char *file, fst::MatchType side, const char *label, const std::string &rewrite) {
  const std::map<std::string, fst::MatcherRewriteMode> modes = {
      {"auto", fst::MATCHER_REWRITE_AUTO},
      {"always", fst::MATCHER_REWRITE_ALWAYS},
      {"never", fst::MATCHER_REWRITE_NEVER},
  };
  Operand operand;
  operand.machine.reset(Machine::Read(file));
  if (!operand.machine) std::exit(1);
  operand.matcher.reset(new Matcher(*operand.machine, side, std::atoi(label), modes.at(rewrite)));
  return operand;
}

// The composition owns the matchers.
template <class Filter>
bool Compose(Operand &first, Operand &second) {
  const fst::ComposeFstImplOptions<Matcher, Matcher, Filter> options(
      fst::CacheOptions(), first.matcher.release(), second.matcher.release());
  const fst::ComposeFst<StdArc> composed(*first.machine, *second.machine, options);
  const fst::VectorFst<StdArc> whole(composed);
  return !whole.Properties(fst::kError, false) && whole.Write(std::cout, fst::FstWriteOptions());
}

int main(int count, char **words) {
  if (count != 8) {
    std::cerr << "openfst_sigma FIRST SECOND FILTER SIGMA1 REWRITE1 SIGMA2 REWRITE2\n";
    return 2;
  }
  const std::map<std::string, bool (*)(Operand &, Operand &)> filters = {
      {"sequence", Compose<fst::SequenceComposeFilter<Matcher>>},
      {"alt_sequence", Compose<fst::AltSequenceComposeFilter<Matcher>>},
      {"match", Compose<fst::MatchComposeFilter<Matcher>>},
      {"null", Compose<fst::NullComposeFilter<Matcher>>},
      {"trivial", Compose<fst::TrivialComposeFilter<Matcher>>},
      {"no_match", Compose<fst::NoMatchComposeFilter<Matcher>>},
  };
  Operand first = Read(words[1], fst::MATCH_OUTPUT, words[4], words[5]);
  Operand second = Read(words[2], fst::MATCH_INPUT, words[6], words[7]);
  return filters.at(words[3])(first, second) ? 0 : 1;
}
