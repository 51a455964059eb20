// Searches the protocol of a run: runners, workers, commands, what commands leave behind, an
// operator, kills, and power cuts, in every order. protocol.py compiles and calls this program.
//
//   c++ -O2 -std=c++17 -DMODEL_WORKERS=2 -DMODEL_LINES=1 -DMODEL_INTENTS=4 -o protocol protocol.cpp
//   ./protocol [NAME=NUMBER | WORD]..
//
// NAME and WORD are in `read_number` and `read_word`. The status is 0 if the search came to its end
// and found nothing, 1 if it found something or was cut, 64 for an unknown word.
#include <cstdio>
#include <cstdlib>
#include <string>

#include "search.h"

namespace model {

bool read_number(const std::string& name, int value, State& first) {
  if (name == "kills") bounds.kills = value;
  else if (name == "cuts") bounds.cuts = value;
  else if (name == "unbegun-answers") bounds.unbegun = value;
  else if (name == "not-done-answers") bounds.not_done = value;
  else if (name == "untouched-ends") bounds.untouched = value;
  else if (name == "round-workers") bounds.round_workers = value;
  else if (name == "states") bounds.states = value;
  else return false;
  first.kills = bounds.kills;
  first.cuts = bounds.cuts;
  first.unbegun = bounds.unbegun;
  first.not_done = bounds.not_done;
  first.untouched = bounds.untouched;
  return true;
}

bool read_word(const std::string& word) {
  if (word == "symmetry") return bounds.symmetry = true;
  if (word == "safety-only") return bounds.safety_only = true;
  if (word == "only-twice") return bounds.only_twice = true;
  if (word == "failed") return bounds.failed = true;
  if (word == "immortal") return bounds.immortal = true;
  for (const ControlName& it : kControls)
    if (word == it.name) return controls.*it.control = true;
  return false;
}

bool read_words(int count, char** words, State& first) {
  read_number("states", bounds.states, first);
  for (int place = 1; place < count; place++) {
    std::string word = words[place];
    size_t sign = word.find('=');
    bool is_known = sign == std::string::npos
                        ? read_word(word)
                        : read_number(word.substr(0, sign), std::atoi(&word[sign + 1]), first);
    if (is_known) continue;
    std::fprintf(stderr, "protocol: word `%s`: it is unknown; see `read_words`\n", word.c_str());
    return false;
  }
  return true;
}

}  // namespace model

int main(int count, char** words) {
  model::State first{};
  if (!model::read_words(count, words, first)) return 64;
  return model::Search(first).run() ? 0 : 1;
}
