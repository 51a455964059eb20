// The search, breadth first.
#pragma once

#include <algorithm>
#include <cstdint>
#include <cstdio>
#include <cstring>
#include <string>
#include <vector>

#include "all_steps.h"
#include "symmetry.h"

namespace model {

inline uint64_t hash_of(const State& state) {
  const char* bytes = reinterpret_cast<const char*>(&state);
  uint64_t hash = 0x9E3779B97F4A7C15ull;
  for (size_t place = 0; place < sizeof(State); place += 8) {
    uint64_t word = 0;
    std::memcpy(&word, bytes + place, std::min<size_t>(8, sizeof(State) - place));
    hash = (hash ^ word) * 0xff51afd7ed558ccdull;
    hash = (hash ^ hash >> 32) * 0xc4ceb9fe1a85ec53ull;
    hash ^= hash >> 29;
  }
  return hash ? hash : 1;
}

// The number of each state by its hash. It grows.
class Table {
 public:
  static constexpr uint32_t kUnknown = UINT32_MAX;

  Table() : slots_(1 << 16) {}

  // Returns the number of the state with this hash, which is `fresh` if it has none yet.
  uint32_t number(uint64_t hash, uint32_t fresh) {
    if (2 * (count_ + 1) > slots_.size()) grow();
    Slot& slot = slots_[place_of(hash)];
    if (slot.hash) return slot.number;
    slot = {hash, fresh};
    count_++;
    return fresh;
  }

  uint32_t find(uint64_t hash) const {
    const Slot& slot = slots_[place_of(hash)];
    return slot.hash ? slot.number : kUnknown;
  }

 private:
  struct Slot {
    uint64_t hash = 0;
    uint32_t number = 0;
  };
  std::vector<Slot> slots_;
  size_t count_ = 0;

  // Returns the place of the slot with this hash, or of the empty slot that it would get.
  size_t place_of(uint64_t hash) const {
    size_t place = hash & (slots_.size() - 1);
    while (slots_[place].hash && slots_[place].hash != hash)
      place = (place + 1) & (slots_.size() - 1);
    return place;
  }

  void grow() {
    std::vector<Slot> old(2 * slots_.size());
    old.swap(slots_);
    for (const Slot& slot : old)
      if (slot.hash) slots_[place_of(slot.hash)] = slot;
  }
};

class Search {
 public:
  explicit Search(const State& first) : first_(first) { enter(first, 0); }

  // Returns whether the search came to its end without a violation.
  bool run() {
    std::vector<State> frontier{first_};
    while (!frontier.empty() && violation_.empty() && !is_cut_) {
      fresh_.clear();
      for (const State& state : frontier) {
        expand(state);
        is_cut_ = parents_.size() > bounds.states * 1000000;
        if (is_cut_ || !violation_.empty()) break;
      }
      frontier.swap(fresh_);
      depth_++;
    }
    edges_from_.push_back(edges_.size());
    if (violation_.empty() && !is_cut_ && !bounds.safety_only) find_stuck();
    report();
    return violation_.empty() && !is_cut_;
  }

 private:
  const State first_;
  Table table_;
  std::vector<uint32_t> parents_;
  std::vector<bool> ends_;  // the run is over, or a way without faults leads there
  std::vector<uint64_t> edges_from_;
  std::vector<uint32_t> edges_;  // steps that are no faults
  std::vector<State> fresh_;
  std::string violation_;
  uint32_t wrong_ = 0;  // the state before the violation
  Step last_{};         // the step that is the violation
  uint64_t transitions_ = 0;
  uint32_t expanded_ = 0;
  int depth_ = 0;
  bool is_cut_ = false;

  uint32_t enter(const State& state, uint32_t parent) {
    uint32_t fresh = parents_.size();
    uint32_t number = table_.number(hash_of(state), fresh);
    if (number != fresh) return number;
    parents_.push_back(parent);
    ends_.push_back(is_ended(state));
    return fresh;
  }

  void expand(const State& state) {
    uint32_t own = expanded_++;
    edges_from_.push_back(edges_.size());
    Steps steps;
    find_steps(state, steps);
    transitions_ += steps.size();
    for (const Step& step : steps) {
      if (step.violation) {
        violation_ = step.violation;
        wrong_ = own;
        last_ = step;
        return;
      }
      State after = canonical(step.after);
      size_t before = parents_.size();
      uint32_t number = enter(after, own);
      if (parents_.size() > before) fresh_.push_back(after);
      if (!step.is_fault && !bounds.safety_only && number != own) edges_.push_back(number);
    }
  }

  // Finds the states from which no way without faults leads to the end of the run.
  void find_stuck() {
    for (bool changed = true; changed;) {
      changed = false;
      for (size_t place = ends_.size(); place-- > 0;)
        if (!ends_[place] && leads_to_end(place)) ends_[place] = changed = true;
    }
    size_t stuck = std::count(ends_.begin(), ends_.end(), false);
    if (!stuck) return;
    violation_ = std::to_string(stuck) + " states from which no way leads to the end of the run";
    wrong_ = std::find(ends_.begin(), ends_.end(), false) - ends_.begin();
  }

  bool leads_to_end(size_t place) const {
    for (uint64_t edge = edges_from_[place]; edge < edges_from_[place + 1]; edge++)
      if (ends_[edges_[edge]]) return true;
    return false;
  }

  // The form is that of `lines` in protocol.py.
  void report() const {
    bool is_exhausted = violation_.empty() && !is_cut_;
    std::printf("states %zu\ntransitions %llu\ndepth %d\nexhausted %s\n", parents_.size(),
                static_cast<unsigned long long>(transitions_), depth_,
                is_exhausted ? "yes" : "no");
    if (violation_.empty()) return;
    std::printf("violation %s\n", violation_.c_str());
    for (const Step& step : steps_to(wrong_)) print(step);
    if (last_.label) print(last_);
  }

  // Returns the steps to this state. With symmetry, workers and lines may get other numbers.
  Steps steps_to(uint32_t number) const {
    std::vector<uint32_t> path;
    for (; number; number = parents_[number]) path.push_back(number);
    State state = first_;
    Steps found, steps;
    for (size_t place = path.size(); place-- > 0;) {
      find_steps(state, steps);
      for (const Step& step : steps) {
        if (step.violation || !is_state(step.after, path[place])) continue;
        found.push_back(step);
        state = canonical(step.after);
        break;
      }
    }
    return found;
  }

  bool is_state(const State& state, uint32_t number) const {
    return table_.find(hash_of(canonical(state))) == number;
  }

  static void print(const Step& step) {
    std::printf("step %s", step.is_fault ? "* " : "");
    if (step.worker >= 0) std::printf("worker %d: ", step.worker + 1);
    std::printf("%s", step.label);
    if (step.serial >= 0) std::printf(", attempt %d.%d", step.worker + 1, step.serial + 1);
    std::printf("\n");
  }
};

}  // namespace model
