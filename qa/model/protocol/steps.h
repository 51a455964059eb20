// A step, and the list of the steps that may come next.
#pragma once

#include <vector>

#include "settle.h"

namespace model {

constexpr bool kFault = true;  // a fault, or an operator: nobody may rely on it to come
constexpr int kNoSerial = -1;

struct Step {
  State after;
  const char* label;
  int worker;  // -1: none
  int serial;  // from 0
  bool is_fault;
  const char* violation;  // null: none
};
using Steps = std::vector<Step>;

// Collects the steps from one state. A step is changed before the next one is added.
struct StepList {
  const State& before;
  Steps& steps;

  Step& add(const char* label, int worker, int serial, bool is_fault = false) {
    steps.push_back({before, label, worker, serial, is_fault, nullptr});
    return steps.back();
  }

  // Adds a step of an attempt, and returns the attempt after it.
  Attempt& add_of(const char* label, int worker, int serial, bool is_fault = false) {
    return add(label, worker, serial, is_fault).after.workers[worker].attempts[serial];
  }
};

}  // namespace model
