// All steps that may come next.
#pragma once

#include "command_steps.h"
#include "kill_steps.h"
#include "operator_steps.h"
#include "power_cuts.h"
#include "runner_steps.h"
#include "worker_steps.h"

namespace model {

inline void find_steps(const State& before, Steps& steps) {
  steps.clear();
  StepList list{before, steps};
  for (int number = 0; number < kWorkers; number++) {
    runner_steps(list, number);
    for (int serial = 0; serial < kIntents; serial++) {
      command_steps(list, number, serial);
      runner_end_steps(list, number, serial);
      operator_steps(list, number, serial);
    }
    if (before.kills) kill_steps(list, number);
    for (int life : {0, 1}) process_step(list, number, life);
  }
  if (before.cuts) power_cuts(list);
  for (Step& step : steps) settle(step.after);
}

}  // namespace model
