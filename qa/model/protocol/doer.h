// One process of a worker, with the means to add its next step.
#pragma once

#include "steps.h"

namespace model {

struct Doer {
  StepList& list;
  int number;  // of the worker, from 0
  int life;    // its place among the worker's processes
  const Worker& worker;
  const Process& process;

  const State& before() const { return list.before; }

  bool has_runner() const { return process.is_connected && worker.has_runner; }

  bool has_attempt() const {
    Phase phase = process.phase;
    return phase == Phase::HasOldOutcome || phase == Phase::SyncingOldOutcome ||
           (phase >= Phase::SyncingIntent && phase <= Phase::SyncingOutcome);
  }

  Process& in(Step& step) const { return step.after.workers[number].lives[life]; }

  // The process goes on to another phase.
  Step& go(const char* label, Phase phase) const {
    Step& step = list.add(label, number, has_attempt() ? process.serial : kNoSerial);
    in(step).phase = phase;
    return step;
  }

  // The process ends. Its runner may start another one.
  Step& quit(const char* label) const {
    Step& step = list.add(label, number, kNoSerial);
    if (controls.lock_file && has_guard(process)) step.after.workers[number].lock_file ^= 1;
    in(step) = Process{};
    return step;
  }
};

}  // namespace model
