// Kills of runners and of workers' processes.
#pragma once

#include "steps.h"

namespace model {

inline void count_kill(State& state) {
  if (bounds.kills < kUnbounded) state.kills--;
}

inline Worker& kill_process(StepList& list, int number, int life, const char* label) {
  Step& step = list.add(label, number, kNoSerial, kFault);
  count_kill(step.after);
  Worker& worker = step.after.workers[number];
  Process& process = worker.lives[life];
  if (process.phase == Phase::HandedOver && process.is_connected)
    worker.unread = process.serial + 1;
  process = Process{};
  return worker;
}

inline void kill_runner(StepList& list, int number) {
  Step& step = list.add("the runner is KILLED", number, kNoSerial, kFault);
  count_kill(step.after);
  Worker& worker = step.after.workers[number];
  forget_runner(worker);
  if (worker.lives[1].phase == Phase::Absent) worker.lives[1] = worker.lives[0];
  worker.lives[1].is_connected = false;
  worker.lives[0] = Process{};
}

inline void kill_steps(StepList& list, int number) {
  const Worker& worker = list.before.workers[number];
  for (int life : {0, 1}) {
    if (worker.lives[life].phase == Phase::Absent) continue;
    kill_process(list, number, life, life ? "the old process is KILLED" : "the worker is KILLED");
    Phase phase = worker.lives[life].phase;
    bool writes = phase == Phase::Intending || phase == Phase::HasOutcome ||
                  phase == Phase::HasOldOutcome;
    if (controls.end_not_cut && writes && worker.damage == Damage::None)
      kill_process(list, number, life, "the worker is KILLED in a write").damage = Damage::CutOff;
  }
  if (worker.has_runner) kill_runner(list, number);
}

}  // namespace model
