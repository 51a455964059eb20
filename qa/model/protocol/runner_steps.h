// The steps of runners, which start workers and commands, and answer.
#pragma once

#include "steps.h"

namespace model {

inline void answer(Step& step, int number, Phase phase, Outcome outcome) {
  Process& process = step.after.workers[number].lives[0];
  process.phase = phase;
  process.answer = outcome;
}

// The runner has made and locked the command's file, and starts the command.
inline void begin_command(Step& step, int number, int serial) {
  Worker& worker = step.after.workers[number];
  worker.attempts[serial].known = Known::Started;
  worker.attempts[serial].command = Command::Runs;
}

inline Outcome answer_to_was(StepList& list, int number, int serial) {
  const Worker& worker = list.before.workers[number];
  const Attempt& attempt = worker.attempts[serial];
  if (attempt.known == Known::Final) return attempt.ending;
  if (attempt.known == Known::Declined) return Outcome::Unbegun;
  if (attempt.known != Known::Nothing) return Outcome::Running;
  bool is_seen = !controls.command_lock_unasked && is_locked(worker, attempt);
  return is_seen ? Outcome::Running : Outcome::Doubt;
}

inline void answer_steps(StepList& list, int number) {
  const Process& process = list.before.workers[number].lives[0];
  int serial = process.serial;
  if (process.phase == Phase::Asking) {
    Step& step = list.add("the runner answers `was`", number, serial);
    answer(step, number, Phase::HasOldOutcome, answer_to_was(list, number, serial));
  }
  if (process.phase != Phase::HandedOver) return;
  Step& begun = list.add("the runner begins the command", number, serial);
  begin_command(begun, number, serial);
  begun.after.workers[number].lives[0].phase = Phase::Waiting;
  if (!list.before.unbegun) return;
  Step& declined = list.add("the runner answers: unbegun, leave", number, serial, kFault);
  declined.after.unbegun--;
  declined.after.workers[number].attempts[serial].known = Known::Declined;
  answer(declined, number, Phase::HasOutcome, Outcome::Unbegun);
  declined.after.workers[number].lives[0].leaves = true;
}

inline void unread_steps(StepList& list, int number, int serial, bool drops) {
  if (list.before.workers[number].attempts[serial].known == Known::Nothing) {
    Step& step = list.add("the runner reads `perform` of a dead worker", number, serial);
    begin_command(step, number, serial);
    step.after.workers[number].unread = 0;
  }
  if (drops) {
    Step& step = list.add("the runner drops what a dead worker said", number, kNoSerial);
    step.after.workers[number].unread = 0;
  }
}

inline void runner_steps(StepList& list, int number) {
  const Worker& worker = list.before.workers[number];
  if (!worker.has_runner) {
    list.add("a runner begins", number, kNoSerial).after.workers[number].has_runner = true;
    return;
  }
  bool drops = !controls.dead_worker_heard;
  bool is_absent = worker.lives[0].phase == Phase::Absent;
  if (is_absent && !(drops && worker.unread)) {
    Step& step = list.add("the runner starts the worker", number, kNoSerial);
    Process& process = step.after.workers[number].lives[0];
    process.phase = Phase::Opening;
    process.is_connected = true;
  }
  if (worker.unread) unread_steps(list, number, worker.unread - 1, drops);
  if (worker.lives[0].is_connected) answer_steps(list, number);
}

// The runner sees a command's end, and answers its worker.
inline void runner_end_steps(StepList& list, int number, int serial) {
  const Worker& worker = list.before.workers[number];
  const Attempt& attempt = worker.attempts[serial];
  if (!worker.has_runner) return;
  if (attempt.known == Known::Started && attempt.command >= Command::Gone)
    list.add_of("the runner sees the command's end", number, serial).known =
        controls.old_handle ? Known::Final : Known::Ended;
  const Process& process = worker.lives[0];
  bool waits = process.phase == Phase::Waiting && process.is_connected;
  if (!waits || process.serial != serial) return;
  if (attempt.known == Known::Final)
    answer(list.add("the runner answers what it saw", number, serial), number, Phase::HasOutcome,
           attempt.ending);
  if (attempt.known == Known::Ended && !controls.runner_waits)
    answer(list.add("the runner answers: running", number, serial), number, Phase::HasOutcome,
           Outcome::Running);
}

}  // namespace model
