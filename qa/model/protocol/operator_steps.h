// The steps of an operator, who looks when an attempt is listed, and answers truly.
#pragma once

#include "steps.h"

namespace model {

// A pending attempt is listed and resolved only after its journal was recovered.
inline void recover_listed(Step& step, int number, int serial) {
  Worker& worker = step.after.workers[number];
  bool is_pending = worker.attempts[serial].outcome == Outcome::Pending;
  if (is_pending && !controls.listed_unrecovered) sync_journal(worker);
}

inline void write_resolution(Step& step, int number, int serial, Resolution resolution) {
  Attempt& attempt = step.after.workers[number].attempts[serial];
  attempt.resolution = resolution;
  attempt.resolution_is_loose = true;
}

inline void list_attempt(StepList& list, int number, int serial) {
  Step& step = list.add("the attempt is listed as in doubt, and the operator looks", number,
                        serial, kFault);
  Attempt& attempt = step.after.workers[number].attempts[serial];
  bool is_performed = list.before.performed[attempt.line - 1];
  attempt.listed = is_performed ? Listed::Performed : Listed::NotPerformed;
  step.after.listed[attempt.line - 1] = true;
  recover_listed(step, number, serial);
}

inline void resolve(StepList& list, int number, int serial) {
  const Attempt& attempt = list.before.workers[number].attempts[serial];
  bool is_done = attempt.listed == Listed::Performed;
  if (!is_done && !list.before.not_done) return;
  Step& step = list.add(is_done ? "the operator answers done" : "the operator answers NOT-DONE",
                        number, serial, kFault);
  if (!is_done) {
    step.after.not_done--;
    step.after.listed[attempt.line - 1] = false;
  }
  write_resolution(step, number, serial, is_done ? Resolution::Done : Resolution::NotDone);
  recover_listed(step, number, serial);
}

inline void operator_steps(StepList& list, int number, int serial) {
  const Worker& worker = list.before.workers[number];
  const Attempt& attempt = worker.attempts[serial];
  if (attempt.resolution_is_loose)
    list.add_of("the resolution is synced", number, serial, kFault).resolution_is_loose = false;
  if (attempt.resolution != Resolution::None || serial >= worker.intents) return;
  bool may_list = may_be_listed(worker, serial);
  if (may_list && attempt.listed == Listed::No) list_attempt(list, number, serial);
  if (attempt.listed != Listed::No && (may_list || controls.any_attempt_answered))
    resolve(list, number, serial);
  if (attempt.outcome == Outcome::Untouched && list.before.not_done) {
    Step& step = list.add("an operator begins the untouched line again", number, serial, kFault);
    step.after.not_done--;
    write_resolution(step, number, serial, Resolution::NotDone);
  }
  bool is_new = attempt.listed == Listed::No && attempt.outcome == Outcome::Pending;
  if (controls.any_attempt_answered && is_new && !list.before.performed[attempt.line - 1])
    list.add_of("an operator sees a pending attempt", number, serial, kFault).listed =
        Listed::NotPerformed;
}

}  // namespace model
