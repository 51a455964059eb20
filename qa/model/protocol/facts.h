// Facts about a state, as functions.
#pragma once

#include "rules.h"

namespace model {

inline bool has_guard(const Process& process) { return process.phase >= Phase::Recovering; }

inline bool is_guarded(const Worker& worker) {
  return has_guard(worker.lives[0]) || has_guard(worker.lives[1]);
}

template <typename Test>
inline bool any_process(const State& state, Test test) {
  for (const Worker& worker : state.workers)
    for (const Process& process : worker.lives)
      if (test(process)) return true;
  return false;
}

inline bool round_is_begun(const State& state) {
  return !controls.round_not_exclusive && any_process(state, [](const Process& it) {
    return it.phase >= Phase::ReadingJournals && it.phase <= Phase::WritingRegisters;
  });
}

inline bool round_is_shared(const State& state) {
  Phase first = controls.shared_lock_late ? Phase::Restarting : Phase::ReadingHeader;
  return any_process(state, [=](const Process& it) { return it.phase >= first; });
}

inline bool lives(Command command) {
  return command == Command::Runs || command == Command::RunsPerformed ||
         command == Command::Left || command == Command::LeftPerformed;
}

inline bool is_locked(const Worker& worker, const Attempt& attempt) {
  if (worker.has_runner && attempt.known == Known::Started) return true;
  if (controls.command_without_lock) return false;
  bool is_left = attempt.command == Command::Left || attempt.command == Command::LeftPerformed;
  return lives(attempt.command) && !(is_left && controls.one_descriptor);
}

inline bool line_is_resolved(const State& state, int line) {
  for (const Worker& worker : state.workers)
    for (int serial = 0; serial < worker.intents; serial++) {
      const Attempt& attempt = worker.attempts[serial];
      if (attempt.line == line && attempt.resolution == Resolution::NotDone) return true;
    }
  return false;
}

inline bool is_opened(const State& state, const Attempt& attempt) {
  if (attempt.outcome == Outcome::Unbegun || attempt.resolution == Resolution::NotDone) return true;
  if (controls.answer_names_line && line_is_resolved(state, attempt.line)) return true;
  return controls.pending_opens && attempt.outcome == Outcome::Pending;
}

// Returns the lines of a journal's attempts that are opened, or that aren't, as bits.
inline uint8_t lines_of(const State& state, const Worker& worker, bool opened) {
  uint8_t lines = 0;
  for (int serial = 0; serial < worker.intents; serial++)
    if (is_opened(state, worker.attempts[serial]) == opened)
      lines |= 1 << (worker.attempts[serial].line - 1);
  return lines;
}

inline uint8_t all_lines() { return (1 << kLines) - 1; }

inline bool may_be_listed(const Worker& worker, int serial) {
  if (serial >= worker.intents) return false;
  const Attempt& attempt = worker.attempts[serial];
  if (attempt.outcome == Outcome::Doubt) return true;
  if (attempt.outcome == Outcome::Done) return bounds.failed;
  if (attempt.outcome != Outcome::Pending) return false;
  if (is_guarded(worker) && !controls.no_journal_lock) return false;
  if (worker.has_runner && !controls.no_runner_lock) return false;
  return controls.command_lock_unasked || !is_locked(worker, attempt);
}

// Returns whether the run is over: no line is open, and each pending attempt runs or may be listed.
inline bool is_ended(const State& state) {
  uint8_t closed = 0;
  for (const Worker& worker : state.workers) closed |= lines_of(state, worker, false);
  if (closed != all_lines()) return false;
  for (const Worker& worker : state.workers)
    for (int serial = 0; serial < worker.intents; serial++) {
      const Attempt& attempt = worker.attempts[serial];
      bool is_pending = attempt.outcome == Outcome::Pending &&
                        attempt.resolution != Resolution::NotDone;
      bool is_held = is_guarded(worker) || worker.has_runner;
      if (is_pending && !lives(attempt.command) && is_held) return false;
    }
  return true;
}

inline int around(int number) { return (number % kWorkers + kWorkers) % kWorkers; }

inline int seat_of(const Round& round, int worker) {
  if (controls.seat_by_number) return worker % round.workers + 1;
  return around(worker + 1 - round.first) + 1;
}

}  // namespace model
