// Takes at once what nobody else can see, and forgets what no step reads any more.
#pragma once

#include "facts.h"

namespace model {

inline void sync_journal(Worker& worker) {
  worker.loose = Loose::Nothing;
  worker.loose_serial = 0;
}

inline void forget_runner(Worker& worker) {
  worker.has_runner = false;
  worker.unread = 0;
  for (Attempt& attempt : worker.attempts) attempt.known = Known::Nothing;
}

inline void settle_attempt(const Worker& worker, int serial, Attempt& attempt) {
  if (worker.has_runner && attempt.known == Known::Ended && !is_locked(worker, attempt))
    attempt.known = Known::Final;
  if (attempt.known == Known::Nothing) {
    attempt.ending = Outcome::Pending;
    if (attempt.command == Command::Gone) attempt.command = Command::NotBegun;
  }
  bool is_noted = serial < worker.intents && attempt.outcome != Outcome::Pending;
  if (is_noted && !lives(attempt.command)) {
    attempt.known = Known::Nothing;
    attempt.ending = Outcome::Pending;
    attempt.command = Command::NotBegun;
  }
  if (attempt.resolution != Resolution::None) attempt.listed = Listed::No;
}

inline void open_journal(Worker& worker, Process& process) {
  process.phase = Phase::Locking;
  process.made_journal = worker.journal == Name::Missing;
  process.lock_file = worker.lock_file;
  if (process.made_journal) worker.journal = Name::Made;
}

inline void find_pending(const Worker& worker, Process& process) {
  while (process.serial < worker.intents &&
         worker.attempts[process.serial].outcome != Outcome::Pending)
    process.serial++;
  process.phase = process.serial < worker.intents ? Phase::Asking : Phase::WantingRound;
}

inline void record_own_claims(State& state, int number, Process& process) {
  Round& round = state.rounds[process.round - 1];
  for (int job = 0; job < round.count; job++)
    if (round.jobs[job].seat == seat_of(round, number)) round.jobs[job].is_recorded = true;
  process.phase = Phase::Working;
}

inline void forget_unused(Process& process) {
  Phase phase = process.phase;
  auto within = [=](Phase first, Phase last) { return phase >= first && phase <= last; };
  if (!within(Phase::Asking, Phase::SyncingOldOutcome) &&
      !within(Phase::SyncingIntent, Phase::SyncingOutcome))
    process.serial = 0;
  if (phase != Phase::HasOldOutcome && phase != Phase::HasOutcome)
    process.answer = Outcome::Pending;
  if (!within(Phase::Intending, Phase::RecordingAsDone)) process.job = 0;
  if (!within(Phase::HasOutcome, Phase::RecordingAsDone)) process.leaves = false;
  if (!within(Phase::Locking, Phase::Recovering) || !controls.maker_syncs_folder)
    process.made_journal = false;
  if (phase != Phase::ReadingJournals) process.journals_read = 0;
  if (!within(Phase::ReadingJournals, Phase::WritingHeader)) process.closed_lines = 0;
  if (!controls.lock_file) process.lock_file = 0;
  Phase first = controls.shared_lock_late ? Phase::ReadingHeader : Phase::Restarting;
  if (phase != Phase::WritingRegisters && phase < first) process.round = 0;
}

inline void settle_process(State& state, int number, Process& process) {
  Worker& worker = state.workers[number];
  if (process.phase == Phase::Opening && !controls.lock_file) open_journal(worker, process);
  if (process.phase == Phase::FindingPending) find_pending(worker, process);
  if (process.phase == Phase::Restarting) record_own_claims(state, number, process);
  if (process.phase == Phase::HandingOver)
    process.phase =
        process.is_connected && worker.has_runner ? Phase::HandedOver : Phase::Absent;
  if (process.phase == Phase::Absent)
    process = Process{};
  else
    forget_unused(process);
}

// Forgets rounds that nobody uses, and moves the one that is left to the first place.
inline void settle_rounds(State& state) {
  bool used[2];
  for (int place : {1, 2}) {
    used[place - 1] = state.header == place || any_process(state, [=](const Process& it) {
      return it.phase != Phase::Absent && it.round == place;
    });
    if (used[place - 1]) continue;
    state.rounds[place - 1] = Round{};
    if (state.registers == place) state.registers = 0;
  }
  if (!used[1] || used[0]) return;
  state.rounds[0] = state.rounds[1];
  state.rounds[1] = Round{};
  state.header = state.header ? 1 : 0;
  state.registers = state.registers ? 1 : 0;
  for (Worker& worker : state.workers)
    for (Process& process : worker.lives) process.round = process.round ? 1 : 0;
}

inline void settle(State& state) {
  for (int number = 0; number < kWorkers; number++) {
    Worker& worker = state.workers[number];
    for (int serial = 0; serial < kIntents; serial++)
      settle_attempt(worker, serial, worker.attempts[serial]);
    for (Process& process : worker.lives) settle_process(state, number, process);
  }
  settle_rounds(state);
}

}  // namespace model
