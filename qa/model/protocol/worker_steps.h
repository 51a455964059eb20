// The steps of a worker's process outside of a round.
#pragma once

#include "round_steps.h"

namespace model {

inline void open(const Doer& doer) {
  Step& step = doer.go("the worker opens its journal", Phase::Locking);
  open_journal(step.after.workers[doer.number], doer.in(step));
}

inline void lock(const Doer& doer) {
  const Process& other = doer.worker.lives[1 - doer.life];
  bool is_taken = has_guard(other) &&
                  (!controls.lock_file || other.lock_file == doer.process.lock_file);
  if (doer.worker.damage == Damage::Senseless)
    doer.quit("the worker finds a senseless record").violation = "a journal is refused for good";
  else if (is_taken && !controls.no_guard)
    doer.quit("the worker finds its number taken");
  else
    doer.go("the worker takes its lock", Phase::Recovering);
}

inline void recover(const Doer& doer) {
  Step& step = doer.go("the worker recovers its journal", Phase::FindingPending);
  Worker& worker = step.after.workers[doer.number];
  bool syncs_folder = !controls.folder_never_synced &&
                      (!controls.maker_syncs_folder || doer.process.made_journal);
  if (!controls.perform_before_sync) sync_journal(worker);
  if (syncs_folder) worker.journal = Name::Synced;
  if (!controls.end_not_cut) worker.damage = Damage::None;
}

inline void wait_for_runner(const Doer& doer) {
  if (!doer.has_runner()) doer.quit("the worker finds its runner gone");
}

inline void note(const Doer& doer, Phase noted, Phase then) {
  const Process& process = doer.process;
  if (process.answer == Outcome::Running) {
    Step& step = doer.go("the worker leaves the attempt pending", then);
    doer.in(step).serial++;
    return;
  }
  Step& step = doer.go("the worker appends the outcome", noted);
  Worker& worker = step.after.workers[doer.number];
  Attempt& attempt = worker.attempts[process.serial];
  if (process.serial < worker.intents && attempt.outcome == Outcome::Pending) {
    attempt.outcome = process.answer;
    worker.loose = Loose::Outcome;
    worker.loose_serial = process.serial;
  }
  if (worker.damage != Damage::None) worker.damage = Damage::Senseless;
}

constexpr const char* kSyncsIntent = "the worker syncs the intent";
constexpr const char* kSyncsOutcome = "the worker syncs the outcome";

inline void sync(const Doer& doer, const char* label, Phase then) {
  sync_journal(doer.go(label, then).after.workers[doer.number]);
}

inline void process_step(StepList& list, int number, int life) {
  const Worker& worker = list.before.workers[number];
  Doer doer{list, number, life, worker, worker.lives[life]};
  switch (doer.process.phase) {
    case Phase::Opening: open(doer); break;
    case Phase::Locking: lock(doer); break;
    case Phase::Recovering: recover(doer); break;
    case Phase::Asking: wait_for_runner(doer); break;
    case Phase::HasOldOutcome: note(doer, Phase::SyncingOldOutcome, Phase::FindingPending); break;
    case Phase::SyncingOldOutcome: sync(doer, kSyncsOutcome, Phase::FindingPending); break;
    case Phase::WantingRound: want_round(doer); break;
    case Phase::ReadingJournals: read_journal(doer); break;
    case Phase::WritingHeader: write_header(doer); break;
    case Phase::WritingRegisters: write_registers(doer); break;
    case Phase::WantingShared: want_shared(doer); break;
    case Phase::ReadingHeader: join(doer); break;
    case Phase::Working: claim(doer); break;
    case Phase::Intending: intend(doer); break;
    case Phase::SyncingIntent: sync(doer, kSyncsIntent, Phase::HandingOver); break;
    case Phase::HandedOver:
    case Phase::Waiting: wait_for_runner(doer); break;
    case Phase::HasOutcome: note(doer, Phase::SyncingOutcome, Phase::RecordingAsDone); break;
    case Phase::SyncingOutcome: sync(doer, kSyncsOutcome, Phase::RecordingAsDone); break;
    case Phase::RecordingAsDone: record_as_done(doer); break;
    case Phase::Absent:
    case Phase::FindingPending:
    case Phase::Restarting:
    case Phase::HandingOver: break;
  }
}

}  // namespace model
