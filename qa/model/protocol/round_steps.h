// The steps of a worker's process that begins a round, joins one, and works in it.
#pragma once

#include <algorithm>
#include <iterator>

#include "doer.h"

namespace model {

inline void want_round(const Doer& doer) {
  bool is_held = round_is_shared(doer.before()) || round_is_begun(doer.before());
  if (controls.round_not_exclusive || !is_held)
    doer.go("the worker locks the round exclusively", Phase::ReadingJournals);
  if (controls.round_not_exclusive || is_held)
    doer.go("the worker finds the round's lock held", Phase::WantingShared);
}

inline void read_journal(const Doer& doer) {
  Step& step = doer.go("the worker reads a journal", Phase::ReadingJournals);
  Process& process = doer.in(step);
  const Worker& read = doer.before().workers[process.journals_read];
  if (!controls.first_journal_only || process.journals_read == 0)
    process.closed_lines |= lines_of(doer.before(), read, false);
  if (controls.one_opened_opens)
    for (const Worker& worker : doer.before().workers)
      process.closed_lines &= ~lines_of(doer.before(), worker, true);
  if (++process.journals_read == kWorkers) process.phase = Phase::WritingHeader;
}

// No line is open. A runner ends then, unless it has seen an end that isn't recorded.
inline void finish(const Doer& doer) {
  Step& step = doer.quit("the worker finds no line open");
  bool is_owed = std::any_of(
      std::begin(doer.worker.attempts), std::end(doer.worker.attempts), [](const Attempt& it) {
        return it.known >= Known::Started && it.known <= Known::Final &&
               it.outcome == Outcome::Pending;
      });
  if (doer.life == 0 && doer.process.is_connected && (!is_owed || controls.runner_ends_early))
    forget_runner(step.after.workers[doer.number]);
}

inline void begin_round(State& state, uint8_t place, uint8_t lines, int number) {
  Round& round = state.rounds[place - 1] = Round{};
  for (int line = 0; line < kLines; line++)
    if (lines >> line & 1) round.jobs[round.count++].line = line + 1;
  round.first = number + 1;
  round.workers = std::min<int>(bounds.round_workers, round.count);
  state.header = place;
  if (state.registers == place) state.registers = 0;
}

inline void write_header(const Doer& doer) {
  uint8_t lines = all_lines() & ~doer.process.closed_lines;
  if (!lines) return finish(doer);
  uint8_t place = doer.before().header == 1 ? 2 : 1;
  auto is_in = [](const Process& it) { return it.phase > Phase::WritingRegisters && it.round; };
  if (any_process(doer.before(), [=](const Process& it) { return is_in(it) && it.round == place; }))
    return;  // only in controls: the model has room for two rounds
  Step& step = doer.go("the worker writes the header of a round", Phase::WritingRegisters);
  bool is_exclusive = !controls.round_not_exclusive && !controls.shared_lock_late;
  if (is_exclusive && any_process(doer.before(), is_in))
    step.violation = "a round is begun while a worker is in a round";
  begin_round(step.after, place, lines, doer.number);
  doer.in(step).round = place;
}

inline void write_registers(const Doer& doer) {
  doer.go("the worker writes the registers", Phase::WantingShared).after.registers =
      doer.process.round;
}

inline void want_shared(const Doer& doer) {
  bool fits = doer.before().header && doer.before().header == doer.before().registers;
  if (!controls.shared_lock_late) {
    if (!round_is_begun(doer.before()))
      doer.go("the worker takes the round's lock shared", Phase::ReadingHeader);
  } else if (fits) {
    Step& step = doer.go("the worker reads header and registers", Phase::ReadingHeader);
    doer.in(step).round = doer.before().header;
  } else {
    doer.quit("the worker finds no registers of this boot and round");
  }
}

inline void join(const Doer& doer) {
  bool fits = doer.before().header && doer.before().header == doer.before().registers;
  if (controls.shared_lock_late && round_is_begun(doer.before())) return;
  if (!controls.shared_lock_late && !fits) {
    doer.quit("the worker finds no registers of this boot and round");
    return;
  }
  uint8_t place = controls.shared_lock_late ? doer.process.round : doer.before().header;
  const Round& round = doer.before().rounds[place - 1];
  if (seat_of(round, doer.number) > round.workers) {
    doer.quit("the worker has no seat in the round");
    return;
  }
  Step& step = doer.go("the worker joins the round", Phase::Restarting);
  doer.in(step).round = place;
}

inline bool has_twin(const Doer& doer) {
  const Round& round = doer.before().rounds[doer.process.round - 1];
  for (int number = 0; number < kWorkers; number++)
    for (int life : {0, 1}) {
      const Process& other = doer.before().workers[number].lives[life];
      bool is_same = number == doer.number && life == doer.life;
      if (!is_same && other.phase >= Phase::Working && other.round == doer.process.round &&
          seat_of(round, number) == seat_of(round, doer.number))
        return true;
    }
  return false;
}

inline void claim(const Doer& doer) {
  const Round& round = doer.before().rounds[doer.process.round - 1];
  const uint8_t seat = seat_of(round, doer.number);
  const bool has_other = has_twin(doer);
  bool is_left = false;
  int claimed = 0;
  for (int place = 0; place < round.count; place++) {
    const Job& job = round.jobs[place];
    claimed += job.seat != 0;
    is_left = is_left || !job.seat;
    bool is_of_twin = has_other && job.seat == seat && !job.is_recorded;
    if (job.seat && !is_of_twin) continue;
    Step& step = doer.go("the worker claims a job", Phase::Intending);
    step.after.rounds[doer.process.round - 1].jobs[place].seat = seat;
    doer.in(step).job = place;
  }
  if (!is_left || (2 * claimed >= round.count && round.workers > 1))
    doer.quit("the worker ends its part of the round");
}

inline void intend(const Doer& doer) {
  if (doer.worker.intents == kIntents) {
    doer.quit("the worker appends an intent").violation =
        "a journal has no room for another intent: raise MODEL_INTENTS";
    return;
  }
  Phase then = controls.perform_before_sync ? Phase::HandingOver : Phase::SyncingIntent;
  Step& step = doer.go("the worker appends an intent", then);
  Worker& worker = step.after.workers[doer.number];
  step.serial = doer.in(step).serial = worker.intents++;
  Attempt& attempt = worker.attempts[step.serial];
  attempt.line = doer.before().rounds[doer.process.round - 1].jobs[doer.process.job].line;
  attempt.outcome = Outcome::Pending;
  worker.loose = Loose::Intent;
  worker.loose_serial = 0;
  if (worker.damage != Damage::None) worker.damage = Damage::Senseless;
}

inline void record_as_done(const Doer& doer) {
  bool leaves = doer.process.leaves;
  Step& step = leaves ? doer.quit("the worker records the job as done, and leaves")
                      : doer.go("the worker records the job as done", Phase::Working);
  Round& round = step.after.rounds[doer.process.round - 1];
  Job& job = round.jobs[doer.process.job];
  job.seat = seat_of(round, doer.number);
  job.is_recorded = true;
  if (leaves) forget_runner(step.after.workers[doer.number]);
}

}  // namespace model
