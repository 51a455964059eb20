// Power cuts: each choice of what is left of all that isn't synced.
#pragma once

#include <vector>

#include "steps.h"

namespace model {

using States = std::vector<State>;

// Makes two of each state: one keeps something that isn't synced, one loses it.
template <typename Keep, typename Lose>
inline void choose(States& states, Keep keep, Lose lose) {
  for (size_t place = states.size(); place-- > 0;) {
    State lost = states[place];
    keep(states[place]);
    lose(lost);
    states.push_back(lost);
  }
}

// Only a resolution is left of an attempt whose intent is lost. It is in another file.
inline void lose_intent(Attempt& attempt) {
  Attempt lost{};
  lost.resolution = attempt.resolution;
  lost.resolution_is_loose = attempt.resolution_is_loose;
  attempt = lost;
}

inline void lose_journal(Worker& worker) {
  worker.journal = Name::Missing;
  worker.intents = 0;
  sync_journal(worker);
  for (Attempt& attempt : worker.attempts) lose_intent(attempt);
}

inline void lose_record(Worker& worker) {
  if (worker.loose == Loose::Intent)
    lose_intent(worker.attempts[--worker.intents]);
  else
    worker.attempts[worker.loose_serial].outcome = Outcome::Pending;
  sync_journal(worker);
}

// With one write for a whole append, a torn append may count.
inline void cut_record(States& states, int number) {
  size_t kept = states.size();
  choose(states, [=](State& it) { sync_journal(it.workers[number]); },
         [=](State& it) { lose_record(it.workers[number]); });
  if (!controls.one_write) return;
  for (size_t place = kept, end = states.size(); place < end; place++) {
    State torn = states[place];
    torn.workers[number].damage = Damage::Senseless;
    states.push_back(torn);
  }
}

inline void cut_registers(States& states, int place) {
  for (int job = 0; job < kLines; job++)
    choose(states, [](State&) {},
           [=](State& it) {
             it.rounds[place].jobs[job].seat = 0;
             it.rounds[place].jobs[job].is_recorded = false;
           });
}

inline void cut_worker(States& states, const Worker& worker, int number) {
  if (worker.loose != Loose::Nothing) cut_record(states, number);
  if (worker.journal == Name::Made) {
    auto keep = [=](State& it) { it.workers[number].journal = Name::Synced; };
    auto lose = [=](State& it) { lose_journal(it.workers[number]); };
    choose(states, keep, lose);
  }
  for (int serial = 0; serial < kIntents; serial++) {
    if (!worker.attempts[serial].resolution_is_loose) continue;
    auto attempt = [=](State& it) -> Attempt& { return it.workers[number].attempts[serial]; };
    auto keep = [=](State& it) { attempt(it).resolution_is_loose = false; };
    auto lose = [=](State& it) {
      attempt(it).resolution_is_loose = false;
      attempt(it).resolution = Resolution::None;
      attempt(it).listed = Listed::No;
    };
    choose(states, keep, lose);
  }
}

inline void power_cuts(StepList& list) {
  State stopped = list.before;
  if (bounds.cuts < kUnbounded) stopped.cuts--;
  for (Worker& worker : stopped.workers) {
    forget_runner(worker);
    for (Process& process : worker.lives) process = Process{};
    for (Attempt& attempt : worker.attempts)
      if (attempt.command != Command::NotBegun) attempt.command = Command::Gone;
  }
  if (!controls.no_boot_id) stopped.header = stopped.registers = 0;
  States states{stopped};
  for (int number = 0; number < kWorkers; number++)
    cut_worker(states, list.before.workers[number], number);
  if (controls.no_boot_id && list.before.registers)
    cut_registers(states, list.before.registers - 1);
  for (const State& state : states) list.add("POWER CUT", -1, kNoSerial, kFault).after = state;
}

}  // namespace model
