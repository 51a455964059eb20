// Finds one state for all that differ in the numbers of workers and lines.
#pragma once

#include <algorithm>
#include <array>
#include <cstring>
#include <vector>

#include "facts.h"

namespace model {

using WorkerOrder = std::array<int, kWorkers>;
using LineOrder = std::array<int, kLines>;

template <typename Order>
inline std::vector<Order> orders() {
  Order order;
  for (size_t place = 0; place < order.size(); place++) order[place] = place;
  std::vector<Order> found;
  do found.push_back(order);
  while (std::next_permutation(order.begin(), order.end()));
  return found;
}

inline Worker renamed(const Worker& worker, const LineOrder& lines) {
  Worker found = worker;
  for (Attempt& attempt : found.attempts)
    if (attempt.line) attempt.line = lines[attempt.line - 1] + 1;
  for (Process& process : found.lives) {
    uint8_t closed = 0;
    for (int line = 0; line < kLines; line++)
      if (process.closed_lines >> line & 1) closed |= 1 << lines[line];
    process.closed_lines = closed;
  }
  return found;
}

// Renames the workers and lines of a round, whose jobs stand in the order of their lines.
inline Round renamed(const Round& round, const WorkerOrder& workers, const LineOrder& lines,
                     std::array<int, kLines>& places) {
  Round found = round;
  std::array<int, kLines> order{};
  for (int job = 0; job < round.count; job++) order[job] = job;
  std::sort(order.begin(), order.begin() + round.count, [&](int one, int other) {
    return lines[round.jobs[one].line - 1] < lines[round.jobs[other].line - 1];
  });
  found.first = workers[round.first - 1] + 1;
  for (int job = 0; job < round.count; job++) {
    Job& to = found.jobs[job] = round.jobs[order[job]];
    places[order[job]] = job;
    to.line = lines[to.line - 1] + 1;
    if (!to.seat) continue;
    int worker = around(round.first - 1 + to.seat - 1);
    to.seat = around(workers[worker] + 1 - found.first) + 1;
  }
  return found;
}

inline State renamed(const State& state, const WorkerOrder& workers, const LineOrder& lines) {
  State found = state;
  for (int number = 0; number < kWorkers; number++)
    found.workers[workers[number]] = renamed(state.workers[number], lines);
  for (int line = 0; line < kLines; line++) {
    found.performed[lines[line]] = state.performed[line];
    found.listed[lines[line]] = state.listed[line];
  }
  for (int place : {1, 2}) {
    const Round& round = state.rounds[place - 1];
    if (!round.count) continue;
    std::array<int, kLines> places{};
    found.rounds[place - 1] = renamed(round, workers, lines, places);
    for (Worker& worker : found.workers)
      for (Process& process : worker.lives)
        if (process.round == place && process.phase >= Phase::Intending)
          process.job = places[process.job];
  }
  return found;
}

inline bool may_rename_workers(const State& state) {
  if (kWorkers > 2 && (state.header || state.registers)) return false;
  return !any_process(state,
                      [](const Process& it) { return it.phase == Phase::ReadingJournals; });
}

inline bool is_before(const State& one, const State& other) {
  return std::memcmp(&one, &other, sizeof(State)) < 0;
}

// Returns the one state that stands for all states that differ in numbers alone.
inline State canonical(const State& state) {
  if (!bounds.symmetry) return state;
  static const std::vector<WorkerOrder> all_workers = orders<WorkerOrder>();
  static const std::vector<LineOrder> all_orders = orders<LineOrder>();
  size_t renames = may_rename_workers(state) ? all_workers.size() : 1;
  State best = state;
  for (size_t place = 0; place < renames; place++)
    for (const LineOrder& lines : all_orders) {
      State found = renamed(state, all_workers[place], lines);
      if (is_before(found, best)) best = found;
    }
  return best;
}

}  // namespace model
