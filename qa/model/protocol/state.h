// The state: journals, processes, commands, rounds, and what happened so far.
#pragma once

#include <cstdint>
#include <type_traits>

namespace model {

constexpr int kWorkers = MODEL_WORKERS;
constexpr int kLines = MODEL_LINES;
constexpr int kIntents = MODEL_INTENTS;  // for which a journal has room
constexpr int kUnbounded = 255;

enum class Phase : uint8_t {
  Absent,
  Opening,            // opens its journal; only with a lock file
  Locking,            // tries the lock that guards its number
  Recovering,         // has the lock
  FindingPending,     // taken at once
  Asking,             // has said `was`
  HasOldOutcome,      // appends what came of an attempt of an earlier process
  SyncingOldOutcome,  // syncs it
  WantingRound,       // tries the round's lock exclusively
  ReadingJournals,    // begins a round
  WritingHeader,
  WritingRegisters,
  WantingShared,  // tries the round's lock shared
  ReadingHeader,
  Restarting,  // records as done what its registers show as claimed; taken at once
  Working,     // claims a job
  Intending,   // appends the intent
  SyncingIntent,
  HandingOver,  // taken at once
  HandedOver,   // has said `perform`, and the runner hasn't read it
  Waiting,
  HasOutcome,  // appends what the runner answered
  SyncingOutcome,
  RecordingAsDone,
};

enum class Outcome : uint8_t { Pending, Done, Doubt, Unbegun, Untouched, Running };

// The command of an attempt. It has performed the line, or not yet; it lives, or left a child.
enum class Command : uint8_t { NotBegun, Runs, RunsPerformed, Gone, Left, LeftPerformed };

// The knowledge of a runner about an attempt. Final: it saw the end, and nothing is left.
enum class Known : uint8_t { Nothing, Started, Ended, Final, Declined };

enum class Listed : uint8_t { No, NotPerformed, Performed };  // what the operator saw
enum class Resolution : uint8_t { None, Done, NotDone };
enum class Loose : uint8_t { Nothing, Intent, Outcome };  // the record that isn't synced
enum class Name : uint8_t { Missing, Made, Synced };      // of a journal in its folder
enum class Damage : uint8_t { None, CutOff, Senseless };

struct Attempt {
  uint8_t line;  // from 1
  Outcome outcome;
  Command command;
  Known known;
  Outcome ending;  // what the runner answers once the attempt is final
  Listed listed;
  Resolution resolution;
  bool resolution_is_loose;
};

struct Process {
  Phase phase;
  bool is_connected;  // its pipes lead to the living runner
  uint8_t serial;     // of the attempt in hand, from 0
  Outcome answer;
  uint8_t job;
  uint8_t round;  // the place of its round, from 1
  uint8_t closed_lines;
  uint8_t journals_read;
  uint8_t lock_file;  // that it has opened
  bool made_journal;
  bool leaves;
};

struct Worker {
  Attempt attempts[kIntents];
  uint8_t intents;
  Loose loose;
  uint8_t loose_serial;  // of a loose outcome
  Name journal;
  Damage damage;
  uint8_t lock_file;  // the one that has the name
  bool has_runner;
  uint8_t unread;     // the serial from 1 of a `perform` of a dead process; 0: none
  Process lives[2];   // of the living runner, and of one that was killed
};

struct Job {
  uint8_t line;
  uint8_t seat;  // the participant that has claimed it; 0: none
  bool is_recorded;
};

struct Round {
  Job jobs[kLines];
  uint8_t count;
  uint8_t first;    // the worker that has seat 1, from 1
  uint8_t workers;  // how many take part
};

struct State {
  Worker workers[kWorkers];
  Round rounds[2];
  uint8_t header;     // the place of the round whose header stands, from 1
  uint8_t registers;  // the place of the round whose registers stand
  uint8_t performed[kLines];
  bool listed[kLines];  // as in doubt, and not reopened
  uint8_t unbegun, not_done, untouched, kills, cuts;  // how many may still come
};
static_assert(std::has_unique_object_representations_v<State>, "states are compared as bytes");

}  // namespace model
