// The rules that a control leaves out, and how far a search goes.
#pragma once

#include "state.h"

namespace model {

// Each control leaves one rule out.
struct Controls {
  bool folder_never_synced, maker_syncs_folder, round_not_exclusive, shared_lock_late;
  bool pending_opens, one_opened_opens, first_journal_only;
  bool no_runner_lock, no_journal_lock, command_without_lock, command_lock_unasked;
  bool one_descriptor, old_handle, no_boot_id, seat_by_number, one_write, end_not_cut;
  bool lock_file, no_guard, perform_before_sync, answer_names_line, any_attempt_answered;
  bool listed_unrecovered, dead_worker_heard, runner_waits, runner_ends_early;
};

struct ControlName {
  const char* name;
  bool Controls::*control;
};

constexpr ControlName kControls[] = {
    {"folder-never-synced", &Controls::folder_never_synced},
    {"maker-syncs-folder", &Controls::maker_syncs_folder},
    {"round-not-exclusive", &Controls::round_not_exclusive},
    {"shared-lock-late", &Controls::shared_lock_late},
    {"pending-opens", &Controls::pending_opens},
    {"one-opened-opens", &Controls::one_opened_opens},
    {"first-journal-only", &Controls::first_journal_only},
    {"no-runner-lock", &Controls::no_runner_lock},
    {"no-journal-lock", &Controls::no_journal_lock},
    {"command-without-lock", &Controls::command_without_lock},
    {"command-lock-unasked", &Controls::command_lock_unasked},
    {"one-descriptor", &Controls::one_descriptor},
    {"old-handle", &Controls::old_handle},
    {"no-boot-id", &Controls::no_boot_id},
    {"seat-by-number", &Controls::seat_by_number},
    {"one-write", &Controls::one_write},
    {"end-not-cut", &Controls::end_not_cut},
    {"lock-file", &Controls::lock_file},
    {"no-guard", &Controls::no_guard},
    {"perform-before-sync", &Controls::perform_before_sync},
    {"answer-names-line", &Controls::answer_names_line},
    {"any-attempt-answered", &Controls::any_attempt_answered},
    {"listed-unrecovered", &Controls::listed_unrecovered},
    {"dead-worker-heard", &Controls::dead_worker_heard},
    {"runner-waits", &Controls::runner_waits},
    {"runner-ends-early", &Controls::runner_ends_early},
};

struct Bounds {
  int unbegun = 1, not_done = 1, untouched = 0, kills = kUnbounded, cuts = kUnbounded;
  int round_workers = 2;     // most of one round
  uint64_t states = 60;      // in millions
  bool symmetry = false;     // states that differ in the numbers of workers and lines are one
  bool safety_only = false;  // no search for stuck states
  bool only_twice = false;   // a performance after a listing isn't looked for
  bool failed = false;       // each `done` may count as failed, and be answered
  bool immortal = false;     // what a command leaves behind need not end
};

inline Controls controls{};
inline Bounds bounds;

}  // namespace model
