// The steps of commands, and of what they leave behind.
#pragma once

#include "steps.h"

namespace model {

// The command of one attempt, with the means to add its next step.
struct Performer {
  StepList& list;
  int number;  // of the worker, from 0
  int serial;  // from 0

  void end(const char* label, Command command, Outcome ending, bool is_fault) const {
    Attempt& attempt = list.add_of(label, number, serial, is_fault);
    attempt.command = command;
    attempt.ending = ending;
  }

  void perform(const char* label, Command command, bool is_fault) const {
    Step& step = list.add(label, number, serial, is_fault);
    Attempt& attempt = step.after.workers[number].attempts[serial];
    attempt.command = command;
    int line = attempt.line - 1;
    if (++step.after.performed[line] > 1)
      step.violation = "a line is performed twice";
    else if (list.before.listed[line] && !bounds.only_twice)
      step.violation = "a line is performed after it was listed as in doubt";
  }
};

inline void running_steps(const Performer& it) {
  it.perform("the command PERFORMS the line", Command::RunsPerformed, false);
  it.end("the command is killed first", Command::Gone, Outcome::Doubt, kFault);
  it.end("the command ends, and a child of it will perform the line", Command::Left,
         Outcome::Done, kFault);
  it.end("the command is killed, and a child of it will perform the line", Command::Left,
         Outcome::Doubt, kFault);
  if (!it.list.before.untouched) return;
  it.end("the command reports no effect", Command::Gone, Outcome::Untouched, kFault);
  it.list.steps.back().after.untouched--;
}

inline void command_steps(StepList& list, int number, int serial) {
  Performer it{list, number, serial};
  Command command = list.before.workers[number].attempts[serial].command;
  if (command == Command::Runs) {
    running_steps(it);
  } else if (command == Command::RunsPerformed) {
    it.end("the command ends", Command::Gone, Outcome::Done, false);
    it.end("the command is killed afterwards", Command::Gone, Outcome::Doubt, kFault);
    it.end("the command ends, and leaves a child", Command::LeftPerformed, Outcome::Done, kFault);
  } else if (command == Command::Left) {
    it.perform("a child of the command PERFORMS the line", Command::LeftPerformed,
               bounds.immortal);
    list.add_of("the child is killed first", number, serial, kFault).command = Command::Gone;
  } else if (command == Command::LeftPerformed) {
    list.add_of("the child ends", number, serial, bounds.immortal).command = Command::Gone;
  }
}

}  // namespace model
