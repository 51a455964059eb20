"""Mistakes of the Python module and the Rust crates, of which a test must find each. Begin with
`found_of`."""

from __future__ import annotations

from contextlib import contextmanager
from typing import Callable, Iterator, List, NamedTuple

from trying import Wrong


class Mistake(NamedTuple):
    """A text of a file, another one in its place, and the test that must fail then."""

    path: str
    old: str
    new: str
    test: str


LOOPS = "Loops.test_"
INTERRUPTS = "Interrupts.test_"
NUMBERS = "Numbers.test_"
CHILDREN = "Children.test_"
# Files of the module `amo`, and tests of tools/wheels/loops.py and children.py.
PYTHON = [Mistake(f"amo/{path}", old, new, test) for path, old, new, test in (
    ("worker.py", "self._check_idle()\n            self._end", "self._end",
     f"{LOOPS}a_worker_that_is_closed_between_two_accesses"),
    ("worker.py", "self._check_idle()\n            self._check_holder", "self._check_holder",
     f"{INTERRUPTS}a_loop_within_a_loop"),
    ("worker.py", "self._life = life = _Life(self._library, self._registers, self.number)\n"
     "        self._add_doubt(life.begin())", "life = _Life(self._library, self._registers,"
     " self.number)\n        self._add_doubt(life.begin())\n        self._life = life",
     f"{LOOPS}a_signal_that_begins_a_loop_as_another_begins"),
    ("worker.py", "        life.is_busy = True  # first of all, since a handler may come between"
     " these lines\n        self._check_holder()\n        if life is not self._life:",
     "        self._check_holder()\n        if life is self._life:\n"
     "            life.is_busy = True\n        else:",
     f"{INTERRUPTS}a_close_after_which_two_have_one_number"),
    ("worker.py", "self._add_doubt(life.begin())", "life.begin()",
     f"{INTERRUPTS}an_exception_after_which_a_doubt_is_unknown"),
    ("worker.py", "if self._is_unsure and", "if False and",
     f"{LOOPS}a_claim_that_landed_and_is_no_doubt_before_the_next_loop"),
    ("worker.py", "if self._is_unsure and", "if False and",
     f"{LOOPS}a_signal_that_leaves_no_doubt"),
    ("worker.py", "if len(self._doubts) > known:", "if False:",
     f"{LOOPS}a_kept_exception_that_leaves_no_doubt"),
    ("worker.py", "if len(self._doubts) > known:", "if False:",
     f"{LOOPS}a_loop_that_records_a_claim_that_nobody_saw"),
    ("worker.py", "life.is_new = False\n", "life.is_new = self._leaves = False\n",
     f"{LOOPS}a_leave_before_the_loop_that_is_forgotten"),
    ("worker.py", "def __reduce__", "def copied", f"{LOOPS}a_copy_that_performs_the_jobs_too"),
    ("jobs.py", "if not isinstance(done, bool):", "if False:", f"{LOOPS}an_answer_that_is_none"),
    ("worker.py", "self.number = whole(number)", "self.number = number",
     f"{NUMBERS}a_number_that_two_workers_have_by_two_texts"),
    ("library.py", "if not 0 <= worker < ABOVE:", "if False:",
     f"{NUMBERS}a_number_that_two_workers_have_by_two_texts"),
    ("registers.py", "        _check_streams()\n        file", "        file",
     f"{NUMBERS}a_file_that_gets_the_number_of_a_standard_stream"),
    ("registers.py", "    _check_streams()\n    file", "    file",
     f"{NUMBERS}a_file_that_gets_the_number_of_a_standard_stream"),
    ("registers.py", "        _check_note(boot, note)", "        if os.path.exists(boot):\n"
     "            _check_note(boot, note)", f"{NUMBERS}registers_without_their_note"),
    ("registers.py", "if found not in (None, note):", "if False:",
     f"{NUMBERS}registers_whose_maker_was_killed"),
    ("registers.py", "if not os.path.samestat(os.stat(self._path), os.fstat(file)):", "if False:",
     f"{NUMBERS}registers_that_are_removed_while_they_are_made"),
    ("registers.py", "if found != note:", "if False:", f"{NUMBERS}a_file_of_another_run"),
    ("worker.py", "        check_registers(registers, workers, jobs)\n        self._process",
     "        self._process", f"{NUMBERS}other_numbers_than_those_of_the_registers"),
    ("worker.py", "    check_registers(registers, workers, jobs)\n    words", "    words",
     f"{NUMBERS}other_numbers_than_those_of_the_registers"),
    ("registers.py", "            _take_room(self._path, file, length)", "            pass",
     f"{NUMBERS}registers_that_find_no_room_later"),
    ("worker.py", "threading.RLock() if self._is_copy() else self._lock", "self._lock",
     f"{CHILDREN}a_child_that_waits_for_a_thread_of_its_parent"),
    ("worker.py", "self._life.is_busy and not self._is_copy()", "self._life.is_busy",
     f"{CHILDREN}a_child_that_waits_for_a_thread_of_its_parent"),
    ("registers.py", "    registers._check_process()\n", "",
     f"{CHILDREN}a_child_that_sees_an_old_copy"),
    ("registers.py", "if os.fstat(file).st_ino != self._inode:", "if False:",
     f"{CHILDREN}a_number_that_two_have_after_an_unlink"),
    ("registers.py", "return self._is_early or is_variable(self)", "return self._is_early",
     f"{CHILDREN}registers_that_each_process_makes"),
    ("registers.py", "return self._is_early or is_variable(self)", "return is_variable(self)",
     f"{CHILDREN}registers_that_each_process_makes"),
    ("registers.py", "(self._is_early or is_variable(self, self._memory))", "self._is_early",
     f"{CHILDREN}registers_that_each_process_makes"),
    ("registers.py", "not is_forked() and ", "", f"{CHILDREN}registers_that_each_process_makes"),
    ("worker.py", "            if is_starting():", "            if False:",
     f"{CHILDREN}a_main_module_that_waits_for_its_own_worker"),
    ("registers.py", "def __reduce__(self) -> NoReturn:\n        raise TypeError(\"guard",
     "def copied(self) -> NoReturn:\n        raise TypeError(\"guard",
     f"{CHILDREN}registers_that_are_sent"),
    ("registers.py", "def __reduce__(self) -> NoReturn:\n        raise TypeError(f\"registers",
     "def copied(self) -> NoReturn:\n        raise TypeError(f\"registers",
     f"{CHILDREN}registers_that_are_sent"),
    ("jobs.py", "def __reduce__", "def copied", f"{CHILDREN}an_error_that_a_pool_waits_for"),
)]
# Files of the crates, and tests of the crate `amo`: its file and its name.
RUST = [Mistake(f"amo/src/{path}", old, new, test) for path, old, new, test in (
    ("worker.rs", "(mem::take(&mut self.heard), ", "(self.heard.clone(), ",
     "steps a_panic_after_which_a_job_is_performed_twice"),
    ("worker.rs", "self.has_reported = false; // if `doubt` panics", "// if `doubt` panics",
     "threads a_panic_that_loses_a_doubt"),
    ("worker.rs", "self.check_process()?;\n        let mut", "let mut",
     "processes a_child_process_that_goes_on"),
    ("worker.rs", "worker.check_process()?;\n", "\n", "processes a_child_process_that_goes_on"),
    ("file.rs", "    note.check()?;", "    if note.path.exists() {\n        note.check()?;\n    }",
     "processes registers_without_their_note"),
    ("file.rs", "if !self.is_making() {", "if self.boot.is_empty() {",
     "processes registers_whose_maker_was_killed"),
    ("file.rs", "if numbers == self.numbers.as_bytes()", "if !numbers.starts_with(b\"x\")",
     "processes a_file_of_another_run"),
    ("crew.rs", "if made != (workers, jobs)", "if made.0 == 0",
     "processes a_crew_of_other_numbers_than_its_registers"),
    ("file.rs", "let file = opened(&path)?; // by this path", "let file = _made; // by the link",
     "processes a_link_that_leads_elsewhere_while_it_is_opened"),
    ("file.rs", "amo_sys::take_room(file, length)?;", "",
     "processes registers_that_find_no_room_later"),
)]


@contextmanager
def planted(folder: str, mistake: Mistake) -> Iterator[None]:
    """Has the mistake in a file of this folder meanwhile. Raises Wrong if its text isn't there."""
    path = f"{folder}/{mistake.path}"
    with open(path, encoding="utf-8") as file:
        text = file.read()
    if text.count(mistake.old) != 1:
        raise Wrong(f"`{path}`: `{mistake.old}` must stand there once, to be made a mistake")
    try:
        write(path, text.replace(mistake.old, mistake.new))
        yield
    finally:
        write(path, text)


def write(path: str, text: str) -> None:
    """Writes a file."""
    with open(path, "w", encoding="utf-8") as file:
        file.write(text)


def found_of(folder: str, mistakes: List[Mistake], fails: Callable[[str], bool]) -> str:
    """Plants each mistake into this folder, and has its test fail. Raises Wrong if a test passes.
    `fails` runs a test, and returns whether it failed by what it found."""
    for mistake in mistakes:
        with planted(folder, mistake):
            if not fails(mistake.test):
                raise Wrong(f"`{mistake.path}`: `{mistake.test}` doesn't find"
                            f" `{mistake.new.strip()}` in place of `{mistake.old.strip()}`")
    return f"{len(mistakes)} found"
