"""Shared by the tests of the two sets of rules: a world that can be copied, the search through all
orders of events, and mistakes that are made in the rules."""

import copy
import enum
from unittest import mock

import package  # noqa: F401


class Broken(Exception):
    """Which rule is broken."""


def want(is_so, rule):
    if not is_so:
        raise Broken(rule)


class World:
    """The outside of some rules, their `state`, the notes of a monitor, and a `trace` for messages
    alone. A world has `events`, which can come next, and a method `on_ACTION` for each action of
    the rules."""

    parts = ""  # the name of the dictionary of the state whose values change

    def copy(self):
        """Returns a copy that shares nothing that changes."""
        new, new.state = copied(self), copied(self.state)
        setattr(new.state, self.parts,
                {k: copy.copy(it) for k, it in getattr(self.state, self.parts).items()})
        return new

    def key(self):
        """Returns what two worlds have in common that need not be searched twice."""
        return shown({name: it for name, it in vars(self).items() if name != "trace"})

    def branches(self, event):
        """Returns how a step may go on, each as the further arguments of `step`."""
        return [{}]

    def carry(self, actions, event):
        """Carries actions out."""
        self.trace += actions
        for action in actions:
            getattr(self, f"on_{type(action).__name__}")(action, event)


def shown(found):
    """Returns a value as a text, with all that an object of the rules knows but its settings."""
    if isinstance(found, dict):
        return repr([(name, shown(it)) for name, it in sorted(found.items())])
    if hasattr(found, "__dict__") and not isinstance(found, enum.Enum):
        return shown({name: it for name, it in vars(found).items() if name != "settings"})
    return repr(found)


def copied(found):
    """Returns a copy with its own sets, lists and dictionaries."""
    new = copy.copy(found)
    for name, value in vars(found).items():
        if isinstance(value, (set, dict, list)):
            setattr(new, name, value.copy())
    return new


def after(world, *events):
    """Returns the world after these events, each of which may be a pair with how it goes on."""
    for event in events:
        event, how = event if type(event) is tuple else (event, {})
        world.step(event, **how)
    return world


def search(first, depth):
    """Takes every order of so many events, from this world. Returns how many steps that were.
    Worlds that are equal are searched once."""
    front, known, steps = [first], set(), 0
    for _ in range(depth):
        following = []
        for world in front:
            for event in world.events():
                for how in world.branches(event):
                    new = world.copy()
                    new.step(event, **how)
                    steps += 1
                    key = new.key()
                    if key not in known:
                        known.add(key)
                        following.append(new)
        front = following
    return steps


class EveryOrder:
    """Tests of some rules: every order of up to `depth` events, from each of the `scenes`, which
    make a world each. Of `mistakes` each is made by a function, and breaks a rule."""

    scenes, mistakes, depths = {}, {}, (6, 5)  # from the first scene, and from the others

    def test_every_order_of_events_keeps_the_rules(self):
        first, *_ = self.scenes
        steps = {name: search(make(), self.depths[name != first])
                 for name, make in self.scenes.items()}
        self.assertGreater(min(steps.values()), 300, steps)

    def broken_rules(self, depth):
        """Yields which rules are broken, at most one for each scene."""
        for make in self.scenes.values():
            try:
                search(make(), depth)
            except Broken as broken:
                yield str(broken).partition(": [")[0]

    def test_a_mistake_is_noticed(self):
        for name, (change, rule) in self.mistakes.items():
            with self.subTest(name), change():
                found = []
                is_noticed = any(found.append(it) or it == rule for it in self.broken_rules(4))
                self.assertTrue(is_noticed, f"{name}: {found}")


class Changes:
    """Mistakes in the rules of a module."""

    def __init__(self, rules):
        self.rules, self.original = rules, dict(rules.HANDLERS)

    def handler(self, kind, function):
        """Replaces what the rules do about an event."""
        return lambda: mock.patch.dict(self.rules.HANDLERS, {kind: function})

    def function(self, name, function):
        """Replaces one of the rules' functions."""
        return lambda: mock.patch.object(self.rules, name, function)

    def changed(self, name, make):
        """Replaces a function by one that is made of it."""
        return self.function(name, make(getattr(self.rules, name)))
