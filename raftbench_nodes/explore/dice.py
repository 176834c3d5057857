"""Dice for exploring: `plain` are those of plain/dice.py, `weighted` throw partitions and elections more often, `sane` throw only what can
happen in a real cluster: nodes that begin alike or wait to be added, and snapshots that leaders send by themselves. `mixed` throw all three, with a theme.
"""
from __future__ import annotations

import random
from typing import Iterator, NamedTuple, Sequence

from plain.dice import WEIGHTS, Dice, Piece, Thrown, thrown_of

from ..compare.runner_steps import RunnerStep
from ..compare.script import Step
from .stories import CRASHES, NETWORK, READS, Story, step_of_part

LENGTHS = (5, 15, 30, 45)
CRASHED = ("restart", "restart", "before save", "in save", "after save", "before advance")


class Theme(NamedTuple):
    """What a script is about: options of all nodes, how many there are, how often the runner does something, and weights of directives."""

    name: str
    options: str = ""
    nodes: tuple[int, ...] = ()
    network: float = 0.06  # how likely the network does something before a directive
    crashes: float = 0.02
    stories: tuple[Story, ...] = tuple(NETWORK)
    story: float = 0.05  # how likely one begins before a directive
    weights: tuple[tuple[str, float], ...] = ()
    length: int = 0


class Weighted(Dice):
    """Of eight steps one is a partition, in which each side does something alone, and one is a story that makes sense only together."""

    theme = Theme("any")

    def steps(self, count: int) -> list[Thrown]:
        steps = self.opening()
        while len(steps) < count:
            thrown = self.random()
            if thrown < 0.12:
                steps += [thrown_of(piece) for piece in self.parted()]
            elif thrown < 0.25:
                steps += [thrown_of(piece) for piece in self.together()]
            else:
                steps.append(self.directive())
        return steps

    def together(self) -> list[Piece]:
        if self.some(0.5):
            return super().together()
        names = ["overwritten", "beaten", "left_alone", "elected_in_joint", "handed_to_who_lags"]
        pieces: list[Piece] = getattr(self, self.choice(names))(self.favourite, self.id())
        return pieces

    def overwritten(self, leader: int, other: int) -> list[str]:
        """A leader has entries that nobody else gets, and another is elected without it and has other entries there."""
        rest, alone = self.others(leader), [f"propose {leader} {self.payload()}"] * self.choice([1, 1, 2, 3])
        steps = [*alone, f"process-ready {leader}", f"deliver-msgs drop=({rest.replace(' ', ',')})", f"campaign {other}", f"stabilize {rest}"]
        steps += [f"deliver-msgs drop=({leader})", *[f"propose {other} {self.payload()}"] * self.choice([0, 1, 1])]
        steps += self.choice([[], [f"stabilize {rest}"], [f"process-ready {other}"]])
        ends = [["stabilize"], [f"campaign {leader}", f"stabilize {leader} {other} rounds=3", "stabilize"], [f"tick-heartbeat {other}", "stabilize rounds=2"]]
        self.favourite = other
        return steps + self.choice([*ends, [f"deliver-msgs drop=({leader})", f"campaign {leader}", "stabilize rounds=3", f"campaign {leader}", "stabilize"]])

    def beaten(self, leader: int, follower: int) -> list[str]:
        """Heartbeats come in time, so that nobody campaigns."""
        steps = [f"campaign {leader}", "stabilize", *[f"tick-heartbeat {follower}"] * 2]
        steps += [f"tick-heartbeat {leader}", f"process-ready {leader}", f"deliver-msgs {follower}"]
        return [*steps, *[f"tick-heartbeat {follower}"] * self.choice([1, 2]), self.choice(["stabilize", f"process-ready {follower}"])]

    def left_alone(self, leader: int, other: int) -> list[str]:
        """A leader hears of nobody for a timeout or two."""
        rest = self.others(leader)
        steps = [f"tick-election {leader}", f"process-ready {leader}", f"deliver-msgs drop=({rest.replace(' ', ',')})", f"tick-election {leader}"]
        return [*steps, self.choice([f"propose {leader} {self.payload()}", f"campaign {other}", "raft-state"]), self.choice(["stabilize", f"stabilize {rest}"])]

    def elected_in_joint(self, leader: int, other: int) -> list[Piece]:
        """Somebody campaigns in a joint configuration, where some of the others hear of it."""
        rest = [id for id in range(1, max(3, self.nodes) + 1) if id != other]
        words = [f"v{other}", *(f"{self.choice('rrl')}{id}" for id in self.sample(rest, self.randint(1, len(rest))))]
        side = " ".join(map(str, sorted({other, *self.sample(rest, self.choice([0, 0, 1, 2]))})))
        change = f"propose-conf-change {leader} transition=explicit", [" ".join(words)]
        self.favourite = other
        return [f"campaign {leader}", "stabilize", change, "stabilize", f"campaign {other}", f"stabilize {side}", self.choice(["stabilize", "raft-state"])]

    def handed_to_who_lags(self, leader: int, behind: int) -> list[str]:
        """The lead goes to a node that misses what the others have."""
        steps = [f"propose {leader} {self.payload()}", f"stabilize {self.others(behind)}", f"deliver-msgs drop=({behind})"]
        steps += [f"transfer-leadership from={leader} to={behind}", f"process-ready {leader}", f"deliver-msgs {behind}"]
        self.favourite = behind
        return [*steps, self.choice(["stabilize", f"process-ready {behind}", f"stabilize {leader} {behind} rounds=2"])]

    def parted(self) -> list[Piece]:
        """Sides of a partition, one after the other: an election or none, a proposal or a change, and what is lost to the others."""
        everyone = list(range(1, max(2, self.nodes) + 1))
        self.shuffle(everyone)
        steps: list[Piece] = []
        for _ in range(self.choice([1, 2, 3, 3])):
            side = sorted(self.sample(everyone, self.randint(1, len(everyone))))
            steps += self.alone(side, [id for id in everyone if id not in side])
        return steps

    def alone(self, side: Sequence[int], rest: Sequence[int]) -> list[Piece]:
        who, names = self.choice(side), " ".join(map(str, side))
        begun = self.choice([[f"campaign {who}"]] * 3 + [[f"tick-election {who}"], []])
        steps: list[Piece] = [*begun, *self.choice([[f"stabilize {names} rounds={self.choice([1, 2, 2, 3, 4])}"], [f"stabilize {names}"]])]
        if self.some(0.7):
            steps.append(f"propose {who} {self.payload()}" if self.some(0.7) else self.propose_conf_change())
        steps += self.choice([[f"process-ready {who}"], [f"stabilize {names} rounds=1"], []])
        if rest and self.some(0.7):
            steps.append(f"deliver-msgs drop=({','.join(map(str, rest))})")
        self.favourite = who
        return steps


class Themed(Weighted):
    """Weighted dice with a theme."""

    def __init__(self, seed: object, theme: Theme) -> None:
        super().__init__(seed)
        self.theme = theme
        # Nodes crash by the runner's steps, as often as the theme says.
        self.weights = {**WEIGHTS, "restart": 0.0, **dict(theme.weights)}

    def options_of_nodes(self, has_content: bool = False) -> str:
        if not self.theme.options:
            return super().options_of_nodes(has_content)
        return (f" content={self.payload()}" if has_content else "") + " " + self.theme.options

    def any_directive(self) -> Thrown:
        names, weights = zip(*self.weights.items())
        return thrown_of(getattr(self, self.choices(names, weights)[0])())

    def open_usual(self) -> list[str]:
        if not self.theme.nodes:
            return super().open_usual()
        self.nodes = count = self.choice(self.theme.nodes)
        self.favourite = self.randint(1, count)
        opened = f"add-nodes {count} voters={self.list_of(range(1, count + 1))} index={self.index}" + self.options_of_nodes()
        return [opened, f"campaign {self.favourite}", self.choice(["stabilize", "stabilize", "stabilize rounds=2"])]


class Sane(Themed):
    def opening(self) -> list[Thrown]:
        waiting = range(self.choice([0, 0, 1, 2]))
        return [(head, []) for head in [*self.open_usual(), *(self.add_nodes() for _ in waiting)]]

    def add_nodes(self) -> str:
        self.nodes = min(32, self.nodes + 1)
        return "add-nodes 1" + self.options_of_nodes()

    def send_snapshot(self) -> str:
        return self.raft_state()

    def installed(self, leader: int, to: int) -> list[str]:
        return self.cut_off(leader, to)

    def wrong(self) -> Thrown:
        return self.any_directive()



# What scripts of the `mixed` dice are about, each as often as it stands here.
THEMES = [
    Theme("any"), Theme("any"), Theme("any"), Theme("quiet", network=0.0, story=0.0, crashes=0.0),
    Theme("questions", "prevote=true", (3, 3, 5), weights=(("campaign", 9), ("tick_election", 9))),
    Theme("quorum", "checkquorum=true", (3, 3, 5), weights=(("tick_election", 9), ("tick_heartbeat", 9))),
    Theme("both", "prevote=true checkquorum=true", (3, 3, 5), weights=(("campaign", 8), ("tick_election", 8), ("tick_heartbeat", 8))),
    Theme("windows", "inflight=1", (2, 3), weights=(("propose", 18),)), Theme("windows of two", "inflight=2", (3,), weights=(("propose", 18), ("report_unreachable", 4))),
    Theme("crashes", nodes=(1, 2, 3, 3, 3), crashes=0.12, stories=tuple(CRASHES), story=0.12),
    Theme("crashed stories", nodes=(3, 3, 5, 5), crashes=0.05, stories=tuple(CRASHES), story=0.3, length=18),
    Theme("stories", nodes=(3, 3, 3, 5), stories=tuple(NETWORK), story=0.3, length=18),
    Theme("five", nodes=(5,), network=0.1, length=60), Theme("network", nodes=(2, 3, 3, 5), network=0.25),
    Theme("long", nodes=(3, 3, 5), crashes=0.03, weights=(("campaign", 3), ("propose", 14)), length=120),
    Theme("members", nodes=(1, 2, 3, 3), weights=(("propose_conf_change", 20), ("add_nodes", 4))),
    Theme("members that crash", nodes=(3, 3), crashes=0.08, weights=(("propose_conf_change", 20), ("add_nodes", 4))),
    Theme("snapshots", nodes=(2, 3, 3), weights=(("compact", 15), ("propose", 14)), stories=tuple(NETWORK), story=0.1),
    Theme("transfers", nodes=(2, 3, 3), weights=(("transfer_leadership", 15),)), Theme("limits", nodes=(2, 3, 3), weights=(("propose", 20),)),
]
PLAIN_CHANCE, WEIGHTED_CHANCE = 0.08, 0.4


def themed(seed: int, theme: Theme) -> Dice:
    """Dice of one of the three kinds, by a seed; themes that fix options or nodes are sane more often."""
    chance = random.Random(f"kind {seed}").random()
    if theme.name == "any" and chance < PLAIN_CHANCE:
        return Dice(seed)
    return Themed(seed, theme) if chance < WEIGHTED_CHANCE else Sane(seed, theme)


def disturbed(dice: Dice, theme: Theme, step: Step) -> Step:
    """A step before which the network or a node may do something."""
    nodes = max(1, dice.nodes)
    if dice.random() < theme.network:
        id, other = dice.randint(1, nodes), dice.randint(1, nodes)
        held = [RunnerStep("hold", id, other), RunnerStep("release", id, other), RunnerStep("release", other, id)]
        usual = [*(RunnerStep(name, id) for name in ("reverse", "double", "late")), RunnerStep("again", id, other)]
        return step._replace(before=(*step.before, dice.choice([*usual, *held, RunnerStep("cut", id, dice.choice([0, 1, 1, 2]))])))
    if dice.random() < theme.crashes:
        names = [*CRASHED, "save", "save", "snapshot-lost"]
        name, id = dice.choice(names), dice.randint(1, nodes)
        return step._replace(before=(*step.before, RunnerStep(name, id, dice.randint(1, nodes) if name == "snapshot-lost" else 0)))
    return step


def with_runner(dice: Dice, theme: Theme, steps: Sequence[Step]) -> Iterator[Step]:
    """The steps of the dice, with stories and the runner's steps between them."""
    for at, step in enumerate(steps):
        if at and theme.story and dice.random() < theme.story and dice.nodes > 0:
            one, other = dice.sample(range(1, max(2, dice.nodes) + 1), 2)
            if dice.some(0.5):
                one = dice.favourite if dice.favourite != other else one
            told = list(map(step_of_part, dice.choice(theme.stories)(dice, one, other)))
            if not told[0].head.startswith("campaign") and dice.some(0.7):
                yield from (Step(f"campaign {one}"), Step("stabilize"))
            yield from told
        if theme.name == "limits" and step.head.startswith("add-nodes"):
            step = step._replace(before=(RunnerStep("limit" if len(steps) % 2 else "uncommitted", 0, 1),))
        yield disturbed(dice, theme, step) if at else step


def steps_of(seed: int, kind: str = "mixed", has_reads: bool = False) -> list[Step]:
    """The steps of a seed. Dice now and then throw lines that no script may have: these are left out. Reads are thrown for promises alone."""
    chooser = random.Random(f"theme {seed}")
    theme = chooser.choice(THEMES) if kind == "mixed" else Theme("any")
    dice = DICE[kind](seed) if kind != "mixed" else Sane(seed, theme) if has_reads else themed(seed, theme)
    dice.full_chance = 0
    count = theme.length or dice.choice(LENGTHS)
    steps = [Step(head, tuple(given)) for head, given in dice.steps(count)]
    if kind == "mixed":
        if has_reads:
            theme = theme._replace(stories=(*theme.stories, *READS * 4))
        steps = list(with_runner(dice, theme, steps))
        if has_reads:
            steps = [with_read(dice, step) for step in steps]
    return [step for step in steps if step.block() is not None]


def with_read(dice: Dice, step: Step) -> Step:
    return step._replace(before=(*step.before, RunnerStep("read", dice.randint(1, max(1, dice.nodes))))) if dice.some(0.05) else step


DICE = {"plain": Dice, "weighted": Weighted, "sane": lambda seed: Sane(seed, Theme("any")), "mixed": Dice}
