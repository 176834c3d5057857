"""Stories: scenarios that combine the network, crashes and elections. Each takes the dice and two nodes."""
from __future__ import annotations

from typing import Callable, Sequence, Union

from plain.dice import Dice

from ..compare.runner_steps import RunnerStep
from ..compare.script import Step

# A head, or one with steps of the runner before it.
Part = Union[str, tuple[str, RunnerStep], tuple[str, list[str]]]
Story = Callable[[Dice, int, int], Sequence[Part]]


def step_of_part(part: Part) -> Step:
    if isinstance(part, str):
        return Step(part)
    head, more = part
    return Step(head, (), (more,)) if isinstance(more, RunnerStep) else Step(head, tuple(more))


def drop(ids: str) -> str:
    return f"deliver-msgs drop=({ids.replace(' ', ',')})"


def there_and_back(leader: object, others: object) -> list[str]:
    return [f"process-ready {leader}", f"deliver-msgs {others}", f"process-ready {others}", f"deliver-msgs {leader}"]


def until_snapshot(dice: Dice, leader: int, behind: int) -> list[str]:
    """Round trips after which a leader has sent a snapshot to a member that lacks what it has compacted: a heartbeat, and usually a refused append."""
    return [f"tick-heartbeat {leader}", *there_and_back(leader, behind) * dice.choice([1, 2, 2]), f"process-ready {leader}"]


def compacted(dice: Dice, leader: int) -> list[str]:
    """A leader compacts nearly all that it has applied: the first index that isn't past it is taken, and the lower ones change nothing."""
    return [f"compact {leader} {dice.index + above}" for above in (30, 24, 19, 15, 12, 10, 8, 7, 6, 5, 4, 3, 2, 1)]


def proposals(dice: Dice, leader: int, counts: Sequence[int]) -> list[str]:
    return [f"propose {leader} {dice.payload()}"] * dice.choice(counts)


# Late, doubled and cut appends


def late(dice: Dice, leader: int, to: int) -> Sequence[Part]:
    """Appends are delivered again, the older ones after the newer."""
    sent = [f"propose {leader} {dice.payload()}", f"process-ready {leader}"] * dice.choice([2, 2, 3])
    return [*sent, (f"deliver-msgs {to}", RunnerStep("double", to)), dice.choice(["raft-state", "stabilize", f"process-ready {to}"])]


def cut_at_loser(dice: Dice, loser: int, leader: int) -> Sequence[Part]:
    """Who lost the lead has entries that nobody else has, and gets an append that covers none or some of them."""
    rest = dice.others(loser)
    lost = [f"campaign {loser}", "stabilize", *proposals(dice, loser, [1, 1, 2]), f"process-ready {loser}", drop(rest)]
    won = [f"campaign {leader}", f"stabilize {rest}", f"propose {leader} {dice.payload()}", f"stabilize {rest}", drop(str(loser))]
    beat = [f"tick-heartbeat {leader}", *there_and_back(leader, loser), f"process-ready {leader}"]
    return [*lost, *won, *beat, (f"deliver-msgs {loser}", RunnerStep("cut", loser, dice.choice([0, 0, 1]))), dice.choice(["raft-state", "stabilize"])]


def cut_after_return(dice: Dice, leader: int, other: int) -> Sequence[Part]:
    """A leader is elected again with an entry of its earlier term, which a follower gets without that of the new term."""
    rest = dice.others(leader)
    lost = [f"campaign {leader}", "stabilize", f"propose {leader} {dice.payload()}", f"process-ready {leader}", drop(rest)]
    deposed = [f"campaign {other}", f"process-ready {other}", f"deliver-msgs {leader}", f"process-ready {leader}", drop(rest)]
    back = [f"campaign {leader}", *there_and_back(leader, rest), *there_and_back(leader, other), f"process-ready {leader}"]
    return [*lost, *deposed, *back, (f"deliver-msgs {other}", RunnerStep("cut", other, 1)), f"process-ready {other}", f"deliver-msgs {leader}", "stabilize"]


def cut_before_tail(dice: Dice, loser: int, leader: int) -> Sequence[Part]:
    """Who lost the lead has entries that the others hold too but nobody knows to be committed, and some of its own after them; an append covers only the first."""
    rest = dice.others(loser)
    shared = [f"campaign {loser}", "stabilize", f"propose {loser} {dice.payload()}", f"process-ready {loser}", f"deliver-msgs {rest}", f"process-ready {rest}", drop(str(loser))]
    alone = [*proposals(dice, loser, [1, 2]), f"process-ready {loser}", drop(rest)]
    won = [f"campaign {leader}", f"stabilize {rest}", *[f"propose {leader} {dice.payload()}", f"stabilize {rest}"] * 2, drop(str(loser))]
    back = [f"propose {leader} {dice.payload()}", f"stabilize {rest}", *there_and_back(leader, loser), f"process-ready {leader}"]
    return [*shared, *alone, *won, *back, (f"deliver-msgs {loser}", RunnerStep("cut", loser, 1)), dice.choice(["raft-state", "stabilize"])]


# Messages that are held back


def stale_answers(dice: Dice, leader: int, slow: int) -> Sequence[Part]:
    """Answers of a follower arrive after another has led and the first leads again."""
    other = dice.choice([id for id in range(1, max(3, dice.nodes) + 1) if id not in (leader, slow)])
    begun: list[Part] = [f"campaign {leader}", "stabilize", *proposals(dice, leader, [1, 2, 3]), f"process-ready {leader}", f"deliver-msgs {slow}"]
    held: list[Part] = [(f"process-ready {slow}", RunnerStep("hold", slow, leader)), drop(dice.others(leader, slow)), f"campaign {other}", f"stabilize {dice.others(leader)}"]
    held += [*proposals(dice, other, [0, 1]), f"stabilize {dice.others(leader)}", "stabilize"] if dice.some(0.6) else [drop(str(leader))]
    again: list[Part] = [f"campaign {leader}", "stabilize", *proposals(dice, leader, [0, 1, 2]), f"process-ready {leader}"]
    return [*begun, *held, *again, (f"deliver-msgs {leader}", RunnerStep("release", slow, leader)), "raft-state", dice.choice(["stabilize", f"status {leader}"])]


def late_votes(dice: Dice, one: int, other: int) -> Sequence[Part]:
    """Votes of an election arrive in the next one, or twice."""
    rest = dice.others(one)
    asked: list[Part] = [f"campaign {one}", f"process-ready {one}", f"deliver-msgs {rest}", (f"process-ready {rest}", RunnerStep("hold", other, one))]
    again: list[Part] = [drop(str(one)), f"campaign {one}", f"process-ready {one}", drop(rest)] if dice.some(0.5) else [f"campaign {one}", f"process-ready {one}"]
    end: Part = (f"deliver-msgs {one}", RunnerStep("release", other, one)) if dice.some(0.7) else (f"deliver-msgs {one}", RunnerStep("double", one))
    return [*asked, *again, end, dice.choice(["raft-state", "stabilize"])]


def doubled_votes(dice: Dice, one: int, other: int) -> Sequence[Part]:
    """One node's vote arrives twice."""
    asked = [f"campaign {one}", f"process-ready {one}", f"deliver-msgs {other}", f"process-ready {other}"]
    return [*asked, drop(dice.others(one, other)), (f"deliver-msgs {one}", RunnerStep("double", one)), dice.choice(["raft-state", "stabilize"])]


def once_more(dice: Dice, one: int, other: int) -> Sequence[Part]:
    """What one node has answered reaches it once more after it has crashed, or after somebody else was elected: a question for its vote, an append, or an answer."""
    asked: list[Part] = dice.choice([[f"campaign {one}"], [f"campaign {one}", "stabilize", *proposals(dice, one, [1, 2])]])
    begun: list[Part] = [*asked, *there_and_back(one, other), *([f"process-ready {one}"] if dice.some(0.5) else [])]
    third = dice.choice([id for id in range(1, max(3, dice.nodes) + 1) if id not in (one, other)])
    between: list[Part] = dice.choice([
        [("raft-state", RunnerStep("restart", other))], [("raft-state", RunnerStep("restart", one)), f"campaign {one}", f"process-ready {one}"],
        [f"campaign {third}", f"process-ready {third}", f"deliver-msgs {other}", f"process-ready {other}"], [f"campaign {third}", f"stabilize {dice.others(one)}"],
        [f"campaign {one}", f"process-ready {one}"], ["stabilize", f"propose {one} {dice.payload()}", "stabilize"],
    ])
    to, sender = dice.choice([(other, one), (other, one), (one, other)])
    return [*begun, *between, (f"deliver-msgs {to}", RunnerStep("again", to, sender)), f"process-ready {to}", dice.choice(["raft-state", "stabilize"]), "stabilize"]


def late_refusal(dice: Dice, leader: int, behind: int) -> Sequence[Part]:
    """A refusal arrives twice: once more when the follower has caught up."""
    missed = [f"propose {leader} {dice.payload()}", f"process-ready {leader}", drop(str(behind)), f"stabilize {dice.others(behind)}", drop(str(behind))]
    probe = [f"propose {leader} {dice.payload()}", f"process-ready {leader}", f"deliver-msgs {behind}", f"process-ready {behind}"]
    return [*missed, *probe, (f"deliver-msgs {leader}", RunnerStep("double", leader)), *there_and_back(leader, behind), "stabilize", f"status {leader}"]


def held_snapshot(dice: Dice, leader: int, behind: int) -> Sequence[Part]:
    """A snapshot arrives after the follower has got what it lacks another way, or twice."""
    rest = dice.others(behind)
    missed: list[Part] = [f"propose {leader} y", f"stabilize {rest}", drop(str(behind)), *compacted(dice, leader)]
    sent = until_snapshot(dice, leader, behind)
    if dice.some(0.5):
        return [*missed, *sent, (f"deliver-msgs {behind}", RunnerStep("double", behind)), f"propose {leader} z", "stabilize"]
    held: list[Part] = [("raft-state", RunnerStep("hold", leader, behind)), f"propose {leader} z", f"stabilize {rest}", f"campaign {dice.choice(rest.split())}", "stabilize"]
    return [*missed, *sent, *held, ("stabilize", RunnerStep("release", leader, behind)), "raft-state"]


def lost_snapshot(dice: Dice, leader: int, behind: int) -> Sequence[Part]:
    """A snapshot is lost, or the application says so, or that it arrived."""
    rest = dice.others(behind)
    missed: list[Part] = [f"propose {leader} y", f"stabilize {rest}", drop(str(behind)), *compacted(dice, leader)]
    sent = until_snapshot(dice, leader, behind)
    told = RunnerStep(dice.choice(["snapshot-lost", "snapshot-arrived"]), leader, behind)
    return [*missed, *sent, drop(str(behind)), (f"status {leader}", told), f"tick-heartbeat {leader}", "stabilize", f"status {leader}"]


# Snapshots and compaction


def snapshot_over_own(dice: Dice, loser: int, leader: int) -> Sequence[Part]:
    """A snapshot is for a node that has entries of its own: unsaved ones, saved ones, or ones that another leader left."""
    rest = dice.others(loser)
    own: list[Part] = [f"campaign {loser}", "stabilize", *proposals(dice, loser, [1, 2, 4]), *([f"process-ready {loser}"] if dice.some(0.6) else [])]
    won: list[Part] = [drop(rest), f"campaign {leader}", f"stabilize {rest}", *[f"propose {leader} {dice.payload()}", f"stabilize {rest}"] * dice.choice([1, 2, 4]), drop(str(loser))]
    cut = compacted(dice, leader)
    back: list[Part] = [f"tick-heartbeat {leader}", *there_and_back(leader, loser), *there_and_back(leader, loser)]
    return [*own, *won, *cut, *back, dice.choice(["stabilize", f"campaign {loser}", f"process-ready {leader}"]), "stabilize", f"raft-log {loser}"]


def compacted_unheard(dice: Dice, leader: int, silent: int) -> Sequence[Part]:
    """A leader compacts while it hasn't heard of a follower, which comes back."""
    rest = dice.others(silent)
    new: list[Part] = [f"campaign {leader}", f"stabilize {rest}", drop(str(silent)), *[f"propose {leader} {dice.payload()}", f"stabilize {rest}"] * dice.choice([1, 2])]
    cut: list[Part] = [drop(str(silent)), *compacted(dice, leader)]
    return [*new, *cut, f"propose {leader} {dice.payload()}", f"tick-heartbeat {leader}", *there_and_back(leader, silent), *there_and_back(leader, silent), "stabilize"]


def told_unreachable(dice: Dice, leader: int, behind: int) -> Sequence[Part]:
    """A follower's answers are late, and the leader hears that it is unreachable, compacts what another acknowledged, and proposes: the follower has more than
    the leader knows, saved, unsaved, or just being saved.
    """
    third = dice.choice(dice.others(leader, behind).split())
    begun: list[Part] = [*proposals(dice, leader, [1, 2]), f"process-ready {leader}", f"deliver-msgs {behind} {third}", f"process-ready {behind} {third}"]
    known: list[Part] = [(f"deliver-msgs {leader}", RunnerStep("hold", behind, leader)), f"process-ready {leader}"]
    more: list[Part] = [*proposals(dice, leader, [0, 1, 1, 2]), f"process-ready {leader}", f"deliver-msgs {behind} drop={third}"]
    saved: list[Part] = dice.choice([[f"process-ready {behind}"], [f"process-ready {behind}"], [], [("raft-state", RunnerStep("save", behind))]])
    cut: list[Part] = [f"report-unreachable {leader} {behind}", *compacted(dice, leader), f"propose {leader} {dice.payload()}", f"process-ready {leader}", f"deliver-msgs {behind}"]
    ends: list[Part] = [*([f"process-ready {behind}"] if dice.some(0.7) else []), (f"deliver-msgs {leader}", RunnerStep("release", behind, leader))]
    return [*begun, *known, *more, *saved, *cut, *ends, dice.choice(["stabilize", f"raft-log {behind}"]), "stabilize", f"raft-log {behind}"]


def away_with_entries(dice: Dice, loser: int, leader: int) -> Sequence[Part]:
    """A leader is cut off with entries of its own; the others go on without it, compact, and take it back. Nodes that ignore candidates for a while have heard
    of nobody for that long.
    """
    rest = dice.others(loser)
    own: list[Part] = [f"campaign {loser}", "stabilize", *proposals(dice, loser, [1, 2, 3, 5]), f"process-ready {loser}", drop(rest)]
    waited = [f"tick-heartbeat {id}" for id in dice.others(loser, leader).split() for _ in range(2)] if dice.some(0.5) else []
    won: list[Part] = [*waited, f"campaign {leader}", f"stabilize {rest}", *[f"propose {leader} {dice.payload()}", f"stabilize {rest}"] * dice.choice([0, 1, 2, 3]), drop(str(loser))]
    ways: list[list[Part]] = [["stabilize"], [*there_and_back(leader, loser) * 3], [(f"raft-log {loser}", RunnerStep("restart", loser)), "stabilize"]]
    back = dice.choice(ways)
    return [*own, *won, *compacted(dice, leader), f"tick-heartbeat {leader}", *back, f"campaign {dice.choice([loser, leader])}", "stabilize", f"raft-log {loser}"]


def beaten_candidate(dice: Dice, winner: int, loser: int) -> Sequence[Part]:
    """Two campaign in one term. A node that has voted for nobody hears from the winner first, and then the loser asks for its vote."""
    rest = dice.others(winner, loser).split()
    free, voters = rest[0], " ".join(rest[1:] or rest)
    asked: list[Part] = [f"campaign {winner}", f"campaign {loser}", f"process-ready {winner}", f"deliver-msgs {voters}", f"process-ready {voters}"]
    won: list[Part] = [f"deliver-msgs {winner}", *([drop(free)] if len(rest) > 1 else []), f"tick-heartbeat {winner}", f"process-ready {winner}"]
    heard: list[Part] = [f"deliver-msgs {free} type={dice.choice(['MsgHeartbeat', 'MsgHeartbeat', 'MsgApp'])}", f"process-ready {loser}", f"deliver-msgs {free} type=MsgVote"]
    return [*asked, *won, *heard, f"process-ready {free}", f"deliver-msgs {loser}", "raft-state", "stabilize"]


# Saving


def overwritten_while_saving(dice: Dice, loser: int, leader: int) -> Sequence[Part]:
    """Saved entries are overwritten, and a second append arrives before that is saved."""
    rest = dice.others(loser)
    own: list[Part] = [f"campaign {loser}", "stabilize", *proposals(dice, loser, [1, 3, 5]), f"process-ready {loser}", drop(rest)]
    won: list[Part] = [f"campaign {leader}", f"stabilize {rest}", *proposals(dice, leader, [0, 0, 1]), f"stabilize {rest}", drop(str(loser))]
    back: list[Part] = [f"tick-heartbeat {leader}", *there_and_back(leader, loser), f"process-ready {leader}", f"deliver-msgs {loser}"]
    more: list[Part] = [*there_and_back(leader, loser), *proposals(dice, leader, [0, 1, 2]), f"process-ready {leader}", f"deliver-msgs {loser}"]
    more += [f"process-ready {loser}"] if dice.some(0.4) else []
    if dice.some(0.4):
        # What overwrites arrives twice, with an entry behind it, before it is saved.
        again = dice.choice([RunnerStep("double", loser), RunnerStep("again", loser, leader)])
        more = [*there_and_back(leader, loser), *proposals(dice, leader, [1, 2]), f"process-ready {leader}", (f"deliver-msgs {loser}", again), f"deliver-msgs {loser}"]
    crash = RunnerStep(dice.choice(["restart", "before save", "in save", "after save", "save"]), loser)
    return [*own, *won, *back, *more, (dice.choice(["raft-state", f"raft-log {loser}", f"deliver-msgs {loser}"]), crash), "stabilize", f"raft-log {loser}"]


def crashed_after_overwriting(dice: Dice, loser: int, leader: int) -> Sequence[Part]:
    """A leader's shorter log takes the place of a longer one that was saved, and the node crashes."""
    rest = dice.others(loser)
    own: list[Part] = [f"campaign {loser}", "stabilize", *proposals(dice, loser, [2, 3, 5]), f"process-ready {loser}", drop(rest)]
    won: list[Part] = [f"campaign {leader}", f"stabilize {rest}", *proposals(dice, leader, [0, 0, 1]), "stabilize"]
    crash = RunnerStep(dice.choice(["restart", "restart", "before advance"]), loser)
    return [*own, *won, (f"raft-log {loser}", crash), f"campaign {dice.choice([loser, leader])}", "stabilize"]


def between_ready_and_advance(dice: Dice, leader: int, follower: int) -> Sequence[Part]:
    """Messages arrive while a node saves and applies what was ready."""
    rest = dice.others(leader, follower)
    sent = [*proposals(dice, leader, [1, 2]), f"process-ready {leader}", f"deliver-msgs {follower}"]
    if dice.some(0.5):
        # With five nodes, another leader has other entries there.
        other = dice.choice(rest.split())
        overtaken: list[Part] = [f"campaign {other}", f"stabilize {rest}", f"deliver-msgs {follower}", f"tick-heartbeat {other}", f"process-ready {other}", f"deliver-msgs {follower}"]
        return [*sent, drop(rest), ("raft-state", RunnerStep("save", follower)), *overtaken, f"process-ready {follower}", "stabilize"]
    more: list[Part] = dice.choice([
        [*proposals(dice, leader, [1, 2]), f"process-ready {leader}", f"deliver-msgs {follower}"],
        [f"campaign {follower}"], [f"tick-heartbeat {leader}", f"process-ready {leader}", f"deliver-msgs {follower}"],
        [f"campaign {dice.choice(dice.others(follower).split())}", f"stabilize {dice.others(follower)}", f"deliver-msgs {follower}"],
    ])
    at = dice.choice([leader, follower, follower])
    return [*sent, ("raft-state", RunnerStep("save", at)), *more, f"process-ready {at}", dice.choice(["stabilize", "raft-state"])]


# Crashes


def crashed_voter(dice: Dice, one: int, other: int) -> Sequence[Part]:
    """A node votes and crashes, and another asks for its vote in the same term."""
    voter = dice.choice([id for id in range(1, max(3, dice.nodes) + 1) if id not in (one, other)])
    asked: list[Part] = [f"campaign {one}", f"campaign {other}", f"process-ready {one} {other}"]
    when = dice.choice(["restart", "restart", "before save", "in save", "after save", "before advance"])
    first: list[Part] = [("raft-state", RunnerStep("hold", other, voter)), f"deliver-msgs {voter}", *([f"process-ready {voter}"] if when == "restart" else [])]
    return [*asked, *first, (f"deliver-msgs {voter}", RunnerStep(when, voter)), ("raft-state", RunnerStep("release", other, voter)), f"deliver-msgs {voter}", "stabilize"]


def crashed_follower(dice: Dice, leader: int, follower: int) -> Sequence[Part]:
    """A follower takes entries and crashes; the leader leads on, or another is elected by what it has."""
    sent: list[Part] = [*proposals(dice, leader, [1, 2, 3]), f"process-ready {leader}", f"deliver-msgs {follower}"]
    when = dice.choice(["restart", "before save", "in save", "after save", "before advance"])
    saved = [f"process-ready {follower}"] if when == "restart" and dice.some(0.7) else []
    ends: list[list[Part]] = [["stabilize"], [f"campaign {follower}", f"stabilize {dice.others(leader)}"], [drop(str(follower)), f"tick-heartbeat {leader}", "stabilize"]]
    return [*sent, *saved, (dice.choice(["raft-state", f"raft-log {follower}"]), RunnerStep(when, follower)), *dice.choice(ends), "stabilize"]


def crashed_leader(dice: Dice, leader: int, other: int) -> Sequence[Part]:
    """A leader crashes with entries that it has saved or not, and comes back to another leader or none."""
    when = dice.choice(["restart", "before save", "in save", "after save", "before advance"])
    begun: list[Part] = [*proposals(dice, leader, [1, 2, 3]), *([f"process-ready {leader}"] if dice.some(0.5) else []), *([drop(dice.others(leader))] if dice.some(0.5) else [])]
    more: Sequence[Part] = proposals(dice, leader, [0, 1]) if dice.some(0.5) else []
    ends: list[list[Part]] = [[f"campaign {other}", "stabilize"], [f"campaign {leader}", "stabilize"], [f"propose {leader} {dice.payload()}", "stabilize"]]
    return [*begun, *more, ("raft-state", RunnerStep(when, leader)), *dice.choice(ends), f"tick-heartbeat {other}", "stabilize"]


def crashed_all(dice: Dice, leader: int, other: int) -> Sequence[Part]:
    """All nodes crash, and one is elected."""
    nodes = range(1, max(2, dice.nodes) + 1)
    begun: list[Part] = [*proposals(dice, leader, [1, 2]), *dice.choice([["stabilize"], [f"process-ready {leader}"], there_and_back(leader, other)])]
    crashed: list[Part] = [("raft-state", RunnerStep(dice.choice(["restart", "restart", "after save", "before save"]), id)) for id in nodes]
    return [*begun, *crashed, f"campaign {dice.choice([leader, other])}", "stabilize", f"propose {other} {dice.payload()}", "stabilize", "raft-state"]


def crashed_after_snapshot(dice: Dice, leader: int, behind: int) -> Sequence[Part]:
    """A node restores a snapshot, or compacts its log, and crashes."""
    rest = dice.others(behind)
    missed: list[Part] = [f"propose {leader} y", f"stabilize {rest}", drop(str(behind)), *compacted(dice, leader)]
    sent: list[Part] = [*until_snapshot(dice, leader, behind), f"deliver-msgs {behind}"]
    when = dice.choice(["restart", "before save", "in save", "after save", "before advance"])
    who = dice.choice([behind, behind, leader])
    return [*missed, *sent, *([f"process-ready {behind}"] if dice.some(0.5) else []), ("raft-state", RunnerStep(when, who)), "stabilize", f"propose {leader} z", f"tick-heartbeat {leader}", "stabilize"]


def crashed_while_changing(dice: Dice, leader: int, other: int) -> Sequence[Part]:
    """A change of the configuration is under way, or done, and a node crashes."""
    words = dice.choice([f"l{other}", f"v{other}", f"r{other}", f"r{other} l{other}", f"v{dice.nodes + 1}", f"r{leader}"])
    change: Part = (f"propose-conf-change {leader}{dice.choice(['', '', ' transition=explicit', ' transition=implicit'])}", [words])
    when = RunnerStep(dice.choice(["restart", "restart", "before save", "after save", "before advance"]), dice.choice([leader, other]))
    done = dice.choice([["stabilize"], [f"process-ready {leader}"], ["stabilize rounds=2"]])
    return [f"campaign {leader}", "stabilize", change, *done, ("raft-state", when), f"campaign {dice.choice([leader, other])}", "stabilize", f"propose {leader} {dice.payload()}", "stabilize"]


# Questions before the vote


def removed_while_asking(dice: Dice, leader: int, asking: int) -> Sequence[Part]:
    """A node asks before the vote, and applies its own removal, or its becoming a learner, before it is answered."""
    change: Part = (f"propose-conf-change {leader}", [dice.choice([f"r{asking}", f"l{asking}"])])
    rest = dice.others(asking)
    asks: list[Part] = [f"campaign {leader}", "stabilize", change, f"process-ready {leader}", f"deliver-msgs {rest}", f"process-ready {rest}", f"deliver-msgs {leader}", f"process-ready {leader}"]
    return [*asks, f"deliver-msgs {asking}", f"campaign {asking}", f"process-ready {asking}", f"deliver-msgs {rest}", f"process-ready {rest}", f"deliver-msgs {asking}", "stabilize"]


def overtaken_question(dice: Dice, one: int, other: int) -> Sequence[Part]:
    """A question before the vote is answered when the term has moved on."""
    asked: list[Part] = [f"campaign {one}", f"process-ready {one}", f"deliver-msgs {other}", (f"process-ready {other}", RunnerStep("hold", other, one))]
    moved = dice.choice([[f"campaign {other}", "stabilize"], [f"campaign {one}", "stabilize"], [f"tick-election {one}", f"tick-election {one}"]])
    return [*asked, *moved, (f"deliver-msgs {one}", RunnerStep("release", other, one)), "stabilize"]


# Reads


def read_by_deposed(dice: Dice, leader: int, other: int) -> Sequence[Part]:
    """A read is asked of a leader that another has replaced, or that has just been elected."""
    rest = dice.others(leader)
    asked: list[Part] = [(f"process-ready {leader}", RunnerStep("read", leader)), f"deliver-msgs {other}", f"process-ready {other}"]
    won: list[Part] = [drop(rest), f"campaign {other}", f"stabilize {rest}", f"propose {other} {dice.payload()}", f"stabilize {rest}"]
    late: list[Part] = [(f"process-ready {leader}", RunnerStep("read", leader)), f"deliver-msgs {leader}", f"process-ready {leader}"]
    if dice.some(0.5):
        return [f"campaign {leader}", "stabilize", *asked, *won, *late, "stabilize"]
    new: list[Part] = [f"campaign {other}", *there_and_back(other, dice.others(other)), (f"process-ready {other}", RunnerStep("read", other)), "stabilize"]
    return [*proposals(dice, leader, [1, 2]), "stabilize", *proposals(dice, leader, [1]), f"process-ready {leader}", f"deliver-msgs {rest}", f"process-ready {rest}", *new]


NETWORK: list[Story] = [
    late, cut_at_loser, cut_after_return, cut_before_tail, stale_answers, late_votes, doubled_votes, once_more, late_refusal, held_snapshot, lost_snapshot,
    snapshot_over_own, compacted_unheard, removed_while_asking, overtaken_question, told_unreachable, told_unreachable, away_with_entries, beaten_candidate,
]
CRASHES: list[Story] = [
    overwritten_while_saving, crashed_after_overwriting, between_ready_and_advance, crashed_voter, crashed_follower, crashed_leader, crashed_all, crashed_after_snapshot, crashed_while_changing,
]
READS: list[Story] = [read_by_deposed]
