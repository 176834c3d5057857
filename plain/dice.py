"""Random scripts and edits, from a seed. A script begins with one of some openings, so that leaders, joint configurations, snapshots and
broken clusters are common. Any directives follow; some of them are wrong.
"""
from __future__ import annotations

import random
from typing import Sequence, Union

from .directives import LEVELS, TYPES

WHOLE = list(range(1, 33))
# Numbers that an argument usually doesn't take.
ODD_NUMBERS = ["0", "33", "+1", "-1", "00000000002", "4294967297", "2000000001", "1001", "x", "1.0", "é", "257", "65"]
ODD_NAMES = ["add-node", "campaign2", "Campaign", "process-append-thread", "_breakpoint", "subtest", "-", "#", "n" * 70, 'q"\\', "né"]
ODD_OPTIONS = ["async-storage-writes=true", "id=1", "voter=1", "k=", "k=(1,2)", "n=1", "Log-Level=none", "o" * 70 + "=1", "rounds=1", "type=MsgApp"]
BAD_VALUES = ["", "()", "(1,2)", "(,)", "True", "yes", "0", "1001", "(1,33)", "(x)", "1,2", "MsgHup", "none,none", "(a b)", "65536", "9" * 10]
WRONG_HEADS = [
    "add-nodes 1 voters=(1) index=1", "add-nodes 1 index=0", "add-nodes 2 content=x", "add-nodes 32", "add-nodes index=10", "transfer-leadership to=1",
    "transfer-leadership", "send-snapshot", "set-randomized-election-timeout 1", "log-level", "raft-state 1", "compact 1", "report-unreachable 1",
]
ODD_BYTES = ["\xff\x80", '"', "\\x", "~!", "a/b", "'", "\x01", "\x7f", "#", "----", "{}", "\xe9"]

# A directive's head, and its input lines.
Thrown = tuple[str, list[str]]
# One without input lines may be its head alone.
Piece = Union[Thrown, str]


def thrown_of(piece: Piece) -> Thrown:
    return (piece, []) if isinstance(piece, str) else piece


class Dice(random.Random):
    """Throws directives for a cluster of which it knows little: how many nodes there should be, and who may lead."""

    def __init__(self, seed: object) -> None:
        super().__init__(seed)
        self.nodes, self.favourite, self.index = 0, 1, 10
        self.full_chance = 0.006

    def some(self, chance: float) -> bool:
        return self.random() < chance

    def id(self) -> int:
        """The id of a node, often of the one that may lead; now and then there is none."""
        if self.some(0.02):
            return self.choice([self.nodes + 1, 32, 16, 33, 0])
        if self.some(0.35):
            return self.favourite
        return self.randint(1, max(1, self.nodes))

    def ids(self, most: int = 3) -> list[int]:
        return [self.id() for _ in range(self.randint(1, most))]

    def list_of(self, items: Sequence[object]) -> str:
        if len(items) == 1 and self.some(0.5):
            return str(items[0])
        return "(" + self.choice([",", ", ", " "]).join(map(str, items)) + ")"

    # Directives: the head, and the input

    def add_nodes(self) -> str:
        count = self.choice([1, 1, 1, 2, 3])
        self.nodes = min(32, self.nodes + count)
        if self.some(0.3):
            return f"add-nodes {count}" + self.options_of_nodes()
        known = list(range(1, self.nodes + 1))
        voters = self.sample(known, self.randint(1, min(5, len(known))))
        learners = [id for id in known if id not in voters and self.some(0.2)]
        text = f"add-nodes {count} voters={self.list_of(voters)}"
        if learners:
            text += f" learners={self.list_of(learners)}"
        return text + f" index={self.index + self.choice([0, 0, 0, 1, 2, 3])}" + self.options_of_nodes(self.some(0.15))

    def options_of_nodes(self, has_content: bool = False) -> str:
        text = f" content={self.payload()}" if has_content else ""
        if self.some(0.15):
            return text + " prevote=true checkquorum=true"
        for name in ("prevote", "checkquorum", "step-down-on-removal"):
            if self.some(0.25):
                text += f" {name}={self.choice(['true', 'true', 'false'])}"
        if self.some(0.4):
            text += f" inflight={self.choice([1, 1, 2, 3, 256])}"
        return text

    def campaign(self) -> str:
        id = self.id()
        self.favourite = id if 1 <= id <= self.nodes else self.favourite
        return f"campaign {id}"

    def payload(self) -> str:
        if self.some(0.04):
            return self.choice("pq") * self.choice([40, 200, 1024, 1025])
        return self.choice(["a", "b", "x", "abc", "zz9"]) if self.some(0.85) else self.choice(ODD_BYTES)

    def propose(self) -> str:
        return f"propose {self.id()} {self.payload()}"

    def words(self) -> list[str]:
        count, most = self.choice([0, 1, 1, 1, 2, 2, 3, 5]), max(2, self.nodes)
        words = [f"{self.choice('vvllrru')}{self.choice(['', '', '0'])}{self.randint(1, most)}" for _ in range(count)]
        if self.some(0.03):
            words.append(self.choice(["x1", "v", "v0", "v33", "v1x", "V1", "vv1", "\xff", "l" * 70, "u00000000001"]))
        return words

    def propose_conf_change(self) -> Thrown:
        text = f"propose-conf-change {self.id()}"
        if self.some(0.5):
            text += f" transition={self.choice(['auto', 'explicit', 'implicit'])}"
        if self.some(0.15):
            text += f" v1={self.choice(['true', 'true', 'false'])}"
        words = self.words()
        cut = self.randint(0, len(words))
        return text, [line for line in (" ".join(words[:cut]), "\t".join(words[cut:])) if line or self.some(0.1)]

    def process_ready(self) -> str:
        return "process-ready " + " ".join(map(str, self.ids()))

    def deliver_msgs(self) -> str:
        text = "deliver-msgs"
        if self.some(0.9):
            text += " " + " ".join(map(str, self.ids()))
        if self.some(0.3):
            text += f" type={self.list_of(self.sample(TYPES, self.choice([0, 1, 1, 2, 4])))}"
        if self.some(0.25):
            text += f" drop={self.list_of([self.id() for _ in range(self.choice([0, 1, 1, 2]))])}"
        return text + self.options_of_choice()

    def options_of_choice(self) -> str:
        """Which of the messages are meant: now and then some of a sender, or some in the middle."""
        text = f" from={self.id()}" if self.some(0.15) else ""
        if self.some(0.15):
            text += f" skip={self.choice([0, 1, 1, 2, 5, 4096])}"
        if self.some(0.2):
            text += f" count={self.choice([1, 1, 1, 2, 3, 4096])}"
        return text

    def restart(self) -> str:
        return "restart " + " ".join(map(str, self.ids(2)))

    def stabilize(self) -> str:
        text = "stabilize"
        if self.some(0.4):
            text += " " + " ".join(map(str, self.ids()))
        if self.some(0.3):
            text += f" rounds={self.choice([1, 1, 2, 3, 5])}"
        return text

    def quiet_stabilize(self) -> str:
        return "stabilize log-level=none"

    def tick_election(self) -> str:
        return f"tick-election {self.id()}"

    def tick_heartbeat(self) -> str:
        return f"tick-heartbeat {self.id()}"

    def set_timeout(self) -> str:
        return f"set-randomized-election-timeout {self.id()} timeout={self.choice([1, 2, 4, 5, 1000])}"

    def transfer_leadership(self) -> str:
        ends = [f"from={self.id()}", f"to={self.id()}"]
        self.shuffle(ends)
        return "transfer-leadership " + " ".join(ends)

    def forget_leader(self) -> str:
        return f"forget-leader {self.id()}"

    def report_unreachable(self) -> str:
        return f"report-unreachable {self.id()} {self.id()}"

    def send_snapshot(self) -> str:
        return f"send-snapshot {self.id()} {self.id()}"

    def compact(self) -> str:
        return f"compact {self.id()} {self.index + self.choice([-1, 0, 1, 1, 2, 2, 3, 4, 6, 10, 30])}"

    def log_level(self) -> str:
        name = self.choice(LEVELS + ["debug"] * 6)
        return f"log-level {self.choice([name, name.upper(), name.title()])}"

    def raft_log(self) -> str:
        return f"raft-log {self.id()}"

    def status(self) -> str:
        return f"status {self.id()}"

    def raft_state(self) -> str:
        return "raft-state"

    def wrong(self) -> Thrown:
        """A directive, usually with something wrong in it."""
        if self.some(0.25):
            return self.choice(WRONG_HEADS), []
        head, given = self.any_directive()
        words = head.split(" ")
        kind, at = self.randrange(8), self.randint(1, len(words))
        if kind == 0:
            words[0] = self.choice(ODD_NAMES)
        elif kind == 1:
            words.insert(at, self.choice(ODD_OPTIONS))
        elif kind == 2 and len(words) > 1:
            del words[self.randrange(1, len(words))]
        elif kind == 3:
            words.insert(at, self.choice(words[1:] or ["1"]))
        elif kind == 4:
            words.insert(at, self.choice(ODD_NUMBERS))
        elif kind == 5:
            words = [self.choice(ODD_NUMBERS) if word.isdigit() and self.some(0.5) else word for word in words]
        elif kind == 6:
            words = [word.split("=")[0] + "=" + self.choice(BAD_VALUES) if "=" in word and self.some(0.7) else word for word in words]
        else:
            words = words[:1] + self.sample(words[1:], len(words) - 1)
        return " ".join(words), given

    # What makes sense only together: lists of heads

    def together(self) -> list[Piece]:
        names = ["cut_off", "installed", "handed_over", "raced", "lost", "refused", "stepped_down", "crashed", "given_back", "late_answers"]
        pieces: list[Piece] = getattr(self, self.choice(names))(self.favourite, self.id())
        return pieces

    def others(self, *left_out: int) -> str:
        return " ".join(str(id) for id in range(1, self.nodes + 1) if id not in left_out) or "1"

    def cut_off(self, leader: int, behind: int) -> list[str]:
        """A follower misses what its leader commits and compacts, and gets a snapshot."""
        steps = [f"propose {leader} y", f"stabilize {self.others(behind)}", f"deliver-msgs drop=({behind})"]
        steps += [f"compact {leader} {self.index + self.choice([1, 2, 2, 3])}", f"report-unreachable {leader} {behind}", f"tick-heartbeat {leader}"]
        steps += [f"process-ready {leader}", f"deliver-msgs {behind} type=MsgHeartbeat", f"process-ready {behind}"]
        steps += [f"deliver-msgs {leader} type=MsgHeartbeatResp", f"status {leader}", f"process-ready {leader}", f"deliver-msgs {behind}"]
        return steps + self.choice([[], [f"campaign {behind}"], [f"propose {leader} z", "stabilize"]])

    def installed(self, leader: int, to: int) -> list[str]:
        """A node gets a snapshot, and something happens before it says that it has."""
        steps = [f"propose {leader} y", f"stabilize {self.others(to)}", f"deliver-msgs drop=({to})", f"send-snapshot {leader} {to}"]
        return [*steps, f"deliver-msgs {to} type=MsgSnap", self.choice([f"campaign {to}", f"tick-election {to}"]), f"process-ready {to}"]

    def handed_over(self, leader: int, to: int) -> list[str]:
        """Leadership is handed over, and who is to have it may be doing something else already."""
        steps = [f"transfer-leadership from={leader} to={to}", f"process-ready {leader}"]
        wins = [f"campaign {to}", f"process-ready {to}", f"deliver-msgs {self.others(to)}", f"process-ready {self.others(to)}"]
        wins.append(f"deliver-msgs {to} type=MsgVoteResp")
        steps += self.choice([[], [f"campaign {to}"], wins, [f"forget-leader {to}"]])
        told = self.choice([f"deliver-msgs {to} type=MsgTimeoutNow"] * 2 + [f"deliver-msgs type=MsgTimeoutNow drop=({to})"])
        return [*steps, told, f"deliver-msgs {to}", "stabilize"]

    def raced(self, one: int, other: int) -> list[str]:
        """Two candidates at once."""
        steps = [f"campaign {one}", f"campaign {other}", f"process-ready {one} {other}", f"deliver-msgs {other} {one}"]
        return steps + [self.choice(["stabilize", f"process-ready {one}", f"process-ready {other} {one}"]), f"deliver-msgs {one}"]

    def lost(self, leader: int, _: int) -> list[str]:
        """All messages of some types are lost."""
        others, everyone = self.others(leader), self.others()
        steps = [f"tick-heartbeat {leader}", f"process-ready {leader}", f"deliver-msgs {others}", f"process-ready {others}"]
        return [*steps, f"deliver-msgs type={self.list_of(self.sample(TYPES, 4))} drop={self.list_of(everyone.split())}"]

    def refused(self, leader: int, behind: int) -> list[str]:
        """Nodes that know more than a candidate say no to it."""
        others = self.others(behind)
        steps = [self.propose(), f"process-ready {leader}", f"stabilize {others}", f"forget-leader {others.split()[0]}"]
        steps += [f"deliver-msgs drop=({behind})", f"campaign {behind}", f"process-ready {behind}"]
        return [*steps, f"deliver-msgs {others}", f"process-ready {others}", f"deliver-msgs {behind}"]

    def stepped_down(self, leader: int, _: int) -> list[str]:
        """A leader gets answers when it leads no more."""
        others = self.others(leader)
        steps = [f"tick-heartbeat {leader}", f"process-ready {leader}", f"deliver-msgs {others}", f"process-ready {others}"]
        return [*steps, f"tick-election {leader}", f"tick-election {leader}", f"campaign {leader}", f"deliver-msgs {leader}"]

    def crashed(self, leader: int, behind: int) -> list[str]:
        """Nodes crash with what a leader sent them, or before they send what they have."""
        steps = [self.choice([f"propose {leader} y", f"campaign {leader}", f"send-snapshot {leader} {behind}"]), f"process-ready {leader}"]
        steps += [f"deliver-msgs {behind}{self.options_of_choice()}"] + [f"process-ready {behind}"] * self.choice([0, 0, 1])
        steps.append("restart " + self.choice([f"{behind}", f"{behind}", f"{leader}", f"{behind} {leader}"]))
        return steps + self.choice([["stabilize"], [f"campaign {leader}", "stabilize"], [f"process-ready {behind}"], []])

    def given_back(self, leader: int, other: int) -> list[str]:
        """Entries of a leader give way to those of another, and are back after a crash."""
        rest = self.others(leader)
        steps = [f"propose {leader} {self.payload()}"] * self.choice([1, 2, 3]) + [f"process-ready {leader}", f"deliver-msgs drop=({rest.replace(' ', ',')})"]
        steps += [f"campaign {other}", f"stabilize {rest}", f"deliver-msgs {leader}", f"raft-log {leader}", f"restart {leader}", f"raft-log {leader}"]
        return steps + self.choice([["stabilize"], [f"campaign {leader}", "stabilize"], []])

    def late_answers(self, one: int, _: int) -> list[str]:
        """Answers to questions come once the election is decided."""
        others = self.others(one)
        asked = [f"process-ready {one}", f"deliver-msgs {others}", f"process-ready {others}"]
        won = [f"deliver-msgs {one} type=MsgPreVoteResp count=1", *asked, f"deliver-msgs {one} type=MsgVoteResp"]
        return [f"campaign {one}", *asked, *won, f"deliver-msgs {one}"]

    def any_directive(self) -> Thrown:
        names, weights = zip(*WEIGHTS.items())
        return thrown_of(getattr(self, self.choices(names, weights)[0])())

    def directive(self) -> Thrown:
        """A head and its input lines."""
        head, given = self.wrong() if self.some(0.05) else self.any_directive()
        if self.some(0.02):
            head = " ".join("0" + word if word.isdigit() and word.isascii() else word for word in head.split(" "))
        if self.some(0.08):
            head += f" log-level={self.choice(LEVELS).upper() if self.some(0.2) else self.choice(LEVELS)}"
        return head, given if given or self.some(0.98) else ["an input that nothing looks at"]

    def quiet_directive(self) -> Thrown:
        """One that usually leaves the cluster as it is."""
        return self.choice([self.raft_state, self.raft_log, self.status, self.stabilize, self.log_level])(), []

    # Openings: lists of heads with their inputs

    def opening(self) -> list[Thrown]:
        if self.some(self.full_chance):
            return [(head, []) for head in self.open_full()]
        kind = self.choice(["usual"] * 4 + ["grown", "grown", "joined", "joined", "contradicted", "overtaken", "many", "odd", "none"])
        if kind == "none":
            return []
        return [thrown_of(piece) for piece in getattr(self, "open_" + kind)()]

    def open_usual(self) -> list[str]:
        count = self.choice([1, 2, 3, 3, 3, 4, 5])
        self.nodes = count
        known = list(range(1, count + 1))
        voters = known if self.some(0.7) else self.sample(known, self.randint(1, count))
        learners = [id for id in known if id not in voters]
        text = f"add-nodes {count} voters={self.list_of(voters)} index={self.index}"
        if learners and self.some(0.8):
            text += f" learners={self.list_of(learners)}"
        steps = [text + self.options_of_nodes()]
        if self.some(0.75):
            self.favourite = self.choice(voters)
            steps += [f"campaign {self.favourite}", self.choice(["stabilize log-level=none", f"stabilize {self.favourite}", "stabilize rounds=3"])]
        return steps

    def open_full(self) -> list[str]:
        """As many pending messages as there may be, or a few less."""
        steps = self.open_usual()
        return [*steps, *["send-snapshot 1 32 log-level=none"] * (4096 - self.randint(0, 20)), self.stabilize()]

    def open_grown(self) -> list[Piece]:
        """A leader, nodes in no configuration yet, and a change that takes some of them in."""
        steps = self.open_usual()
        self.nodes += 2
        change = self.propose_conf_change()
        return [*steps, "add-nodes 2" + self.options_of_nodes(), "stabilize log-level=none", change, self.choice(["stabilize", self.process_ready()])]

    def open_joined(self) -> list[Piece]:
        """Clusters that know nothing of one another, and what each has committed."""
        steps: list[Piece] = []
        for _ in range(self.choice([2, 2, 3])):
            self.nodes += 1
            voters = [self.nodes] if self.some(0.8) else self.sample(range(1, self.nodes + 1), 1)
            steps.append(f"add-nodes 1 voters={self.list_of(voters)} index={self.index + self.choice([0, 0, 1, 2, 2])}" + self.options_of_nodes())
            for _ in range(self.choice([0, 1, 1, 2, 3])):
                steps.append(f"campaign {self.nodes}")
            steps.append(f"stabilize {self.nodes} log-level=none")
            if self.some(0.6):
                self.favourite = self.nodes
                steps += [self.propose_conf_change(), f"stabilize {self.nodes} log-level=none"]
            if self.some(0.4):
                steps += [self.send_snapshot(), self.stabilize()]
        return steps

    def open_many(self) -> list[Piece]:
        """Many nodes, in one configuration or a joint one."""
        self.nodes = self.choice([7, 9, 16, 32])
        half = ",".join(map(str, range(1, self.nodes // 2 + 1)))
        steps = [f"add-nodes {self.nodes} voters=({half}) index={self.index}" + self.options_of_nodes(), "campaign 1", "stabilize log-level=none"]
        words = [f"{self.choice('vvlr')}{id}" for id in WHOLE[1:self.nodes]]
        return [*steps, (f"propose-conf-change 1 transition={self.choice(['auto', 'explicit'])}", words), "stabilize log-level=none"]

    def open_contradicted(self) -> list[Piece]:
        """A node takes in the log of a leader of another cluster: what changes there may not change here."""
        self.nodes, self.favourite, at = 3, 3, self.index
        mine = self.choice([f"add-nodes 1 voters=(1) index={at + 2}", f"add-nodes 1 index={at + 2}", f"add-nodes 1 voters=(1) index={at}"])
        steps: list[Piece] = [mine, f"add-nodes 1 voters=(2) index={at}", "campaign 2", "stabilize 2"]
        steps += [("propose-conf-change 2 transition=explicit", ["v1"]), "stabilize 2"]
        installed: list[Piece] = ["send-snapshot 2 1", "deliver-msgs 1 type=MsgSnap", "process-ready 1"]
        left: list[Piece] = ["stabilize", ("propose-conf-change 2", [])]
        steps += self.choice([[], installed, left])
        steps += [f"add-nodes 1 voters=(3) index={at + 2}", "deliver-msgs drop=(1,2)", "campaign 3", "campaign 3", "campaign 3", "stabilize 3"]
        change = "propose-conf-change 3" + self.choice(["", " transition=explicit", " transition=implicit"])
        return [*steps, (change, ["v1"]), "stabilize 3", "stabilize", "stabilize"]

    def open_overtaken(self) -> list[str]:
        """What a leader told a node to do comes when that node campaigns or leads already."""
        self.nodes, options = 3, self.choice(["", "", " prevote=true", " prevote=true checkquorum=true"])
        steps = [f"add-nodes 3 voters=(1,2,3) index={self.index}{options}", "campaign 1", "stabilize"]
        steps += ["transfer-leadership from=1 to=2", "process-ready 1"]
        asked = ["process-ready 2", "deliver-msgs 1 3", "process-ready 1 3", "deliver-msgs 2 type=(MsgVoteResp,MsgPreVoteResp)"]
        steps += self.choice([[], ["campaign 2"], ["campaign 2", *asked, *asked]])
        return [*steps, self.choice(["deliver-msgs 2 type=MsgTimeoutNow", "deliver-msgs 2", "deliver-msgs drop=2"])]

    def open_odd(self) -> list[str]:
        """Nodes that each have a configuration of their own, and begin where they like."""
        return [self.add_nodes() for _ in range(self.randint(1, 4))]

    # Scripts

    def block(self, step: Thrown, expected: list[str] | None = None) -> bytes:
        """The text of a block, in one of the many ways in which it may be written."""
        head, given = step
        some: list[list[str]] = [[], [], ["ok"], ["ok"], ["1", "2"], ["a", "", "b"]]
        expected = self.choice(some) if expected is None else expected
        lines: list[str] = []
        if self.some(0.15):
            lines += self.choice([[""], ["# a comment"], ["", "  # one", "\t"]])
        if self.some(0.1) and " " in head:
            head = head.replace(" ", self.choice([" \\\n", "\\  \n ", " \t"]), 1)
        rule = self.choice([" ----", "----\t"]) if self.some(0.03) else "----"
        if "" in expected or "----" in expected or self.some(0.03):
            lines += [head, *given, rule, "----", *expected, "----", "----"] + [""] * self.some(0.9)
        else:
            lines += [head, *given, rule, *expected, ""]
        end = "\r\n" if self.some(0.03) else "\n"
        return "".join(line + end for line in "\n".join(lines).split("\n")).encode("latin-1")

    def steps(self, count: int) -> list[Thrown]:
        steps = self.opening()
        while len(steps) < count:
            steps += [thrown_of(piece) for piece in self.together()] if self.some(0.08) else [self.directive()]
        return steps

    # Long logs

    def grown(self) -> list[str]:
        """A leader takes many entries. All hold them, or some, or nobody saves them; another may lead then, whose log takes their place."""
        leader, other = self.favourite, self.choice([id for id in range(1, self.nodes + 1) if id != self.favourite])
        steps = [f"propose {leader} {self.choice('xyz')} log-level=none"] * self.randint(1, 70)
        alone = [f"process-ready {leader} log-level=none"]
        shared = [*alone, f"deliver-msgs {other} log-level=none", f"process-ready {other} log-level=none"]
        lost = [f"deliver-msgs drop=({','.join(map(str, range(1, self.nodes + 1)))}) log-level=none"]
        steps += self.choice([["stabilize log-level=none"], alone + lost, shared + lost, lost])
        if self.some(0.6):
            self.favourite = other
            steps += [f"campaign {other} log-level=none", "stabilize log-level=none"]
        return steps

    def cut_short(self) -> list[str]:
        """Somebody's log is compacted, or not, and is looked at."""
        id = self.id()
        return [f"compact {id} {self.index + self.randint(-1, 300)} log-level=none"] * self.some(0.5) + ["raft-state", f"raft-log {id}"]

    def came_back(self) -> list[str]:
        """A node crashes, with entries that it has saved and others. If it led, it is elected again."""
        id, other = self.id(), self.id()
        steps = [f"propose {self.favourite} w log-level=none"] * self.randint(0, 70) + self.choice([[], [f"process-ready {self.favourite} log-level=none"]])
        steps += [f"deliver-msgs {other} log-level=none", f"restart {id}", f"raft-log {id}"]
        return [*steps, f"campaign {self.favourite} log-level=none", "stabilize log-level=none"]

    def long_script(self, count: int) -> bytes:
        """A script in which three nodes have logs of more than a page."""
        self.nodes, self.favourite = 3, 1
        steps = [f"add-nodes 3 voters=(1,2,3) index={self.index}" + self.options_of_nodes(), "campaign 1", "stabilize log-level=none"]
        for _ in range(count):
            steps += [*self.grown(), *self.cut_short()]
            ends: list[list[Piece]] = [[], self.together(), ["stabilize log-level=none"], list(self.came_back())]
            steps += [thrown_of(piece)[0] for piece in self.choice(ends)]
        return "".join(f"{head}\n----\n\n" for head in [*steps, "raft-log 1", "raft-log 2", "raft-log 3"]).encode()

    def script(self, count: int) -> bytes:
        tail = self.choice(["", "", "", "# the end\n", "\n\n", "#"])
        return b"".join(map(self.block, self.steps(count))) + tail.encode()


WEIGHTS = {
    "add_nodes": 1.5, "campaign": 5, "propose": 10, "propose_conf_change": 6, "process_ready": 12, "deliver_msgs": 13, "stabilize": 9,
    "quiet_stabilize": 3, "tick_election": 5, "tick_heartbeat": 6, "set_timeout": 2, "transfer_leadership": 3, "forget_leader": 2,
    "report_unreachable": 2, "send_snapshot": 3, "compact": 3, "restart": 3, "log_level": 1, "raft_log": 2, "status": 3, "raft_state": 2,
}
