"""Directives that take messages, as a click on one writes them: each takes what its button says, also with options that the program doesn't have yet."""
from __future__ import annotations

import json
import pathlib
import random
import re
from typing import Any

from tests.live.player import Player
from tests.live.playing import on_script
from tests.live.running import START, Running
from tests.page.browser import Browser
from tests.page.scripts import same

Message = dict[str, Any]
USAGES = ["[id ..] [type=..] [drop=..]", "[id ..] [type=..] [from=..] [drop=..]", "[id ..] [type=..] [from=..] [skip=..] [count=..] [drop=..]"]
TYPES = ["MsgApp", "MsgAppResp", "MsgVote", "MsgHeartbeat"]
MOST_ID = 4
# Of each list of messages: what takes each alone, or drops it, what takes all of a node, and what a cut drops.
WAYS = """(async (usage, lists) => {
  const { Ways } = await import("/ways.js");
  const ways = new Ways(usage);
  return lists.map((pending) => {
    const told = (way) => [way.text, way.takes.map((it) => pending.indexOf(it)), way.why];
    return {
      alone: pending.flatMap((it) => [told(ways.one(it, pending, false)), told(ways.one(it, pending, true))]),
      all: [1, 2, 3].flatMap((id) => [told(ways.allTo(id, pending)), told(ways.allFrom(id, pending, [1, 2, 3]))]),
      cut: ways.cut([1, 2], pending).map(told),
    };
  });
})"""


def ids_of(value: str) -> list[int]:
    return [int(it) for it in value.strip("()").split(",")]


def taken(text: str, pending: list[Message]) -> list[int]:
    """Which messages a directive takes (docs/SCRIPTS.md, `deliver-msgs`): of each receiver those of a type and a sender, without the first ones, up to a count."""
    name, *words = text.split()
    options = {name: value for name, value in (word.split("=") for word in words if "=" in word)}
    ids = [int(word) for word in words if "=" not in word] + (ids_of(options["drop"]) if "drop" in options else [])
    skip, count = int(options.get("skip", 0)), int(options.get("count", 4096))
    types = options["type"].strip("()").split(",") if "type" in options else TYPES
    found = []
    for id in ids:
        own = [at for at, it in enumerate(pending) if it["to"] == id and it["type"] in types and options.get("from", str(it["from"])) == str(it["from"])]
        found += own[skip:skip + count]
    return sorted(found) if name == "deliver-msgs" else []


def wrong_ways(usage: str, pending: list[Message], told: dict[str, Any]) -> list[str]:
    """What is wrong with the ways of these messages."""
    known = set(re.findall(r"\[(\w+)=", usage))
    wrong = []
    for text, takes, why in [*told["alone"], *told["all"], *told["cut"]]:
        used = set(re.findall(r"(\w+)=", text))
        if not why and (taken(text, pending) != sorted(takes) or used - known):
            wrong.append(f"{text} takes {taken(text, pending)} of {pending}, and not {takes}")
    for at in range(len(pending)):
        for text, takes, _ in told["alone"][2 * at:2 * at + 2]:
            if at not in takes or "count" in known and takes != [at]:
                wrong.append(f"{text} takes {takes}, not {at} alone of {pending}")
    return wrong


def ways_take_what_they_say(browser: Browser) -> None:
    dice = random.Random(1)
    lists = [[{"from": dice.randint(1, 3), "to": dice.randint(1, MOST_ID), "type": dice.choice(TYPES[:2 + at % 3])} for _ in range(at % 9)] for at in range(60)]

    def does(player: Player, server: Running, path: pathlib.Path) -> None:
        for usage in USAGES:
            told = player.browser.value(f"{WAYS}({json.dumps(usage)}, {json.dumps(lists)})")
            same(f"what is wrong with {usage}", [it for pending, ways in zip(lists, told, strict=True) for it in wrong_ways(usage, pending, ways)][:3], [])
    on_script(browser, START, does)
