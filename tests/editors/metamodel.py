"""Whether messages are those of the protocol, by the meta-model that its specification ships (metaModel.json, LSP 3.17).

A message is JSON-RPC's, its method is the protocol's and goes this way, and its params, its result and the code of its error are of the method's
types. An object has no property that its type doesn't name.
"""
import json
import pathlib
from collections.abc import Iterator
from typing import Any

# A part of the meta-model, or of a message.
Json = dict[str, Any]
# The meta-model's base types that are Python's; a bool is no number.
BASE: dict[str, Any] = {"string": str, "URI": str, "DocumentUri": str, "RegExp": str, "boolean": bool, "integer": int, "uinteger": int, "decimal": (int, float), "null": type(None)}
MOST = {"integer": (-2 ** 31, 2 ** 31 - 1), "uinteger": (0, 2 ** 31 - 1)}


class Model:
    """The types and methods of a meta-model."""

    def __init__(self, told: dict[str, Any]) -> None:
        self.version = told["metaData"]["version"]
        self.structures, self.enumerations, self.aliases = ({it["name"]: it for it in told[key]} for key in ("structures", "enumerations", "typeAliases"))
        self.methods = {True: {it["method"]: it for it in told["requests"]}, False: {it["method"]: it for it in told["notifications"]}}

    def faults(self, type_: Json, value: Any, where: str) -> Iterator[str]:
        """Texts for what of a value isn't of a type; `where` is the way to it."""
        told: Iterator[str] = getattr(self, "of_" + type_["kind"])(type_, value, where)
        return told

    def of_base(self, type_: Json, value: Any, where: str) -> Iterator[str]:
        name = type_["name"]
        low, high = MOST.get(name, (float("-inf"), float("inf")))
        if not isinstance(value, BASE[name]) or isinstance(value, bool) and name != "boolean":
            yield f"{where}: {value!r} is no {name}"
        elif name in MOST and not low <= value <= high:
            yield f"{where}: {value!r} isn't within the bounds of {name}"

    def of_reference(self, type_: Json, value: Any, where: str) -> Iterator[str]:
        name = type_["name"]
        if name in self.aliases:
            yield from self.faults(self.aliases[name]["type"], value, where)
        elif name in self.enumerations:
            yield from self.of_enumeration(self.enumerations[name], value, where)
        else:
            yield from self.of_properties(self.properties(self.structures[name]), value, where)

    def of_enumeration(self, enumeration: Json, value: Any, where: str) -> Iterator[str]:
        wrong = list(self.faults(enumeration["type"], value, where))
        yield from wrong
        if not wrong and not enumeration.get("supportsCustomValues") and value not in [it["value"] for it in enumeration["values"]]:
            yield f"{where}: {value!r} is none of {enumeration['name']}"

    def properties(self, structure: Json) -> dict[str, Json]:
        """Those of a structure, with those that it takes from others."""
        above = [self.structures[it["name"]] for it in structure.get("extends", []) + structure.get("mixins", [])]
        return {name: it for other in above for name, it in self.properties(other).items()} | {it["name"]: it for it in structure["properties"]}

    def of_properties(self, properties: dict[str, Json], value: Any, where: str) -> Iterator[str]:
        if not isinstance(value, dict):
            yield f"{where}: {value!r} is no object"
            return
        yield from (f"{where}: there is no {name}" for name, it in properties.items() if name not in value and not it.get("optional"))
        for name, held in value.items():
            if name in properties:
                yield from self.faults(properties[name]["type"], held, f"{where}.{name}")
            else:
                yield f"{where}: the type has no {name}"

    def of_literal(self, type_: Json, value: Any, where: str) -> Iterator[str]:
        return self.of_properties({it["name"]: it for it in type_["value"]["properties"]}, value, where)

    def of_stringLiteral(self, type_: Json, value: Any, where: str) -> Iterator[str]:
        if value != type_["value"]:
            yield f"{where}: {value!r} isn't {type_['value']!r}"

    def of_array(self, type_: Json, value: Any, where: str) -> Iterator[str]:
        if not isinstance(value, list):
            yield f"{where}: {value!r} is no list"
            return
        for at, item in enumerate(value):
            yield from self.faults(type_["element"], item, f"{where}[{at}]")

    def of_tuple(self, type_: Json, value: Any, where: str) -> Iterator[str]:
        if not isinstance(value, list) or len(value) != len(type_["items"]):
            yield f"{where}: {value!r} is no list of {len(type_['items'])}"
            return
        for at, (item, held) in enumerate(zip(type_["items"], value)):
            yield from self.faults(item, held, f"{where}[{at}]")

    def of_map(self, type_: Json, value: Any, where: str) -> Iterator[str]:
        if not isinstance(value, dict):
            yield f"{where}: {value!r} is no object"
            return
        for key, held in value.items():
            yield from self.faults(type_["key"], key, f"{where}, a key")
            yield from self.faults(type_["value"], held, f"{where}.{key}")

    def of_or(self, type_: Json, value: Any, where: str) -> Iterator[str]:
        """What is wrong by the item that comes nearest."""
        ways = [list(self.faults(item, value, where)) for item in type_["items"]]
        ways.sort(key=len)
        yield from ways[0]


def params_faults(model: "Model", method: Json, message: Json, where: str) -> Iterator[str]:
    """What is wrong with a message's params."""
    if "params" not in method:
        if message.get("params") is not None:
            yield f"{where}: it has params"
    elif "params" not in message:
        yield f"{where}: it has no params"
    else:
        yield from model.faults(method["params"], message["params"], f"{where}.params")


def told_faults(model: "Model", message: Json, from_client: bool) -> Iterator[str]:
    """What is wrong with a request or a notification."""
    where, is_request = message["method"], "id" in message
    if (method := model.methods[is_request].get(where)) is None:
        # A method of an implementation's own may be ignored.
        if not where.startswith("$/"):
            yield f"{where}: there is no such {'request' if is_request else 'notification'}"
        return
    if method["messageDirection"] not in ("both", "clientToServer" if from_client else "serverToClient"):
        yield f"{where}: it goes the other way"
    yield from params_faults(model, method, message, where)


def answer_faults(model: "Model", message: Json, asked: str | None) -> Iterator[str]:
    """What is wrong with an answer to a request of a method, which isn't known where it was no message."""
    where = f"the answer to {asked}"
    if ("result" in message) == ("error" in message):
        yield f"{where}: it has a result and an error, or none"
    elif "error" in message:
        error, codes = message["error"], [it["value"] for name in ("ErrorCodes", "LSPErrorCodes") for it in model.enumerations[name]["values"]]
        if error.get("code") not in codes or not isinstance(error.get("message"), str) or not {*error} <= {"code", "message", "data"}:
            yield f"{where}: {error!r} is no error of the protocol's"
    elif asked not in model.methods[True]:
        yield f"{where}: nothing was asked"
    else:
        yield from model.faults(model.methods[True][asked]["result"], message["result"], where)


def faults(model: "Model", conversation: Any, *, has_good_client: bool = True) -> Iterator[str]:
    """Texts for what is wrong in a conversation: pairs of whether the client sent it, and a message. What a client sends that is there to
    be refused isn't looked at."""
    asked = {}
    for from_client, message in conversation:
        if not from_client or has_good_client:
            if not isinstance(message, dict) or message.get("jsonrpc") != "2.0":
                yield f"{message!r} is no message"
            elif "method" in message:
                yield from told_faults(model, message, from_client)
            elif "id" not in message:
                yield f"{message!r} answers nothing"
        if isinstance(message, dict) and "method" in message and "id" in message:
            asked[from_client, message["id"]] = message["method"]
        elif isinstance(message, dict) and "method" not in message and not from_client:
            yield from answer_faults(model, message, asked.get((not from_client, message.get("id"))))


def read(path: pathlib.Path) -> "Model":
    return Model(json.loads(path.read_text()))


HOVER: dict[str, Any] = {"jsonrpc": "2.0", "id": 1, "method": "textDocument/hover", "params": {"textDocument": {"uri": "file:///a"}, "position": {"line": 0, "character": 0}}}
PLACE = {"line": 0, "character": 0}
RANGE = {"start": PLACE, "end": PLACE}
# Conversations with something wrong in the last message: of each what a client asks, and what the server tells.
WRONG: list[tuple[dict[str, Any], ...]] = [
    (HOVER, {"jsonrpc": "2.0", "id": 1, "result": {"range": RANGE}}),
    (HOVER, {"jsonrpc": "2.0", "id": 1, "result": {"contents": {"kind": "plain", "value": ""}}}),
    (HOVER, {"jsonrpc": "2.0", "id": 1, "result": {"contents": "", "range": {**RANGE, "end": {"line": -1, "character": 0}}}}),
    (HOVER, {"jsonrpc": "2.0", "id": 1, "result": {"contents": "", "where": RANGE}}),
    (HOVER, {"jsonrpc": "2.0", "id": 1, "error": {"code": 1, "message": ""}}),
    (HOVER, {"jsonrpc": "2.0", "id": 2, "result": None}),
    (HOVER, {"jsonrpc": "2.0", "id": 1}),
    (HOVER, {"id": 1, "result": None}),
    ({"jsonrpc": "2.0", "method": "textDocument/publishDiagnostics", "params": {"uri": "file:///a", "diagnostics": []}},),
    (HOVER, {"jsonrpc": "2.0", "method": "textDocument/publishDiagnostics", "params": {"uri": "file:///a", "diagnostics": [{"range": RANGE}]}}),
    (HOVER, {"jsonrpc": "2.0", "method": "textDocument/publishDiagnostics", "params": {"uri": "file:///a", "diagnostics": [{"range": RANGE, "message": "", "severity": 5}]}}),
    (HOVER, {"jsonrpc": "2.0", "method": "textDocument/publishDiagnostics", "params": {"uri": "file:///a", "diagnostics": [{"range": RANGE, "message": "", "relatedInformation": [{"location": RANGE, "message": ""}]}]}}),
    ({**HOVER, "params": {"textDocument": {"uri": "file:///a"}}},),
    ({**HOVER, "method": "textDocument/hoover"},),
    ({"jsonrpc": "2.0", "id": 1, "method": "shutdown", "params": {}},),
]


def unseen(model: "Model") -> Iterator[str]:
    """Texts for wrong messages in which nothing wrong is seen."""
    for client, *server in WRONG:
        if not list(faults(model, [(True, client), *((False, it) for it in server)])):
            yield f"nothing wrong is seen in {[client, *server][-1]}"
