"""The rules of the game as the definitions have them (crates/*/specs), which were written beside the code and not of it. A row is a kind
with its fields, as crates/rules writes it."""

from __future__ import annotations

import re
from pathlib import Path
from typing import Iterator

CRATES = Path(__file__).resolve().parent.parent / "crates"
Row = dict[str, str | int | bool | None]


def text(crate: str, name: str) -> str:
    """The text of a file of definitions."""
    return (CRATES / crate / "specs" / f"{name}.antt").read_text(encoding="utf-8")


def numbers(crate: str, *names: str) -> dict[str, int]:
    """The definitions of files that are a number, by their names."""
    found = re.findall(r"^(\w+) = (\d+)$", "".join(text(crate, name) for name in names), re.MULTILINE)
    return {name: int(value) for name, value in found}


def cases(crate: str, name: str, function: str) -> dict[str, str]:
    """A function that is given by cases: what each variant is, by its name."""
    return dict(re.findall(rf"^{function} (?:\w+\.)?(\w+) = (.+)$", text(crate, name), re.MULTILINE))


def word(value: str) -> str:
    """A text that is given by its codes."""
    found = re.fullmatch(r'codes "(.*)"', value)
    assert found, value
    return found[1]


def listed(crate: str, name: str, definition: str) -> list[str]:
    """The words or variants of a definition that is a list."""
    found = re.search(rf"^{definition} =((?:.*\n)(?:[ ]+.*\n)*)", text(crate, name), re.MULTILINE)
    assert found, definition
    return [it.removeprefix("codes ").strip('"') for it in re.split(r"\s*∷\s*", found[1].strip())][:-1]


def field() -> dict[str, int]:
    """All numbers of the field."""
    return numbers("arena", "Rules") | numbers("battles", "Battle")


def most() -> Row:
    """The greatest numbers of a run and of a source. That of a constant is in no definition of its own."""
    of_run, of_names = numbers("settings", "SettingsLimits"), numbers("grammar", "NameLimits", "ProfileNumbers")
    of_tokens = numbers("tokens", "TokenLimits")
    constant = re.search(r"^value_token value = if nat_le value (\d+) then", text("tokens", "Lexing"), re.MULTILINE)
    assert constant
    return {"row": "most", "files": of_run["most_files"], "matches": of_run["most_matches"], "cycles": of_run["most_cycles"],
            "first": of_run["most_first_match"], "seed": of_run["most_seed"], "profile": of_names["most_profile"],
            "source_bytes": of_tokens["most_source_bytes"], "name_bytes": of_tokens["most_name_bytes"], "constant": int(constant[1]),
            "names": of_names["most_names"], "nested": of_names["most_nested"]}


def usual() -> Row:
    """What a run is of which nothing is said."""
    given = numbers("settings", "Given")
    return {"row": "default"} | {name: given[f"{name}_default"] for name in ("matches", "cycles", "first", "seed", "profile")}


def profiles() -> Iterator[Row]:
    """The profiles, in their order."""
    found = re.findall(r"^\w+_profile = record \{ (.*) \}$", text("grammar", "ProfileNumbers"), re.MULTILINE)
    for number, fields in enumerate(found, 1):
        values = dict(it.split(" = ") for it in fields.split("; "))
        yield {"row": "profile", "number": number, "instructions": int(values["instructions"]), "words": int(values["words"]),
               "frames": int(values["frames"]), "short_circuit": values["short_circuit"] == "true"}


def of_field() -> Row:
    """The numbers of the field. A robot has a file, so there are as many."""
    known, robots = field(), numbers("settings", "SettingsLimits")["most_files"]
    return {"row": "field", "most_robots": robots, "last_place": known["last_place"], "last_metre": known["last_place"] // 10,
            "update_cycles": known["update_cycles"], "deadly": known["deadly"], "wall_damage": known["wall_damage"],
            "knock_damage": known["knock_damage"], "most_range": known["most_range"]} | {name: known[name] for name in (
                "last_ring", "last_ring_damage", "middle_ring", "middle_ring_damage", "inner_ring", "inner_ring_damage", "most_speed",
                "turning_speed", "acceleration", "near", "most_resolution", "missile_speed", "most_missiles", "most_random_limit")}


def diagnostics() -> Iterator[Row]:
    """The diagnostics, in their order."""
    texts = cases("grammar", "DiagnosticTexts", "text_of")
    for name, number in cases("grammar", "Faults", "fault_code_number").items():
        yield {"row": "diagnostic", "number": int(number), "text": word(texts[name])}


def intrinsics() -> Iterator[Row]:
    """The intrinsic functions, in the order of the list of all."""
    names, counts = cases("grammar", "Intrinsics", "intrinsic_name"), cases("grammar", "Intrinsics", "argument_count")
    for name in listed("grammar", "Intrinsics", "all_intrinsics"):
        yield {"row": "intrinsic", "name": word(names[name]), "arguments": int(counts[name])}


def punctuators() -> Iterator[Row]:
    """The punctuators, the shortest first, and those of one length in the order of their bytes."""
    spelled = cases("tokens", "Punctuators", "spelling")
    levels, stores = cases("grammar", "Operators", "binary_of"), cases("grammar", "Operators", "store_of")
    names = listed("tokens", "Punctuators", "all_punctuators")
    for name in sorted(names, key=lambda it: (len(word(spelled[it])), word(spelled[it]))):
        level = re.match(r"at_level (\d+) ", levels.get(name, ""))
        yield {"row": "punctuator", "text": word(spelled[name]), "level": int(level[1]) if level else None,
               "assigns": stores.get(name, "None").startswith("Some")}


def words() -> Iterator[Row]:
    """The words that the language keeps for itself, in the order of letters."""
    kinds = dict.fromkeys(re.findall(r'bytes_eq name \(codes "(\w+)"\)', text("tokens", "Keywords")), "keyword")
    kinds |= dict.fromkeys(listed("tokens", "Keywords", "type_words"), "type")
    kinds |= dict.fromkeys(listed("tokens", "Keywords", "refused_words"), "reserved")
    for it, kind in sorted(kinds.items()):
        yield {"row": "word", "text": it, "is": kind}


def rows() -> Iterator[Row]:
    """All rows, in the order in which crates/rules writes them."""
    yield most()
    yield usual()
    yield from profiles()
    yield of_field()
    for each in (diagnostics, intrinsics, punctuators, words):
        yield from each()
