#!/usr/bin/env python3
"""Tells where no Ada text goes on, for each token of the text of units of every kind in `changed_tokens.rt` cut, doubled and replaced.

It is a recogniser of the grammar of Ada texts that shares nothing with the toolset, and prints the lines of the list there: what
is not told at the first token that differs, and what is a program still. No part of the gate.
"""
from __future__ import annotations


import re
from typing import Callable

from changed_tokens_of_design import TESTS, COSTS, NoDesign, Reader

RESERVED = set(
    "abort abs abstract accept access aliased all and array at begin body case constant declare delay delta digits do else elsif "
    "end entry exception exit for function generic goto if in interface is limited loop mod new not null of or others out "
    "overriding package pragma private procedure protected raise range record rem renames requeue return reverse select separate "
    "some subtype synchronized tagged task terminate then type until use when while with xor".split()
)
KEPT = set("hrt word work put activation_end boolean true false ada standard system".split())

OPENING = (
    "pragma task_dispatching_policy ( fifo_within_priorities ) ; pragma locking_policy ( ceiling_locking ) ; with ada . real_time ; "
    "package hrt is type word is mod 2 ** 32 ; subtype moment is ada . real_time . time ;"
)
SERVICES = (
    "function epoch return moment ; function after ( start : moment ; ticks : natural ) return moment ; "
    "procedure work ( ticks : positive ) ; procedure put ( value : word ) ; procedure activation_end ; end hrt ; with hrt ; use hrt ;"
)


class AdaReader(Reader):
    def is_name(self) -> bool:
        word = self.next()
        return (
            word is not None
            and word[0].isalpha()
            and word not in RESERVED | KEPT
            and not word.startswith("hrt_")
        )

    def program(self) -> None:
        self.words(OPENING)
        for cost in COSTS:
            self.words(cost + "_cost : constant :=")
            self.number()
            self.words(";")
        self.words(SERVICES + " package")
        name = self.name()
        self.words("is")
        units = []
        while self.next() == "package":
            units.append(self.specification())
        self.words(f"end {name} ; package body {name} is")
        for unit in units:
            self.unit_body(*unit)
        self.words(f"end {name} ; with {name} ; procedure hrt_main is begin null ; end hrt_main ;")
        self.take(self.next() is None)

    def specification(self) -> tuple[str, str, list[tuple[str, str, str | None]]]:
        """The name of a unit, its kind, and the heads of its operations, each with its name and its parameters."""
        self.words("package")
        name = self.name()
        self.words("is")
        kind = "passive"
        heads: list[tuple[str, str, str | None]] = []
        if self.next() == "task":
            kind = "cyclic"
            self.task()
        elif self.next() == "protected":
            self.words("protected")
            kind = "sporadic" if self.next() != "hrt_object" else "protected"
            heads = self.sporadic() if kind == "sporadic" else self.shared()
        else:
            heads = self.declarations()
        self.words(f"end {name} ;")
        return name, kind, heads

    def priority(self) -> None:
        self.words("pragma priority (")
        self.number()
        self.words(") ;")

    def task(self) -> None:
        self.words("task hrt_thread is")
        self.priority()
        self.words("end hrt_thread ;")

    def declarations(self) -> list[tuple[str, str, str | None]]:
        heads = []
        while self.next() == "procedure":
            heads.append(self.declaration(False))
        return heads

    def declaration(self, is_request: bool) -> tuple[str, str, str | None]:
        """The tokens of a head, its name, and the name of its first parameter."""
        start = self.place
        self.words("procedure")
        name = self.name()
        first = None
        if self.next() == "(":
            self.words("(")
            first = self.next()
            if is_request:
                self.name()
                self.words(": in word")
            else:
                self.parameter()
                while self.next() == ";":
                    self.words(";")
                    self.parameter()
            self.words(")")
        head = " ".join(self.tokens[start:self.place])
        self.words(";")
        return head, name, first

    def shared(self) -> list[tuple[str, str, str | None]]:
        self.words("hrt_object is")
        self.priority()
        heads = self.declarations()
        self.words("private")
        while self.is_name():
            self.datum()
        self.words("end hrt_object ;")
        for head, name, _ in heads:
            self.words(f"{head} renames hrt_object . {name} ;")
        return heads

    def sporadic(self) -> list[tuple[str, str, str | None]]:
        self.words("hrt_obcs is")
        self.priority()
        head, name, first = self.declaration(True)
        self.words("entry hrt_wait ( hrt_request : out word ) ; private hrt_value : word := 0 ; hrt_open : boolean := false ;")
        self.words(f"end hrt_obcs ; {head} renames hrt_obcs . {name} ;")
        self.task()
        for constant in ("hrt_separation", "hrt_jitter"):
            self.words(constant + " : constant :=")
            self.number()
            self.words(";")
        self.words("hrt_external : constant boolean :=")
        self.one_of(["true", "false"])
        self.words(";")
        return [(head, name, first)]

    def unit_body(self, name: str, kind: str, heads: list[tuple[str, str, str | None]]) -> None:
        self.words(f"package body {name} is")
        if kind == "cyclic":
            self.cyclic_body()
        elif kind == "sporadic":
            self.sporadic_body(*heads[0])
        elif kind == "protected":
            self.words("protected body hrt_object is")
            self.operations(heads)
            self.words("end hrt_object ;")
        else:
            self.operations(heads)
        self.words(f"end {name} ;")

    def operations(self, heads: list[tuple[str, str, str | None]]) -> None:
        for head, name, _ in heads:
            self.words(head + " is")
            while self.is_name():
                self.datum()
            self.words("begin")
            self.block()
            self.words(f"end {name} ;")

    def cyclic_body(self) -> None:
        while self.is_name():
            self.datum()
        self.words("task body hrt_thread is hrt_next : hrt . moment := hrt . after ( hrt . epoch ,")
        self.number()
        self.words(") ; begin loop delay until hrt_next ; hrt_next := hrt . after ( hrt_next ,")
        self.number()
        self.words(") ;")
        self.block()
        self.words("activation_end ; end loop ; end hrt_thread ;")

    def sporadic_body(self, head: str, name: str, first: str | None) -> None:
        while self.is_name():
            self.datum()
        self.words(f"protected body hrt_obcs is {head} is begin hrt_value := {first or '0'} ; hrt_open := true ; end {name} ;")
        self.words("entry hrt_wait ( hrt_request : out word ) when hrt_open is begin hrt_request := hrt_value ; hrt_open := false ;")
        variable = first or "hrt_request"
        self.words(f"end hrt_wait ; end hrt_obcs ; task body hrt_thread is {variable} : word := 0 ;")
        self.words(f"begin loop hrt_obcs . hrt_wait ( {variable} ) ;")
        self.block()
        self.words("activation_end ; end loop ; end hrt_thread ;")


def first_fault(tokens: list[str]) -> int | None:
    """The place of the first token with which no text goes on, or None."""
    try:
        AdaReader(tokens).program()
    except NoDesign as stop:
        return int(stop.args[0])
    return None


def main() -> None:
    changes: dict[str, Callable[[str], list[str]]] = {"Cut": lambda t: [], "Doubled": lambda t: [t, t], "Replaced": lambda t: [";"]}
    for name in ("ADA", "UNITS"):
        text = re.findall(rf'const {name}: &str =\n    "(.*?) ";', TESTS.read_text(), re.S)[0]
        tokens = text.replace("\\\n", " ").split()
        print(name, len(tokens), "tokens", first_fault(tokens))
        for change, made in changes.items():
            for place, token in enumerate(tokens):
                changed = tokens[:place] + made(token) + tokens[place + 1:]
                fault = first_fault(changed)
                if changed == tokens:
                    continue
                if fault is None:
                    print(f"{change} {place} {token}: a program")
                elif fault != place + (change == "Doubled"):
                    print(f"    {change.lower()} {place} {fault + 1}")


if __name__ == "__main__":
    main()
