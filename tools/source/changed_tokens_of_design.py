#!/usr/bin/env python3
"""Tells where no design goes on, for each token of the design of `changed_tokens.rt` cut, doubled and replaced.

It is a recogniser of the grammar of designs that shares nothing with the toolset, and prints the lines of the list there: what
is not told at the first token that differs, and what is a design still. No part of the gate.
"""
from __future__ import annotations


import pathlib
import re
from typing import Any, Callable

TESTS = pathlib.Path(__file__).parent.parent.parent / "crates/hrthood/src/tests/changed_tokens.rt"
KEPT = set(
    "end provides requires data operation thread objects implements begin is null if then elsif else for in out loop exit "
    "when range mod and or xor not word work put".split()
)
KINDS = "passive active protected cyclic sporadic".split()
ATTRIBUTES = "period offset separation deadline thread_budget arrival_jitter".split()
CONSTRAINTS = "aser hser pser paer".split()
COSTS = "assign test turn call null put finish".split()


class NoDesign(Exception):
    """No design goes on with the token at this place."""


class Reader:
    def __init__(self, tokens: list[str]) -> None:
        self.tokens = tokens
        self.place = 0
        self.has_units = False

    def next(self) -> str | None:
        return self.tokens[self.place] if self.place < len(self.tokens) else None

    def is_name(self) -> bool:
        word = self.next()
        return word is not None and word[0].isalpha() and word not in KEPT

    def take(self, is_right: bool) -> None:
        if not is_right:
            raise NoDesign(self.place)
        self.place += 1

    def words(self, text: str) -> None:
        for word in text.split():
            self.take(self.next() == word)

    def name(self, wanted: str | None = None) -> str:
        word = self.next()
        self.take(self.is_name() and wanted in (None, word))
        return str(word)

    def number(self) -> None:
        word = self.next()
        self.take(word is not None and word[0].isdigit())

    def one_of(self, words: list[str]) -> None:
        self.take(self.next() in words)

    def each(self, part: Callable[[], Any], goes_on: Callable[[], bool]) -> None:
        """One or more of a part."""
        part()
        while goes_on():
            part()

    def section(self, word: str, part: Callable[[], Any], goes_on: Callable[[], bool]) -> None:
        if self.next() == word:
            self.words(word)
            self.each(part, goes_on)

    def design(self) -> None:
        self.words("design")
        name = self.name()
        if self.next() == "version":
            self.has_units = True
            self.words("version 2 is tick =")
            self.number()
            self.one_of(["us", "ms", "s"])
            self.words(";")
            if self.next() == "priorities":
                self.words("priorities")
                self.number()
                self.words("..")
                self.number()
                self.words(";")
        else:
            self.words("is")
        self.words("costs")
        for cost in COSTS:
            self.words(cost + " =")
            self.number()
            self.words(";")
        self.words("end costs ;")
        self.object()
        self.words("end")
        self.name(name)
        self.words(";")
        self.take(self.next() is None)

    def object(self) -> None:
        self.words("object")
        name = self.name()
        self.words("is")
        self.one_of(KINDS)
        self.section("attributes", self.attribute, lambda: self.next() in ATTRIBUTES)
        self.section("provides", self.provided, self.is_name)
        self.section("requires", self.required, self.is_name)
        self.section("data", self.datum, self.is_name)
        while self.next() == "operation":
            self.operation()
        if self.next() == "thread":
            self.words("thread")
            self.block()
            self.words("end thread ;")
        self.section("objects", self.object, lambda: self.next() == "object")
        self.section("implements", self.link, self.is_name)
        self.words("end")
        self.name(name)
        self.words(";")

    def attribute(self) -> None:
        self.one_of(ATTRIBUTES)
        self.words("=")
        self.number()
        if self.has_units and self.next() in ("us", "ms", "s"):
            self.one_of(["us", "ms", "s"])
        self.words(";")

    def provided(self) -> None:
        self.name()
        if self.next() == "(":
            self.words("(")
            self.parameter()
            while self.next() == ";":
                self.words(";")
                self.parameter()
            self.words(")")
        if self.next() in CONSTRAINTS:
            self.one_of(CONSTRAINTS)
        self.words(";")

    def parameter(self) -> None:
        self.name()
        self.words(":")
        self.one_of(["in", "out"])
        self.words("word")

    def required(self) -> None:
        self.name()
        self.words(".")
        self.name()
        self.words(";")

    def datum(self) -> None:
        self.name()
        self.words(": word :=")
        self.number()
        self.words(";")

    def operation(self) -> None:
        self.words("operation")
        name = self.name()
        self.words("is")
        while self.is_name():
            self.datum()
        self.words("begin")
        self.block()
        self.words("end")
        self.name(name)
        self.words(";")

    def link(self) -> None:
        self.name()
        self.words("by")
        self.required()

    def block(self) -> None:
        begins = ("null", "if", "for", "exit", "work", "put")
        self.each(self.statement, lambda: self.is_name() or self.next() in begins)

    def statement(self) -> None:
        word = self.next()
        if word == "null":
            self.words("null ;")
        elif word == "if":
            self.words("if")
            self.expression()
            self.words("then")
            self.block()
            while self.next() == "elsif":
                self.words("elsif")
                self.expression()
                self.words("then")
                self.block()
            if self.next() == "else":
                self.words("else")
                self.block()
            self.words("end if ;")
        elif word == "for":
            self.words("for")
            self.name()
            self.words("in word range")
            self.number()
            self.words("..")
            self.number()
            self.words("loop")
            self.block()
            self.words("end loop ;")
        elif word == "exit":
            self.words("exit when")
            self.expression()
            self.words(";")
        elif word == "work":
            self.words("work (")
            self.number()
            self.words(") ;")
        elif word == "put":
            self.words("put (")
            self.expression()
            self.words(") ;")
        else:
            self.name()
            self.assignment_or_call()

    def assignment_or_call(self) -> None:
        if self.next() == ":=":
            self.words(":=")
            self.expression()
        else:
            self.words(".")
            self.name()
            if self.next() == "(":
                self.words("(")
                self.expression()
                while self.next() == ",":
                    self.words(",")
                    self.expression()
                self.words(")")
        self.words(";")

    def chain(self, part: Callable[[], Any], operators: list[str]) -> None:
        part()
        while self.next() in operators:
            self.one_of(operators)
            part()

    def expression(self) -> None:
        self.relation()
        logical = self.next()
        if logical in ("and", "or", "xor"):
            while self.next() == logical:
                self.words(logical)
                self.relation()

    def relation(self) -> None:
        self.sum()
        comparisons = ["=", "/=", "<", "<=", ">", ">="]
        if self.next() in comparisons:
            self.one_of(comparisons)
            self.sum()

    def sum(self) -> None:
        self.chain(self.product, ["+", "-"])

    def product(self) -> None:
        self.chain(self.factor, ["*", "/", "mod"])

    def factor(self) -> None:
        if self.next() == "not":
            self.words("not")
        word = self.next()
        if word == "(":
            self.words("(")
            self.expression()
            self.words(")")
        elif word is not None and word[0].isdigit():
            self.number()
        else:
            self.name()


def first_fault(tokens: list[str]) -> int | None:
    """The place of the first token with which no design goes on, or None."""
    try:
        Reader(tokens).design()
    except NoDesign as stop:
        return int(stop.args[0])
    return None


def main() -> None:
    text = re.findall(r'const DESIGN: &str =\n    "(.*?) ";', TESTS.read_text(), re.S)[0]
    tokens = text.replace("\\\n", " ").split()
    changes: dict[str, Callable[[str], list[str]]] = {"Cut": lambda t: [], "Doubled": lambda t: [t, t], "Replaced": lambda t: [";"]}
    print(len(tokens), "tokens")
    for change, made in changes.items():
        for place, token in enumerate(tokens):
            changed = tokens[:place] + made(token) + tokens[place + 1:]
            fault = first_fault(changed)
            if changed == tokens:
                continue
            if fault is None:
                print(f"{change} {place}: a design")
            elif fault != place + (change == "Doubled"):
                print(f"    {change.lower()} {place} {fault + 1}")


if __name__ == "__main__":
    main()
