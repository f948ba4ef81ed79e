"""Reads docs/api.yaml, which is written in a small part of YAML: mappings and lists by two spaces a level, texts plain or in quotes,
numbers, true and false, and lists in brackets. A text stands on one line and has no escape. A comment has a line of its own."""

import re

NUMBER = re.compile(r"-?(0|[1-9][0-9]*)")
KEY = re.compile(r"""("[^"]*"|'[^']*'|[^\s"'\[{#][^:]*):(?: (.+))?""")


def scalar(text):
    """The value of a text that stands for one."""
    if text[0] in "\"'":
        if len(text) < 2 or text[-1] != text[0] or text[0] in text[1:-1] or (text[0] == '"' and "\\" in text):
            raise ValueError(f"quotes: {text}")
        return text[1:-1]
    if text[0] == "[":
        inner = text[1:-1].strip()
        return [scalar(it.strip()) for it in inner.split(",")] if inner else []
    if text in ("true", "false"):
        return text == "true"
    if text == "{}":
        return {}
    if NUMBER.fullmatch(text):
        return int(text)
    if text[0] in "{&*!|>%@`" or ": " in text or " #" in text:
        raise ValueError(f"not of this part of YAML: {text}")
    return text


class Lines:
    """The lines of a document that say something, each with its depth."""

    def __init__(self, text):
        self.lines = []
        for number, line in enumerate(text.splitlines(), 1):
            said = line.lstrip(" ")
            if said and not said.startswith("#"):
                self.lines.append((len(line) - len(said), said.rstrip(), number))
        self.at = 0

    def depth(self):
        return self.lines[self.at][0] if self.at < len(self.lines) else -1

    def is_item(self):
        return self.lines[self.at][1].startswith("- ")

    def value(self, depth):
        """The mapping or the list that begins here."""
        return self.items(depth) if self.is_item() else self.mapping(depth)

    def items(self, depth):
        found = []
        while self.depth() == depth and self.is_item():
            _, said, number = self.lines[self.at]
            inner = said[2:]
            if KEY.fullmatch(inner) and inner[0] not in "[":
                self.lines[self.at] = (depth + 2, inner, number)
                found.append(self.mapping(depth + 2))
            else:
                self.at += 1
                found.append(scalar(inner))
        return found

    def mapping(self, depth):
        found = {}
        while self.depth() == depth and not self.is_item():
            _, said, number = self.lines[self.at]
            parts = KEY.fullmatch(said)
            if not parts:
                raise ValueError(f"line {number}: no key: {said}")
            key = scalar(parts[1])
            if key in found:
                raise ValueError(f"line {number}: {key} comes twice")
            self.at += 1
            if parts[2]:
                found[key] = scalar(parts[2])
            elif self.depth() > depth:
                found[key] = self.value(self.depth())
            else:
                raise ValueError(f"line {number}: {key} has no value")
        return found


def read(text):
    """The document's value."""
    lines = Lines(text)
    found = lines.value(0)
    if lines.at < len(lines.lines):
        raise ValueError(f"line {lines.lines[lines.at][2]}: it doesn't stand at the depth of what is around it")
    return found
