"""What a description says of a value: which refusal a body gets first, and what is wrong with an answer."""

import json
import re

MOST = 2**64
UNKNOWN, MISSING, KIND, RANGE = 4, 5, 6, 7


class Raw(str):
    """A text of JSON that is written as it stands: a number that isn't whole."""


def written(value):
    """A value as JSON."""
    if isinstance(value, Raw):
        return str(value)
    if isinstance(value, dict):
        return "{" + ",".join(f"{json.dumps(k)}:{written(v)}" for k, v in value.items()) + "}"
    if isinstance(value, list):
        return "[" + ",".join(map(written, value)) + "]"
    return json.dumps(value)


class Description:
    """A description of an API, and what it says."""

    def __init__(self, document):
        self.document = document
        self.calls = {(method.upper(), path): call for path, item in document["paths"].items() for method, call in item.items()}

    def at(self, it):
        """What a reference leads to, with what stands beside it."""
        found = {}
        while True:
            found = {**it, **found}
            parts = found.pop("allOf", [])
            reference = parts[0]["$ref"] if parts else found.pop("$ref", None)
            if not reference:
                return found
            it = self.document
            for word in reference.split("/")[1:]:
                it = it[word]

    def body_of(self, call):
        """The schema of a call's body, or nothing."""
        return self.at(self.content(self.at(call["requestBody"]))) if "requestBody" in call else None

    def answer_of(self, call, status):
        """The schema of an answer of this status, or nothing."""
        return self.content(self.at(call["responses"][status]))

    def content(self, it):
        return it["content"]["application/json"]["schema"] if "content" in it else None

    def fields(self, schema):
        return {name: self.at(it) for name, it in schema.get("properties", {}).items()}

    def objects(self, schema, value):
        """Each object of a body whose fields are described, with its schema."""
        if schema.get("type") == "object" and isinstance(value, dict) and schema["additionalProperties"] is False:
            yield schema, value
            for name, it in self.fields(schema).items():
                if name in value:
                    yield from self.objects(it, value[name])

    def given(self, schema, value):
        """The fields of an object that are there, each with its schema; null counts as absent where it may be."""
        fields = self.fields(schema)
        return [(name, fields[name], it) for name, it in value.items() if name in fields and not (it is None and fields[name].get("nullable"))]

    def is_known(self, schema, value):
        return value.keys() <= self.fields(schema).keys()

    def has_all(self, schema, value):
        names = {name for name, _, _ in self.given(schema, value)}
        some = {name for name, it in value.items() if it is not None}
        pair = schema.get("x-one-of-two")
        return names >= set(schema.get("required", [])) and len(names) >= schema.get("minProperties", 0) and (not pair or some & set(pair))

    def has_kinds(self, schema, value):
        return all(self.is_kind(it, v) for _, it, v in self.given(schema, value))

    def is_kind(self, schema, value):
        kind = schema["type"]
        if kind == "integer":
            return isinstance(value, int) and not isinstance(value, bool) and 0 <= value < MOST
        if kind == "array":
            return isinstance(value, list) and all(self.is_kind(self.at(schema["items"]), it) for it in value)
        return isinstance(value, {"object": dict, "string": str, "boolean": bool}[kind]) and not isinstance(value, Raw)

    def is_within(self, schema, value):
        pair = schema.get("x-one-of-two", [])
        texts = [value.get(name) for name in schema.get("x-not-the-same", [])]
        if pair and all(value.get(name) is not None for name in pair) or texts and texts[0] == texts[1]:
            return False
        return all(self.in_range(it, v) for _, it, v in self.given(schema, value))

    def in_range(self, schema, value):
        kind = schema["type"]
        if "enum" in schema and value not in schema["enum"]:
            return False
        if kind == "integer":
            return schema.get("minimum", 0) <= value <= schema.get("maximum", MOST)
        if kind == "array":
            few = schema.get("minItems", 0) <= len(value) <= schema.get("maxItems", len(value))
            return few and all(self.in_range(self.at(schema["items"]), it) for it in value)
        if kind == "string":
            size = len(value.encode())
            if not schema.get("minLength", 0) <= size <= schema.get("maxLength", size):
                return False
            return "pattern" not in schema or bool(re.fullmatch(schema["pattern"], value))
        return True

    def refusal(self, schema, value, ids):
        """The first refusal of a body by its fields, or nothing. ids has the id in the path by its name."""
        objects = list(self.objects(schema, value))
        for number, passes in ((UNKNOWN, self.is_known), (MISSING, self.has_all), (KIND, self.has_kinds), (RANGE, self.is_within)):
            if not all(passes(*it) for it in objects):
                return number
        return RANGE if any(value.get(name) != it for name, it in ids.items()) else None

    def fault(self, schema, value):
        """What is wrong with an answer, or nothing."""
        schema = self.at(schema)
        if value is None and schema.get("nullable"):
            return None
        if not self.is_kind(schema, value) or not self.in_range(schema, value):
            return f"{value!r} isn't as described"
        if schema["type"] == "array":
            return next(filter(None, (self.fault(schema["items"], it) for it in value)), None)
        if schema["type"] != "object" or schema["additionalProperties"]:
            return None
        fields = self.fields(schema)
        missing, unknown = set(schema.get("required", [])) - value.keys(), value.keys() - fields.keys()
        if missing or unknown:
            return f"missing {sorted(missing)}, unknown {sorted(unknown)}"
        return next(filter(None, (self.fault(fields[name], it) for name, it in value.items())), None)
