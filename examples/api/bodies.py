"""Bodies of a call that differ from its example in one place, by what the description says of each field."""

import copy

from schema import Raw

# One value of each kind, and texts that stand at the borders of what patterns take.
KINDS = [None, True, False, 0, 1, -1, Raw("-0"), Raw("1.0"), Raw("1e3"), 2**64 - 1, 2**64, "", "x", [], ["x"], [1], {}, {"x": 1}]
IDS = ["a", "_", "A9_z", "a-b", "a b", "a.b", "a/b", "a\0", "\u00e4", "a" * 64, "a" * 65]
PATHS = ["/", "./disk", "no/such", "a b", "a\0b", "\u00e4", "./" * 2047 + "x", "./" * 2048]
MACS = [
    "02:00:00:00:00:07", "AB:cd:EF:01:23:45", "ff:ff:ff:ff:ff:ff", "02-00-00-00-00-07", "02:00:00:00:00", "02:00:00:00:00:07:08",
    "2:0:0:0:0:7", "02:00:00:00:00:0g", " 2:00:00:00:00:07", "02:00:00:00:00:07 ", "020000000007",
]
ADDRESSES = [
    "169.254.1.0", "169.254.254.255", "169.254.169.254", "169.254.10.99", "169.254.0.255", "169.254.255.0", "169.254.1.256", "169.254.256.1",
    "169.254.01.1", "169.254.1.00", "169.254.1", "169.254.1.1.1", "169.254.1.1 ", "10.0.0.1", "169.254.+1.1", "169.254..1", "::1",
]


def texts_of(schema):
    """Texts at the borders of a field of text."""
    most = schema.get("maxLength")
    found = list({64: IDS, 4095: PATHS}.get(most, []))
    if "pattern" in schema and not most:
        found += MACS + ADDRESSES
    for text in schema.get("enum", []):
        found += [text, text.lower(), text.upper(), text + "x", text[:-1]]
    return found + (["x" * most, "x" * (most + 1)] if most else [])


def numbers_of(schema):
    """Numbers at the borders of a field of numbers."""
    least, most = schema.get("minimum", 0), schema.get("maximum", 2**64 - 1)
    return [it for it in (least - 1, least, least + 1, most - 1, most, most + 1) if it >= -1]


def lists_of(schema):
    """Lists of each length at the borders, and a list for each text."""
    least, most = schema["minItems"], schema["maxItems"]
    return [["eth0"] * count for count in (least, most, most + 1)] + [["eth0", it] for it in (*IDS, None, 1, [])]


def values_of(schema):
    """What is tried in the place of a field."""
    more = {"string": texts_of, "integer": numbers_of, "array": lists_of}.get(schema["type"])
    return KINDS + (more(schema) if more else [])


def places_of(description, schema, value, place=()):
    """Each object of a body whose fields are described: the names that lead to it, and its schema."""
    if schema.get("type") == "object" and schema["additionalProperties"] is False and isinstance(value, dict):
        yield place, schema
        for name, it in description.fields(schema).items():
            if name in value:
                yield from places_of(description, it, value[name], (*place, name))


def changed(body, place, change):
    """A copy of a body in which the object at the place was changed."""
    made = copy.deepcopy(body)
    it = made
    for name in place:
        it = it[name]
    change(it)
    return made


def without(name):
    return lambda it: it.pop(name, None)


def with_value(name, value):
    return lambda it: it.update({name: value})


def least_of(description, schema, body):
    """The example with the fields alone that are needed."""
    if schema.get("type") != "object" or schema["additionalProperties"] is not False:
        return body
    fields = description.fields(schema)
    kept = set(schema.get("required", [])) | set(schema.get("x-one-of-two", [])) | set(list(fields)[: schema.get("minProperties", 0)])
    return {name: least_of(description, fields[name], it) for name, it in body.items() if name in kept}


def bodies_of(description, schema, names):
    """Bodies to try: the example and the least of it, without each field and with null in its place; and the example with each change of
    one field, and with a field of each of the names."""
    example = schema["example"]
    for body in (example, least_of(description, schema, example)):
        yield body
        for place, it in places_of(description, schema, body):
            for name in it["properties"]:
                yield changed(body, place, without(name))
                yield changed(body, place, with_value(name, None))
    for place, it in places_of(description, schema, example):
        for name in names:
            if name not in it["properties"]:
                yield changed(example, place, with_value(name, 1))
        for name, field in description.fields(it).items():
            for value in values_of(field):
                yield changed(example, place, with_value(name, value))
    pair = schema.get("x-one-of-two", [])
    for name in pair:
        yield {**{k: v for k, v in example.items() if k not in pair}, name: other_of(name)}


def other_of(name):
    """A value of a field that the example doesn't have."""
    return "memory" if name == "mem_file_path" else {"backend_path": "memory", "backend_type": "File"}
