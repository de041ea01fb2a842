"""JSON held against a schema. It knows the keywords that docs/lacp.schema.json uses; any other is an error, so that none is passed over."""

import re

TYPES = {
    "object": lambda value: isinstance(value, dict),
    "array": lambda value: isinstance(value, list),
    "string": lambda value: isinstance(value, str),
    "boolean": lambda value: isinstance(value, bool),
    "null": lambda value: value is None,
    "integer": lambda value: isinstance(value, int) and not isinstance(value, bool),
    "number": lambda value: isinstance(value, (int, float)) and not isinstance(value, bool),
}
SILENT = {"$schema", "$defs", "title", "description"}


def is_number(value):
    """Whether bounds apply."""
    return TYPES["number"](value)


def of_type(names, value):
    """Whether the value is of this type, or of one of these."""
    return any(TYPES[name](value) for name in ([names] if isinstance(names, str) else names))


# The keywords that a value alone decides.
PLAIN = {
    "type": of_type,
    "const": lambda wanted, value: type(wanted) is type(value) and wanted == value,
    "enum": lambda wanted, value: value in wanted,
    "required": lambda names, value: not isinstance(value, dict) or all(name in value for name in names),
    "pattern": lambda pattern, value: not isinstance(value, str) or re.search(pattern, value) is not None,
    "minimum": lambda least, value: not is_number(value) or value >= least,
    "maximum": lambda most, value: not is_number(value) or value <= most,
    "minItems": lambda least, value: not isinstance(value, list) or len(value) >= least,
    "maxItems": lambda most, value: not isinstance(value, list) or len(value) <= most,
}


class Schema:
    """A schema, with its definitions."""

    def __init__(self, whole):
        self.whole = whole

    def faults(self, value):
        """What is wrong with a value: nothing if it fits."""
        return list(self.within(self.whole, value, "$"))

    def within(self, schema, value, place):
        """The faults of a value at a place, by a part of the schema."""
        if schema is False:
            yield f"{place}: not in the schema"
            return
        for keyword, rule in schema.items():
            if keyword in PLAIN:
                if not PLAIN[keyword](rule, value):
                    yield f"{place}: {keyword} {rule}: {repr(value)[:100]}"
            elif keyword in DEEP:
                yield from DEEP[keyword](self, schema, rule, value, place)
            elif keyword not in SILENT:
                raise ValueError(f"the schema has a keyword that is not known here: {keyword}")

    def referred(self, _, rule, value, place):
        """$ref: by the definition of that name."""
        part = self.whole
        for name in rule.removeprefix("#/").split("/"):
            part = part[name]
        yield from self.within(part, value, place)

    def any_of(self, _, rule, value, place):
        """anyOf: one of them fits."""
        faults = [list(self.within(part, value, place)) for part in rule]
        if all(faults):
            yield f"{place}: none of anyOf: {faults}"

    def items(self, _, rule, value, place):
        """items: each of a list."""
        for number, item in enumerate(value if isinstance(value, list) else ()):
            yield from self.within(rule, item, f"{place}[{number}]")

    def properties(self, _, rule, value, place):
        """properties: each that is there."""
        for name, part in rule.items() if isinstance(value, dict) else ():
            if name in value:
                yield from self.within(part, value[name], f"{place}.{name}")

    def others(self, schema, rule, value, place):
        """additionalProperties: each that the schema does not name."""
        for name in value if isinstance(value, dict) else ():
            if name not in schema.get("properties", {}):
                yield from self.within(rule, value[name], f"{place}.{name}")


DEEP = {"$ref": Schema.referred, "anyOf": Schema.any_of, "items": Schema.items, "properties": Schema.properties,
        "additionalProperties": Schema.others}
