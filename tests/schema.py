"""Whether JSON satisfies the schema docs/acpins-survey.schema.json: of draft 2020-12 the keywords that stand in it."""
import json
import os
import re

HERE = os.path.dirname(os.path.abspath(__file__))
NAME = f"{HERE}/../docs/acpins-survey.schema.json"
TYPES = {"object": dict, "array": list, "string": str, "boolean": bool, "integer": int, "null": type(None)}
KNOWN = {
    "$defs", "$ref", "$schema", "additionalProperties", "allOf", "anyOf", "const", "description", "enum", "exclusiveMaximum",
    "items", "minimum", "pattern", "properties", "required", "title", "type",
}


class Schema:
    def __init__(self):
        with open(NAME, encoding="utf-8") as handle:
            self.root = json.load(handle)

    def fault(self, value, rule=None, at="$"):
        """What is wrong with a value, or nothing."""
        rule = self.root if rule is None else rule
        if set(rule) - KNOWN:
            return f"the schema has {set(rule) - KNOWN}, of which this test knows nothing"
        if "$ref" in rule and (found := self.fault(value, self.root["$defs"][rule["$ref"].removeprefix("#/$defs/")], at)):
            return found
        if not self.is_plain(value, rule):
            return f"{at} is {value!r:.60}"
        parts = self.faults_inside(value, rule, at)
        parts += [self.fault(value, it, at) for it in rule.get("allOf", [])]
        choices = [self.fault(value, it, at) for it in rule.get("anyOf", [])]
        return next((it for it in parts if it), choices[0] if choices and all(choices) else None)

    def is_plain(self, value, rule):
        """Whether a value fits what is said of it alone, but not of what stands in it."""
        kinds = rule.get("type", [])
        if kinds and not any(isinstance(value, TYPES[it]) and (it == "boolean" or value not in (True, False) or not isinstance(value, bool))
                             for it in ([kinds] if isinstance(kinds, str) else kinds)):
            return False
        if "const" in rule and value != rule["const"] or "enum" in rule and value not in rule["enum"]:
            return False
        if isinstance(value, str) and not re.search(rule.get("pattern", ""), value):
            return False
        return not isinstance(value, int) or rule.get("minimum", value) <= value < rule.get("exclusiveMaximum", value + 1)

    def faults_inside(self, value, rule, at):
        """What is wrong with the members of an object, or the elements of an array."""
        if isinstance(value, list) and "items" in rule:
            return [self.fault(it, rule["items"], f"{at}[{number}]") for number, it in enumerate(value)]
        if not isinstance(value, dict):
            return []
        known = rule.get("properties", {})
        found = [f"{at} has no {it}" for it in rule.get("required", []) if it not in value]
        if rule.get("additionalProperties") is False:
            found += [f"{at} has {it}" for it in value if it not in known]
        return found + [self.fault(it, known[name], f"{at}.{name}") for name, it in value.items() if name in known]


def fault_of_json(printed):
    """What is wrong with what `json` prints, or nothing."""
    try:
        return Schema().fault(json.loads(printed))
    except ValueError as fault:
        return str(fault)
