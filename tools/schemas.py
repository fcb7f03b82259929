"""What of JSON Schema, draft 2020-12, the schemas in docs/ use."""
import re

KNOWN = {
    "$schema", "$defs", "$ref", "title", "description", "type", "const", "enum", "pattern", "maxLength", "minimum", "maximum", "required",
    "properties", "additionalProperties", "items", "prefixItems", "minItems", "maxItems", "uniqueItems", "allOf", "if", "then",
}


def is_of(value, kind):
    """Whether a value is of one of JSON's types. Numbers with a fraction or an exponent are read as floats, and are no integers here."""
    if kind == "integer":
        return isinstance(value, int) and not isinstance(value, bool)
    return isinstance(value, {"object": dict, "array": list, "string": str}[kind])


def faults(schema, value, root, place=()):
    """The places at which a value isn't as the schema says: what of draft 2020-12 the schema uses."""
    if schema is True:
        return []
    if schema is False:
        return [place]
    unknown = set(schema) - KNOWN
    if unknown:
        raise SystemExit(f"schemas: words that it doesn't know: {unknown}")
    found = []
    if "$ref" in schema:
        found += faults(root["$defs"][schema["$ref"].removeprefix("#/$defs/")], value, root, place)
    if "type" in schema and not is_of(value, schema["type"]):
        return found + [place]
    if "const" in schema and value != schema["const"] or "enum" in schema and value not in schema["enum"]:
        found.append(place)
    if isinstance(value, str):
        if "pattern" in schema and not re.fullmatch(schema["pattern"].removeprefix("^").removesuffix("$"), value):
            found.append(place)
        elif len(value) > schema.get("maxLength", len(value)):
            found.append(place)
    elif is_of(value, "integer"):
        if not schema.get("minimum", value) <= value <= schema.get("maximum", value):
            found.append(place)
    elif isinstance(value, list):
        found += faults_of_list(schema, value, root, place)
    elif isinstance(value, dict):
        found += faults_of_object(schema, value, root, place)
    for part in schema.get("allOf", []):
        found += faults(part, value, root, place)
    if "if" in schema and not faults(schema["if"], value, root, place):
        found += faults(schema["then"], value, root, place)
    return found


def faults_of_list(schema, value, root, place):
    found = []
    if not schema.get("minItems", 0) <= len(value) <= schema.get("maxItems", len(value)):
        found.append(place)
    front = schema.get("prefixItems", [])
    for index, item in enumerate(value):
        rule = front[index] if index < len(front) else schema.get("items", True)
        found += faults(rule, item, root, place + (index,))
    if schema.get("uniqueItems") and any(it in value[:index] for index, it in enumerate(value)):
        found.append(place)
    return found


def faults_of_object(schema, value, root, place):
    own = schema.get("properties", {})
    found = [place for name in schema.get("required", []) if name not in value]
    for name, member in value.items():
        if name in own:
            found += faults(own[name], member, root, place + (name,))
        elif schema.get("additionalProperties") is False:
            found.append(place)
    return found
