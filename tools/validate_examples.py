#!/usr/bin/env python3
"""Validates the repository's example files against the JSON Schemas of docs/schema, and refuses altered copies.

Each JSON file under examples/ and crates/report_cmd/data is validated against the schema that its key `valex` names. Then
each file of docs/schema/refused, which breaks one rule, has to be refused. Where Python's jsonschema is missing nothing is
checked, and the status is 0."""
import json
import pathlib
import sys

try:
    import jsonschema
except ImportError:
    print("validate_examples: skipped, Python's jsonschema is not installed")
    sys.exit(0)

TOP = pathlib.Path(__file__).resolve().parent.parent
SCHEMAS = TOP / "docs" / "schema"


def validators():
    """The validator of each profile, by the word under its key `valex`."""
    found = {}
    for path in sorted(SCHEMAS.glob("*.schema.json")):
        schema = json.loads(path.read_text())
        jsonschema.Draft202012Validator.check_schema(schema)
        found[schema["properties"]["valex"]["const"]] = jsonschema.Draft202012Validator(schema)
    return found


def first_error(by_profile, path):
    """What is wrong with a file, or None."""
    tree = json.loads(path.read_text())
    profile = by_profile.get(tree.get("valex"))
    if profile is None:
        return "no profile has this `valex`"
    error = next(iter(profile.iter_errors(tree)), None)
    return error and f"{'/'.join(map(str, error.absolute_path)) or '.'}: {error.message[:200]}"


def main():
    by_profile = validators()
    accepted = sorted((TOP / "examples").rglob("*.json")) + sorted((TOP / "crates/report_cmd/data").glob("*.json"))
    refused = sorted((SCHEMAS / "refused").glob("*.json"))
    faults = [f"{path.relative_to(TOP)}: {error}" for path in accepted if (error := first_error(by_profile, path))]
    faults += [f"{path.relative_to(TOP)}: not refused" for path in refused if not first_error(by_profile, path)]
    for fault in faults:
        print(f"validate_examples: {fault}", file=sys.stderr)
    print(f"validate_examples: {len(accepted)} files of examples and {len(refused)} refused ones, {len(faults)} faults")
    return 1 if faults or not accepted or not refused else 0


if __name__ == "__main__":
    sys.exit(main())
