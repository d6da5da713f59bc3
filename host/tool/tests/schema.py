"""Holds what kpalumere writes for programs to docs/schema/, with Python's own readers and its package jsonschema.

schema.py json FOLDER SCHEMA FILE [SCHEMA FILE...]   what is wrong with each document by its schema of the folder, a line each
schema.py changes FOLDER SCHEMA FILE   how many ways there are to change a document a little, and each that the schema accepts
schema.py csv FILE   what is wrong with the cells of CSV, and then the name of each image in hexadecimal digits, a line each
"""

import copy
import csv
import io
import json
import pathlib
import re
import sys

from jsonschema import Draft202012Validator


def validator_of(folder, name):
    """The validator of a schema. Schemas name each other by their files."""
    paths = list(pathlib.Path(folder).resolve().glob("*.json"))
    schemas = {path.name: json.loads(path.read_text(encoding="utf-8")) for path in paths}
    for schema in schemas.values():
        Draft202012Validator.check_schema(schema)
    try:
        from referencing import Registry, Resource
    except ImportError:
        # Before version 4.18 the package followed references in another way.
        from jsonschema import RefResolver

        resolver = RefResolver(name, schemas[name], store=schemas)
        return Draft202012Validator(schemas[name], resolver=resolver)
    resources = [(other, Resource.from_contents(schema)) for other, schema in schemas.items()]
    return Draft202012Validator(schemas[name], registry=Registry().with_resources(resources))


def document_of(file):
    """A document. What is read twice, or is no number of JSON, is no document."""

    def no_number(text):
        raise ValueError(f"{text} is no number of JSON")

    def fields(pairs):
        names = [name for name, _ in pairs]
        assert len(names) == len(set(names)), names
        return dict(pairs)

    text = pathlib.Path(file).read_text(encoding="utf-8")
    return json.loads(text, object_pairs_hook=fields, parse_constant=no_number)


def faults_of(folder, name, file):
    validator = validator_of(folder, name)
    for fault in validator.iter_errors(document_of(file)):
        place = "".join(f"[{step!r}]" for step in fault.absolute_path)
        yield f"{name} {file}: {place} {fault.message}"


def changed(document):
    """Every document that differs in one place: a field is missing or is added, or a value is of another type."""

    def places(value, path):
        yield path, value
        inner = value.items() if isinstance(value, dict) else enumerate(value) if isinstance(value, list) else ()
        for step, of in inner:
            yield from places(of, path + [step])

    def with_change(path, change):
        other = copy.deepcopy(document)
        holder = other
        for step in path[:-1]:
            holder = holder[step]
        change(holder, path[-1])
        return other

    def put(new):
        return lambda holder, step: holder.__setitem__(step, new)

    for path, value in places(document, []):
        if path and isinstance(path[-1], str):
            yield f"without {path}", with_change(path, lambda holder, step: holder.pop(step))
        if isinstance(value, dict):
            yield f"more in {path}", with_change(path + ["added"], put(None))
        if path:
            other = False if value is None else 0 if isinstance(value, (str, dict, list)) else str(value)
            yield f"{other!r} at {path}", with_change(path, put(other))


def accepted_changes(folder, name, file):
    validator = validator_of(folder, name)
    changes = list(changed(document_of(file)))
    for told, document in changes:
        if validator.is_valid(document):
            yield f"accepted: {told}"
    yield f"{len(changes)} changes"


def undone(cell):
    """A cell as it was before it was escaped by the rule of docs/schema/README.md."""
    return re.sub(r"\\(u[0-9a-f]{4}|.)", lambda told: chr(int(told[1][1:], 16)) if len(told[1]) > 1 else told[1], cell)


def cells_and_names(file):
    with open(file, encoding="utf-8", newline="") as opened:
        text = opened.read()
    for line in text.split("\n"):
        if not line.isprintable():
            yield f"not all of this can be shown: {line!r}"
    # A spreadsheet may part cells by semicolons, whatever the quotes are.
    for part in re.split("[,;]", text.replace("\n", ",")):
        if part.lstrip(' "')[:1] in tuple("=+-@"):
            yield f"this begins as a formula does: {part!r}"
    for row in csv.DictReader(io.StringIO(text, newline=""), strict=True):
        if row["row"] == "image":
            name = bytes.fromhex(row["file_bytes"]) if row["file_bytes"] else undone(row["file"]).encode()
            yield name.hex()


def main(words):
    if words[0] == "json":
        lines = (line for at in range(2, len(words), 2) for line in faults_of(words[1], words[at], words[at + 1]))
    elif words[0] == "changes":
        lines = accepted_changes(words[1], words[2], words[3])
    else:
        lines = cells_and_names(words[1])
    for line in lines:
        print(line)


main(sys.argv[1:])
