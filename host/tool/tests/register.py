"""Reads what `kpalumere register` writes as other programs would: JSON, CSV, and a terminal.

register.py json FILE   what JSON says, as calls and answers: the image's number, the call, the answer, parted by tabs
register.py csv FILE    the same of CSV
register.py names FORM FILE   the name of each image in hexadecimal digits, a line each
register.py verdicts FORM FILE   the name, the verdict, the number, where it was met and the message of each image, parted by tabs
register.py directories FORM FILE   each directory: its level, the entry that leads there, its place, its total and its number
register.py from-end FORM FILE   each image, a line each, with every place as its distance from the image's end
register.py terminal COLUMNS COMMAND...   what the command writes on a terminal of so many columns; its status at the end
"""

import csv
import fcntl
import io
import itertools
import json
import os
import pty
import re
import struct
import sys
import termios

# The number of the forms.
FORMAT = 2


def images_of_json(text):
    """The images: each its own fields, and lists of rows."""
    document = json.loads(text)
    assert list(document) == ["format", "images", "summary"], list(document)
    assert document["format"] == FORMAT, document["format"]
    summary = document["summary"]
    assert sum(summary.values()) == 2 * summary["images"], summary
    return document["images"]


def images_of_csv(text):
    """The same out of CSV. Every cell is a text, so numbers are made of those that are."""
    images = []
    for row in csv.DictReader(io.StringIO(text, newline=""), strict=True):
        assert None not in row and None not in row.values(), row
        assert row["format"] == str(FORMAT), row
        fields = {name: value_of(name, cell) for name, cell in row.items()}
        fields["met"] = parts_of(fields, "met", ("level", "index", "directory"))
        fields["wrong"] = parts_of(fields, "wrong", ("field", "bytes", "stands", "should"))
        if row["row"] == "image":
            fields["efs"] = {part: fields["efs_" + part] for part in ("place", "early", "late", "refused")}
            fields["pointer"] = {part: fields["pointer_" + part] for part in ("field", "value", "place", "refused")}
            images.append(dict(fields, directories=[], asked=[]))
        elif row["row"] == "directory":
            fields["repeat"] = {part: fields["repeat_" + part] for part in ("index", "earlier", "type", "subprogram")}
            images[-1]["directories"].append(dict(fields, entries=[]))
        elif row["row"] == "entry":
            directory = images[-1]["directories"][-1]
            around = [fields["level"], fields["lead"], fields["directory"]]
            assert around == [directory["level"], directory["lead"], directory["place"]], row
            directory["entries"].append(fields)
        else:
            assert row["row"] == "asked", row
            images[-1]["asked"].append(fields)
        assert fields["file"] == images[-1]["file"], row
    return images


def parts_of(fields, name, parts):
    """An object of JSON in the place of its cells, which are empty where it is null."""
    values = {part: fields.pop(f"{name}_{part}") for part in parts}
    return None if set(values.values()) == {None} else values


TEXTS = (
    *("row", "file", "file_bytes", "verdict", "where", "message", "name", "location", "value", "version"),
    *("wrong_stands", "wrong_should"),
)


def value_of(name, cell):
    if cell == "":
        return None
    return unescaped(cell) if name in TEXTS else int(cell)


def unescaped(cell):
    """A text without the escapes of docs/schema/README.md."""
    return re.sub(r"\\(?:u([0-9a-f]{4})|(.))", lambda found: chr(int(found[1], 16)) if found[1] else found[2], cell)


def answer(fields, template):
    """An answer of the ask language: the fields in a template, or the refusal."""
    if fields["refused"] is None:
        assert fields.get("met") is None and fields.get("wrong") is None, fields
        return "ok " + template.format(**fields)
    tested = fields.get("tested")
    return f"refused {fields['refused']}" + ("" if tested is None else f" tested={tested}") + met(fields.get("met"))


def met(place):
    """What an answer has behind the number of a refusal that was met in a directory."""
    if place is None:
        return ""
    return f" level={place['level']}" + ("" if place["index"] is None else f" index={place['index']}")


def added_lines(image):
    """The calls that the ask language has no line for, and their answers in the same form."""
    yield "efs", answer(image["efs"], "place={place:#x} early={early:#x} late={late:#x}")
    yield "pointer", answer(image["pointer"], "field={field:#x} value={value:#x} place={place:#x}")
    for directory in by_level(image):
        yield f"repeated {directory['level']}", repeat_answer(directory)
    for directory in image["directories"]:
        for entry in directory["entries"]:
            if entry["place"] is not None:
                yield f"version {entry['place']} {entry['length']}", entry["version"] or "none"
            if entry["refused"] is not None:
                yield wrong_line(met_in(directory, entry), entry)
    for refused in [image, *image["directories"], *image["asked"]]:
        # What is met in a directory tells both, and what is not tells neither.
        assert (refused["met"] is None) == (refused["wrong"] is None), refused
        if refused["met"] is not None:
            yield wrong_line(refused["met"], refused)


def met_in(directory, entry):
    """Where an entry of a directory stands."""
    return {"level": directory["level"], "index": entry["index"], "directory": directory["place"]}


def wrong_line(place, refused):
    """The call that tells what is wrong where a refusal was met, and its answer. A header has no index to ask for."""
    index = 0 if place["index"] is None else place["index"]
    fields = "ok number={number} field={field} bytes={bytes} stands={stands} should={should}"
    answer = fields.format(number=refused["refused"], **refused["wrong"])
    return f"wrong {place['directory']} {place['level']} {index}", answer


def by_level(image):
    """The directories that calls by their level answer on: level 1, and the level 2 of the lowest lead."""
    return image["directories"][:2]


def repeat_answer(directory):
    """Which entries of a directory repeat: both are named or neither, and only of one that is refused with 18."""
    repeat = directory["repeat"]
    if None not in repeat.values():
        assert directory["refused"] == 18, directory
        return "ok index={index} earlier={earlier} type={type:#x} sub={subprogram:#x}".format(**repeat)
    assert set(repeat.values()) == {None}, directory
    return "refused 8" if directory["refused"] is None else f"refused {directory['refused']}"


def part_answer(directory, entry):
    """Where the bytes of an entry lie; one that holds a value tells that in their place, and has no number."""
    place = met_in(directory, entry)
    if entry["value"] is not None:
        assert entry["value"] == entry["location"] and entry["refused"] is None, entry
        return "refused 17" + met(place)
    refused = entry["refused"] is not None
    return answer(dict(entry, met=place) if refused else entry, "place={place:#x} length={length}")


def ask_lines(image):
    """The calls of the ask language that the register of an image answers, and the answers."""
    for directory in by_level(image):
        call = f"directory a {directory['level']}"
        yield call, answer(directory, "place={place:#x} level={level} total={total}")
    for directory in image["directories"]:
        place = directory["place"]
        for entry in directory["entries"]:
            fields = "ok type={type:#x} sub={subprogram:#x} size={size:#x} location={location} mode={mode}"
            yield f"view-entry a {place} {entry['index']}", fields.format(**entry)
            yield f"view-bytes a {place} {entry['index']}", part_answer(directory, entry)
        if directory["refused"] is None:
            yield f"view-entry a {place} {directory['total']}", "refused 8"
    for asked in image["asked"]:
        call = f"find-image a {asked['type']} {asked['subprogram']}"
        yield call, answer(asked, "place={directory:#x} level={level} index={index} tested={tested}")


def name_of(image):
    """The name's own bytes."""
    if image["file_bytes"] is not None:
        return bytes.fromhex(image["file_bytes"])
    return image["file"].encode()


def from_end(image):
    """An image's fields, with every place as its distance from the image's end, and without the image's length."""

    def told(name, value):
        if isinstance(value, dict):
            parts = {part: told(part, inner) for part, inner in value.items()}
            if value.get("wrong") is not None:
                parts["wrong"] = of_wrong(value["refused"], value["wrong"])
            return parts
        if isinstance(value, list):
            return [told(name, inner) for inner in value]
        is_place = name == "directory" or name.endswith("place")
        return image["length"] - value if is_place and value is not None else value

    def of_wrong(refused, wrong):
        # What a 7 should be below is the length itself.
        should = 0 if refused == 7 and int(wrong["should"], 16) == image["length"] else wrong["should"]
        return dict(wrong, field=image["length"] - wrong["field"], should=should)

    return {name: told(name, value) for name, value in image.items() if name != "length"}


def on_terminal(columns, command):
    """What a command writes on a terminal, and its status."""
    child, terminal = pty.fork()
    if child == 0:
        size = struct.pack("HHHH", 24, columns, 0, 0)
        fcntl.ioctl(1, termios.TIOCSWINSZ, size)
        os.execvp(command[0], command)
    written = b""
    while True:
        try:
            more = os.read(terminal, 65536)
        except OSError:
            # So a terminal tells on Linux that nobody writes to it any more.
            break
        if not more:
            break
        written += more
    _, status = os.waitpid(child, 0)
    return written.replace(b"\r\n", b"\n"), os.waitstatus_to_exitcode(status)


READERS = {"json": images_of_json, "csv": images_of_csv}


def read(form, file):
    with open(file, encoding="utf-8", newline="") as opened:
        return READERS[form](opened.read())


def print_fields(fields, names):
    print("\t".join("-" if fields[name] is None else str(fields[name]) for name in names))


def main(words):
    if words[0] in READERS:
        for number, image in enumerate(read(words[0], words[1])):
            for call, told in itertools.chain(ask_lines(image), added_lines(image)):
                print(f"{number}\t{call}\t{told}")
    elif words[0] == "names":
        for image in read(words[1], words[2]):
            print(name_of(image).hex())
    elif words[0] == "verdicts":
        for image in read(words[1], words[2]):
            print_fields(image, ["file", "verdict", "refused", "where", "message"])
    elif words[0] == "directories":
        for image in read(words[1], words[2]):
            for directory in image["directories"]:
                print_fields(directory, ["level", "lead", "place", "total", "refused"])
    elif words[0] == "from-end":
        for image in read(words[1], words[2]):
            print(json.dumps(from_end(image)))
    else:
        written, status = on_terminal(int(words[1]), words[2:])
        sys.stdout.buffer.write(written + f"status {status}\n".encode())


main(sys.argv[1:])
