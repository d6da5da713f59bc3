"""Reads what `kpalumere mailbox --json` writes as another program would, and tells it as calls and answers, a line each, parted by tabs.

mailbox.py FILE   LINE CALL ANSWER, of every post and take, of steps that were refused and of bad lines;
                  MAILBOX STEP ASKED ACTED; MAILBOX firmware ANSWER; MAILBOX left CALLER ANSWER, of what was not taken
"""

import json
import sys

CALL = [
    "line", "caller", "call", "command", "command_name", "data", "outcome",
    "refused", "taken_on", "word", "status", "status_name", "answer_data",
]
NAMED_STATUSES = {0: "success", 1: "invalid command", 2: "invalid parameter", 3: "invalid firmware state", 31: "command failure"}


def expect_fields(value, names):
    assert list(value) == names, list(value)


def check_word(call):
    """The status and the data are those of the word, where it is a response."""
    word = call["word"]
    parts = (call["status"], call["status_name"], call["answer_data"])
    if word is None or word >> 31 == 0:
        assert parts == (None, None, None), call
    else:
        status = word >> 26 & 31
        assert parts == (status, NAMED_STATUSES.get(status), word & 0xFFFF), call


def lines_of_call(number, mailbox, call):
    """What a call came to. What stood in a described mailbox was asked on no line of its own."""
    expect_fields(call, CALL)
    check_word(call)
    caller = call["caller"]
    is_post = call["call"] == "post"
    assert (call["command"] is None) == (call["data"] is None) == (not is_post), call
    asked = f"post {caller} {call['command']} {call['data']}" if is_post else f"take {caller}"
    refused = f"refused {call['refused']}"
    if call["line"] != mailbox["line"] and call["outcome"] == "refused":
        yield f"{call['line']}\t{asked}\t{refused}"
    elif call["line"] != mailbox["line"]:
        assert is_post, call
        yield f"{call['line']}\t{asked}\tok"
    if call["outcome"] == "taken":
        yield f"{call['taken_on']}\ttake {caller}\tok word=0x{call['word']:08x}"
    elif call["outcome"] == "not taken":
        yield f"{number}\tleft\t{caller}\tok word=0x{call['word']:08x}"
    elif call["outcome"] == "not answered":
        yield f"{number}\tleft\t{caller}\trefused 11"
    else:
        assert call["outcome"] in ("refused", "out of reach") and call["refused"], call


def lines_of_step(number, step):
    expect_fields(step, ["step", "asked", "acted", "refused"])
    yield f"{number}\t{step['step']}\t{step['asked']}\t{step['acted']}"
    for refused in step["refused"]:
        expect_fields(refused, ["line", "refused"])
        yield f"{refused['line']}\t{step['step']}\trefused {refused['refused']}"


def firmware_line(number, firmware):
    """The state of the firmware, as the ask language tells it."""
    expect_fields(firmware, ["interface", "held", "descriptors"])
    for descriptor in firmware["descriptors"]:
        expect_fields(descriptor, ["id", "parts", "delivery"])
        assert len(descriptor["parts"]) in (0, 3) and descriptor["delivery"] in ("on", "off"), descriptor
    held = ",".join("-" if part is None else hex(part) for part in firmware["held"])
    saved = [":".join([str(kept["id"]), *map(hex, kept["parts"])]) for kept in firmware["descriptors"] if kept["parts"]]
    delivery = [str(kept["id"]) for kept in firmware["descriptors"] if kept["delivery"] == "on"]
    told = f"ok interface={firmware['interface']} held={held} saved={','.join(saved) or '-'} delivery={','.join(delivery) or '-'}"
    return f"{number}\tfirmware\t{told}"


def lines_of(document):
    expect_fields(document, ["format", "file", "file_bytes", "mailboxes", "bad_lines", "totals"])
    assert document["format"] == 2, document["format"]
    outcomes = []
    for number, mailbox in enumerate(document["mailboxes"]):
        expect_fields(mailbox, ["made", "line", "calls", "steps", "firmware"])
        assert (mailbox["made"] == "start") == (mailbox["line"] is None), mailbox
        assert mailbox["made"] in ("start", "fresh", "described"), mailbox
        assert [step["step"] for step in mailbox["steps"]] == ["load", "turn", "unload"], mailbox
        outcomes += [(call["call"], call["outcome"]) for call in mailbox["calls"]]
        outcomes += [("step", "refused") for step in mailbox["steps"] for _ in step["refused"]]
        for call in mailbox["calls"]:
            yield from lines_of_call(number, mailbox, call)
        for step in mailbox["steps"]:
            yield from lines_of_step(number, step)
        yield firmware_line(number, mailbox["firmware"])
    for bad in document["bad_lines"]:
        expect_fields(bad, ["line", "reason"])
        assert bad["reason"] and not bad["reason"].startswith("kpalumere"), bad
        yield f"{bad['line']}\tbad line"
    count = lambda outcome: sum(1 for _, found in outcomes if found == outcome)
    assert document["totals"] == {
        "mailboxes": len(document["mailboxes"]),
        "posts": sum(1 for call, _ in outcomes if call == "post"),
        "taken": count("taken"),
        "not_taken": count("not taken"),
        "refused": count("refused"),
        "bad_lines": len(document["bad_lines"]),
    }, document["totals"]


def main(words):
    with open(words[0], encoding="utf-8") as file:
        for line in lines_of(json.load(file)):
            print(line)


main(sys.argv[1:])
