#!/usr/bin/env python3
"""Sends the sections `dap` of `crates/vcm_cases/stdin` with wrong members and wrong bytes, and tells where the adapter ends otherwise than with status 0, 5 or 6, or writes what is no JSON or has a
wrong number.

usage: tools/dap/fuzz.py PROGRAM SECONDS [SEED]     at the top of the repository
"""
import json
import os
import random
import subprocess
import sys
import time

sys.dont_write_bytecode = True
import rows

# What is put in the place of a member.
VALUES = [None, True, False, 0, 1, -1, 7, 99, 2**31, 2**63, 2**64, 1.5, "", "I", "J", "T#2", "FA(P1)", "\u00e9\U0001f600", "x" * 300, [], {}, [[]], [{}], {"line": 7}, [{"line": 7}, 7, None, "a"],
          [{"dataId": "J"}, {"dataId": 3}]]
NAMES = ["line", "lines", "breakpoints", "expression", "name", "condition", "startFrame", "source", "path", "variablesReference", "steps"]


def messages_of(lines):
    """The requests of a section, where it sends no raw bytes and each is an object."""
    try:
        found = [json.loads(line[2:]) for line in lines if line.startswith("> ")]
    except ValueError:
        return []
    return [message for message in found if isinstance(message, dict)]


def changed(value):
    """A value with something wrong in it."""
    way = random.random()
    if not isinstance(value, dict) or way >= 0.8:
        return random.choice(VALUES)
    value = dict(value)
    if value and way < 0.5:
        name = random.choice(list(value))
        value[name] = changed(value[name])
    elif value and way < 0.65:
        del value[random.choice(list(value))]
    else:
        value[random.choice(NAMES)] = random.choice(VALUES)
    return value


def spoil(messages, base):
    """Changes one message of a session, or puts one of another session in."""
    place = random.randrange(min(2, len(messages) - 1) if random.random() < 0.8 else 0, len(messages))
    if random.random() < 0.7 and isinstance(messages[place].get("arguments"), dict):
        messages[place] = dict(messages[place], arguments=changed(messages[place]["arguments"]))
    elif random.random() < 0.5:
        messages.insert(place, random.choice(random.choice(base)))
    else:
        spoiled = changed(messages[place])
        messages[place] = spoiled if isinstance(spoiled, dict) else {"seq": spoiled}


def bytes_of(messages):
    """The messages behind their heads, now and then with a byte changed."""
    sent = b"".join(rows.framed(json.dumps(message).encode()) for message in messages)
    if random.random() < 0.1:
        place = random.randrange(len(sent))
        sent = sent[:place] + bytes([random.randrange(256)]) + sent[place + 1:]
    return sent


def fault_of(program, sent):
    """What is wrong with how the adapter takes these bytes; none where nothing is."""
    done = subprocess.run([program, "dap"], cwd=rows.DATA, input=sent, stdout=subprocess.PIPE, stderr=subprocess.PIPE, timeout=100)
    if done.returncode not in (0, 5, 6) or len(done.stderr) > 100:
        return f"status {done.returncode}, {done.stderr[:300]}"
    messages = rows.messages_in(done.stdout)
    if messages is None:
        return f"no whole messages: {done.stdout[-300:]}"
    if [message["seq"] for message in messages] != list(range(1, len(messages) + 1)):
        return "the numbers of the messages"
    return None


def main():
    if not 3 <= len(sys.argv) <= 4:
        sys.exit(__doc__)
    program, end = os.path.abspath(sys.argv[1]), time.time() + float(sys.argv[2])
    random.seed(int(sys.argv[3]) if len(sys.argv) == 4 else None)
    base = [messages for messages in (messages_of(lines) for _, lines in rows.sections()) if messages]
    tries = wrong = 0
    while time.time() < end:
        messages = list(random.choice(base))
        for _ in range(random.randint(1, 4)):
            spoil(messages, base)
        sent = bytes_of(messages)
        try:
            fault = fault_of(program, sent)
        except (ValueError, KeyError, subprocess.TimeoutExpired) as raised:
            fault = repr(raised)
        tries += 1
        if fault:
            wrong += 1
            print(f"WRONG {fault}\n  sent {sent!r}")
    print(f"wrong messages: {tries} sessions, {wrong} wrong")
    sys.exit(1 if wrong else 0)


main()
