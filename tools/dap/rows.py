"""The sections `dap` of `crates/vcm_cases/stdin`, spoken with the real process. `docs/CASES.md` has their form."""
import json
import os
import re
import subprocess
import threading

TOP = os.path.dirname(os.path.dirname(os.path.dirname(os.path.abspath(__file__))))
ROWS = f"{TOP}/crates/vcm_cases/stdin"
DATA = f"{TOP}/crates/vcm_cases/data"
SECONDS = 60
HEAD = re.compile(rb"Content-Length: (\d+)\r\n\r\n")


def sections():
    """The name of each section, and its lines."""
    found, lines = [], None
    with open(ROWS, encoding="utf-8") as text:
        for line in text.read().split("\n"):
            if line.startswith("=== "):
                lines = [] if line.startswith("=== dap ") else None
                if lines is not None:
                    found.append((line[8:], lines))
            elif lines is not None and line:
                lines.append(line)
    return found


def framed(message):
    """A message behind its head."""
    return b"Content-Length: %d\r\n\r\n" % len(message) + message


def sent_by(line):
    """The bytes that a line sends; none where it sends nothing."""
    if line.startswith("> "):
        return framed(line[2:].encode())
    if line.startswith("= "):
        named = {b"r": b"\r", b"n": b"\n"}
        return re.sub(rb"\\(r|n|x..)", lambda m: named.get(m[1]) or bytes([int(m[1][1:], 16)]), line[2:].encode())
    return None


def bytes_sent(lines):
    """The bytes that a section sends."""
    return b"".join(sent_by(line) or b"" for line in lines)


def messages_in(out):
    """The messages of these bytes; none where they are no whole messages."""
    found = []
    while out:
        head = HEAD.match(out)
        end = head.end() + int(head[1]) if head else 0
        if not head or len(out) < end:
            return None
        found.append(json.loads(out[head.end():end].decode()))
        out = out[end:]
    return found


def read_message(stream):
    """The next message that comes, or None at the end."""
    head = b""
    while not head.endswith(b"\r\n\r\n"):
        byte = stream.read(1)
        if not byte:
            if head:
                raise ValueError(f"the end in the head {head!r}")
            return None
        head += byte
    length = HEAD.fullmatch(head)
    if not length:
        raise ValueError(f"the head {head!r}")
    return json.loads(stream.read(int(length[1])).decode())


def expect(stream, wanted):
    """Reads a message, which has to be this one."""
    found = read_message(stream)
    if found != wanted:
        raise ValueError(f"wanted {json.dumps(wanted)}\n  found {json.dumps(found)}")


def speak(process, lines):
    """Speaks a section, up to the end of the input. Gives what is wanted then: what is told on standard error, and the status."""
    told = []
    for line in lines:
        bytes_sent = sent_by(line)
        if bytes_sent is not None:
            process.stdin.write(bytes_sent)
            process.stdin.flush()
        elif line.startswith("< "):
            expect(process.stdout, json.loads(line[2:]))
        else:
            told.append(line)
    process.stdin.close()
    expect(process.stdout, None)
    return "".join(line + "\n" for line in told[:-1]), int(told[-1].split(" ")[1])


def judge(program, lines):
    """What is wrong with the answers to a section; none where nothing is."""
    process = subprocess.Popen([program, "dap"], cwd=DATA, stdin=subprocess.PIPE, stdout=subprocess.PIPE, stderr=subprocess.PIPE)
    timer = threading.Timer(SECONDS, process.kill)
    timer.start()
    try:
        told, status = speak(process, lines)
        found = process.stderr.read().decode()
        if found != told or process.wait() != status:
            return f"wanted status {status} and {told!r}\n  found status {process.returncode} and {found!r}"
    except (OSError, ValueError) as fault:
        return str(fault)
    finally:
        timer.cancel()
        process.kill()
        process.wait()
    return None


def all_right(program):
    """Whether all sections are answered as they should be."""
    wrong, all_sections = 0, sections()
    for name, lines in all_sections:
        fault = judge(program, lines)
        if fault:
            wrong += 1
            print(f"WRONG {name}: {fault}")
    print(f"sections: {len(all_sections)}, {wrong} wrong")
    return wrong == 0 and len(all_sections) > 0
