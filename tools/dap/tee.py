#!/usr/bin/env python3
"""Stands between an editor and its debug adapter, and writes down what both send.

usage: tools/dap/tee.py LOG COMMAND ..

A line of LOG is `> ` and the JSON that the editor sent, or `< ` and the JSON that the adapter sent, as it was, but on one line: a section `dap` of `crates/vcm_cases/stdin` once the folder is taken off
its paths and the status stands below. A line `# ` is a remark: the end of a side, or bytes that are no message.
"""
import json
import os
import re
import subprocess
import sys
import threading

HEAD = re.compile(rb"Content-Length: (\d+)\r\n\r\n")
log = open(sys.argv[1], "ab", buffering=0)
lock = threading.Lock()


def note(mark, text):
    """Writes a line."""
    with lock:
        log.write(mark + b" " + text.replace(b"\r", b"\\r").replace(b"\n", b"\\n") + b"\n")


def note_messages(seen, mark):
    """Writes down the messages that are whole, and gives the bytes behind them."""
    while True:
        head = HEAD.match(seen)
        if not head or len(seen) < head.end() + int(head[1]):
            return seen
        end = head.end() + int(head[1])
        text = seen[head.end():end]
        if b"\n" in text:
            text = json.dumps(json.loads(text), separators=(",", ":"), ensure_ascii=False).encode()
        note(mark, text)
        seen = seen[end:]


def pump(source, sink, mark):
    """Hands on all bytes as they come, up to the end, and writes down the messages."""
    seen = b""
    while True:
        try:
            came = os.read(source, 65536)
        except OSError:
            came = b""
        if not came:
            break
        seen = note_messages(seen + came, mark)
        try:
            while came:
                came = came[os.write(sink, came):]
        except OSError:
            note(b"#", mark + b" cannot write")
    if seen:
        note(b"#", mark + b" left: " + seen)
    note(b"#", mark + b" end")
    os.close(sink)


child = subprocess.Popen(sys.argv[2:], stdin=subprocess.PIPE, stdout=subprocess.PIPE)
threading.Thread(target=pump, args=(0, child.stdin.fileno(), b">"), daemon=True).start()
pump(child.stdout.fileno(), 1, b"<")
status = child.wait()
note(b"#", b"status %d" % status)
sys.exit(status if status >= 0 else 1)
