#!/usr/bin/env python3
"""Makes the literals of crates/vcm_viewer/src from the viewer's files in viewer/, or tells whether they are the same.

    tools/make_viewer.py            writes crates/vcm_viewer/src/style.rt, script.rt and body.rt
    tools/make_viewer.py --check    writes nothing, and ends with status 1 where one of them differs
"""
import base64, hashlib, os, subprocess, sys, tempfile

TOP = os.path.dirname(os.path.dirname(os.path.abspath(__file__)))
SCRIPTS = ["data.js", "probes.js", "words.js", "elements.js", "drawing.js", "solid.js", "profile.js", "listing.js", "why.js", "panel.js", "stage.js", "page.js"]
# The most bytes of a literal: what a function with a constant costs the prover grows with the square of its size.
MOST = 2048


def read(name):
    with open(f"{TOP}/viewer/{name}", encoding="ascii") as file:
        return file.read()


def hashed(text):
    return "'sha256-" + base64.b64encode(hashlib.sha256(text.encode("ascii")).digest()).decode() + "'"


def parts(text):
    """The text in parts of whole lines, none longer than a literal may be; a longer line is cut."""
    found, part = [], ""
    for line in text.splitlines(keepends=True):
        if part and len(part) + len(line) > MOST:
            found.append(part)
            part = ""
        while len(line) > MOST:
            found.append(line[:MOST])
            line = line[MOST:]
        part += line
    return found + [part] if part else found


def literal(text):
    return 'b"' + text.replace("\\", "\\\\").replace('"', '\\"') + '"'


def functions(name, what, text):
    """A function for each part of a text, and the calls of them all."""
    rows, calls = [], []
    for number, part in enumerate(parts(text), 1):
        rows.append(f"/// Part {number} of {what}.\npub(crate) fn {name}_{number}() -> &'static [u8] {{\n    {literal(part)}\n}}\n")
        calls.append(f"{name}_{number}")
    return "\n".join(rows), calls


def array(about, name, calls):
    items = "".join(f"        {call}(),\n" for call in calls)
    return f"/// {about}\npub fn {name}() -> [&'static [u8]; {len(calls)}] {{\n    [\n{items}    ]\n}}\n"


def sources():
    style = "\n" + read("view.css")
    script = "\n" + "\n".join(read(it) for it in SCRIPTS)
    assert "</script" not in script and "</style" not in style and "<!--" not in script
    head, rest = read("view.html").split("@STYLE@")
    head = head.replace("@SCRIPT_HASH@", hashed(script)).replace("@STYLE_HASH@", hashed(style))
    middle, rest = rest.split("@DATA@")
    between, end = rest.split("@SCRIPT@")
    assert between.startswith("</script>\n")
    between = between.removeprefix("</script>\n")
    made = "tools/make_viewer.py makes this file from viewer/."
    style_rows, style_calls = functions("style", "the style", style)
    script_rows, script_calls = functions("script", "the script", script)
    rows, calls = [], {}
    for name, what, text in [("head", "what stands before the style", head), ("middle", "what stands between the style and the story", middle),
                             ("between", "what stands between the story and the script", between), ("end", "what stands behind the script", end)]:
        its, calls[name] = functions(name, what, text)
        rows.append(its)
    imports = lambda module, names: f"use crate::{module}::{{{', '.join(sorted(names))}}};\n"
    whole = [
        array("What stands before the story, in order.", "front", calls["head"] + style_calls + calls["middle"]),
        array("What stands behind the story and the end of its element, in order.", "back", calls["between"] + script_calls + calls["end"]),
        array("The style, in order.", "style_parts", style_calls),
        array("The script, in order.", "script_parts", script_calls),
    ]
    return {
        "style.rt": f"//! The style of the page: {made}\n\n{style_rows}",
        "script.rt": f"//! The script of the page: {made}\n\n{script_rows}",
        "body.rt": f"//! The elements of the page, with the sums of its style and of its script: {made}\n\n"
        + "\n".join(rows),
        "page.rt": f"//! The texts of the page in order: {made}\n\n"
        + imports("body", sum(calls.values(), [])) + imports("script", script_calls) + imports("style", style_calls) + "\n" + "\n".join(whole),
    }


def laid_out(texts):
    """The sources in the layout of `rt fmt`."""
    with tempfile.TemporaryDirectory() as folder:
        os.makedirs(f"{folder}/vcm_viewer/src")
        with open(f"{folder}/vcm_viewer/src/lib.rt", "w") as file:
            file.write(open(f"{TOP}/crates/vcm_viewer/src/lib.rt").read())
        for name, text in texts.items():
            with open(f"{folder}/vcm_viewer/src/{name}", "w", encoding="ascii") as file:
                file.write(text)
        subprocess.run(["rt", "fmt"], cwd=f"{folder}/vcm_viewer", check=True, capture_output=True)
        return {name: open(f"{folder}/vcm_viewer/src/{name}", encoding="ascii").read() for name in texts}


if __name__ == "__main__":
    differ = 0
    for name, text in laid_out(sources()).items():
        path = f"{TOP}/crates/vcm_viewer/src/{name}"
        if sys.argv[1:] == ["--check"]:
            if not os.path.exists(path) or open(path, encoding="ascii").read() != text:
                print(f"{path} is not what the viewer's files make")
                differ = 1
        else:
            with open(path, "w", encoding="ascii") as file:
                file.write(text)
    sys.exit(differ)
