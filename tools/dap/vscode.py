#!/usr/bin/env python3
"""Looks through the folder `editors/vscode` for what VS Code would refuse or pass over, as far as that goes without VS Code: the members of a debugger, and that each launch that it offers fits what
it says of launches.

usage: tools/dap/vscode.py     at the top of the repository
"""
import json
import os
import re
import sys

FOLDER = "editors/vscode"
# The members of a debugger that VS Code knows.
KNOWN = {"type", "label", "program", "args", "runtime", "runtimeArgs", "variables", "initialConfigurations", "languages", "configurationSnippets", "configurationAttributes", "when", "hiddenWhen",
         "deprecated", "windows", "osx", "linux", "strings"}
KINDS = {"string": str, "boolean": bool, "integer": int}
wrong = []


def check(what, is_right):
    """Counts what isn't right."""
    if not is_right:
        wrong.append(what)


def load(name):
    """A file of the folder."""
    with open(os.path.join(FOLDER, name), encoding="utf-8") as file:
        return json.load(file)


def fits(values, schema, where):
    """Checks that a launch has the members that it has to have, each of its kind."""
    for name in schema.get("required", []):
        check(f"{where}: {name} is wanted", name in values)
    for name, value in values.items():
        if name in ("name", "type", "request"):
            continue
        member = schema["properties"].get(name)
        check(f"{where}: {name} is known", member is not None)
        if member:
            value = value[2:-1] if isinstance(value, str) and value.startswith('^"') else value
            check(f"{where}: {name} is of the kind {member['type']}", type(value) is KINDS[member["type"]])


def check_snippet(snippet, launch):
    """Checks what is put into a file for a launch. A text that begins with ^" is put there as it stands without the ^; in it ${1:..} is a place to type at, and \\$ a dollar."""
    label = snippet["label"]
    check(f"{label}: a description", isinstance(snippet.get("description"), str))
    fits(snippet["body"], launch, label)
    for value in snippet["body"].values():
        if isinstance(value, str) and "$" in value:
            check(f"{label}: {value}", value.startswith('^"') and value.endswith('"') and not re.search(r"(?<!\\)\$(?!\{\d)", value))


def check_debugger(debugger, languages):
    """Checks a debugger of the package."""
    check(f"members of a debugger: {set(debugger) - KNOWN}", set(debugger) <= KNOWN)
    check("a debugger of known languages", set(debugger["languages"]) <= languages)
    check("`vcm dap` of the path", debugger["runtime"] == "vcm" and debugger["runtimeArgs"] == ["dap"] and "program" not in debugger)
    launch = debugger["configurationAttributes"]["launch"]
    for name, member in launch["properties"].items():
        check(f"a description of {name}", isinstance(member.get("description"), str) and member["type"] in KINDS)
    for values in debugger["initialConfigurations"]:
        fits(values, launch, "an initial configuration")
    for snippet in debugger["configurationSnippets"]:
        check_snippet(snippet, launch)


def main():
    package = load("package.json")
    check("a name, a publisher, a version", all(isinstance(package.get(name), str) for name in ("name", "publisher", "version")))
    check("no code", not {"main", "browser", "scripts", "dependencies", "devDependencies", "activationEvents"} & set(package))
    parts = package["contributes"]
    languages = {language["id"] for language in parts["languages"]}
    for language in parts["languages"]:
        load(language["configuration"])
    for grammar in parts["grammars"]:
        check("a grammar of a known language", grammar["language"] in languages and load(grammar["path"]).get("scopeName") == grammar["scopeName"])
    for breakpoints in parts["breakpoints"]:
        check("breakpoints of a known language", breakpoints["language"] in languages)
    for debugger in parts["debuggers"]:
        check_debugger(debugger, languages)
    for values in load("launch.json")["configurations"]:
        debuggers = [debugger for debugger in parts["debuggers"] if debugger["type"] == values["type"]]
        check("launch.json: a known type", len(debuggers) == 1)
        fits(values, debuggers[0]["configurationAttributes"]["launch"], "launch.json")
    for what in wrong:
        print(f"WRONG {what}")
    print(f"VS Code: {len(wrong)} wrong")
    sys.exit(1 if wrong else 0)


main()
