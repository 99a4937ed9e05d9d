"""What the help of the program, and those of the scripts, say part by part."""

import re
import subprocess
from typing import NamedTuple

from lib.paths import SCRIPTS


class Option(NamedTuple):
    names: tuple  # as ("-h", "--help")
    value: str  # the name of its value, or nothing
    about: str
    default: str
    values: tuple  # those that it takes


class Help(NamedTuple):
    usage: str
    commands: dict  # of each what it does
    arguments: dict
    options: list
    text: str


def answer(words, text="", **more):
    ran = subprocess.run(words, input=text, stdout=subprocess.PIPE, stderr=subprocess.STDOUT, text=True, timeout=60, **more)
    return ran.stdout


def option_of(names, about):
    value = re.search(r" <?([A-Z]+)>?", names) or re.search(r"--(\w+) {", names)
    default = re.search(r" \[default: (.*?)\]", about)
    values = re.search(r" \[possible values: (.*?)\]", about) or re.search(r"{(.*)}", names)
    return Option(tuple(re.findall(r"--?\w[\w-]*", names)), value[1].upper() if value else "", about.split(" [")[0],
                  default[1] if default else "", tuple(re.split(", ?", values[1])) if values else ())


def read_help(text, usage="Usage", commands="Commands", arguments="Arguments", options="Options"):
    """The parts of a help, which have these titles. What is said of a word goes on in lines that begin with more blanks."""
    def table(title):
        found = re.search(rf"^{title}:\n((?:  .*\n)*)", text, re.M)
        lines = re.sub(r"\n {12,}", "  ", found[1]).splitlines() if found else []
        pairs = (re.split(r" {2,}", line.strip(), maxsplit=1) for line in lines)
        return {pair[0]: " ".join(pair[1].split()) for pair in pairs if pair[1:]}

    used = re.search(rf"^{usage}: (.*?)\n\n", text, re.M | re.S)[1]
    return Help(" ".join(used.split()), table(commands), table(arguments), [option_of(*it) for it in table(options).items()], text)


def helps_of(program):
    """The help of the program, and that of each of its commands."""
    top = read_help(answer([program, "help"]))
    return top, {name: read_help(answer([program, "help", name])) for name in top.commands if name != "help"}


def help_of_script(name, *words):
    """The help of a script, or of a command of it."""
    return read_help(answer([SCRIPTS / name, *words, "--help"]), "usage", "positional arguments", "positional arguments",
                     "option(?:s|al arguments)")


def helps_of_store():
    """The help of fcanon-store, and that of each of its commands."""
    top = help_of_script("fcanon-store")
    return top, {name: help_of_script("fcanon-store", name) for name in top.commands}
