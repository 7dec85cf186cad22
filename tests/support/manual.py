"""What the manual pages say of directives and of notices, for the programs to be held against."""

import collections
import functools
import os
import re

from tests.support.harness import ROOT, read

# what a directive takes that has one number, by the name that its line's form has for it
Number = collections.namedtuple("Number", "name least most default")


@functools.cache
def paragraphs(page):
    """Returns the head and the text of each paragraph with a head in bold."""
    text = read(os.path.join(ROOT, "man", page + ".5"))
    return re.findall(r"^\.TP\n\.B[IR]? ([^\n]*)\n(.*?)(?=^\.(?:TP|PP|S[SH])\b|\Z)", text, re.MULTILINE | re.DOTALL)


def directives(page):
    """Returns the directives of a configuration file in the order of its page, each once, with their texts."""
    found = {}
    for head, text in paragraphs(page):
        word = re.match(r'"?([A-Za-z]+)(?: = |\\~| primary)', head)
        if word:
            found[word[1]] = found.get(word[1], "") + text
    return found


@functools.cache
def numbers(page):
    """Returns what each directive takes that has one number."""
    names = {head.split("\\~")[0]: head.split(" ")[-1] for head, _ in paragraphs(page)}
    found = {}
    for word, text in directives(page).items():
        limits = re.search(r"(\d+) to (\d+), by default (\d+)\.", text)
        if limits and names[word] in ("NUMBER", "SECONDS"):
            found[word] = Number(names[word], *map(int, limits.groups()))
    return found


@functools.cache
def notices():
    """Returns the types of notices in the order of upsmon.conf(5), with their default texts."""
    heads = (re.fullmatch(r'([A-Z]+) ": (.*)"', head) for head, _ in paragraphs("upsmon.conf"))
    return {head[1]: head[2] for head in heads if head}


def type_meant():
    """Returns what is meant in the place of a type of notice that isn't one."""
    *first, last = (f"'{it}'" for it in notices())
    return f"{', '.join(first)} or {last} is meant"
