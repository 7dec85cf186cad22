"""Finds the functions of a crate, and what the prover calls them, by the toolchain's own reader of crates."""

import functools
import importlib.machinery
import importlib.util
import os
import re
import subprocess


@functools.lru_cache(maxsize=None)
def part(name):
    """Returns a script of the toolchain as a module."""
    said = subprocess.run(["rt", "doc"], stdout=subprocess.PIPE, text=True, check=True).stdout
    path = os.path.join(os.path.dirname(said.strip()), "bin", name)
    loader = importlib.machinery.SourceFileLoader(name.replace("-", "_"), path)
    module = importlib.util.module_from_spec(importlib.util.spec_from_loader(loader.name, loader))
    loader.exec_module(module)
    return module


@functools.lru_cache(maxsize=None)
def toolchain():
    """Returns the toolchain's own gate as a module: it knows how an edit is read and how a crate is checked."""
    part("rt").rtlib.guarded()
    return part("rt")


def check_command(crate, flags):
    """Returns the command that checks a crate over the libraries that are built."""
    return [*toolchain().rtlib.guarded(), toolchain().rtlib.RATTLE, "check", *crate.words(flags, keeps=False)]


class Function:
    """A function: its place in a crate, and what a check calls it. It stands from `start` to `end` in its file, its name at
    `name`, and its body from `first` on."""

    def __init__(self, found, owner):
        self.file, self.is_of_trait = found.file, found.in_trait
        self.parts = [*owner, found.name]
        self.start, self.name, self.first, self.end = found.first, found.named, found.opens, found.end

    @property
    def path(self):
        return "::".join(self.parts)

    def holds(self, file, at):
        return file == self.file and self.first <= at < self.end

    def surrounds(self, other):
        """Whether another function stands in its body."""
        return other is not self and self.holds(other.file, other.first)


def names_in(words, parameters):
    """Returns the words of a type or trait that a check uses in the name of an impl. A parameter isn't one, and a module's name counts
    only in an argument: `From<io::Error>` is FromIoError, and `fmt::Display` is Display."""
    found, opened = [], 0
    for word, after in zip(words, [*words[1:], ""]):
        opened += {"<": 1, ">": -1}.get(word, 0)
        is_module = after == ":" and not opened
        if re.fullmatch(r"[A-Za-z_]\w*|&", word) and word not in ("mut", "dyn", "const", *parameters) and not is_module:
            found.append("Ref" if word == "&" else word[0].upper() + word[1:])
    return found


def owner_of(found, source):
    """Returns what the path of a function has before its name: its modules, and those of its type instead if it is a method, with the
    name of its impl: the type, and then the trait and its arguments, except for Drop."""
    block = found.block
    if block is None:
        return found.module
    # a constant parameter is noted without its name, which is of capitals
    parameters = {*block.generics, *(word for word in (*block.ty, *block.trait) if re.fullmatch("[A-Z][A-Z_]*", word))}
    if block.is_trait:
        return (*found.module, block.trait[0])
    # an impl for a parameter is one for any type
    names = names_in(block.ty, parameters) or ["Any"]
    name = names[0] if block.trait in ([], ["Drop"]) else "".join(names + names_in(block.trait, parameters))
    modules = [module for module, word, *_ in source.declared.get(name, ()) if word in ("struct", "enum")]
    return (*(modules or [found.module])[-1], name)


def functions_of(folder):
    """Returns the functions of a crate that have bodies, without its tests."""
    source = part("rt-plant-bodies").Source(folder)
    source.read(f"src/{'lib' if os.path.isfile(f'{folder}/src/lib.rt') else 'main'}.rt")
    return [Function(it, owner_of(it, source)) for it in source.functions if it.has_body]
