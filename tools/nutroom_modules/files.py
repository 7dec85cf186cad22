"""Configuration files, which nutsim has read without a fault before."""

from nutroom_modules.faults import Fault


def words_of(text):
    """Returns the words of a line of a configuration file, or None if it cannot be split into words."""
    words, at = [], 0
    while at < len(text):
        if text[at] in " \t\r":
            at += 1
        elif text[at] == "#":
            break
        elif text[at] == "=":
            words.append("=")
            at += 1
        else:
            word, at = word_at(text, at)
            if word is None:
                return None
            words.append(word)
    return words


def word_at(text, at):
    """Returns the word that begins at this place, and where it ends; the word is None if a quote or a backslash is left
    open."""
    end = '"' if text[at] == '"' else ' \t\r#="'
    word, at = "", at + (end == '"')
    while at < len(text) and text[at] not in end:
        if text[at] == "\\":
            at += 1
            if at == len(text):
                return None, at
        word += text[at]
        at += 1
    if end == '"':
        return (word, at + 1) if at < len(text) else (None, at)
    return word, at


def read_text(path):
    """Returns the text of a file, or raises a fault."""
    try:
        with open(path, encoding="latin-1", newline="\n") as file:
            return file.read()
    except OSError as error:
        raise Fault(f"{path}: cannot read: {error.strerror}") from None


def conf_lines(path):
    """Returns the words of each line of a configuration file that nutsim has read without a fault."""
    return [words_of(line) or [] for line in read_text(path).split("\n")]


def sections(path):
    """Returns the sections of ups.conf or upsd.users, in order: the name of each, with the words of its lines."""
    found = {}
    for words in conf_lines(path):
        if words and words[0].startswith("["):
            lines = found[words[0].strip("[]")] = []
        elif words:
            lines.append(words)
    return found
