"""Set files and drive files: TOML, read by Python's own reader from 3.11 on, and before that by a small one that knows what these files need."""
import re

try:
    import tomllib
except ImportError:
    tomllib = None

NAME = re.compile(r"[A-Za-z0-9_-]{1,32}\Z")


class BadFile(Exception):
    """A file isn't what it should be; the words say where and why."""


def load(path):
    """The tables of a TOML file."""
    try:
        with open(path, encoding="utf-8") as it:
            text = it.read()
    except (OSError, UnicodeDecodeError) as error:
        raise BadFile(f"{path}: {error}") from None
    try:
        return tomllib.loads(text) if tomllib else loads(text)
    except ValueError as error:
        raise BadFile(f"{path}: {error}") from None


def read_set(path):
    """The workers of a set file, and its tasks as (name, e, p). pfx itself refuses what isn't a set; this only reads it."""
    tables = load(path)
    try:
        tasks = [(task["name"], int(task["e"]), int(task["p"])) for task in tables["task"]]
        workers = int(tables["workers"])
    except (KeyError, TypeError, ValueError) as error:
        raise BadFile(f"{path}: isn't a set file: {error!r}") from None
    for name, _, _ in tasks:
        if not isinstance(name, str) or not NAME.match(name):
            raise BadFile(f"{path}: {name!r} isn't a task's name")
    return workers, tasks


WORD = re.compile(r'"((?:[^"\\]|\\.)*)"|\'([^\']*)\'|([A-Za-z0-9_-]+)')
VALUE = re.compile(r'"(?:[^"\\]|\\.)*"|\'[^\']*\'|\[[^\]]*\]|[^\s#,]+')
ESCAPES = {"n": "\n", "t": "\t", "r": "\r", '"': '"', "\\": "\\", "b": "\b", "f": "\f"}


def unescaped(text):
    return re.sub(r"\\(u[0-9a-fA-F]{4}|.)", lambda it: chr(int(it[1][1:], 16)) if it[1][0] == "u" else ESCAPES[it[1]], text)


def value_of(text):
    """A string, a number, a truth value or a list of these on one line."""
    if text[0] in "\"'[" and (len(text) < 2 or text[-1] != {"[": "]"}.get(text[0], text[0])):
        raise ValueError
    if text[0] == '"':
        return unescaped(text[1:-1])
    if text[0] == "'":
        return text[1:-1]
    if text[0] == "[":
        return [value_of(it) for it in VALUE.findall(text[1:-1])]
    if text in ("true", "false"):
        return text == "true"
    number = text.replace("_", "")
    return float(number) if re.search(r"[.eE]", number) and not number.startswith("0x") else int(number, 0)


def keys_of(text):
    return [next(unescaped(it) if at == 0 else it for at, it in enumerate(groups) if it) for groups in WORD.findall(text)]


def loads(text):
    """The tables of a TOML text whose values stand on one line each. Anything else is refused by its line."""
    top = {}
    table = top
    for number, line in enumerate(text.splitlines(), 1):
        line = line.strip()
        try:
            if not line or line.startswith("#"):
                continue
            if line.startswith("["):
                table = opened(top, line)
                continue
            key, _, rest = line.partition("=")
            found = VALUE.match(rest.strip())
            behind = rest.strip()[found.end():].strip()
            if behind and not behind.startswith("#"):
                raise ValueError
            *path, last = keys_of(key)
            into = table
            for each in path:
                into = into.setdefault(each, {})
            into[last] = value_of(found[0])
        except (ValueError, KeyError, AttributeError, TypeError, IndexError):
            raise ValueError(f"line {number} isn't understood: {line}") from None
    return top


def opened(top, line):
    """The table that a line such as [drive.task.alpha] or [[task]] opens."""
    is_list = line.startswith("[[")
    inside = re.match(r"\[\[([^\]]+)\]\]\s*(#.*)?\Z" if is_list else r"\[([^\]]+)\]\s*(#.*)?\Z", line)[1]
    *path, last = keys_of(inside)
    table = top
    for each in path:
        table = table.setdefault(each, {})
        table = table[-1] if isinstance(table, list) else table
    if not is_list:
        return table.setdefault(last, {})
    table.setdefault(last, []).append({})
    return table[last][-1]
