"""python3 checks/compat PROGRAM [PAIRS [SEED]]: requires that the words and examples of `pcard compat` are right.

- Each row of the table of docs/EVOLVE.md: the words of both directions, the text, the JSON and the exit status.
- PAIRS pairs of types by chance, 2,000 by default, from SEED, which is printed. Messages of OLD, all of them if they are few, are read as OLD and
  as NEW by a reader that is written from docs/FORMAT.md (messages.py).

It fails if a message is against the word: `same`, if NEW doesn't read it as the same; `front`, if NEW doesn't read its first bytes as a beginning of
what it says; `refuses`, if NEW reads it and not as the same. An example must be what it claims: the canonical encoding of a value of OLD, and what NEW
makes of it.
"""
import json
import os
import random
import re
import subprocess
import sys
from collections import Counter
from concurrent.futures import ThreadPoolExecutor

from kinds import Enum, Group, Map, Maybe, Seq, parsed, shown
from messages import Refused, json_of, read, said, written
from pairs import all_values, pair, some_value

PAGE = os.path.join(os.path.dirname(os.path.dirname(os.path.dirname(os.path.abspath(__file__)))), "docs/EVOLVE.md")
SECONDS = 60

# What may become of a message of OLD, by the word.
ALLOWED = {"same": {"same"}, "front": {"same", "front"}, "refuses": {"same", "refused"}}
MEMBERS = {"verdict", "differences", "notes", "example"}


class Wrong(Exception):
    """What is wrong with an answer."""


def require(holds, why):
    if not holds:
        raise Wrong(why)


def call(program, *words):
    """The lines that a call of `compat` prints, and its exit status."""
    done = subprocess.run([program, "compat", *words], capture_output=True, text=True, check=False, timeout=SECONDS)
    require(done.returncode in (0, 1), f"status {done.returncode}: {done.stdout}{done.stderr}")
    return done.stdout.splitlines(), done.returncode


def members(pairs):
    """The members of an object of JSON, each name once."""
    found = dict(pairs)
    require(len(found) == len(pairs), f"a member stands twice: {pairs}")
    return found


def answer_of(line):
    """The answer of a line of JSON."""
    found = json.loads(line, object_pairs_hook=members)
    require(set(found) <= MEMBERS and "verdict" in found, f"the members of {line}")
    return found


def outcome(new, message, says):
    """What NEW makes of a message of OLD that says this."""
    try:
        value, rest = read(new, message)
    except Refused:
        return "refused"
    found = said(new, value)
    if not rest:
        return "same" if found == says else "misread"
    return "front" if says[: len(found)] == found else "misread front"


def check_example(old, new, example):
    """Requires that the example is a canonical message of OLD, and that NEW makes of it what is claimed. Returns what becomes of it."""
    message = bytes.fromhex(example["bytes"])
    value, rest = read(old, message)
    require(not rest and written(old, value) == message, f"{example['bytes']} is no canonical message of OLD")
    claimed = {"bytes": example["bytes"], "old": json_of(old, value)}
    try:
        found, rest = read(new, message)
        claimed |= {"new": json_of(new, found)} | ({"rest": rest.hex()} if rest else {})
    except Refused as refused:
        claimed |= {"at": refused.at, "error": refused.why} | ({"field": refused.path} if refused.path else {})
    require(claimed == example, f"the example is {claimed}, and not {example}")
    return outcome(new, message, said(old, value))


def row(kind, path=()):
    """The parts with bytes that are no groups, in order, each with the names that lead to it."""
    if not isinstance(kind, Group):
        return [(path, kind)]
    names = kind.names or range(len(kind.parts))
    return [part for name, each in zip(names, kind.parts) for part in row(each, (*path, name))]


def swapped(olds, news):
    """Whether a name stands at another place among the new ones."""
    return any(old != new and (old in news or new in olds) for old, new in zip(olds, news))


def has_name(path):
    """Whether a path has a name. Parts of tuples have numbers, which don't count."""
    return any(isinstance(name, str) for name in path)


def content(kind):
    """What is compared of an option, a list or a map, which is a list of pairs. `None` for other types."""
    if isinstance(kind, Map):
        return Seq, Group((kind.key, kind.value))
    return (Seq, kind.element) if isinstance(kind, Seq) else (Maybe, kind.content) if isinstance(kind, Maybe) else None


def is_moved(old, new):
    """Whether a field or a variant is read by the name of another one."""
    olds, news = row(old), row(new)
    old_paths, new_paths = [path for path, _ in olds], [path for path, _ in news]
    for (path, one), (new_path, other) in zip(olds, news):
        if path != new_path and has_name(path) and has_name(new_path) and (path in new_paths or new_path in old_paths):
            return True
        if isinstance(one, Enum) and isinstance(other, Enum):
            if swapped(one.names, other.names) or any(map(is_moved, one.contents, other.contents)):
                return True
        inner, new_inner = content(one), content(other)
        if inner and new_inner and inner[0] == new_inner[0] and is_moved(inner[1], new_inner[1]):
            return True
    return False


def check_word(old, new, answer):
    """Requires that the answer's own example and names are as its word says."""
    word, example = answer["verdict"], answer.get("example")
    found = check_example(old, new, example) if example else None
    if word in ALLOWED:
        require(not is_moved(old, new), f"{word}, but a name is moved")
        require(found is None or found in ALLOWED[word], f"{word}, but the example is {found}")
        require(word != "refuses" or found == "refused", "refuses, but no example is refused")
        require((word == "same") == (not answer.get("differences")), f"{word}, and the differences are {answer.get('differences')}")
    elif word == "misread":
        require(example and "new" in example and "rest" not in example, "misread, but NEW reads no example whole")
        require(found == "misread" or example["old"] != example["new"] or is_moved(old, new), "misread, but the example is read as the same")
    else:
        require(word == "differs" and answer.get("differences"), f"{word} without a difference")
        require(found in (None, "refused", "front", "misread front"), f"differs, but the example is {found}")


def messages_of(old, new, chance):
    """Messages of OLD: all, if they are few, and those messages of NEW that OLD could have written."""
    values = all_values(old, 300) or [some_value(chance, old) for _ in range(24)]
    found = {written(old, value) for value in values}
    for _ in range(6):
        message = written(new, some_value(chance, new), chance)
        try:
            value, rest = read(old, message)
        except Refused:
            continue
        if not rest and written(old, value) == message:
            found.add(message)
    return sorted(found), values[:8]


def check_messages(old, new, word, chance):
    """Requires that the messages of OLD are read as the word says. Returns what becomes of each."""
    messages, values = messages_of(old, new, chance)
    if word == "same":
        messages += [written(old, value, chance) for value in values]
    found = Counter()
    for message in messages:
        became = outcome(new, message, said(old, read(old, message)[0]))
        require(became in ALLOWED.get(word, {became}), f"{word}, but {message.hex()} is {became}")
        found[became] += 1
    return found


def check_pair(program, old, new, seed):
    """Requires that the answer for a pair is right. Returns its word, what became of the messages, and whether it has an example."""
    lines, status = call(program, "--json", shown(old), shown(new))
    require(len(lines) == 1, f"{len(lines)} lines")
    answer = answer_of(lines[0])
    require(status == (answer["verdict"] != "same"), f"status {status} for {answer['verdict']}")
    check_word(old, new, answer)
    return answer["verdict"], check_messages(old, new, answer["verdict"], random.Random(seed)), "example" in answer


def rows():
    """The rows of the table of docs/EVOLVE.md: the types and the words of both directions."""
    with open(PAGE, encoding="utf-8") as file:
        text = file.read()
    found = re.findall(r"^\| `(.*?)` \| `(.*?)` \| (\w+) \| (\w+) \|$", text, re.M)
    return [(old.replace("\\|", "|"), new.replace("\\|", "|"), *words) for old, new, *words in found]


def check_row(program, old, new, forth, back):
    """Requires that the words of a row are those of the program, in all its forms."""
    lines, status = call(program, "--both", "--json", old, new)
    answers = [answer_of(line) for line in lines[:2]]
    require([it["verdict"] for it in answers] == [forth, back], f"the words are {[it['verdict'] for it in answers]}")
    require(status == ((forth, back) != ("same", "same")), f"status {status} with --both")
    for one, other, word, answer in ((old, new, forth, answers[0]), (new, old, back, answers[1])):
        check_word(parsed(one), parsed(other), answer)
        check_messages(parsed(one), parsed(other), word, random.Random(1))
        texts, status = call(program, "--framed", one, other)
        require(texts[0].startswith(f"{word}: "), f"the text begins with {texts[0]}")
        require(status == (word not in ("same", "front")), f"status {status} with --framed")


def tried(check, *words):
    """What the check returns, or what is wrong."""
    try:
        return check(*words)
    except (Wrong, Refused, ValueError, KeyError, IndexError, subprocess.TimeoutExpired) as wrong:
        return f"{type(wrong).__name__}: {wrong}"


def main(program, count=2000, seed=1):
    chance = random.Random(seed)
    pairs = [pair(chance) for _ in range(count)]
    table = rows()
    require(len(table) >= 20, f"docs/EVOLVE.md has {len(table)} rows")
    with ThreadPoolExecutor(os.cpu_count()) as threads:
        of_rows = list(threads.map(lambda it: tried(check_row, program, *it), table))
        of_pairs = list(threads.map(lambda it: tried(check_pair, program, *it[1], it[0]), enumerate(pairs)))
    wrong = [(*it[:2], found) for it, found in zip(table, of_rows) if found is not None]
    wrong += [(shown(old), shown(new), found) for (old, new), found in zip(pairs, of_pairs) if isinstance(found, str)]
    for old, new, found in wrong[:40]:
        print(f"checks/compat: pcard compat '{old}' '{new}': {found}")
    right = [it for it in of_pairs if not isinstance(it, str)]
    words, became = Counter(it[0] for it in right), sum((it[1] for it in right), Counter())
    unshown = sum(not has_example for word, _, has_example in right if word != "same")
    missed = sum(word == "differs" and messages["misread"] > 0 for word, messages, _ in right)
    print(f"pcard compat: {len(table)} rows of docs/EVOLVE.md; seed {seed}: {count} pairs, {', '.join(f'{n} {it}' for it, n in words.most_common())}; "
          f"{sum(became.values())} messages; {unshown} without an example, {missed} that differ and of which a message is misread; {len(wrong)} wrong")
    return 1 if wrong else 0


if __name__ == "__main__":
    sys.exit(main(sys.argv[1], *map(int, sys.argv[2:])))
