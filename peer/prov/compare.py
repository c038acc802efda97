#!/usr/bin/python3
"""Holds what a program `lineage` prints beside the W3C data model of Debian's python3-prov.

    compare.py PEER LINEAGE [SEEDS]         the examples and the books of so many seeds
    compare.py --draw FILE PEER BOOK KEY    a picture of the walk of a key, drained

What a walk met, who sent it and of what causes comes from the peer's `inspect`, not from the
text that is compared. From that a document is built with the library, and the statements that
the program printed are compared with the library's, one by one and in their order. Ends with 1
if one differs, and with 2 if the library isn't installed.
"""

import pathlib
import re
import subprocess
import sys

try:
    from prov.constants import PROV_N_MAP
    from prov.model import ProvDocument
except ImportError:
    print("python3-prov isn't installed: no lineage is compared with it")
    sys.exit(2)

EXAMPLES = pathlib.Path(__file__).resolve().parent.parent.parent / "examples"
NAMESPACE = ("r", "urn:runs:")


def output(command, book=b""):
    return subprocess.run(command, input=book, stdout=subprocess.PIPE, check=True).stdout


class Machine:
    """What an inspection tells of a machine: senders, causes and walks, by their keys."""

    def __init__(self, lines):
        self.sender, self.causes, self.walk, self.refusal = {}, {}, {}, {}
        for line in lines:
            letter, *words = line.split()
            if letter == "V" and words[1] == "0":
                key = int(words[0])
                self.sender[key] = int(words[2])
                pairs = [word for word in words if ":" in word]
                self.causes[key] = [int(pair.split(":")[0]) for pair in pairs]
            elif letter == "W" and words[1] == "0":
                # The key, 0, how many keys, how many lookups, the keys.
                self.walk[int(words[0])] = [int(word) for word in words[4:]]
            elif letter == "W":
                self.refusal[int(words[0])] = words[1]


def machines(peer, book):
    """The machine after a book and after its drain, the latter only if no store is down."""
    lines = output([peer, "inspect"], book).decode().splitlines()
    drains = [index for index, line in enumerate(lines) if line.startswith("drain ")]
    if not drains:
        return []
    taken = lines[drains[0]].startswith("drain 0 ")
    before, after = Machine(lines[: drains[0]]), Machine(lines[drains[0] :])
    return [([], before)] + ([(["drained"], after)] if taken else [])


def document(machine, key):
    """The walk of a key in the library's model."""
    made = ProvDocument()
    made.add_namespace(*NAMESPACE)
    keys = machine.walk[key]
    for met in keys:
        made.entity(f"r:i{met}")
    for sender in dict.fromkeys(machine.sender[met] for met in keys):
        made.activity(f"r:a{sender}")
    for met in keys:
        sender = f"r:a{machine.sender[met]}"
        made.wasGeneratedBy(f"r:i{met}", sender)
        for cause in machine.causes[met]:
            made.used(sender, f"r:i{cause}")
            made.wasDerivedFrom(f"r:i{met}", f"r:i{cause}")
    return made


def statements_of_document(made):
    for record in made.get_records():
        formal = [value for _, value in record.formal_attributes]
        arguments = [record.identifier] + formal if record.is_element() else formal
        yield PROV_N_MAP[record.get_type()], ["-" if a is None else str(a) for a in arguments]


def statements_of_text(text):
    """The statements of a text, or nothing where its frame isn't that of a document."""
    prefix, address = NAMESPACE
    lines = text.split("\n")
    opening, ending = ["document", f"prefix {prefix} <{address}>"], ["endDocument", ""]
    if lines[:2] != opening or lines[-2:] != ending:
        return None
    matches = [re.fullmatch(r"(\w+)\((.*)\)", line) for line in lines[2:-2]]
    if not all(matches):
        return None
    return [(match[1], match[2].split(",")) for match in matches]


def agree(one, other):
    """Whether two statements say the same: PROV-N lets arguments at the end go unsaid."""
    (one_name, ones), (other_name, others) = one, other
    length = max(len(ones), len(others))
    filled = [list(given) + ["-"] * (length - len(given)) for given in (ones, others)]
    return one_name == other_name and filled[0] == filled[1]


def same(machine, key, text):
    if key not in machine.walk:
        return text == f"refused {machine.refusal[key]}\n"
    found = statements_of_text(text)
    expected = list(statements_of_document(document(machine, key)))
    return (
        found is not None
        and len(found) == len(expected)
        and all(agree(one, other) for one, other in zip(found, expected))
    )


def books(peer, seeds):
    for path in sorted(EXAMPLES.glob("*.book")):
        yield path.stem, path.read_bytes()
    for seed in range(seeds):
        yield f"seed {seed}", output([peer, "generate", str(seed)])


def compare(peer, lineage, seeds):
    documents = count = 0
    for name, book in books(peer, seeds):
        for words, machine in machines(peer, book):
            for key in [*machine.walk, *machine.refusal]:
                text = output([lineage, str(key), *words], book).decode()
                count += 1
                documents += key in machine.walk
                if not same(machine, key, text):
                    print(f"{name}, lineage {' '.join([str(key), *words])} differs:\n{text}")
                    return 1
    print(f"{count} calls, {documents} documents: python3-prov has the same statements")
    return 0


def draw(picture, peer, path, key):
    try:
        from prov.dot import prov_to_dot
    except ImportError:
        print("python3-prov can't draw here: no picture is drawn")
        return 0
    _, machine = machines(peer, pathlib.Path(path).read_bytes())[-1]
    dot = prov_to_dot(document(machine, int(key)), direction="RL", show_element_attributes=False)
    dot.write(picture, format=pathlib.Path(picture).suffix[1:])
    return 0


def main(words):
    if len(words) == 5 and words[0] == "--draw":
        return draw(*words[1:])
    if len(words) in (2, 3):
        return compare(words[0], words[1], int(words[2]) if len(words) == 3 else 60)
    print(__doc__, file=sys.stderr)
    return 2


sys.exit(main(sys.argv[1:]))
