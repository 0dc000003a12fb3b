"""The functions of the crates: what is said of them, and the clauses that they promise."""
import re
import typing

FUNCTION = re.compile(r"( *)(pub(?:\([a-z]+\))? )?(?:const )?(?:unsafe )?fn (\w+)")
CLAUSE = re.compile(r"^ *ensures\*?(?: (\w+))? \{", re.MULTILINE)
BLOCK = re.compile(r"(?:pub(?:\([a-z]+\))? )?(?:unsafe )?(?:trait (\w+)|impl *(?:([\w:]+) for )?&?(?:mut )?([\w:]+))")


class Function(typing.NamedTuple):
    """A function of a source file."""
    name: str
    # The type, or the trait, that it stands in, or "", and the trait that it implements, or "".
    owner: str
    trait: str
    # Whether it is `pub`, or a function of a trait.
    is_open: bool
    # The lines above it, without `///`.
    doc: list
    # Its lines from `fn` to the one before its body, and all of them.
    contract: list
    lines: list


def block_in(line):
    """The type, or the trait, whose functions stand behind this line, the trait that it implements, and whether it is a trait."""
    found = BLOCK.match(re.sub(r"<[^<>]*>", "", re.sub(r"<[^<>]*>", "", line.replace("->", ""))))
    if not found:
        return "", "", False
    trait, implemented, owner = found.groups()
    return trait or owner.split("::")[-1], (implemented or "").split("::")[-1], bool(trait)


def functions_in(text):
    """The functions of a source file, in their order."""
    functions, doc, current, indent, in_contract = [], [], None, "", False
    owner, trait, is_trait = "", "", False
    for line in text.splitlines():
        found = FUNCTION.match(line)
        if line.strip().startswith("///"):
            doc.append(line.strip()[3:].strip())
            continue
        if found and len(found[1]) == (4 if owner else 0):
            indent, in_contract = found[1], True
            current = Function(found[3], owner, trait, found[2] == "pub " or is_trait, doc, [], [])
            functions.append(current)
        elif re.match(r"(?:pub(?:\([a-z]+\))? )?(?:unsafe )?(?:impl|trait)\b", line):
            owner, trait, is_trait = block_in(line)
        if current:
            in_contract = in_contract and line not in (f"{indent}{{", f"{indent}{{}}")
            current.lines.append(line)
            if in_contract:
                current.contract.append(line)
            if found:
                in_contract = not line.endswith(("{", "{}"))
        if line in ("}", f"{indent}}}", f"{indent}{{}}"):
            current = None
        if line == "}":
            owner, trait, is_trait = "", "", False
        if not line.strip().startswith("#["):
            doc = []
    return functions


def clauses_in(contract):
    """Each clause of a contract: its label, or "", and the comment that it stands under.

    A comment heads one clause, or in a contract with blank lines each clause up to the next of these.
    """
    clauses, comment, behind = [], [], False
    in_groups = "" in contract
    for line in contract:
        found = CLAUSE.match(line)
        if line.strip().startswith("//"):
            comment = ([] if behind else comment) + [line.strip()[2:].strip()]
            behind = False
        elif not line or (found and behind and not in_groups):
            comment = []
        if found:
            clauses.append((found[1] or "", tuple(comment)))
            behind = True
    return clauses


def facts_in(contract):
    """What each clause of a contract says, the text between its braces, in the order of `clauses_in`."""
    text = "\n".join(contract)
    for found in CLAUSE.finditer(text):
        depth, end = 1, found.end()
        while depth and end < len(text):
            depth += {"{": 1, "}": -1}.get(text[end], 0)
            end += 1
        yield " ".join(text[found.end():end - 1].split())
