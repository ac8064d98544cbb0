"""The functions of a source, as rt check --only names them, where their bodies are, and what other crates see of them."""
import hashlib
import os
import re

from rooms import sources_of

FN = re.compile(r"\bfn\s+(\w+)")
# A type at the top of a source.
TYPE = re.compile(r"^(?:pub(?:\([\w ]+\))? )?(?:struct|enum) (\w+)", re.M)
# The end of what is before a clause's brace.
CLAUSE = re.compile(r"\b(requires|ensures|ghost)\b[^{};]*$")
# What is computed before the program runs, for which the bodies of the functions that it calls are read.
CONSTANT = re.compile(r"^(?:[ \t\w()]+\s)?(?:const|static)\s+\w+\s*:.*?;\s*$|\[[^][;]*;[^]]*\]", re.M | re.S)


def words_of(text, parameters):
    """The words of a type or a trait as the names of impls have them, as VecParticipant of Vec<Participant>, or
    ArrayU8 of [u8; N]."""
    words = [word.split("::")[-1] for word in re.findall(r"'\w+|&|\[(?=[^][]*;)|\w[\w:]*", text)]
    words = [{"&": "Ref", "[": "Array"}.get(word, word) for word in words if not word.startswith("'")]
    return "".join(word[0].upper() + word[1:] for word in words if word not in parameters)


def name_of(head):
    """The name of the module, trait or impl that has this head, as the names of its functions have it."""
    head = " ".join(head.split())
    found = re.search(r"\b(mod|trait)\s+(\w+)", head)
    if found:
        return found[2]
    found = re.search(r"\bimpl\b\s*(.*)", head)
    if not found:
        return None
    rest, parameters = found[1], set()
    if rest.startswith("<"):
        ends = [at for at in range(len(rest)) if rest[: at + 1].count("<") == rest[: at + 1].count(">")]
        listed, rest = rest[1 : ends[0]], rest[ends[0] + 1 :]
        parameters = set(re.findall(r"(?:^|,)\s*(?:const\s+)?(\w+)", re.sub(r"<[^<>]*>", "", listed)))
    trait, is_trait, of = rest.partition(" where ")[0].partition(" for ")
    if is_trait:
        return words_of(of, parameters) + words_of(trait, parameters)
    words = [it.split("::")[-1] for it in re.findall(r"(?<!')\b\w[\w:]*", trait)]
    if all(it in parameters for it in words[1:]):
        return words_of(trait, parameters)
    # An impl for some arguments of a type alone is named by all of them.
    return "+".join(words)


def modules_of(path):
    """The names of the modules that a source is."""
    return [it for it in path.removesuffix(".rt").split("/")[1:] if it not in ("lib", "main", "mod")]


def is_inherent(head):
    """Whether the head is of an impl of no trait."""
    head = " ".join(head.split()).partition(" where ")[0]
    return bool(re.search(r"\bimpl\b", head)) and " for " not in head


def functions_of(path, text, homes):
    """The functions of a source, each as its path for --only, its head, and where it begins, where its body does and
    where it ends. 'text' is the source with blanks for comments and literals, and 'homes' has the modules of each type:
    a method that belongs to no trait is named by them, also where its impl is in another module."""
    names = modules_of(path)
    # What is open at a place: its head, of a clause none, where that begins, where the brace is, and how many other
    # brackets stand open before it.
    above, start, depth = [], 0, 0
    for mark in re.finditer(r"[][(){};]", text):
        is_clause = bool(above) and above[-1][0] is None
        if mark[0] in "[]()":
            depth += 1 if mark[0] in "[(" else -1
            continue
        if mark[0] == "{":
            head = text[start : mark.start()]
            is_clause = is_clause or bool(FN.search(head) and CLAUSE.search(head))
            above.append((None if is_clause else head, start, mark.start(), depth))
            depth = 0
        elif mark[0] == "}" and above:
            head, begin, brace, depth = above.pop()
            is_clause, found = head is None, head and FN.search(head)
            if found:
                modules = [name_of(it[0]) for it in above]
                home = homes.get(modules[0], names) if len(above) == 1 and is_inherent(above[0][0]) else names
                function = None if None in modules else "::".join([*home, *modules, found[1]])
                yield function, head, begin, brace, mark.end()
        elif depth:
            continue
        if not is_clause:
            start = mark.end()


# The proofs of a function by hand, which no other function's proof reads.
BY_HAND = ("Answers.antt", "Invariants.antt")


def sum_of_shown(folder):
    """A sum of what the crates above see of the crate in this folder: its definitions, its lemmas, and its sources without
    comments and without the bodies of functions, but for those that compute constants."""
    found = hashlib.sha256()
    for path, blanked in sorted(sources_of(folder).items()):
        with open(f"{folder}/{path}", encoding="latin-1", newline="") as it:
            text = it.read()
        for _, head, _, brace, end in functions_of(path, blanked, {}):
            if not re.search(r"\bconst\b", head):
                text = text[:brace] + re.sub(r"[^\n]", " ", text[brace:end]) + text[end:]
        lines = [it.split() for it in text.split("\n") if it.strip() and not it.strip().startswith("//")]
        found.update(repr((path, lines)).encode())
    for part in ("specs", "proofs"):
        for at, folders, names in os.walk(f"{folder}/{part}"):
            folders.sort()
            for name in sorted(names):
                if name.endswith(".antt") and name not in BY_HAND:
                    with open(f"{at}/{name}", "rb") as it:
                        found.update(repr((os.path.relpath(f"{at}/{name}", folder), it.read())).encode())
    return found.hexdigest()
