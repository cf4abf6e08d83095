"""The type that a method is of, for tests/edits and tests/promises: by name alone a module's methods can't be told apart."""
import re


def type_of(head):
    """The type of an impl, or the trait of a trait's block, by its first line."""
    rest, depth = re.match(r"(?:pub )?(?:impl|trait)\b(.*)", head)[1], 0
    for i, letter in enumerate(rest):
        depth += {"<": 1, ">": -1}.get(letter, 0)
        if depth == 0 and letter in "> ":
            return re.match(r"(?:.* for )?(?:&\S* ?)*(\w+|\(\))", rest[i + 1 :].strip())[1]
