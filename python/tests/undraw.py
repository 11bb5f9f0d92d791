"""Reads a diagram back as ABNF: what a test compares with the grammar that was drawn."""
import re


def undrawn(item):
    """Returns the ABNF of what a diagram's item shows: what every way through it spells."""
    kind = type(item).__name__
    if kind == "Skip":
        return '""'
    if kind == "NonTerminal":
        return item.text
    if kind == "Terminal":
        return terminal(item.text)
    if kind == "Comment":
        return '0""' if item.text == "nothing" else item.text
    if kind in ("Sequence", "Stack"):
        return "(" + " ".join(undrawn(it) for it in item.items) + ")"
    if kind == "Choice":
        return "(" + " / ".join(undrawn(it) for it in item.items) + ")"
    if kind == "OneOrMore":
        return loop(undrawn(item.item), item.rep)
    raise ValueError(kind)


def terminal(text):
    """Returns the ABNF of a box."""
    if text.startswith("one of "):
        return "(" + " / ".join(f'"{it}"' for it in text[7:].split(" ")) + ")"
    found = re.fullmatch(r"(.+) \.\. (.+)", text)
    if found:
        first, last = (f"{ord(it[1]):02X}" if it.startswith('"') else it[2:] for it in found.groups())
        return f"%x{first}-{last}"
    return text


def loop(inner, back):
    """Returns the ABNF of what goes round, with what stands on the way back."""
    if type(back).__name__ == "Skip":
        return f"(1*{inner})"
    if type(back).__name__ == "Comment":
        for pattern, form in (
            (r"(\d+) times or more", r"\1*"),
            (r"at most (\d+) times", r"1*\1"),
            (r"(\d+) to (\d+) times", r"\1*\2"),
            (r"(\d+) times", r"\1"),
        ):
            found = re.fullmatch(pattern, back.text)
            if found:
                return f"({found.expand(form)}{inner})"
    return f"({inner} *({undrawn(back)} {inner}))"
