"""Quotations in comments, and whether the papers have them."""
import re

from .specs import NO_CODE

ELLIPSIS = re.compile(r"\s*(?<!\.)\.\.(?!\.)\s*")
APART = ".{0,400}?"  # what an ellipsis leaves out at most
OPENS_AFTER = re.compile(r"[\s(\[]")


def plain(text):
    """A text in single blanks, without the signs of markdown: code, stress, and the dashes of a list."""
    return " ".join(re.sub(r"[`*]|^- ", "", text, flags=re.M).split())


def comments(text):
    """The comments of a file, those of lines that follow each other as one, each with its first line's number."""
    found, last = [], -1
    for comment in NO_CODE.finditer(text):
        if comment[0].startswith('"'):
            continue
        line = text.count("\n", 0, comment.start())
        alone = not text[text.rfind("\n", 0, comment.start()) + 1 : comment.start()].strip()
        words = comment[0].strip("{-} ")
        if alone and found and line == last + 1:
            found[-1][1].append(words)
        else:
            found.append((line + 1, [words]))
        last = line if alone else -1
    return [(line, plain(" ".join(lines))) for line, lines in found]


def quotations(text):
    """The outermost quotations of a comment, those inside them as they stand; none where the marks do not match."""
    found, starts, opened = [], [], set()
    for at in (at for at, sign in enumerate(text) if sign == '"'):
        if at == 0 or OPENS_AFTER.match(text[at - 1]) or at - 1 in opened:
            opened.add(at)
            starts.append(at)
        elif starts:
            start = starts.pop()
            if not starts:
                found.append(text[start + 1 : at])
        else:
            return None
    return None if starts else found


def has(paper, quotation):
    """Whether a paper has a quotation: its parts between ellipses in this order, not far apart, from word to word."""
    parts = [whole_words(part) for part in ELLIPSIS.split(quotation) if part]
    return bool(parts) and re.search(APART.join(parts), paper) is not None


def whole_words(part):
    start = r"(?<!\w)" if part[0].isalnum() else ""
    end = r"(?!\w)" if part[-1].isalnum() else ""
    return start + re.escape(part) + end
