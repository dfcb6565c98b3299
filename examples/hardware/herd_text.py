"""Reads a herd test, in whichever language it is."""
import re

import herd_c
import herd_x86
from herd_program import Untold

OF_HERD, OF_C = r"\(\*.*?\*\)", r"/\*.*?\*/|//[^\n]*"


def blank(comments, text):
    """A text with blanks in place of comments, so that all else stands where it stood."""
    return re.sub(comments, lambda it: re.sub(r"[^\n]", " ", it[0]), text, flags=re.S)


def read(text):
    """The program of a test's text."""
    language = re.match(r"\s*(C|X86(?:_64)?)\s", text)
    if not language:
        raise Untold("the first word of a test is X86, X86_64 or C here", 0)
    if language[1] != "C":
        return herd_x86.read(blank(OF_HERD, text))
    # Between the functions' first and last lines `(*` begins no comment.
    begins = re.match(rf"(?:{OF_HERD}|[^{{])*?\{{(?:{OF_HERD}|[^}}])*\}}", text, re.S)
    first, last = begins.end() if begins else 0, text.rfind("}")
    return herd_c.read(blank(OF_HERD, text[:first]) + blank(OF_C, text[first:last]) + blank(f"{OF_HERD}|{OF_C}", text[last:]))
