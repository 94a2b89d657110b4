"""From text to an image."""
from dataclasses import dataclass

from . import kinds, recordform, terms
from .header import Head
from .lexer import Place, SourceError
from .parser import Parser, Watches


@dataclass
class Assembled:
    """An image, the places of its terms in the text by offset, and the names of its domains."""
    image: bytes
    places: dict
    domains: list


def assemble(text, file="text", watches=()):
    """The image of a procedure's text with the texts of watches (pairs of text and file name) in its place for them.
    What is wrong in a text is a SourceError."""
    if recordform.is_records(text):
        if watches:
            raise SourceError(Place(file, 1), "a text of records takes no watches")
        return Assembled(*recordform.assemble(text, file), [])
    head, hung = Head(), Watches(list(watches))
    parser = Parser(text, file, head, hung)
    try:
        parser.headlines()
        if not head.domains:
            parser.fail("a text starts with its domains: domain NAME")
        laid = terms.lay_out(parser.whole(), head.masks(), head.types.values())
    except RecursionError:
        raise SourceError(parser.place, f"the text is nested too deeply, and an image at most {kinds.DEPTH_LIMIT} deep") from None
    if hung.texts and not hung.place:
        parser.fail("the procedure has no place for watches: write 'watches at DOMAIN;' where they are to be installed")
    return Assembled(laid.image, laid.places, head.domains)
