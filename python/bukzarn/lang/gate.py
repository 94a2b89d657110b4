"""The gate's verdict on an image, with the cause in words: refusals 1 to 16 (document 01, "Turned back at the gate").

The engine's own verdict is the one that counts; this one is there to say which record it is and why. Refusals 17 and 18
are about the memory that the engine is lent, not about the image.
"""
from . import kinds, rules, types
from .layout import Refused, laid_out


def verdict(image, domains=None):
    """None if the image is accepted, else a Refused. `domains` are the domains' names, for the words."""
    try:
        tables = laid_out(image)
        ordered(tables)
        used_once(tables)
        shallow(tables)
        rules.well_typed(tables, types.Writer(domains, tables.names(), 80))
    except Refused as refused:
        return refused
    return None


def ordered(tables):
    """Refusal 10: the masks name present domains and are a partial order."""
    masks = tables.masks
    for d, mask in enumerate(masks):
        cause = domain_fault(masks, d, mask)
        if cause:
            raise Refused(10, tables.domains[d].offset, f"domain {d} {cause}")


def domain_fault(masks, d, mask):
    if mask >> len(masks):
        return "names a domain that the image has not"
    if not mask >> d & 1:
        return "is not below itself: its mask lacks its own bit"
    for e, other in enumerate(masks):
        if e != d and mask >> e & 1:
            if other >> d & 1:
                return f"and domain {e} are each below the other"
            if other & ~mask:
                f = (other & ~mask).bit_length() - 1
                return f"is below domain {e}, which is below {f}, but not below {f} itself"
    return ""


def used_once(tables):
    """Refusal 11: each term but the last is the child of exactly one record."""
    uses = [0] * len(tables.terms)
    for record in tables.terms:
        for child in record.children:
            uses[child] += 1
    for n, record in enumerate(tables.terms[:-1]):
        if uses[n] != 1:
            raise Refused(11, record.offset, f"term {n} is used {uses[n]} times")


def shallow(tables):
    """Refusal 12: no term is deeper than 64; the root has depth 1."""
    depths = [1] * len(tables.terms)
    for n in range(len(tables.terms) - 1, -1, -1):
        for child in tables.terms[n].children:
            depths[child] = depths[n] + 1
    for n, depth in enumerate(depths):
        if depth > kinds.DEPTH_LIMIT:
            raise Refused(12, tables.terms[n].offset, f"term {n} has depth {depth}, the limit is {kinds.DEPTH_LIMIT}")
