"""An image as a picture: Graphviz text of its tree of terms and of the order of its domains.

A term is a box with its number, what it is, and its type; its colour is the domain at which it runs. A body that runs
at another domain than what is around it hangs on a thick line. In the order of the domains an arrow goes up.
"""
from . import kinds, types
from .layout import laid_out
from .terms import child_domains, Term

COLOURS = ("white", "lightyellow", "lightblue", "lightpink", "lightgreen", "lavender", "wheat", "lightcyan",
           "mistyrose", "honeydew", "thistle", "khaki", "powderblue", "peachpuff", "palegreen", "gainsboro")


def quoted(text):
    return '"' + text.replace("\\", "\\\\").replace('"', '\\"').replace("\n", "\\n") + '"'


def said(record, writer):
    """What a term is, in a few words."""
    name, fields = kinds.name(record.kind), record.fields[1:]
    if record.kind == kinds.ARITHMETIC:
        return kinds.OPERATIONS[fields[0]]
    if record.kind == kinds.TRUTH:
        return "true" if fields[0] else "false"
    if record.kind == kinds.LOWER:
        return f"lower to {writer.domain(fields[0])}"
    if record.kind == kinds.TAKEDOWN:
        return f"takedown of {writer.domain(fields[0])}"
    if record.kind == kinds.CALL:
        return f"call {types.method(fields[1])}"
    if record.kind == kinds.MATCH:
        entries = ["pointcut" if entry else "any" for entry in record.parts("x")]
        return f"match [{', '.join(entries + ['rest'] * fields[-1])}]"
    return f"{name} {fields[0]}" if record.kind in (kinds.NUMBER, kinds.VARIABLE) else name


def covers(tables):
    """The pairs of domains of which one is directly below the other."""
    n = len(tables.domains)
    below = {(d, e) for d in range(n) for e in range(n) if d != e and tables.below(d, e)}
    between = {(d, e) for d, f in below for g, e in below if f == g}
    return sorted(below - between)


def domains_of(tables):
    """The domain at which each term runs, from the root down; 0 for what the root does not reach."""
    here = [0] * len(tables.terms)
    for n in range(len(tables.terms) - 1, -1, -1):
        record = tables.terms[n]
        children = record.children
        e = Term(record.kind, tables.types[record.fields[0]], record.fields[1:])
        for c, domain in zip(children, child_domains(e, len(children), here[n])):
            here[c] = domain
    return here


def picture(image, domains=None):
    """The Graphviz text of an image that is laid out; else Refused."""
    tables = laid_out(image)
    writer, here = types.Writer(domains, tables.names()), domains_of(tables)
    lines = ["digraph image {", "  node [shape=box, style=filled, fontname=sans, fontsize=10];", "  ordering=out;"]
    lines += ["  subgraph cluster_domains {", '    label="order of the domains";']
    for d in range(len(tables.domains)):
        lines.append(f"    d{d} [shape=ellipse, fillcolor={COLOURS[d]}, label={quoted(writer.domain(d))}];")
    lines += [f"    d{e} -> d{d} [dir=back];" for d, e in covers(tables)]
    lines += ["  }", "  subgraph cluster_terms {", '    label="terms";']
    for n, record in enumerate(tables.terms):
        own = writer.text(tables.types[record.fields[0]])
        label = quoted(f"{n}: {said(record, writer)}\n{own}")
        lines.append(f"    e{n} [fillcolor={COLOURS[here[n]]}, label={label}];")
    for n, record in enumerate(tables.terms):
        for c in record.children:
            lines.append(f"    e{n} -> e{c}{' [penwidth=3]' if here[c] != here[n] else ''};")
    legend = "".join(line + "\n" for line in writer.legend())
    note = [f"  types [shape=note, fillcolor=white, label={quoted(legend)}];"] if legend else []
    return "\n".join(lines + ["  }", *note, "}"]) + "\n"
