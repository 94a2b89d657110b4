"""What a file of the crates imports, and its words without comments and imports. What else stands in tools/house reads the crates by it."""
import re

# Definitions and laws: `use MODULE.{NAME, ..}`, `use MODULE as NAME`, in a source file behind `ghost`.
THEORY = re.compile(r"^[ \t]*(?:pub )?(?:ghost )?use ([^\s{};:]+?)(?:\.\{([^}]*)\}|[ \t]+as[ \t]+([^\s;]+))?;?[ \t]*$", re.M)

# Items of source files: `use PATH::NAME;`, `use PATH::{NAME, ..};`.
ITEMS = re.compile(r"^[ \t]*(pub )?use (\w+(?:::\w+)*)(?:::\{([^}]*)\})?(?: as (\w+))?;[ \t]*$", re.M)

# A module of a crate's own folders: `Rattle.CRATE.specs.MODULE`.
MODULE = re.compile(r"Rattle\.(\w+)\.(specs|proofs)\.(\S+)$")

# A law that an attribute of a source file names: `#[tactic(auto, using(CRATE::proofs::MODULE::NAME))]`.
NAMED = re.compile(r"\b(\w+)::(specs|proofs)::((?:\w+::)+)(\w+)")

# A word: what stands between signs that no name has.
WORD = re.compile(r"[^\s(){}\[\],;`\"⟦⟧]+")


def without_comments(text, suffix):
    """The text without its comments; its lines keep their numbers."""
    return re.sub(r"//[^\n]*", "", text) if suffix == ".rt" else re.sub(r"(^|(?<=\s))--(?=\s|$)[^\n]*", "", text, flags=re.M)


def without_imports(text):
    """The text of a file without comments, without its imports; its lines keep their numbers."""
    for form in (THEORY, ITEMS):
        text = form.sub(lambda found: "\n" * found[0].count("\n"), text)
    return text


def listed(names):
    """The names of a list in braces, each as (name, name here); a constructor behind its type, `All.none`, is `none` here."""
    pairs = (name.strip().split(" as ") for name in names.split(",") if name.strip())
    return [(pair[0].strip(), pair[-1].strip().split(".")[-1]) for pair in pairs]


def theory(text):
    """What a file without comments imports of definitions and laws: a module with the list of its names, or with none and its
    name here."""
    for module, names, alias in THEORY.findall(text):
        yield (module, listed(names), None) if names else (module, None, alias or module.split(".")[-1])


def items(text):
    """What a source file without comments imports of source files, for itself: each path, as words, with the name here."""
    for public, path, names, alias in ITEMS.findall(text):
        if public:
            continue
        words = path.split("::")
        if names:
            yield from ((words + name.split("::"), here.split("::")[-1]) for name, here in listed(names))
        else:
            yield words, alias or words[-1]


def named(text, own):
    """The laws that the attributes of a source file without comments name, each with its crate, folder and module; own is the
    file's crate."""
    for crate, part, words, name in NAMED.findall(text):
        yield (own if crate == "crate" else crate), part, words.split("::")[:-1], name


def place(module):
    """The crate, the folder and the rest of the name of a module of some crate; nothing of another."""
    found = MODULE.match(module)
    return (found[1], found[2], found[3].split(".")) if found else None
