"""The shapes of a schema (docs/FORMATS.md) for the types of YANG, and what of the types they don't keep. Standard library only."""
import re
from collections import Counter
from dataclasses import dataclass, replace

# How many texts an enum has at most, and of which signs each is (docs/FORMATS.md).
MOST_TEXTS = 256
ENUM_TEXT = re.compile(r"[A-Za-z0-9_.:-]+")

# The integer shapes and their values.
INTEGERS = {f"int{bits}": (-(2 ** (bits - 1)), 2 ** (bits - 1) - 1) for bits in (8, 16, 32, 64)}
INTEGERS |= {f"uint{bits}": (0, 2**bits - 1) for bits in (8, 16, 32, 64)}
GREATEST_LENGTH = 2**64 - 1
GREATEST_DECIMAL = 2**63 - 1
# What a union loses of its members beside their types.
RESTRICTIONS = ("range", "length", "pattern", "leafref")


@dataclass(frozen=True)
class Loss:
    """A statement that isn't kept, or not wholly: its argument where that is short, what becomes of it, and how many of it
    there are. Of nodes that are dropped, how many they are."""
    statement: str
    what: str = "dropped"
    argument: str = ""
    count: int = 1
    nodes: int = 0

    def line(self, path):
        argument = f" {self.argument}" if self.argument else ""
        count = f" ({self.count})" if self.count > 1 else ""
        return f"{path}: {self.statement}{argument}{count}: {self.what}"


def merged(parts):
    """A range's parts, with those joined between which nothing lies."""
    joined = []
    for least, greatest in parts:
        if joined and joined[-1][1] + 1 == least:
            joined[-1] = (joined[-1][0], greatest)
        else:
            joined.append((least, greatest))
    return joined


def part_text(parts, places=0):
    def text(number):
        if not places:
            return str(number)
        whole, rest = divmod(abs(number), 10**places)
        return f"{'-' if number < 0 else ''}{whole}.{rest:0{places}}"
    return "|".join(text(a) if a == b else f"{text(a)}..{text(b)}" for a, b in parts)


def integer_shape(kind, ranges):
    """The shape of an integer's type: a narrower one of the same sign where that has just the range, and is written alike in
    JSON, as those of at most 32 bits are (RFC 7951 6.1)."""
    parts = merged(ranges)
    if not parts or parts == [INTEGERS[kind]]:
        return kind, []
    sign = kind.rstrip("0123456789")
    if not kind.endswith("64"):
        for shape, values in INTEGERS.items():
            if parts == [values] and shape.rstrip("0123456789") == sign:
                return shape, []
    return kind, [Loss("range", argument=part_text(parts))]


def decimal_shape(type_):
    parts = merged(type_.ranges)
    if not parts or parts == [(-GREATEST_DECIMAL - 1, GREATEST_DECIMAL)]:
        return f"dec{type_.digits}", []
    return f"dec{type_.digits}", [Loss("range", argument=part_text(parts, type_.digits))]


def octets_shape(shape, type_):
    """Of a string or of octets."""
    losses, parts = [], merged(type_.lengths)
    if parts and parts != [(0, GREATEST_LENGTH)]:
        losses.append(Loss("length", argument=part_text(parts)))
    if type_.patterns:
        losses.append(Loss("pattern", count=type_.patterns))
    return shape, losses


def enum_shape(statement, texts):
    """An enum of these texts, or a string where a schema has no such enum."""
    odd = [text for text in texts if not ENUM_TEXT.fullmatch(text)]
    if odd:
        return "string", [Loss(statement, f'kept as string, since an enum can\'t have the text "{odd[0]}"')]
    if len(texts) > MOST_TEXTS:
        return "string", [Loss(statement, f"kept as string, since {len(texts)} texts are more than {MOST_TEXTS}")]
    return f"enum({'|'.join(texts)})", []


def identity_shape(type_, module):
    """An enum of the names of identities as RFC 7951 6.8 has them: with their module, and also without it where that is the
    leaf's."""
    if not type_.identities:
        bases = " and ".join(type_.bases)
        return "string", [Loss("identityref", f"kept as string, since no identity of these modules derives from {bases}")]
    texts = []
    for of, name in type_.identities:
        texts += [name] * (of == module) + [f"{of}:{name}"]
    return enum_shape("identityref", texts)


# How the values of a type are written in JSON (RFC 7951 6).
def form_of(type_):
    if type_.base == "leafref":
        return form_of(type_.real)
    if type_.base in ("boolean", "empty"):
        return type_.base
    return "number" if type_.base in INTEGERS and not type_.base.endswith("64") else "string"


def texts_of(shape):
    return set(shape[5:-1].split("|")) if shape.startswith("enum(") else set()


def shape_word(shape):
    """A shape without the texts of an enum."""
    return shape.split("(")[0]


def takes(shape, other, form):
    """Whether a leaf of this shape takes all values of another shape, which are written in JSON in this form."""
    if form == "empty":
        return False
    if other in INTEGERS and shape in INTEGERS:
        return INTEGERS[shape][0] <= INTEGERS[other][0] and INTEGERS[other][1] <= INTEGERS[shape][1]
    if other in INTEGERS and shape.startswith("dec"):
        most = GREATEST_DECIMAL // 10 ** int(shape[3:])
        return -most <= INTEGERS[other][0] and INTEGERS[other][1] <= most
    if shape == "string":
        return form == "string"
    return shape == other or bool(texts_of(other)) and texts_of(other) <= texts_of(shape)


def union_shape(type_, module):
    """The shape of the first member that takes all, or a string. Nothing is lost where a member of that shape, without a loss
    of its own, has all values that the union has, and in the same form."""
    members = [(*shape_of(member, module), form_of(member)) for member in type_.members]
    forms = {form for _, _, form in members}
    shape = next((it for it, _, _ in members if all(takes(it, other, form) for other, _, form in members)), None)
    if shape is not None and len(forms) == 1 and any(it == shape and not losses for it, losses, _ in members):
        return shape, []
    what = "kept as string" if shape is None else f"kept as {shape_word(shape)}, the first member that takes all"
    if shape is None and forms != {"string"}:
        what += "; what isn't a string in JSON is to be written as one"
    restrictions = [loss for _, losses, _ in members for loss in losses if loss.statement in RESTRICTIONS]
    return shape or "string", gathered([Loss("union", what), *restrictions])


def gathered(losses):
    """Equal losses as one."""
    counts = Counter()
    for loss in losses:
        counts[replace(loss, count=1)] += loss.count
    return [replace(loss, count=count) for loss, count in counts.items()]


def shape_of(type_, module):
    """The shape of a type at a node of this module, and what is lost of the type."""
    kind = type_.base
    if kind in INTEGERS:
        return integer_shape(kind, type_.ranges)
    if kind == "leafref":
        shape, losses = shape_of(type_.real, module)
        return shape, losses + [Loss(kind, f"kept as {shape_word(shape)} without a reference")] * type_.is_required
    if kind == "decimal64":
        return decimal_shape(type_)
    if kind in ("string", "binary"):
        return octets_shape(kind, type_)
    if kind == "enumeration":
        return enum_shape(kind, type_.texts)
    if kind == "identityref":
        return identity_shape(type_, module)
    if kind == "union":
        return union_shape(type_, module)
    if kind == "boolean":
        return "bool", []
    if kind == "empty":
        return "bool", [Loss("empty", "kept as bool, true in place of [null]")]
    return "string", [Loss(kind, "kept as string")]
