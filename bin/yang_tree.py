"""The tree that YANG modules compile to, read by libyang 2 (`libyang.so.2`) through ctypes. Standard library only.

`compiled` loads modules, with the features that are asked for, and gives what libyang makes of them (RFC 7950): groupings
used, augments and deviations made, disabled features left out. Structures are laid out as the public headers of libyang 2
have them; `compiled` first reads a small module of its own, and refuses a library that lays them out otherwise.
"""
import ctypes
import os
import re
from ctypes import POINTER, byref, c_char_p, c_int, c_int32, c_int64, c_uint16, c_uint32, c_uint64, c_uint8, c_void_p
from dataclasses import dataclass, field

LIBRARY = "libyang.so.2"

# enum LY_DATA_TYPE, by its numbers
BASES = ("unknown", "binary", "uint8", "uint16", "uint32", "uint64", "string", "bits", "boolean", "decimal64", "empty",
         "enumeration", "identityref", "instance-identifier", "leafref", "union", "int8", "int16", "int32", "int64")
# LYS_ node types
KINDS = {0x0001: "container", 0x0002: "choice", 0x0004: "leaf", 0x0008: "leaf-list", 0x0010: "list", 0x0020: "anyxml",
         0x0060: "anydata", 0x0080: "case"}
# LYS_ flags of compiled nodes
CONFIG, MANDATORY, PRESENCE, BY_USER, KEY = 0x01, 0x20, 0x80, 0x40, 0x0100
# options of a context: no searching but by the callback, no ietf-yang-library, all features of imported modules on, and
# compiled once all is loaded
OPTIONS = 0x0008 | 0x0010 | 0x0004 | 0x0100 | 0x0080
YANG, YIN = 1, 3
NOT_FOUND = 5


class YangError(Exception):
    """Modules that can't be found, read or compiled; its text is what to say of it, in one line or more."""


class NoLibyang(YangError):
    """No libyang 2 is there, or one whose structures are others."""


@dataclass
class Type:
    """A compiled type; a leafref's `real` is the type of its target, a union has no unions among its members."""
    base: str
    digits: int = 0
    ranges: list = field(default_factory=list)  # pairs of the least and the greatest value, scaled for decimal64
    lengths: list = field(default_factory=list)
    patterns: int = 0
    texts: list = field(default_factory=list)  # of an enumeration, in the order of the module; of bits, by position
    identities: list = field(default_factory=list)  # pairs of module and name, by module and then as they are defined
    bases: list = field(default_factory=list)
    members: list = field(default_factory=list)
    path: str = ""
    prefixes: dict = field(default_factory=dict)
    is_required: bool = False  # require-instance
    real: "Type" = None


@dataclass(eq=False)
class Node:
    """A node of the compiled tree; choices and cases are nodes too."""
    kind: str
    name: str
    module: str
    parent: "Node"
    is_config: bool = False
    is_mandatory: bool = False
    is_presence: bool = False
    is_by_user: bool = False
    is_key: bool = False
    children: list = field(default_factory=list)
    least: int = 0
    most: int = None  # where there is a max-elements
    musts: int = 0
    whens: int = 0
    defaults: list = field(default_factory=list)  # of a choice: the name of its default case
    uniques: list = field(default_factory=list)  # of each unique the paths of its leaves
    actions: int = 0
    notifications: int = 0
    type: Type = None

    def data_parent(self):
        """The node above that isn't a choice or a case."""
        above = self.parent
        while above is not None and above.kind in ("choice", "case"):
            above = above.parent
        return above


@dataclass
class Module:
    name: str
    revision: str
    is_implemented: bool
    nodes: list
    rpcs: int
    notifications: int


class CModule(ctypes.Structure):
    _fields_ = [(name, c_void_p) for name in ("ctx",)] + [
        (name, c_char_p) for name in ("name", "revision", "ns", "prefix", "filepath", "org", "contact", "dsc", "ref")] + [
        (name, c_void_p) for name in ("parsed", "compiled", "identities", "augmented_by", "deviated_by")] + [
        (name, c_uint8) for name in ("implemented", "to_compile", "latest_revision")]


class CCompiled(ctypes.Structure):
    _fields_ = [(name, c_void_p) for name in ("mod", "data", "rpcs", "notifs", "exts")]


class CNode(ctypes.Structure):
    _fields_ = [("nodetype", c_uint16), ("flags", c_uint16), ("hash", c_uint8 * 4), ("module", POINTER(CModule)),
                ("parent", c_void_p), ("next", c_void_p), ("prev", c_void_p), ("name", c_char_p), ("dsc", c_char_p),
                ("ref", c_char_p), ("exts", c_void_p), ("priv", c_void_p)]


class CLeaf(ctypes.Structure):
    _fields_ = [("node", CNode), ("musts", c_void_p), ("when", c_void_p), ("type", c_void_p), ("units", c_char_p),
                ("dflt", c_void_p)]


class CLeafList(ctypes.Structure):
    _fields_ = [("leaf", CLeaf), ("min", c_uint32), ("max", c_uint32)]


class CList(ctypes.Structure):
    _fields_ = [("node", CNode)] + [(name, c_void_p) for name in ("child", "musts", "when", "actions", "notifs", "uniques")] + [
        ("min", c_uint32), ("max", c_uint32)]


class CChoice(ctypes.Structure):
    _fields_ = [("node", CNode)] + [(name, c_void_p) for name in ("cases", "when", "dflt")]


class CIdentity(ctypes.Structure):
    _fields_ = [("name", c_char_p), ("dsc", c_char_p), ("ref", c_char_p), ("module", POINTER(CModule)), ("derived", c_void_p),
                ("exts", c_void_p), ("flags", c_uint16)]


class CType(ctypes.Structure):
    _fields_ = [("exts", c_void_p), ("plugin", c_void_p), ("basetype", c_int), ("refcount", c_uint32)]


class CNumber(ctypes.Structure):
    """Of integers its range, of octets their length, of enumerations and bits their items, of identityrefs the bases, of
    unions the members."""
    _fields_ = [("type", CType), ("first", c_void_p), ("second", c_void_p)]


class CDecimal(ctypes.Structure):
    _fields_ = [("type", CType), ("digits", c_uint8), ("range", c_void_p)]


class CLeafref(ctypes.Structure):
    _fields_ = [("type", CType)] + [(name, c_void_p) for name in ("path", "prefixes", "cur_mod", "realtype")] + [
        ("require_instance", c_uint8)]


class CItem(ctypes.Structure):
    _fields_ = [("name", c_char_p), ("dsc", c_char_p), ("ref", c_char_p), ("exts", c_void_p), ("value", c_int32),
                ("flags", c_uint16)]


class CPrefix(ctypes.Structure):
    _fields_ = [("prefix", c_char_p), ("mod", POINTER(CModule))]


class CSigned(ctypes.Structure):
    _fields_ = [("least", c_int64), ("greatest", c_int64)]


class CUnsigned(ctypes.Structure):
    _fields_ = [("least", c_uint64), ("greatest", c_uint64)]


MODULE_CALLBACK = ctypes.CFUNCTYPE(c_int, c_char_p, c_char_p, c_char_p, c_char_p, c_void_p, POINTER(c_int),
                                   POINTER(c_void_p), POINTER(c_void_p))
LOG_CALLBACK = ctypes.CFUNCTYPE(None, c_int, c_char_p, c_char_p)


def library():
    """libyang 2, with the signatures of the calls that are made here."""
    try:
        yang = ctypes.CDLL(LIBRARY)
    except OSError as fault:
        raise NoLibyang(f"{LIBRARY} can't be loaded ({fault}); Debian 12 has it in the package libyang2") from None
    signatures = {
        "ly_ctx_new": (c_int, [c_char_p, c_uint16, POINTER(c_void_p)]),
        "ly_ctx_destroy": (None, [c_void_p]),
        "ly_ctx_set_module_imp_clb": (None, [c_void_p, MODULE_CALLBACK, c_void_p]),
        "ly_ctx_load_module": (POINTER(CModule), [c_void_p, c_char_p, c_char_p, POINTER(c_char_p)]),
        "ly_ctx_compile": (c_int, [c_void_p]),
        "ly_ctx_get_module_iter": (POINTER(CModule), [c_void_p, POINTER(c_uint32)]),
        "ly_ctx_internal_modules_count": (c_uint32, [c_void_p]),
        "ly_ctx_get_module_implemented": (POINTER(CModule), [c_void_p, c_char_p]),
        "lys_set_implemented": (c_int, [POINTER(CModule), POINTER(c_char_p)]),
        "ly_set_log_clb": (None, [LOG_CALLBACK, c_uint8]),
        "lysc_node_child": (c_void_p, [c_void_p]),
        "lysc_node_musts": (c_void_p, [c_void_p]),
        "lysc_node_when": (c_void_p, [c_void_p]),
        "lysc_node_actions": (c_void_p, [c_void_p]),
        "lysc_node_notifs": (c_void_p, [c_void_p]),
        "lyxp_get_expr": (c_char_p, [c_void_p]),
        "lyd_value_get_canonical": (c_char_p, [c_void_p, c_void_p]),
        "lys_identity_iffeature_value": (c_int, [c_void_p]),
    }
    for name, (result, arguments) in signatures.items():
        try:
            call = getattr(yang, name)
        except AttributeError:
            raise NoLibyang(f"{LIBRARY} has no call {name}") from None
        call.restype, call.argtypes = result, arguments
    return yang


def text_of(octets):
    return (octets or b"").decode("utf-8", "replace")


def count_of(array):
    """How many items a sized array of libyang has: the number before its first one."""
    return c_uint64.from_address(array - 8).value if array else 0


def pointers(array):
    return list((c_void_p * count_of(array)).from_address(array)) if array else []


def items(array, structure):
    return list((structure * count_of(array)).from_address(array)) if array else []


class Reader:
    """Reads the structures of one context."""

    def __init__(self, yang, context):
        self.yang, self.context = yang, context
        self.types = {}

    def modules(self, named):
        """All modules but those that each context has, which come first, where they aren't named."""
        found, index, internal = [], c_uint32(0), self.yang.ly_ctx_internal_modules_count(self.context)
        while True:
            number, module = index.value, self.yang.ly_ctx_get_module_iter(self.context, byref(index))
            if not module:
                return found
            if number >= internal or text_of(module.contents.name) in named:
                found.append(self.module(module.contents))

    def module(self, module):
        read = Module(text_of(module.name), text_of(module.revision), bool(module.implemented), [], 0, 0)
        if module.compiled:
            compiled = CCompiled.from_address(module.compiled)
            read.nodes = self.nodes(compiled.data)
            read.rpcs, read.notifications = self.length(compiled.rpcs), self.length(compiled.notifs)
        return read

    def length(self, first):
        """How many nodes a linked list has."""
        count = 0
        while first:
            first, count = CNode.from_address(first).next, count + 1
        return count

    def nodes(self, first):
        """The top nodes from this one on, with all that is below them."""
        tops = []
        pending = [(first, None, None, tops)]
        while pending:
            first, above, parent, place = pending.pop()
            while first:
                header = CNode.from_address(first)
                # The children of all cases of a choice are linked to one another.
                if header.parent != above:
                    break
                if header.nodetype in KINDS:
                    node = self.node(first, header, parent)
                    place.append(node)
                    pending.append((self.yang.lysc_node_child(first), first, node, node.children))
                first = header.next
        return tops

    def node(self, address, header, parent):
        node = Node(KINDS[header.nodetype], text_of(header.name), text_of(header.module.contents.name), parent)
        node.is_config = bool(header.flags & CONFIG)
        node.is_mandatory = bool(header.flags & MANDATORY)
        node.musts = count_of(self.yang.lysc_node_musts(address))
        node.whens = count_of(self.yang.lysc_node_when(address))
        node.actions = self.length(self.yang.lysc_node_actions(address))
        node.notifications = self.length(self.yang.lysc_node_notifs(address))
        if node.kind == "container":
            node.is_presence = bool(header.flags & PRESENCE)
        elif node.kind == "choice":
            chosen = CChoice.from_address(address).dflt
            node.defaults = [text_of(CNode.from_address(chosen).name)] if chosen else []
        elif node.kind == "list":
            entries = CList.from_address(address)
            self.read_limits(node, entries)
            node.uniques = [[self.path(leaf, address) for leaf in pointers(leaves)] for leaves in pointers(entries.uniques)]
        elif node.kind == "leaf":
            leaf = CLeaf.from_address(address)
            node.is_key = bool(header.flags & KEY)
            node.type = self.type(leaf.type)
            node.defaults = [self.value(leaf.dflt)] if leaf.dflt else []
        elif node.kind == "leaf-list":
            leaves = CLeafList.from_address(address)
            node.type = self.type(leaves.leaf.type)
            node.defaults = [self.value(value) for value in pointers(leaves.leaf.dflt)]
            self.read_limits(node, leaves)
        node.is_by_user = node.kind in ("list", "leaf-list") and bool(header.flags & BY_USER)
        return node

    @staticmethod
    def path(address, above):
        """The names of the data nodes from below one node to another."""
        names = []
        while address != above:
            node = CNode.from_address(address)
            if KINDS[node.nodetype] not in ("choice", "case"):
                names.append(text_of(node.name))
            address = node.parent
        return "/".join(reversed(names))

    def read_limits(self, node, structure):
        node.least = structure.min
        node.most = structure.max if structure.max not in (0, 0xFFFFFFFF) else None

    def value(self, address):
        return text_of(self.yang.lyd_value_get_canonical(self.context, address))

    def type(self, address):
        if address not in self.types:
            self.types[address] = self.new_type(address)
        return self.types[address]

    def new_type(self, address):
        kind = BASES[CType.from_address(address).basetype]
        read, parts = Type(kind), CNumber.from_address(address)
        if kind == "decimal64":
            decimal = CDecimal.from_address(address)
            read.digits, read.ranges = decimal.digits, self.bounds(decimal.range, CSigned)
        elif kind.startswith("int") and kind != "instance-identifier":
            read.ranges = self.bounds(parts.first, CSigned)
        elif kind.startswith("uint"):
            read.ranges = self.bounds(parts.first, CUnsigned)
        elif kind in ("string", "binary"):
            read.lengths = self.bounds(parts.first, CUnsigned)
            read.patterns = count_of(parts.second) if kind == "string" else 0
        elif kind in ("enumeration", "bits"):
            read.texts = [text_of(item.name) for item in items(parts.first, CItem)]
        elif kind == "identityref":
            self.read_identities(read, pointers(parts.first))
        elif kind == "union":
            read.members = [self.type(member) for member in pointers(parts.first)]
        elif kind == "leafref":
            leafref = CLeafref.from_address(address)
            read.path, read.is_required = text_of(self.yang.lyxp_get_expr(leafref.path)), bool(leafref.require_instance)
            read.prefixes = {text_of(it.prefix): text_of(it.mod.contents.name)
                             for it in items(leafref.prefixes, CPrefix) if it.mod}
            read.real = self.type(leafref.realtype)
        return read

    def bounds(self, address, structure):
        """The parts of a range or a length, whose array is its first field."""
        if not address:
            return []
        return [(part.least, part.greatest) for part in items(c_void_p.from_address(address).value, structure)]

    def read_identities(self, read, bases):
        """The identities that derive from all the bases (RFC 7950 9.10.2) and whose features are on."""
        common = None
        for base in bases:
            below, pending = set(), pointers(CIdentity.from_address(base).derived)
            while pending:
                identity = pending.pop()
                if identity not in below:
                    below.add(identity)
                    pending += pointers(CIdentity.from_address(identity).derived)
            common = below if common is None else common & below
        named = []
        for address in common or ():
            identity = CIdentity.from_address(address)
            if self.yang.lys_identity_iffeature_value(address) == 0:
                named.append((text_of(identity.module.contents.name), address, text_of(identity.name)))
        # The identities of a module lie in one array, in the order in which they are defined.
        read.identities = [(module, name) for module, _, name in sorted(named)]
        read.bases = [f"{text_of(it.module.contents.name)}:{text_of(it.name)}" for it in map(CIdentity.from_address, bases)]


FILE = re.compile(r"(?P<name>[^@]+)(?:@(?P<revision>\d{4}-\d\d-\d\d))?\.(?P<form>yang|yin)")
REVISION = re.compile(rb"""\brevision\s*(?:date\s*=)?\s*["']?(\d{4}-\d\d-\d\d)["']?\s*[{;>/]""")
HEAD = re.compile(rb"""(?:^|[\s;<}])(?:sub)?module\s+(?:name\s*=\s*)?["']?([A-Za-z_][A-Za-z0-9_.-]*)["']?\s*[{>\s]""")


def without_comments(octets):
    """YANG text without its comments; those in strings may go too, which is no matter for a module's head."""
    return re.sub(rb"/\*.*?\*/|//[^\n]*|<!--.*?-->", b" ", octets, flags=re.S)


class Sources:
    """The files of modules: those that were named, and those of folders, of which an earlier one comes first."""

    def __init__(self, folders):
        self.folders = folders
        self.named, self.texts = {}, {}
        self.found = [self.files(folder) for folder in folders]

    @staticmethod
    def files(folder):
        """Each module of a folder and of those below it, with its files."""
        found = {}
        for top, folders, names in os.walk(folder):
            folders.sort()
            for name in sorted(names):
                match = FILE.fullmatch(name)
                if match:
                    found.setdefault(match["name"], []).append((match["revision"], os.path.join(top, name)))
        return found

    def add(self, path):
        """A file, whatever its name; gives the module's name."""
        octets = self.octets(path)
        head = HEAD.search(without_comments(octets))
        name = text_of(head[1]) if head else os.path.basename(path).split("@")[0].rsplit(".", 1)[0]
        self.named[name] = path
        return name

    @staticmethod
    def octets(path):
        try:
            with open(path, "rb") as file:
                return file.read()
        except OSError as fault:
            raise YangError(f"{path}: {fault.strerror}") from None

    def text(self, name, revision):
        """What a module or a submodule is, and whether in YIN."""
        if name in self.texts:
            return self.texts[name], False
        path = self.path(name, revision)
        return (None, False) if path is None else (self.octets(path), path.endswith(".yin"))

    def path(self, name, revision):
        """The file of a module: the one that was named, else of the first folder that has it, in its latest revision where
        none is asked for."""
        if name in self.named and revision is None:
            return self.named[name]
        for files in self.found:
            dated = [(date or self.revision(path), path) for date, path in files.get(name, ())]
            if revision is not None:
                dated = [it for it in dated if it[0] == revision]
            if dated:
                latest = max(date for date, _ in dated)
                return next(path for date, path in dated if date == latest)
        return None

    def revision(self, path):
        dates = REVISION.findall(without_comments(self.octets(path)))
        return text_of(max(dates)) if dates else ""


class Context:
    """A context of libyang, its modules read from `sources`."""

    def __init__(self, yang, sources):
        self.yang, self.sources = yang, sources
        self.said, self.kept = [], []
        self.log, self.importer = LOG_CALLBACK(self.logged), MODULE_CALLBACK(self.imported)
        yang.ly_set_log_clb(self.log, 1)
        self.context = c_void_p()
        if yang.ly_ctx_new(None, OPTIONS, byref(self.context)):
            raise NoLibyang("libyang makes no context")
        yang.ly_ctx_set_module_imp_clb(self.context, self.importer, None)

    def logged(self, level, message, path):
        if level == 0:
            self.said.append(text_of(message) + (f" ({text_of(path)})" if path else ""))

    def imported(self, name, revision, submodule, submodule_revision, _, form, data, release):
        """Gives libyang the text of a module or a submodule."""
        try:
            wanted, date = (submodule, submodule_revision) if submodule else (name, revision)
            text, is_yin = self.sources.text(text_of(wanted), text_of(date) if date else None)
        except YangError as fault:
            self.said.append(str(fault))
            return NOT_FOUND
        if text is None:
            return NOT_FOUND
        text = ctypes.create_string_buffer(text)
        self.kept.append(text)
        form[0] = YIN if is_yin else YANG
        data[0] = ctypes.addressof(text)
        release[0] = None
        return 0

    def fault(self, what):
        return YangError("\n".join([what, *self.said]))

    def load(self, name, revision, features):
        module = self.yang.ly_ctx_load_module(self.context, os.fsencode(name), os.fsencode(revision) if revision else None,
                                              feature_array(features))
        if not module:
            wanted = f"{name}@{revision}" if revision else name
            if self.sources.path(name, revision) is None:
                where = ", ".join(self.sources.folders) or "no folder"
                raise self.fault(f"no module {wanted} in {where}")
            raise self.fault(f"module {wanted} can't be loaded:")

    def compile(self):
        if self.yang.ly_ctx_compile(self.context):
            raise self.fault("the modules don't compile (all features are on but those of --features):")

    def set_features(self, name, features):
        """The features of a module that others made implemented."""
        module = self.yang.ly_ctx_get_module_implemented(self.context, os.fsencode(name))
        if not module:
            raise YangError(f"features of {name}, which is no module that is implemented here")
        if self.yang.lys_set_implemented(module, feature_array(features)):
            raise self.fault(f"features of {name}:")

    def close(self):
        self.yang.ly_ctx_destroy(self.context)


def feature_array(features):
    return (c_char_p * (len(features) + 1))(*map(os.fsencode, features), None)


def compiled(modules, folders, features):
    """What these modules, each a name, `name@revision` or a file, compile to: all modules that are loaded for them, and the
    names of these. `features` has the features of the modules that don't have all of theirs."""
    yang = library()
    check_layout(yang)
    sources = Sources(folders)
    wanted = [(sources.add(it), None) if is_file(it) else (it.split("@")[0], it.partition("@")[2] or None) for it in modules]
    for name, revision in wanted:
        path = sources.path(name, revision) if revision else None
        if path:
            sources.named.setdefault(name, path)
    return read_tree(yang, sources, wanted, features), [name for name, _ in wanted]


def is_file(module):
    return "/" in module or module.endswith((".yang", ".yin"))


# A module that has one of each structure that is read, and what has to be read of it.
LAYOUT = b"""module layout {
  yang-version 1.1; namespace "urn:layout"; prefix l; revision 2024-01-02;
  feature off;
  identity base; identity kind { base base; } identity other { base kind; } identity absent { if-feature off; base base; }
  container box {
    presence "always"; must "true()"; notification bell;
    list row {
      key "id n"; unique "i in/d"; min-elements 2; max-elements 9; ordered-by user; action reset;
      leaf u { type uint8 { range "1..4 | 7"; } mandatory true; }
      leaf id { type string { length "1..4"; pattern "a+"; pattern "b*"; } }
      leaf n { type int32 { range "-5..6"; } }
      leaf i { type identityref { base base; } default other; when "../u"; }
      container in { leaf d { type decimal64 { fraction-digits 2; range "-1.5..2"; } } }
    }
    leaf-list names { type union { type enumeration { enum one; enum two; } type bits { bit a; bit b; } } default two; max-elements 3; }
    choice way { default b; leaf a { type leafref { path "/l:box/row[id=current()/../b]/l:n"; require-instance false; } } case b { leaf b { type binary { length "3"; } } } }
  }
  container state { config false; list any { leaf e { type empty; } } }
  rpc go; notification gone;
}
"""
LAYOUT_READ = """layout 2024-01-02 rpcs=1 notifications=1
container layout:box is_config is_presence musts=1 notifications=1
list layout:row is_config is_mandatory is_by_user least=2 most=9 uniques=[['i', 'in/d']] actions=1
leaf layout:id is_config is_key string lengths=[(1, 4)] patterns=2
leaf layout:n is_config is_key int32 ranges=[(-5, 6)]
leaf layout:u is_config is_mandatory uint8 ranges=[(1, 4), (7, 7)]
leaf layout:i is_config whens=1 defaults=['layout:other'] identityref identities=[('layout', 'kind'), ('layout', 'other')] bases=['layout:base']
container layout:in is_config
leaf layout:d is_config decimal64 digits=2 ranges=[(-150, 200)]
leaf-list layout:names is_config most=3 defaults=['two'] union(enumeration texts=['one', 'two'], bits texts=['a', 'b'])
choice layout:way is_config defaults=['b']
case layout:a is_config
leaf layout:a is_config leafref path='/l:box/row[id=current()/../b]/l:n' prefixes={'': 'layout', 'l': 'layout'} real=int32 ranges=[(-5, 6)]
case layout:b is_config
leaf layout:b is_config binary lengths=[(3, 3)]
container layout:state
list layout:any is_by_user
leaf layout:e empty"""


def type_words(type_):
    words = [type_.base]
    words += [f"{name}={value!r}" for name, value in vars(type_).items()
              if value and name not in ("base", "members", "real", "is_required")]
    words += ["is_required"] * type_.is_required + ([f"real={type_words(type_.real)}"] if type_.real else [])
    return " ".join(words) + (f"({', '.join(map(type_words, type_.members))})" if type_.members else "")


def module_words(module):
    """A module in lines, for comparing."""
    lines = [f"{module.name} {module.revision} rpcs={module.rpcs} notifications={module.notifications}"]
    pending = list(reversed(module.nodes))
    while pending:
        node = pending.pop()
        words = [node.kind, f"{node.module}:{node.name}"]
        words += [name if value is True else f"{name}={value!r}" for name, value in vars(node).items()
                  if value and name not in ("kind", "name", "module", "parent", "children", "type")]
        lines.append(" ".join(words + ([type_words(node.type)] if node.type else [])))
        pending += reversed(node.children)
    return "\n".join(lines)


def check_layout(yang):
    """Refuses a library whose structures aren't those of this file."""
    sources = Sources([])
    sources.texts["layout"] = LAYOUT
    (module,) = read_tree(yang, sources, [("layout", None)], {"layout": []})
    if module_words(module) != LAYOUT_READ:
        raise NoLibyang(f"{LIBRARY} has other structures than libyang 2.1, so what is read of it can't be trusted")


def read_tree(yang, sources, wanted, features):
    context = Context(yang, sources)
    try:
        for name, revision in wanted:
            context.load(name, revision, features.get(name, ["*"]))
        context.compile()
        others = sorted(features.keys() - {name for name, _ in wanted})
        for name in others:
            context.set_features(name, features[name])
        if others:
            context.compile()
        return Reader(yang, context.context).modules({name for name, _ in wanted})
    finally:
        context.close()
