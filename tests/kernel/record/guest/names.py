"""What dmsetup splits a name into, what libdevmapper builds of parts, and which texts its parser takes."""

import ctypes

from kernel import run

LIBRARY = "libdevmapper.so.1.02.1"
# The types of a value, by their numbers.
KINDS = ("int", "float", "str", "empty")


class Value(ctypes.Structure):
    """A value of libdevmapper's tree, and the one after it in its list."""


class Content(ctypes.Union):
    _fields_ = [("integer", ctypes.c_int64), ("float", ctypes.c_float), ("double", ctypes.c_double), ("string", ctypes.c_char_p)]


Value._fields_ = [("type", ctypes.c_int), ("content", Content), ("next", ctypes.POINTER(Value)), ("format", ctypes.c_uint32)]


class Node(ctypes.Structure):
    """A key with its value or its section, and the key after it."""


Node._fields_ = [("key", ctypes.c_char_p), ("parent", ctypes.POINTER(Node)), ("next", ctypes.POINTER(Node)),
                 ("child", ctypes.POINTER(Node)), ("value", ctypes.POINTER(Value)), ("id", ctypes.c_int)]


class Tree(ctypes.Structure):
    _fields_ = [("root", ctypes.POINTER(Node)), ("cascade", ctypes.c_void_p), ("memory", ctypes.c_void_p), ("custom", ctypes.c_void_p)]


def run_names(experiments):
    library = ctypes.CDLL(LIBRARY)
    library.dm_pool_create.restype = ctypes.c_void_p
    library.dm_pool_create.argtypes = [ctypes.c_char_p, ctypes.c_size_t]
    library.dm_build_dm_name.restype = ctypes.c_char_p
    library.dm_build_dm_name.argtypes = [ctypes.c_void_p] + [ctypes.c_char_p] * 3
    library.dm_config_from_string.restype = ctypes.POINTER(Tree)
    library.dm_config_from_string.argtypes = [ctypes.c_char_p]
    pool = library.dm_pool_create(b"names", 4096)
    return {"split": [[it] + split(it) for it in experiments["split"]],
            "build": [it + [build(library, pool, it)] for it in experiments["build"]],
            "text": [[it, tree(library.dm_config_from_string(it.encode()))] for it in experiments["text"]]}


def split(name):
    status, out, said = run(["dmsetup", "splitname", "-c", "--noheadings", "--separator", "|", "--", name])
    return [status, out.strip("\n"), said.strip()]


def build(library, pool, parts):
    """The name of a group, a volume and perhaps a layer; none if there is none."""
    name = library.dm_build_dm_name(pool, *(None if it is None else it.encode() for it in parts))
    return None if name is None else name.decode()


def tree(parsed):
    """What the parser made of a text: each key with its values and its section; none if it refused the text."""
    return nodes(parsed.contents.root) if parsed else None


def nodes(node):
    found = []
    while node:
        it = node.contents
        found.append([it.key.decode("utf-8", "replace"), values(it.value), nodes(it.child)])
        node = it.next
    return found


def values(value):
    found = []
    while value:
        content = value.contents.content
        kind = KINDS[value.contents.type]
        if kind == "int":
            found.append("int %d" % content.integer)
        elif kind == "float":
            found.append("float %r" % content.float)
        else:
            found.append("str " + content.string.decode("utf-8", "replace") if kind == "str" else kind)
        value = value.contents.next
    return found
