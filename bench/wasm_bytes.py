"""Parts of core modules and of components, as bytes, for the benches."""

CORE_HEADER = b"\0asm\1\0\0\0"
COMPONENT_HEADER = b"\0asm\x0d\0\1\0"


def number(value):
    """Unsigned LEB128."""
    found = bytearray()
    while value > 127:
        found.append(value % 128 + 128)
        value //= 128
    found.append(value)
    return bytes(found)


def name(text):
    return number(len(text)) + text.encode()


def section(id, content):
    return bytes([id]) + number(len(content)) + content


def vector(id, items):
    """A section that is a vector of items."""
    return section(id, number(len(items)) + b"".join(items))
