"""Text from outside (a stack, a program, a file, a name), made safe for a terminal and for XML."""


def shown(text, kept=""):
    """Text or bytes with each unprintable character escaped, such as `\\x1b`, unless `kept` has it."""
    if isinstance(text, bytes):
        text = text.decode("utf-8", "surrogateescape")
    if text.isprintable():
        return text
    return "".join(each if each.isprintable() or each in kept else escaped(ord(each)) for each in text)


def escaped(number):
    """A character as its escaped number, as Python writes it. A byte that isn't UTF-8 is shown as the byte."""
    if 0xdc80 <= number <= 0xdcff:
        number -= 0xdc00
    if number < 0x100:
        return f"\\x{number:02x}"
    return f"\\u{number:04x}" if number < 0x10000 else f"\\U{number:08x}"
