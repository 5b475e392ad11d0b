"""The rows of `crates/anscheck_rows/data`: files, words, and what is to come of them.

`crates/anscheck_rows/src/table.rt` says what each key is. In bytes a character is the byte of its number.
"""
import os
import tomllib

FOLDER = os.path.join(os.path.dirname(os.path.abspath(__file__)), "../../crates/anscheck_rows/data")


def plain_record(columns, lines, file_size):
    """A SAUCE record of type Character/ANSi, without texts and comments."""
    return (
        b"SAUCE00" + b" " * 75 + b"19960101" + file_size.to_bytes(4, "little") + b"\1\1"
        + columns.to_bytes(2, "little") + lines.to_bytes(2, "little") + bytes(28)
    )


def file_of(content, columns=2, lines=1):
    """The content, one end mark and its record."""
    return content + b"\x1a" + plain_record(columns, lines, len(content))


def bytes_of(text):
    """The bytes whose numbers are those of the characters."""
    return text.encode("latin-1")


def record(fields):
    """The plain record with these texts from these offsets on."""
    held = bytearray(plain_record(2, 1, 2))
    for at, text in fields:
        held[at:at + len(text)] = bytes_of(text)
    return bytes(held)


def file_bytes(file):
    """The bytes of a file of a table."""
    pieces = [bytes_of(text) * count for count, text in file.get("times", [])] + [bytes_of(file.get("front", ""))]
    if "drawing" in file:
        content, columns, lines = file["drawing"]
        pieces.append(file_of(bytes_of(content), columns, lines))
    if "record" in file:
        pieces.append(record(file["record"]))
    return b"".join(pieces) + bytes_of(file.get("after", ""))


def tables():
    """Each table by its file's name."""
    for name in sorted(os.listdir(FOLDER)):
        if name.endswith(".toml"):
            with open(os.path.join(FOLDER, name), "rb") as f:
                yield name, tomllib.load(f)


def input_of(row):
    """The file on standard input of a row."""
    return row.get("input", {"drawing": row["drawing"]} if "drawing" in row else {})


def words_of(table, row):
    """The words of a row, and others that come to the same."""
    return [row.get("words", table.get("words", []))] + row.get("also", [])


def printed_of(row):
    """What a row is to print, or what that begins with."""
    return file_bytes(row["writes"]) if "writes" in row else row.get("prints", "").encode()
