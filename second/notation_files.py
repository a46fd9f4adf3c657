"""The bytes and the lines of the cases that show tables and pack texts."""

from checksums import checksum, low_first
from notation import MOST_BYTES, Fault, pack, show

# A byte and how often it stands in a text.
LONG_TEXTS = [(b" ", MOST_BYTES), (b" ", MOST_BYTES + 1), (b"\n", MOST_BYTES), (b"x", 300), (b"x", MOST_BYTES + 1),
              (b"#", MOST_BYTES), (b"\n", MOST_BYTES + 1), (b"#", MOST_BYTES + 1), (b"\0", MOST_BYTES + 1)]


# The bytes of a case that packs a text.
def pack_bytes(text):
    return b"P" + low_first(len(text), 4) + text


# The bytes of a case that packs a text of one byte so many times.
def long_bytes(byte, count):
    return b"L" + low_first(count, 4) + byte


# Length and checksum of some bytes.
def measured(data):
    return f"{len(data)} {checksum(data)}"


# The line of a case that packs a text: length and checksum of the table, or the fault as it is printed.
def pack_line(text):
    answer = pack(text)
    return answer.line.decode("ascii") if isinstance(answer, Fault) else f"packed {measured(answer)}\n"


# The line on a table's text and on what pack makes of it.
def text_line(data):
    text = show(data)
    answer = pack(text)
    packed = f"fault {measured(answer.line)}" if isinstance(answer, Fault) else f"packed {measured(answer)}"
    return f"text {measured(text)} {packed}\n"
