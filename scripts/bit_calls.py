"""Collects input lines for crates/vx_calls with their expected output lines, and writes bytes as these lines have them."""
import os
import zlib


def summed(data):
    """Returns the length of bytes and their Adler-32."""
    return f"{len(data)}#{zlib.adler32(data):08x}"


def told(data):
    """Returns bytes as the program prints them."""
    return summed(data) if len(data) > 64 else data.hex() or "-"


def spelled(*parts):
    """Returns the word for parts: each is bytes, or a pair of bytes and how often they are repeated."""
    words = [part.hex() if isinstance(part, bytes) else f"{part[0].hex()}*{part[1]}" for part in parts]
    return "+".join(word for word in words if word) or "-"


def joined(*parts):
    """Returns the bytes of such parts."""
    return b"".join(part if isinstance(part, bytes) else part[0] * part[1] for part in parts)


def listed(numbers):
    """Returns numbers with commas, or `-` for none."""
    return ",".join(str(number) for number in numbers) or "-"


def unit_told(stream, place, length):
    """Returns a unit of a stream as the program prints it."""
    return f"{place}+{length}:{told(stream[place:place + length])}"


class Calls:
    """The input lines, and the expected output lines."""

    def __init__(self):
        self.asked, self.answered = [], []

    def about(self, text):
        """Adds a comment on the lines after it."""
        self.asked += ["", f"# {text}"]

    def call(self, line, answer):
        """Adds a line and its expected output."""
        self.asked.append(line)
        self.answered.append(answer)

    def sum(self, line, answer):
        """Adds a line of which the program prints only the sum of its output."""
        self.call(f"sum {line}", summed(answer.encode()))

    def write(self, folder):
        for name, lines in [("stdin", self.asked), ("stdout", self.answered)]:
            with open(os.path.join(folder, name), "w") as file:
                file.write("\n".join(lines).lstrip("\n") + "\n")
