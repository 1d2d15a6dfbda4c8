"""Writes bits as text, and refusals as crates/vx_vectors prints them."""


class Bits:
    """Bits that are written one after another."""

    def __init__(self):
        self.text = ""

    def u(self, count, value):
        self.text += format(value, f"0{count}b")

    def ue(self, value):
        digits = format(value + 1, "b")
        self.text += "0" * (len(digits) - 1) + digits


def hexadecimal(bits):
    """Returns the bytes of bits, completed by a one and zeros, in hexadecimal."""
    padded = bits + "1" + "0" * (-(len(bits) + 1) % 8)
    return bytes(int(padded[i:i + 8], 2) for i in range(0, len(padded), 8)).hex()


def end_of(digits):
    """Returns the place of the last one bit in bytes."""
    return "".join(format(byte, "08b") for byte in bytes.fromhex(digits)).rindex("1")


def refused_syntax(field, bit, cause):
    """Returns the output line for a refusal at a field."""
    return f"refused Y field={field} bit={bit} cause={cause}"
