"""Bits to bytes and back, high bit first."""


class BitWriter:
    """Collects fields; the last byte is filled up with zeros."""

    def __init__(self):
        self.value = 0
        self.length = 0

    def put(self, value, width):
        if not 0 <= value < 1 << width:
            raise ValueError(f"{value} does not fit in {width} bits")
        self.value = self.value << width | value
        self.length += width

    def bytes(self):
        padding = -self.length % 8
        return (self.value << padding).to_bytes((self.length + padding) // 8, "big")


class OutOfBits(Exception):
    """A field runs past the last byte."""


class BitReader:
    """Takes fields off; a field that runs past the end reads nothing."""

    def __init__(self, data):
        self.value = int.from_bytes(data, "big")
        self.total = 8 * len(data)
        self.length = 0

    def get(self, width):
        if self.length + width > self.total:
            raise OutOfBits
        self.length += width
        return self.value >> (self.total - self.length) & ((1 << width) - 1)
