"""Numbers, names and lists of WebAssembly's binary format, one after the other."""
from .errors import Unknown

VALUE_TYPES = {0x7F: "i32", 0x7E: "i64", 0x7D: "f32", 0x7C: "f64", 0x7B: "v128"}


class BytesReader:
    def __init__(self, data, at=0, end=None):
        self.data, self.at, self.end = data, at, len(data) if end is None else end

    def byte(self):
        if self.at >= self.end:
            raise Unknown(f"the object is truncated at byte {self.at}")
        self.at += 1
        return self.data[self.at - 1]

    def take(self, count):
        if self.at + count > self.end:
            raise Unknown(f"the object is truncated at byte {self.at}")
        self.at += count
        return self.data[self.at - count:self.at]

    def leb128(self):
        """A number in bytes of seven bits, the lowest first: its value, how many bits it has, and its last byte."""
        value = bits = 0
        while True:
            byte = self.byte()
            value |= (byte & 0x7F) << bits
            bits += 7
            if byte < 0x80:
                return value, bits, byte

    def unsigned(self):
        return self.leb128()[0]

    def signed(self):
        value, bits, last = self.leb128()
        return value - (1 << bits) if last & 0x40 else value

    def name(self):
        return self.take(self.unsigned()).decode()

    def list(self, item):
        return [item() for _ in range(self.unsigned())]

    def value_type(self):
        code = self.byte()
        if code not in VALUE_TYPES:
            raise Unknown(f"the value type {code:#x}")
        return VALUE_TYPES[code]
