"""What an LLVM module in bitcode says of its data layout.

clang is of no use for this: whatever it is asked of a module, it first puts the layout of
its target in place of the module's own. So the file is read here, as far as it takes
(LLVM's "LLVM Bitcode File Format"). It is a stream of bits, the lowest of an octet first:
records of numbers, in blocks. The layout is a record of the module's block whose numbers
are characters, and stands before anything that would need more than this reader has.
"""

MAGIC = b"BC\xc0\xde"
# What begins with these numbers, of as many bits as the block says.
BLOCK, RECORD = 1, 3
MODULE = 8
LAYOUT = 3


class Unreadable(Exception):
    """Why no data layout was found."""


class Bits:
    """Numbers of a stream of bits, one after the other."""

    def __init__(self, octets):
        self.all, self.at, self.end = int.from_bytes(octets, "little"), 0, 8 * len(octets)

    def number(self, width):
        found = self.all >> self.at & (1 << width) - 1
        self.skip(width)
        return found

    def chunks(self, width):
        """A number in chunks, of which each but the last has its highest bit set."""
        found, shift, more = 0, 0, True
        while more:
            chunk = self.number(width)
            more = chunk >> width - 1
            found |= (chunk & (1 << width - 1) - 1) << shift
            shift += width - 1
        return found

    def to_a_word(self):
        self.skip(-self.at % 32)

    def skip(self, width):
        self.at += width
        if self.at > self.end:
            raise Unreadable("it ends before its data layout")


def layout_of(path):
    """The data layout of the module in a file, as LLVM writes it."""
    with open(path, "rb") as file:
        octets = file.read()
    if octets[:4] != MAGIC:
        raise Unreadable("it is no bitcode")
    bits, width = Bits(octets[4:]), 2
    while True:
        begins = bits.number(width)
        if begins == BLOCK:
            block, own_width = bits.chunks(8), bits.chunks(4)
            bits.to_a_word()
            words = bits.number(32)
            if block == MODULE:
                width = own_width
            else:
                bits.skip(32 * words)
        elif begins == RECORD:
            code, count = bits.chunks(6), bits.chunks(6)
            numbers = [bits.chunks(6) for _ in range(count)]
            if width > 2 and code == LAYOUT:
                return "".join(map(chr, numbers))
        else:
            raise Unreadable("its data layout is not where it is expected")
