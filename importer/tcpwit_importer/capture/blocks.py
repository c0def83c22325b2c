"""A file that is read by blocks, so that records can be taken from a block without a call for each field."""

# How many bytes are read at once: of all that follows, for a record that is near the one before, and for one that is
# far.
SIZE, NEAR, FEW = 1 << 17, 1 << 14, 1 << 11


class Blocks:
    """A file in blocks. `block` has bytes that were read ahead; those before `at` are used. Its first byte has the
    offset `start` in the file."""

    def __init__(self, file):
        self.file, self.block, self.at, self.start = file, b"", 0, 0

    @property
    def offset(self):
        """The offset of the next byte."""
        return self.start + self.at

    def read(self, length):
        """The next bytes: fewer only at the end of the file. Of a pipe, no more are awaited."""
        begin, self.at = self.at, self.at + length
        if self.at <= len(self.block):
            return self.block[begin:self.at]
        found, self.start = self.block[begin:], self.start + len(self.block)
        more = self.file.read(length - len(found))
        self.block, self.at, self.start = b"", 0, self.start + len(more)
        return found + more if found else more

    def fill(self):
        """Reads ahead, unless much was. Returns whether there was more."""
        more = b"" if len(self.block) - self.at >= SIZE else self.file.read(SIZE)
        self.block, self.start, self.at = self.block[self.at:] + more, self.offset, 0
        return bool(more)

    def go_to(self, offset):
        """Goes to an offset in a file that can be read in any order, and reads ahead if it isn't in the block: only a
        little if it's far away."""
        self.at = offset - self.start
        if not 0 <= self.at < len(self.block):
            self._load(offset, NEAR if 0 <= self.at < len(self.block) + NEAR else FEW)

    def load(self, offset):
        """Goes to an offset, and reads much ahead."""
        self._load(offset, SIZE)

    def _load(self, offset, size):
        self.file.seek(offset)
        self.block, self.start, self.at = self.file.read(size), offset, 0
