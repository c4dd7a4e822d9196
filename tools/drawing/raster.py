"""A path with more lines than pixels, as an image: however long the job is, it is as large as the frame."""
import struct
import zlib
from base64 import b64encode

FINEST = 2            # cells of the image along a pixel
MOST_CELLS = 8e6      # to be drawn, all lines together; a path that is longer is drawn more coarsely, and then in part
MOST_BYTES = 500_000  # of an image; a larger one is made coarser
EMPTY, DRAWN = b"\xff" + bytes(255), b"\0" + b"\xff" * 255  # which cells are empty, and which are not


class Raster:
    """Cells with a colour's number each, 0 for none. Of two colours in one cell the greater number stays."""

    def __init__(self, frame, cells_in_pixel):
        self.frame, self.fine = frame, cells_in_pixel
        self.width, self.height = int(frame.width * self.fine) + 2, int(frame.height * self.fine) + 2
        self.cells = bytearray(self.width * self.height)

    def draw(self, here, there, number):
        """A line between two places in pixels."""
        fine, cells, width = self.fine, self.cells, self.width
        x, y = (here[0] - self.frame.left) * fine, (here[1] - self.frame.top) * fine
        x_way, y_way = (there[0] - here[0]) * fine, (there[1] - here[1]) * fine
        count = int(max(abs(x_way), abs(y_way))) + 1
        beside = 0 if fine == 1 else 1 if abs(y_way) > abs(x_way) else width
        x_way, y_way = x_way / count, y_way / count
        for _ in range(count + 1):
            at = int(y) * width + int(x)
            if cells[at] < number:
                cells[at] = number
            if cells[at + beside] < number:
                cells[at + beside] = number
            x += x_way
            y += y_way

    def widen(self):
        """Makes lines a cell wider, and fills gaps of up to two cells between them."""
        for shift, reach in ((1, 0), (self.width, 0), (self.width, 2), (self.width, 1), (1, 2), (1, 1)):
            self.fill(shift, reach)

    def fill(self, shift, reach):
        """Fills empty cells from those so many before them; with a reach those alone from which the next cell that is drawn is
        so many times as far behind."""
        size = len(self.cells)
        whole = int.from_bytes(self.cells, "little")
        empty = int.from_bytes(self.cells.translate(EMPTY), "little")
        if reach:
            empty &= int.from_bytes(self.cells.translate(DRAWN), "little") >> 8 * shift * reach
        whole |= (whole << 8 * shift) & empty
        self.cells = bytearray((whole & ((1 << 8 * size) - 1)).to_bytes(size, "little"))

    def element(self, colours):
        """The image, by the colours of the numbers from 1 on. If it is too large, every second cell is left out."""
        self.widen()
        rows = [self.cells[at:at + self.width] for at in range(0, len(self.cells), self.width)]
        data, frame = png(rows, colours), self.frame
        if len(data) > MOST_BYTES:
            data = png([row[::2] for row in rows[::2]], colours)
        return (f'<image x="{frame.left:.1f}" y="{frame.top:.1f}" width="{self.width / self.fine:.1f}" '
                f'height="{self.height / self.fine:.1f}" preserveAspectRatio="none" '
                f'xlink:href="data:image/png;base64,{b64encode(data).decode("ascii")}"/>')


def chunk(name, data):
    """A part of a PNG file."""
    return struct.pack(">I", len(data)) + name + data + struct.pack(">I", zlib.crc32(name + data))


def png(rows, colours):
    """A PNG file of rows of cells by their colours; cells with 0 let through what is behind."""
    palette = b"\xff\xff\xff" + b"".join(bytes.fromhex(colour[1:]) for colour in colours)
    head = struct.pack(">IIBBBBB", len(rows[0]), len(rows), 8, 3, 0, 0, 0)
    return (b"\x89PNG\r\n\x1a\n" + chunk(b"IHDR", head) + chunk(b"PLTE", palette) + chunk(b"tRNS", b"\0")
            + chunk(b"IDAT", zlib.compress(b"".join(b"\0" + row for row in rows), 9)) + chunk(b"IEND", b""))
