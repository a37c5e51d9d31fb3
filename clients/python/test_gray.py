#!/usr/bin/env python3
"""Tests of the images of maps that python3-pil reads, which they need: the samples of each kind,
and which kinds are refused."""
import io
import struct
import unittest
import zlib

try:
    from PIL import Image
except ImportError:
    Image = None

from clearmap import RosError
from clearmap.gray import read_image

RGB = [(0, 0, 0), (1, 2, 3), (254, 254, 254), (205, 205, 205)]


def saved(mode, pixels, kind, **options):
    """An image of one row, written by python3-pil."""
    image, data = Image.new(mode, (len(pixels), 1)), io.BytesIO()
    image.putdata(pixels)
    image.save(data, kind, **options)
    return data.getvalue()


def png(depth, colours, row, width, clear=b""):
    """A PNG of one row, with the transparent sample that its tRNS tells."""

    def chunk(name, data):
        check = struct.pack(">I", zlib.crc32(name + data))
        return struct.pack(">I", len(data)) + name + data + check

    head = struct.pack(">IIBBBBB", width, 1, depth, colours, 0, 0, 0)
    parts = [chunk(b"IHDR", head), chunk(b"tRNS", clear) if clear else b""]
    parts += [chunk(b"IDAT", zlib.compress(b"\0" + row)), chunk(b"IEND", b"")]
    return b"\x89PNG\r\n\x1a\n" + b"".join(parts)


def tiff(order, bits, data, is_white_0=False):
    """A TIFF of two pixels in this order of bytes."""

    def entry(tag, kind, value):
        word = struct.pack(order + ("HH" if kind == 3 else "I"), value, *([0] if kind == 3 else []))
        return struct.pack(order + "HHI", tag, kind, 1) + word

    start = 8 + 2 + 9 * 12 + 4
    rows = ((256, 4, 2), (257, 4, 1), (258, 3, bits), (259, 3, 1), (262, 3, int(not is_white_0)),
            (273, 4, start), (277, 3, 1), (278, 4, 1), (279, 4, len(data)))  # fmt: skip
    head = (b"II*\0" if order == "<" else b"MM\0*") + struct.pack(order + "IH", 8, 9)
    return head + b"".join(entry(*row) for row in rows) + struct.pack(order + "I", 0) + data


def words(*numbers):
    return struct.pack(f">{len(numbers)}H", *numbers)


@unittest.skipIf(Image is None, "there is no PIL")
class Samples(unittest.TestCase):
    def test_known(self):
        """The largest sample, the samples, and which can be seen through: 1 for an opaque one."""
        palette = [0, 0, 0, 254, 254, 254]
        rows = (
            ("gray", saved("L", [0, 200], "PNG"), 255, [0, 200], ""),
            ("a clear gray", saved("L", [0, 200], "PNG", transparency=200), 255, [0, 200], "10"),
            ("no such gray", saved("L", [0, 200], "PNG", transparency=7), 255, [0, 200], ""),
            ("bits", saved("1", [0, 255], "PNG"), 255, [0, 255], ""),
            ("a clear bit", png(1, 0, b"\x40", 2, words(1)), 255, [0, 255], "10"),
            ("2 bits", png(2, 0, b"\x60", 2, words(2)), 255, [85, 170], "10"),
            ("4 bits", png(4, 0, b"\x5f", 2, words(5)), 255, [85, 255], "01"),
            ("16 bits", png(16, 0, words(5000, 65535), 2), 65535, [5000, 65535], ""),
            ("a clear one", png(16, 0, words(5000, 65535), 2, words(5000)), 65535, [5000, 65535], "01"),
            ("colours", saved("RGB", RGB, "PNG"), 765, [0, 6, 762, 615], ""),
            ("a clear colour", saved("RGB", RGB, "PNG", transparency=RGB[2]), 765, [0, 6, 762, 615], "1101"),
            ("16 bits a part", png(16, 2, words(0, 0, 0, 65535, 65535, 65535), 2), 765, [0, 765], ""),
            ("half seen", saved("RGBA", [(9, 9, 9, 255), (9, 9, 9, 254)], "PNG"), 765, [27, 27], "10"),
            ("gray half seen", saved("LA", [(9, 255), (9, 0)], "PNG"), 765, [27, 27], "10"),
            ("a TIFF", tiff(">", 8, b"\0\xc8"), 255, [0, 200], ""),
            ("a TIFF whose 0 is white", tiff("<", 8, b"\0\xc8", True), 255, [255, 55], ""),
            ("BMP", saved("RGB", RGB, "BMP"), 765, [0, 6, 762, 615], ""),
        )  # fmt: skip
        for name, data, most, samples, opaque in rows:
            image = read_image(data)
            self.assertEqual((image.most, list(image.samples)), (most, samples), name)
            self.assertEqual("".join(map(str, image.opaque)), opaque, name)
        by_palette = Image.new("P", (2, 1))
        by_palette.putpalette(palette)
        by_palette.putdata([0, 1])
        for clear, opaque in ((1, "10"), (b"\xff\x64", "10"), (b"\xff\xff", "")):
            data = io.BytesIO()
            by_palette.save(data, "PNG", transparency=clear)
            image = read_image(data.getvalue())
            self.assertEqual(list(image.samples), [0, 762], clear)
            self.assertEqual("".join(map(str, image.opaque)), opaque, clear)

    def test_refused(self):
        """What python3-pil tells otherwise than it is: such an image isn't taken."""
        rows = (
            ("the other order of bytes", tiff(">", 16, words(5000, 65535))),
            ("16 bits of a TIFF", tiff("<", 16, struct.pack("<HH", 5000, 65535))),
            ("of which 0 is white", tiff("<", 16, struct.pack("<HH", 5000, 65535), True)),
            ("32 bits", saved("I", [70000, 2**30], "TIFF")),
            ("floats", saved("F", [0.2, 300.0], "TIFF")),
            ("inks", saved("CMYK", [(0, 0, 0, 0), (0, 0, 0, 255)], "TIFF")),
            ("inks of a JPEG", saved("CMYK", [(0, 0, 0, 0)] * 2, "JPEG")),
            ("Lab", saved("LAB", [(0, 0, 0), (255, 0, 0)], "TIFF")),
            ("a clear colour of 16 bits", png(16, 2, words(*[300] * 6), 2, words(300, 300, 300))),
        )  # fmt: skip
        for name, data in rows:
            with self.assertRaises(RosError, msg=name) as caught:
                read_image(data)
            self.assertIn("make it a PGM, or a PNG of 8 bits", str(caught.exception), name)


if __name__ == "__main__":
    unittest.main()
