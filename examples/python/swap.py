"""The calls of the installed swap library by ctypes, with the standard library alone.

    swap = Swap("/usr/local")
    output = bytearray(swap.constant["SWAP_REPORT_SIZE"])
    refusal, count = swap.call("swap_report", sheet, setup, journal, output)

Calls, constants and refusals come out of the installed table, which is made of the C header: nothing of it is repeated here. A
slice is bytes, a buffer that a call writes to is a bytearray, a number is an int.
"""

import ctypes
import pathlib


class Swap:
    """The library below a prefix, as ./install writes it."""

    def __init__(self, prefix):
        prefix = pathlib.Path(prefix)
        table = (prefix / "share" / "swap" / "table.tsv").read_text(encoding="ascii")
        self.library = ctypes.CDLL(str(prefix / "lib" / "libswap.so"))
        self.calls, self.refusals, self.constant = {}, {}, {}
        for kind, *fields in (line.split("\t") for line in table.splitlines()):
            if kind == "constant":
                self.constant[fields[0]] = int(fields[1])
            elif kind == "refusal":
                self.refusals[int(fields[0])] = (fields[1], fields[2])
            elif kind == "call":
                self.calls[fields[0]] = fields[1:]

    def call(self, name, *values):
        """Calls it: the refusal and the count. Where nothing is refused, a bytearray holds what the call wrote."""
        parameters = self.calls[name]
        if len(values) != len(parameters):
            raise TypeError(f"{name} takes {len(parameters)} values")
        given = []
        for parameter, value in zip(parameters, values):
            kind = parameter.partition(":")[0]
            if kind == "number":
                given.append(ctypes.c_uint32(value))
            elif kind == "in":
                given += [ctypes.c_char_p(bytes(value)), ctypes.c_size_t(len(value))]
            else:
                given += [(ctypes.c_uint8 * len(value)).from_buffer(value), ctypes.c_size_t(len(value))]
        function = self.library[name]
        function.restype = ctypes.c_uint32
        answer = function(*given)
        return answer >> 16, answer & 0xFFFF

    def number(self, row, name):
        """The four-byte number of a row that begins at this constant's offset."""
        at = self.constant[name]
        return int.from_bytes(row[at : at + 4], "little")
