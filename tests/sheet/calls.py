"""The calls of include/ring.h on an office sheet, for python."""

import ctypes
import struct

COUNTS_BYTES = 16
ROW_BYTES = 15  # what a row has beside its name: two quotes, a comma, ten digits, CR and LF


class Calls:
    def __init__(self, library):
        self.library = ctypes.CDLL(library)
        for call in (self.library.ring_sheet_read, self.library.ring_sheet_write):
            call.argtypes = (ctypes.c_char_p, ctypes.c_size_t) * 4
            call.restype = ctypes.c_uint32

    def made(self, call, *buffers):
        """Makes a call on these buffers; answers its return, and the two counts."""
        counts = ctypes.create_string_buffer(COUNTS_BYTES)
        code = call(*(part for b in (*buffers, counts) for part in (b, len(b))))
        return code, *struct.unpack("<2Q", counts.raw)

    def read(self, text):
        """The hubs of a sheet, each a name and an identifier; or the number of the refusal."""
        identifiers = ctypes.create_string_buffer(len(text) + 2)
        names = ctypes.create_string_buffer(max(len(text), 1))
        code, rows, size = self.made(self.library.ring_sheet_read, text, identifiers, names)
        if code != 0:
            return code
        *every, rest = names.raw[:size].split(b"\0")
        assert rest == b"" and len(every) == rows, "not one name with its zero byte for each row"
        return list(zip(every, struct.unpack(f"<{rows}I", identifiers.raw[: 4 * rows])))

    def write(self, hubs):
        """The sheet of these hubs; or the number of the refusal."""
        names = b"".join(name + b"\0" for name, _ in hubs)
        identifiers = struct.pack(f"<{len(hubs)}I", *(identifier for _, identifier in hubs))
        text = ctypes.create_string_buffer(2 * len(names) + ROW_BYTES * len(hubs) + 1)
        code, rows, size = self.made(self.library.ring_sheet_write, names, identifiers, text)
        assert code != 0 or rows == len(hubs), "not one row for each hub"
        return text.raw[:size] if code == 0 else code
