"""libidn2's answers, by the calls that its program idn2 makes for a line of UTF-8.

The library is asked and not the program, since the program ends at the first line that it refuses.
"""

import ctypes
import ctypes.util

NFC_INPUT = 1
NON_TRANSITIONAL = 8


class LibIdn2:
    """Each call answers (text, None), or (None, the name of libidn2's error)."""

    def __init__(self):
        name = ctypes.util.find_library("idn2") or "libidn2.so.0"
        try:
            self.library = ctypes.CDLL(name)
        except OSError as error:
            raise SystemExit(f"no libidn2 here (Debian's package libidn2-0): {error}") from error
        self.library.idn2_strerror_name.restype = ctypes.c_char_p
        self.library.idn2_check_version.restype = ctypes.c_char_p
        self.library.idn2_free.argtypes = [ctypes.c_void_p]

    def version(self):
        return self.library.idn2_check_version(None).decode()

    def register(self, label):
        call = self.library.idn2_register_u8
        return self.answer(lambda output: call(label.encode(), None, output, NFC_INPUT))

    def lookup(self, name):
        call = self.library.idn2_lookup_u8
        return self.answer(lambda output: call(name.encode(), output, NFC_INPUT | NON_TRANSITIONAL))

    def decode(self, name):
        call = self.library.idn2_to_unicode_8z8z
        return self.answer(lambda output: call(name.encode(), output, 0))

    def answer(self, call):
        output = ctypes.c_void_p()
        error = call(ctypes.byref(output))
        if error:
            return None, self.library.idn2_strerror_name(error).decode()
        # A call of libidn2 can succeed and leave bytes that are no UTF-8.
        text = ctypes.string_at(output.value).decode("utf-8", "backslashreplace")
        self.library.idn2_free(output)
        return text, None
