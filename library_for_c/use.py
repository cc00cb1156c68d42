"""Asks the library by ctypes: use.py LIBRARY"""
import ctypes
import json
import sys

DONE, INVALID, OUT_OF_MEMORY, BUFFER_TOO_SMALL = range(4)
SIZE, BYTES, NUMBER = ctypes.c_size_t, ctypes.c_char_p, ctypes.POINTER(ctypes.c_size_t)
KEYS = """implementation_name implementation_version os_name platform_machine
platform_python_implementation platform_release platform_system platform_version
python_full_version python_version sys_platform""".split()
RELATIONS = """equal
disjoint
first implies second
second implies first
overlapping""".splitlines()


class Text(ctypes.Structure):
    _fields_ = [("bytes", BYTES), ("length", SIZE)]

    def __init__(self, text):
        data = text.encode()
        super().__init__(data, len(data))


class Span(ctypes.Structure):
    _fields_ = [("start", SIZE), ("length", SIZE)]


class Environment(ctypes.Structure):
    _fields_ = [(key, Text) for key in KEYS]


def texts(strings):
    """An array of texts."""
    return (Text * len(strings))(*map(Text, strings))


NONE = texts([])

class Library:
    """Calls with the default options, for one thread."""

    def __init__(self, path, room=256):
        self.calls = ctypes.CDLL(path)
        self.buffer = ctypes.create_string_buffer(room)
        self.needed, self.span, self.value = SIZE(), Span(), ctypes.c_bool()
        for name in ("requirement_normalize", "requirement_parts", "marker_normalize"):
            getattr(self.calls, f"pep508_{name}").argtypes = [
                BYTES, SIZE, ctypes.c_void_p, SIZE, BYTES, SIZE, NUMBER]
        self.calls.pep508_requirement_check.argtypes = [
            BYTES, SIZE, ctypes.c_void_p, SIZE, ctypes.POINTER(Span), BYTES, SIZE, NUMBER]
        self.calls.pep508_marker_evaluate.argtypes = [
            BYTES, SIZE, ctypes.POINTER(Environment), ctypes.POINTER(Text), SIZE,
            ctypes.c_void_p, SIZE, ctypes.POINTER(ctypes.c_bool)]
        self.calls.pep508_markers_compare.argtypes = [
            BYTES, SIZE, BYTES, SIZE, ctypes.c_void_p, SIZE, ctypes.POINTER(ctypes.c_int32)]

    def written(self, call, text):
        """What a call writes for a text, or None if the text is invalid."""
        data, needed = text.encode(), self.needed
        while True:
            buffer = self.buffer
            answer = call(data, len(data), None, 0, buffer, len(buffer), needed)
            if answer == DONE:
                return ctypes.string_at(buffer, needed.value).decode()
            if answer != BUFFER_TOO_SMALL:
                return None
            self.buffer = ctypes.create_string_buffer(needed.value)

    def is_requirement(self, text):
        """Whether a text is a requirement."""
        data, span, needed = text.encode(), self.span, self.needed
        return self.calls.pep508_requirement_check(
            data, len(data), None, 0, span, None, 0, needed) == DONE

    def normalize(self, marker):
        """The normal text of a marker."""
        return self.written(self.calls.pep508_marker_normalize, marker)

    def normalize_requirement(self, requirement):
        """The normal text of a requirement."""
        return self.written(self.calls.pep508_requirement_normalize, requirement)

    def parts(self, requirement):
        """The parts of a requirement, by their names."""
        text = self.written(self.calls.pep508_requirement_parts, requirement)
        return None if text is None else json.loads(text)

    def evaluate(self, marker, environment, extras=NONE):
        """Whether a marker is true there with these extras, or None if it is invalid."""
        data, value = marker.encode(), self.value
        answer = self.calls.pep508_marker_evaluate(
            data, len(data), environment, extras, len(extras), None, 0, value)
        return value.value if answer == DONE else None

    def compare(self, first, second):
        """How two markers relate, a word of RELATIONS, or None if one is invalid."""
        a, b, relation = first.encode(), second.encode(), ctypes.c_int32()
        answer = self.calls.pep508_markers_compare(
            a, len(a), b, len(b), None, 0, relation)
        return RELATIONS[relation.value] if answer == DONE else None


def main():
    library = Library(sys.argv[1], 10)
    linux = Environment(*map(Text, [
        "cpython", "3.12.1", "posix", "x86_64", "CPython", "6.1", "Linux", "#1", "3.12.1", "3.12",
        "linux"]))
    print(library.normalize_requirement("Requests [Security] >= 2.8.1 ; os_name == 'nt'"))
    print(library.parts("requests >= 2.8.1, < 3")["specifiers"])
    print(library.parts("requests >"))
    print(library.normalize("python_version >= '3.8' and extra == 'Dev'"))
    print(library.normalize("python_version is '3.8'"))
    print(library.evaluate("sys_platform == 'linux' and extra == 'dev'", linux, texts(["Dev"])))
    print(library.evaluate("sys_platform == 'linux' and extra == 'dev'", linux))
    print(library.is_requirement("requests >"), library.compare("os_name == 'nt'", "os_name < 'x'"))


if __name__ == "__main__":
    main()
