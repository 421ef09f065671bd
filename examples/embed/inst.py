"""The hub of libinst.so, by ctypes. `INST_LIBRARY` names the file; without it `bin/lib_inst` does."""
import ctypes
import os
import pathlib
import subprocess

DONE, MEMORY, BAD_SETTINGS, CLOSED, STILL_OPEN, SHORT = 0, 14, 15, 100, 101, 102
NAMES = {
    MEMORY: "Memory",
    BAD_SETTINGS: "BadSettings",
    CLOSED: "no hub is open",
    STILL_OPEN: "a hub is open already",
    SHORT: "the buffer is too short",
}
TOP = pathlib.Path(__file__).resolve().parent.parent.parent


class _Hub(ctypes.Structure):
    _fields_ = [("at", ctypes.c_void_p), ("is_open", ctypes.c_bool)]


class _Settings(ctypes.Structure):
    _fields_ = [
        ("base", ctypes.c_uint64),
        ("ceiling", ctypes.c_uint64),
        ("limit", ctypes.c_uint32),
        ("margin", ctypes.c_uint32),
        ("ahead", ctypes.c_uint32),
        ("places", ctypes.c_uint16),
        ("fundings", ctypes.c_uint16),
    ]


class _Told(ctypes.Structure):
    _fields_ = [("length", ctypes.c_size_t), ("is_refused", ctypes.c_bool)]


def _path():
    """Returns the library's file: the released one, or one that was built from the sources here."""
    if "INST_LIBRARY" in os.environ:
        return os.environ["INST_LIBRARY"]
    folder = subprocess.run([TOP / "bin" / "lib_inst"], stdin=subprocess.DEVNULL, stdout=subprocess.PIPE, check=True)
    return f"{folder.stdout.decode().rstrip()}/libinst.so"


def _library():
    library = ctypes.CDLL(_path())
    hub = ctypes.POINTER(_Hub)
    calls = {
        "inst_open": [hub, ctypes.c_char_p, ctypes.c_size_t, ctypes.POINTER(_Settings), ctypes.c_bool],
        "inst_answer": [hub, ctypes.c_char_p, ctypes.c_size_t, ctypes.POINTER(_Told)],
        "inst_reply": [hub, ctypes.c_char_p, ctypes.c_size_t],
        "inst_close": [hub],
    }
    for name, types in calls.items():
        call = getattr(library, name)
        call.argtypes, call.restype = types, ctypes.c_uint32
    return library


_LIBRARY = _library()


class Refused(Exception):
    """A call returned another status than DONE; it is in `status`."""

    def __init__(self, status):
        super().__init__(f"{status} {NAMES.get(status, '')}")
        self.status = status


def _check(status):
    if status != DONE:
        raise Refused(status)


def _within(name, number, bits):
    """Returns the number if the C type can hold it; ctypes would cut it silently."""
    if not 0 <= number < 1 << bits:
        raise Refused(BAD_SETTINGS)
    return number


class Hub:
    """A hub in this thread. Amounts are in cents, moments are absolute milliseconds. Close it, or use it in a `with`
    statement."""

    def __init__(
        self,
        participants,
        *,
        base=0,
        ceiling=99_999_999_999,
        limit=10_000,
        margin=0,
        ahead=1_000,
        places=256,
        fundings=256,
        is_play=False,
    ):
        self._hub, self._told, self._buffer = _Hub(), _Told(), ctypes.create_string_buffer(4096)
        codes = ",".join(participants).encode()
        numbers = {"base": (base, 64), "ceiling": (ceiling, 64), "limit": (limit, 32), "margin": (margin, 32)}
        numbers |= {"ahead": (ahead, 32), "places": (places, 16), "fundings": (fundings, 16)}
        settings = _Settings(**{name: _within(name, *pair) for name, pair in numbers.items()})
        _check(_LIBRARY.inst_open(self._hub, codes, len(codes), settings, is_play))

    def answer(self, line):
        """Returns the reply to a line, as bytes without a newline, and whether it is a refusal."""
        _check(_LIBRARY.inst_answer(self._hub, line, len(line), self._told))
        if self._told.length > len(self._buffer):
            self._buffer = ctypes.create_string_buffer(self._told.length)
        _check(_LIBRARY.inst_reply(self._hub, self._buffer, len(self._buffer)))
        return ctypes.string_at(self._buffer, self._told.length - 1), self._told.is_refused

    def close(self):
        """Frees the hub. A later call raises `Refused` with the status CLOSED."""
        _check(_LIBRARY.inst_close(self._hub))

    def __enter__(self):
        return self

    def __exit__(self, *_):
        if self._hub.is_open:
            self.close()
