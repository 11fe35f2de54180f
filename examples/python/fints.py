"""The checks of fints for Python, over the library for C: build.sh builds it."""
import ctypes
import pathlib

_LIBRARY = ctypes.CDLL(str(pathlib.Path(__file__).parent / "out" / "libfints.so"))


def _call(name, *inputs):
    """The status and the text of a call. Each input is bytes, or an array of sizes."""
    call = getattr(_LIBRARY, name)
    call.restype = ctypes.c_uint32
    pointers = [ctypes.c_char_p(it) if isinstance(it, bytes) else it for it in inputs]
    sized = [it for pair in zip(pointers, map(ctypes.c_size_t, map(len, inputs))) for it in pair]
    size, room = ctypes.c_size_t(), 4096
    while True:
        buffer = ctypes.create_string_buffer(room)
        status = call(*sized, buffer, ctypes.c_size_t(room), ctypes.byref(size))
        if size.value <= room:
            return status, buffer.raw[: size.value].decode("latin-1")
        room = size.value


def judge(params, orders, message):
    """Which rules a message breaks: 0 and `permitted`, 1 and the rules, or from 2 on the refusal of an input."""
    return _call("fints_judge", params, orders, message)


def judge_after(params, orders, before, answer, message):
    """The same after the message before it and the bank's answer to that."""
    return _call("fints_judge_after", params, orders, before, answer, message)


def judge_all(params, orders, messages):
    """The same for each of several messages by itself: before each verdict is the line `message N`."""
    sizes = (ctypes.c_size_t * len(messages))(*map(len, messages))
    return _call("fints_judge_all", params, orders, b"".join(messages), sizes)
