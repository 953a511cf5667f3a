"""Prints the crash that a minidump is of, with the frames of its thread: summary.py LIBRARY FILE

LIBRARY is the shared object libminidump.so, which crates/minidump_c/install makes.
"""
import ctypes
import json
import sys

VERSION = 6
BYTES = [ctypes.c_char_p, ctypes.c_size_t]
SIZE, LINE = ctypes.POINTER(ctypes.c_size_t), ctypes.POINTER(ctypes.c_uint64)


def load(path):
    """Loads the library, and tells ctypes what its calls take."""
    library = ctypes.CDLL(path)
    library.minidump_crash_json.argtypes = [*BYTES, *BYTES, ctypes.c_size_t, ctypes.c_size_t, ctypes.c_uint8, *BYTES, SIZE, LINE]
    library.minidump_error_name.argtypes = [ctypes.c_uint32, *BYTES]
    library.minidump_error_name.restype = ctypes.c_size_t
    if library.minidump_version() != VERSION:
        sys.exit("the library is of another version")
    return library


def crash_of(library, dump):
    """Returns the crash of a dump, with at most 8 candidates and 100 frames of a thread, or the name of why there is none."""
    size, line, room = ctypes.c_size_t(1 << 16), ctypes.c_uint64(), 0
    while size.value > room:
        room = size.value
        text = ctypes.create_string_buffer(room)
        status = library.minidump_crash_json(dump, len(dump), None, 0, 8, 100, 0, text, room, size, line)
        if status:
            size = library.minidump_error_name(status, text, room)
            return None, text.raw[:size].decode()
    return json.loads(text.raw[: size.value]), None


def place(part):
    return f" in {part['module']}+{part['module_offset']}" if part["module"] is not None else ""


def summary(crash):
    """Gives the lines that the other examples print."""
    info, facts, thread = crash["crash_info"], crash["minidump"]["address"], crash["crashing_thread"]
    if thread:
        yield f"thread  {thread['thread_id']}"
    if facts:
        near = f", null + {facts['null_offset']}" if facts["null_offset"] else ""
        names = [module["filename"] for module in crash["modules"]]
        yield f"address {facts['address']}{near}" + (place(facts | {"module": names[facts["module"]]}) if facts["module"] is not None else "")
    if info["type"]:
        yield f"reason  {info['type']}"
    if crash["minidump"]["exception"] is not None:
        sender = crash["minidump"]["exceptions"][crash["minidump"]["exception"]]["sender"]
        if sender and sender["process_id"] is not None:
            yield f"sent by process {sender['process_id']}"
    for frame in thread["frames"] if thread else []:
        yield f"#{frame['frame']:<2}     {frame['offset']}{place(frame)}, {frame['trust'].replace('_', ' ')}"
    if crash["minidump"]["status"]:
        yield "something of the dump can't be read"


try:
    with open(sys.argv[2], "rb") as file:
        dump = file.read()
except OSError as error:
    sys.exit(f"{error.filename}: {error.strerror}")
crash, error = crash_of(load(sys.argv[1]), dump)
if error:
    sys.exit(f"{sys.argv[2]}: {error}")
print(*summary(crash), sep="\n")
