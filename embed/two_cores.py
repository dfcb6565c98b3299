"""Has the logs of two cores judged: python3 two_cores.py out/libtardis.so"""
import ctypes
import sys


class TardisVerdict(ctypes.Structure):
    _fields_ = [(n, ctypes.c_uint64) for n in ("count", "core", "index", "file", "line")] + [
        (n, ctypes.c_uint32) for n in ("rule", "number")
    ]


lib = ctypes.CDLL(sys.argv[1])
lib.tardis_check.argtypes = [ctypes.c_char_p, ctypes.c_size_t, ctypes.POINTER(ctypes.c_size_t), ctypes.c_size_t,
                             ctypes.POINTER(TardisVerdict)]
lib.tardis_check.restype = ctypes.c_uint8


def check(logs):
    """The line that `tardis check` writes for these logs."""
    ends, end = [], 0
    for log in logs:
        end += len(log)
        ends.append(end)
    v = TardisVerdict()
    status = lib.tardis_check(b"".join(logs), end, (ctypes.c_size_t * len(ends))(*ends), len(ends), v)
    if status == 0:
        return f"yes: {v.count} operations"
    if status == 1:
        return f"no: {v.core}.{v.index} {['', 'CORE-ORDER', 'PROGRAM', 'SOURCE', 'VALUE'][v.rule]}"
    if status == 2:
        return f"refused: file {v.file} line {v.line}: {v.number}"
    return f"refused: {v.number}"


def log(core, cores, operations):
    return "".join([f"tardis-log 1 core {core} of {cores}\n", *(f"{o}\n" for o in operations),
                    f"end {len(operations)}\n"]).encode()


core1 = log(1, 2, ["S 200 9 3 0", "L 100 7 4 0 0.0"])
print(check([log(0, 2, ["S 100 7 1 0", "L 200 9 5 0 1.0"]), core1]))
print(check([log(0, 2, ["S 100 7 1 0", "L 200 9 2 0 1.0"]), core1]))
print(check([log(0, 2, ["S 100 7 1 0", "L 200 9 5 0 1.2 "]), core1]))
print(check([]))
print(check([b""] * 65))
