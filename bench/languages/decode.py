"""The job of the image "240 bytes decoded" (bench/src/images/decode.rs) as one would write it in Python. decode.lua says
what is read and answered."""
import ctypes
import sys
import time


class OutOfSteps(Exception):
    """The limit is reached."""


def decode(frame, watches):
    """Keeps the greatest byte, adds all up and shows each to the watches."""
    greatest = total = 0
    for byte in frame:
        if greatest < byte:
            greatest = byte
        total += byte
        for watch in watches:
            watch(byte)
    return greatest, total


def harmful(_byte):
    """A watch that changes the sum of the decoder, which is a local variable of the function that calls it."""
    caller = sys._getframe(1)
    caller.f_locals["total"] = 0
    if sys.version_info < (3, 13):
        ctypes.pythonapi.PyFrame_LocalsToFast(ctypes.py_object(caller), ctypes.c_int(0))


def run(frame, harm):
    """Decodes a frame with a watch that prints the bytes below 12, or with one that does harm."""
    log = []

    def honest(byte):
        if byte < 12:
            log.append(byte)

    greatest, total = decode(frame, [harmful if harm else honest])
    return [total - greatest, greatest, total, *log]


def limited(frame, harm, limit):
    """The same with at most so many instructions of the interpreter; nothing if they do not suffice."""
    left = limit

    def trace(called, event, _argument):
        nonlocal left
        called.f_trace_opcodes = True
        if event == "opcode":
            left -= 1
            if left < 0:
                raise OutOfSteps
        return trace

    sys.settrace(trace)
    try:
        return run(frame, harm)
    except OutOfSteps:
        return []
    finally:
        sys.settrace(None)


def main():
    frame = bytes.fromhex(sys.stdin.readline())
    for line in sys.stdin:
        calls, limit, watch = line.split()
        calls, limit, harm, left = int(calls), int(limit), watch == "harmful", []
        start = time.process_time_ns()
        for _ in range(calls):
            left = limited(frame, harm, limit) if limit else run(frame, harm)
        nanoseconds = (time.process_time_ns() - start) / calls
        print(f"{nanoseconds:.1f}", *left, flush=True)


main()
