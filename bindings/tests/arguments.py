"""What the calls of Python take, and how they say what they don't."""

import array
import ctypes

import vtc

HEADER = bytes(20)


def raised(kind, call, *arguments):
    """The text of the exception of this kind that a call raises."""
    try:
        call(*arguments)
    except kind as error:
        return str(error)
    raise AssertionError(f"{call.__name__} raises no {kind.__name__}")


# Bytes of every kind, also those that aren't next to each other.
for message in HEADER, bytearray(HEADER), memoryview(HEADER), memoryview(bytes(40))[::2]:
    assert vtc.check(message) == (True, True, True, 20)
    assert vtc.rewrite(message) == HEADER and vtc.settle(message) == (HEADER, 0)
    assert vtc.is_canonical(message) and vtc.index(message) == [] and list(vtc.attributes(message, 20)) == []
    assert vtc.make(vtc.json(message)) == HEADER
for call in vtc.check, vtc.is_canonical, vtc.index, vtc.attributes, vtc.rewrite, vtc.settle, vtc.json:
    for other in 20, 10**9, True, None, "00", [0] * 20, array.array("B", HEADER):
        assert "memoryview, not " in raised(TypeError, call, other)
for call in vtc.make, vtc.make_as_given:
    assert raised(TypeError, call, b"{}") == "JSON is a str, not bytes"
    assert raised(vtc.MakeError, call, "{")

# No call makes a type for a length.
def count_of_types():
    return len(ctypes.Array.__subclasses__())


before = count_of_types()
for length in range(20, 520, 4):
    message = bytes(20) + bytes([4, 0, 9, 0]) * ((length - 20) // 4)
    assert len(vtc.index(message)) == (length - 20) // 4 and vtc.make_as_given(vtc.json(message)) == message
    vtc.check(message), vtc.rewrite(message), vtc.settle(message)
assert count_of_types() == before
