"""Lines of crates/vx_calls on sources and sinks in memory, worked by hand."""
from bit_calls import joined, listed, spelled, told

TEXT = "abcdefg"

# The sizes of pieces, the calls that fail, the room for each read of the bytes "abcdefg", and the result of each, `None` if it fails.
READS = [
    ([], [], 4, ["abcd", "efg", "", ""]),
    ([0, 3], [], 4, ["a", "bcd", "e", "fg", ""]),
    ([2, 9], [1], 4, ["ab", None, "cd", "efg", ""]),
    ([], [0, 2], 9, [None, "abcdefg", None, ""]),
    ([5], [1], 0, ["", None, ""]),
]

# The room, the sizes of pieces, the calls that fail, what is written with how many bytes of it are taken, `None` if the write fails,
# and the bytes at the end.
WRITES = [
    (10, [], [], [("abc", 3), ("", 0), ("de", 2)], "abcde"),
    (4, [], [], [("abc", 3), ("de", 1), ("f", None), ("", 0)], "abcd"),
    (9, [0, 2], [1], [("abc", 1), ("bc", None), ("bc", 1), ("cde", 2)], "abcd"),
    (0, [], [2], [("", 0), ("a", None), ("", None)], ""),
]

# The room, the sizes of pieces, the calls that fail, a piece that is to be written whole, whether it is, and the bytes at the end.
WHOLES = [
    (9, [2], [], "abcde", True, "abcde"),
    (9, [2], [2], "abcde", False, "abcd"),
    (3, [], [], "abcde", False, "abc"),
    (9, [], [0], "abcde", False, ""),
    (0, [], [0], "", True, ""),
]


def word(text):
    return spelled(text.encode())


def outcome(told_of):
    """Returns the output for a call that fails, or doesn't."""
    return "failed" if told_of is None else str(told_of)


def add_memory(calls):
    calls.about("reads of sources in memory, beside one that is closed")
    for pieces, failing, room, given in READS:
        reads = " ".join(f"1:{room}" for _ in given)
        answers = " ".join("failed" if text is None else word(text) for text in given)
        calls.call(f"source {listed(pieces)} {listed(failing)} {word(TEXT)} {reads}", answers)
    calls.call(f"source - - {word(TEXT)} 1:4 1:4 1:4 0:4", f"{word('abcd')} {word('efg')} - failed")
    calls.call(f"source - - {word(TEXT)} 0:4 1:9 0:0 1:9", f"failed {word(TEXT)} failed -")
    calls.about("writes to sinks in memory, and pieces that are written whole")
    for room, pieces, failing, written, end in WRITES:
        writes = " ".join(word(text) for text, _ in written)
        answers = " ".join(outcome(taken) for _, taken in written)
        calls.call(f"sink {room} {listed(pieces)} {listed(failing)} {writes}", f"{answers} {word(end)}")
    for room, pieces, failing, text, is_written, end in WHOLES:
        answer = outcome(len(text) if is_written else None)
        calls.call(f"sink {room} {listed(pieces)} {listed(failing)} all:{word(text)}", f"{answer} {word(end)}")
    long = (b"\xa5", 2 ** 23)
    calls.call(f"sink {2 ** 23} 65536,0 - all:{spelled(long)}", f"{2 ** 23} {told(long[0] * long[1])}")
    calls.about("writes to a sink that grows")
    grown = b"abc", (b"Z", 2 ** 23)
    calls.call(f"grow {word('abc')} - {spelled(grown[1])}", f"3 0 {2 ** 23} {told(joined(*grown))}")
