"""Cases of vx_cases whose sources are pushed piece by piece."""
import itertools

# The size of a piece, and the order in which pieces of several sources are pushed.
WAYS = tuple(itertools.product((1, 7, 1500), ("turns", "sources")))
# Sources with more bytes than this in all get the largest pieces.
MANY = 20_000
MOST_SOURCES = 64


def sources_of(words):
    """Returns the names of the sources of a merge or an extraction."""
    if words[0] == "merge":
        return [word.split("=", 1)[1] for word in words if "=" in word]
    return words[-1:]


def length_of(stream):
    """Returns how many bytes a stream has, which may be given in parts."""
    return len(stream) if isinstance(stream, bytes) else sum(len(part) if isinstance(part, bytes) else part[1] for part in stream)


def add_pushed(cases):
    """Adds the merges and the extractions of the cases so far, with their sources pushed, each in one of the ways."""
    streams = {name: stream for stream, name in cases.names.items()}
    cases.about("merges and extractions of those above: their sources are handed in piece by piece")
    ways = itertools.cycle(WAYS)
    for words, expected in cases.plain.items():
        names = sources_of(words.split())
        if expected.status < 2 and len(names) <= MOST_SOURCES and all(name in streams for name in names):
            length, order = next(ways)
            if sum(length_of(streams[name]) for name in names) > MANY:
                length = max(length for length, _ in WAYS)
            cases.line(f"pushed {length} {order} {words}", expected.line())
            cases.count += 1
