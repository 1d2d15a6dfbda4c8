"""Cases of `play`: worked ones, and those of an independent model."""
from case_lines import Expected, expected_of, unhex
from plain_streams import CRA, TRAIL, Header, partition, ph, pps, slice_unit, sps, stream
from told_cases import BYTEWISE, SIXTY, TWICE, WHOLE, not_understood, say, say_in_pieces
from worked_cases import (A, B, BESIDE, EMPTY, EOS_UNIT, I0, M, SEEN, add_reads, add_writes, failed, gray, left, pair_sets, refused, right)

BROKEN = bytes.fromhex("000001 8079")
# Two pairs of files, each pair one picture, and what is written of them.
PAIRS = BESIDE * 2
JOINED = M + EOS_UNIT + M
# Two regions, one of one file and one of two.
LEFT_TWO = (*BESIDE, "0,0")


def played(cases, corners, files, expected, settings=(), sizes=(WHOLE, BYTEWISE), level=""):
    """Adds files at their corners."""
    say_in_pieces(cases, f"play {level}{cases.placed(corners, files)}", expected, sizes, settings)


def later(lsb=0, kind=I0.kind, **fields):
    """Returns picture A, and after it a picture of another kind, or with other low bits of the order count."""
    return A + stream(slice_unit(Header(kind, lsb=lsb), inside=True, **fields))


def add_joined(cases):
    """Adds pictures that are joined."""
    cases.about("play: two pairs of files; a file of two pictures beside two files; one picture less; a level; files that are merged alone")
    played(cases, PAIRS, [A] * 4, Expected(out=JOINED))
    assert len(JOINED) == 146
    played(cases, LEFT_TWO, (A, TWICE, A), Expected(out=JOINED))
    played(cases, LEFT_TWO, (A, A, A), refused("M14 picture 1 source 1", M))
    level = stream(*pair_sets(level=93), ph(I0), left(I0), right(I0))
    played(cases, PAIRS, [A] * 4, Expected(out=level + EOS_UNIT + level), level="--level 93 ")
    played(cases, BESIDE, (TWICE, TWICE), Expected(out=M + M))
    played(cases, ("0,0", "64,0", "0,0", "0,0"), (A, A + A + A, A, A), Expected(out=JOINED + EOS_UNIT + M))
    played(cases, ("0,0", "0,0", "0,0", "64,0", "64,0"), (A, A, A, TWICE, A), Expected(out=JOINED + EOS_UNIT + M))
    cases.about("play: files without pictures: the first of a region, one between others, and the last; all of them")
    played(cases, LEFT_TWO, (EMPTY, A, A), Expected(out=M))
    played(cases, ("0,0", "64,0", "0,0", "0,0"), (A, TWICE, EMPTY, A), Expected(out=JOINED))
    played(cases, LEFT_TWO, (A, A, EMPTY), Expected(out=M))
    played(cases, PAIRS, [EMPTY] * 4, Expected())
    played(cases, LEFT_TWO, (EMPTY, A, EMPTY), refused("M14 picture 0 source 0"))
    cases.about("play: ends of sequence at the end of a file, and where another region begins a file; another one is no join")
    played(cases, PAIRS, (A + EOS_UNIT, A, A, A), Expected(out=JOINED))
    played(cases, LEFT_TWO, (A, A + EOS_UNIT + A, A), Expected(out=JOINED))
    played(cases, BESIDE, (TWICE, A + EOS_UNIT + A), refused("M6 picture 1 source 1", M))


def add_refused(cases):
    """Adds what is refused, with the number of a file or of a region."""
    cases.about("play: files that are refused at their first unit, behind all rounds, and behind a difference in length; corners as for merge")
    played(cases, PAIRS, (BROKEN, A, A, A), refused("F3 source 0 byte 3"))
    played(cases, PAIRS, (A, A, A, BROKEN), refused("F3 source 3 byte 3", M))
    played(cases, LEFT_TWO, (A, A, b"\1"), refused("F1 source 2 byte 0", M))
    played(cases, PAIRS, (A, A, A, A + BROKEN), refused(f"F3 source 3 byte {len(A) + 3}", JOINED))
    played(cases, LEFT_TWO, (A, TWICE + BROKEN, A), refused(f"F3 source 1 byte {2 * len(A) + 3}", JOINED))
    played(cases, ("64,0", "0,0"), (A, A), refused("M4 picture 0 source 0"))
    played(cases, ("0,0", "0,0", "32,0"), (A, A, A), refused("M3 picture 0 source 1"))
    played(cases, ("0,0", "64,0", "0,0", "64,0"), (A, A, A, gray(height=128)), refused("M3 picture 1 source 0", M))
    cases.about("play: at a join: a picture of no IRAP type, a CRA picture that starts no sequence, a TemporalId, a picture that is no reference")
    played(cases, LEFT_TWO, (A, later(1, TRAIL), A), refused("M15 picture 1 source 1", M))
    played(cases, LEFT_TWO, (A, later(1, CRA), A), refused("M15 picture 1 source 1", M))
    alone = A[:-5] + bytes([A[-5] | 0x20]) + A[-4:]
    played(cases, LEFT_TWO, (A, A + alone, A), refused("M15 picture 1 source 1", M))
    played(cases, PAIRS, (A, A, alone, alone), refused("M15 picture 1 source 0", M))
    # nuh_temporal_id_plus1 of the picture's unit.
    raised = A[:-6] + bytes([A[-6] + 1]) + A[-5:]
    played(cases, PAIRS, (A, A, A, raised), refused("M15 picture 1 source 1", M))
    cases.about("play: at a join: another type; another lsb, which nothing numbers anew; and the same lsb in both regions")
    played(cases, PAIRS, (A, A, A, gray_of(Header(CRA))), refused("M6 picture 1 source 1", M))
    played(cases, LEFT_TWO, (A, later(8), A), refused("M8 picture 1 source 1 field 606", M))
    eighth = Header(lsb=8)
    both = stream(*pair_sets(), ph(eighth), left(eighth), right(eighth))
    played(cases, PAIRS, (A, A, gray_of(eighth), gray_of(eighth)), Expected(out=M + EOS_UNIT + both))
    add_generated(cases)


def gray_of(header):
    """Returns picture A with another header."""
    return stream(sps(64, 64), pps(64, 64), slice_unit(header, inside=True))


def add_generated(cases):
    """Adds pictures of 2 by 2 CTUs: one, and two of which the second starts no sequence."""
    one = unhex("000000010079000302338000004080812003de0030060800100000000100810000204040898408000000010041c41889891774f180")
    two = unhex("000000010079000302338000004080812003de0030060800100000000100810000204040898302000000010041c4181e2138422e80"
                "00000001000188f81964afc00e80")
    # The first slice is one tile wide, and all of its tile, as the last one is.
    cut = partition(64, [2, 2], [2], 2, [("ue", 0), ("ue", 0)])
    sets = sps(256, 128, subpics=[(0, 0, 2, 2), (2, 0, 2, 2)]), pps(256, 128, partition=cut)
    first = stream(*sets, ph(I0), left(I0, payload=unhex("89891774f180")), right(I0, qp_delta=-1, payload=unhex("1e2138422e80")))
    played(cases, ("0,0", "128,0", "0,0"), (one, two, one), refused("M15 picture 1 source 1", first))


def add_many(cases):
    """Adds as many regions and files as there may be, and one more."""
    cases.about("play: 65 regions, and 257 files, of which none is read; 64 regions and 256 files")
    corners = [f"{64 * (k % 8)},{64 * (k // 8)}" for k in range(65)]
    unread = ("fail all 0",)
    played(cases, corners, [A] * 65, refused("L4"), unread, (WHOLE,))
    played(cases, (corners * 4)[:257], [A] * 257, refused("L4"), unread, (WHOLE,))
    played(cases, ["0,0"] * 257, [A] * 257, refused("L11"), unread, (WHOLE,))
    played(cases, (corners[:64] * 5)[:257], [A] * 257, refused("L11"), unread, (WHOLE,))
    played(cases, ["0,0"] * 256, [EMPTY] * 256, Expected(), (), (WHOLE,))
    played(cases, corners[:64] * 4, [EMPTY] * 256, Expected(), (), (WHOLE,))
    played(cases, ["0,0"] * 256, [EMPTY] * 255 + [A], failed("read fault source 255"), ("closed 255",), (WHOLE,))


def add_unread(cases):
    """Adds files that can't be read, each read failing once, and files that aren't read."""
    cases.about("play: a file that can't be read; each read fails once: 60 bytes a read, and a byte; a file behind others isn't read")
    words = f"play {cases.placed(PAIRS, [A] * 4)}"
    for k in range(4):
        fault = failed(f"read fault source {k}", b"" if k < 2 else M)
        say(cases, words, fault, f"closed {k}")
        # There is one more read after the last byte.
        for call in range(2):
            say(cases, words, fault, *SIXTY, f"fail {k} {call}")
        say(cases, words, Expected(out=JOINED), *SIXTY, f"fail {k} 2")
        for call in range(len(A) + 1):
            say(cases, words, fault, *BYTEWISE, f"fail {k} {call}")
    say(cases, f"play {cases.placed(('0,0', '64,0', '0,0', '0,0'), [A] * 4)}", refused("M14 picture 1 source 1", M), "closed 3")
    say(cases, f"play {cases.placed(('0,0', '64,0', '0,0'), (B, BROKEN, A))}", refused("F3 source 1 byte 3"), "closed 2")
    say(cases, f"play {cases.placed(('0,0', '32,0', '0,0'), [A] * 3)}", refused("M3 picture 0 source 1"), "closed 2")
    cases.about("play: a file of two pictures beside two files: each of its reads fails once: 60 bytes a read, and a byte")
    behind = f"play {cases.placed(LEFT_TWO, (A, TWICE, A))}"
    for pieces, outs in (SIXTY, [EMPTY, M, M]), (BYTEWISE, SEEN):
        add_reads(cases, behind, 1, outs, *pieces)
        cases.case(behind, Expected(out=JOINED), *pieces, f"fail 1 {len(outs)}")
    cases.about("play: a byte a write: each write fails once")
    add_writes(cases, words, JOINED, "pieces err 1")


def add_words(cases):
    """Adds arguments that aren't understood."""
    cases.about("words of play that aren't understood")
    not_understood(cases, "play", "play --level 51", "play a", "play 0,0=", "play 0,0=a b", "play 00,0=a", "play 0,0=a 00,0=a",
                   "play 16384,0=a", "play --level 256 0,0=a", "play 0,0=a --level 51", "check play 0,0=a", "verify play 0,0=a",
                   "play merge 0,0=a", "play --tid 1 0,0=a")


def add_played(cases):
    add_joined(cases)
    add_refused(cases)
    add_many(cases)
    add_unread(cases)
    add_words(cases)


def add_model_played(cases, path):
    """Adds what an independent model plays: files in regions, whole and refused."""
    for line in open(path):
        words = line.split()
        if words[:1] == ["case"]:
            cases.about(f"play {words[1]} of an independent model")
            level = f"--level {words[4]} " if words[3] == "--level" else ""
            placings, sources = [word.split("=") for word in words if "=" in word], []
        elif words[:1] == ["source"]:
            sources.append(unhex("".join(words[1:])))
        elif words:
            played(cases, [corner for corner, _ in placings], [sources[int(k)] for _, k in placings], expected_of(line), level=level)
