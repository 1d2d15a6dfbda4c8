"""Lines of crates/vx_calls on RBSPs of messages and of adaptation parameter sets, worked by hand from H.266 7.3.2.6, 7.3.2.9 and 7.3.6."""
from bit_calls import joined, spelled, told

# RBSPs, and their messages that are carried.
READ = [
    ("900403e8019080", "144=03e80190"),
    ("900403e8019093011080", "144=03e80190 147=10"),
    # A message that isn't carried.
    ("05012a93011080", "147=10"),
    ("8900900080", "137=- 144=-"),
    # A payload that is a single 80, and a type of 80.
    ("89018080", "137=80"),
    ("800080", "-"),
    # Five bytes of payload leave no 80.
    ("900503e8019080", "none"),
    # No message, no size, no payload, no end, another end.
    ("-", "none"), ("80", "none"), ("9080", "none"), ("90ffff80", "none"), ("9000", "none"), ("900040", "none"),
    # A byte after the 80.
    ("90008000", "none"),
]

# Types and sizes of messages, and the bytes before the payload.
SPELLED = [
    (0, 0, "0000"), (254, 254, "fefe"), (255, 255, "ff00ff00"), (256, 256, "ff01ff01"), (509, 509, "fffefffe"), (510, 510, "ffff00ffff00"),
    (137, 765, "89ffffff00"), (147, 1, "9301"),
]

CARRIED = (137, 144, 147)
END = b"\x80"

# RBSPs of adaptation parameter sets that are refused, and those of reserved types.
SETS = [
    # Set 3 of LMCS without a body; ids 8, 4 and 8 of the three types; bodies that end in 00, or have no byte.
    ("23", "Y503@8:Short"), ("0880", "P15"), ("24", "P15"), ("4800", "P15"), ("4700", "Y503@8:BadTrailing"), ("07", "Y503@8:Short"),
    ("63", "dropped"), ("60", "dropped"), ("ff00", "dropped"),
]


def add_messages(calls):
    calls.about("RBSPs of messages that are read")
    for rbsp, answer in READ:
        calls.call(f"messages {rbsp}", answer)
    # 16,843,009 times 255 is 2^32 - 1, so that the type is 2^32 + 137, of which 32 bits have 137.
    calls.call(f"messages {spelled((bytes([255]), 16_843_009), bytes([138, 0, 0x93, 1, 0x10]), END)}", "147=10")
    calls.about("messages that are written, and read again")
    for kind, size, front in SPELLED:
        payload = bytes([0xA5]), size
        parts = bytes.fromhex(front), payload, END
        length = len(joined(*parts)) - 1
        calls.call(f"spell {kind}={spelled(payload)}", f"{length} {told(joined(*parts))}")
        calls.call(f"messages {spelled(*parts)}", f"{kind}={told(joined(payload))}" if kind in CARRIED else "-")
    calls.call("spell 144=03e80190 147=10", "6 3 900403e8019093011080")
    # 200,000 is 784 times 255, and 80.
    size, payload = ((bytes([255]), 784), bytes([80])), (bytes([0]), 200_000)
    parts = bytes([137]), *size, payload, bytes([144]), *size, payload, END
    calls.call(f"spell 137={spelled(payload)} 144={spelled(payload)}", f"200786 200786 {told(joined(*parts))}")
    calls.call(f"messages {spelled(*parts)}", f"137={told(joined(payload))} 144={told(joined(payload))}")


def add_rbsps(calls):
    add_messages(calls)
    calls.about("RBSPs of adaptation parameter sets: those that are refused or dropped, and a long one")
    for rbsp, answer in SETS:
        calls.call(f"set {rbsp}", answer)
    parts = bytes([0x45]), (bytes([0]), 199_998), END
    calls.call(f"set {spelled(*parts)}", f"2 5 {told(joined(*parts))}")
