"""frames - the most bytes of stack that each call can take, whatever its input; more than its bound is a failure.

    objdump -d -r --no-show-raw-insn libmml.a | python3 frames.py MEASURED

MEASURED is what stack.c wrote: a line for each call, with its bound. A function's frame is its return address and all that it pushes
and takes off the stack pointer; a call takes its own frame and the stack of the deepest function that it names. A function of the C
library counts as its return address alone.
"""
import re
import sys

WORD = 8  # bytes of a pushed register or a return address
BELOW = 128  # bytes below the stack pointer that a function may use
CODE = ".text."  # a section of this name and a function's holds the function
FUNCTION = re.compile(r"[0-9a-f]+ <(.+)>:")
NAMED = re.compile(r"R_X86_64_\w+\s+(\S+?)(?:[-+]0x[0-9a-f]+)?$")
TAKEN = re.compile(r"\bsub\s+\$0x([0-9a-f]+),%rsp$")
GIVEN_BACK = re.compile(r"\badd\s+\$0x[0-9a-f]{1,7},%rsp$")
PUSHED = re.compile(r":\s+push")
CALL = re.compile(r":\s+callq?\s")
OPAQUE = re.compile(r"\bcallq?\s+\*|[,\s]%[re]sp$|\bxchg\b.*%[re]sp|\b(enter|leave)")
MEASURED = re.compile(r"(\w+) +\d+ bytes of stack, +(\d+) allowed")


def stop(why):
    print("frames: " + why, file=sys.stderr)
    sys.exit(1)


def read_frames(lines):
    """The bytes of each function's frame, and what it names."""
    frame, names, function, calls = {}, {}, None, False
    for line in map(str.rstrip, lines):
        named = NAMED.search(line)
        if calls and not named:
            stop(f"{function} calls itself")
        calls = bool(CALL.search(line))
        if found := FUNCTION.match(line):
            function = found.group(1)
            frame[function], names[function] = WORD, set()
        elif named:
            names[function].add(named.group(1))
        elif found := TAKEN.search(line):
            frame[function] += int(found.group(1), 16)
        elif PUSHED.search(line):
            frame[function] += WORD
        elif OPAQUE.search(line) and not GIVEN_BACK.search(line):
            stop(f"{function}: the stack cannot be followed through '{line.strip()}'")
    return frame, names


def depth(name, frame, names, above=()):
    """The most bytes of stack of what has this name, from its return address down."""
    function = name.removeprefix(CODE)
    if function in above:
        stop(f"{function} calls itself")
    if function in frame:
        return frame[function] + max([BELOW] + [depth(inner, frame, names, (*above, function)) for inner in names[function]])
    if name.startswith(CODE):
        stop(f"{name} has no function of that name")
    return WORD


def read_bounds(path):
    """The bound of each call that was measured."""
    try:
        text = open(path).read()
    except OSError as why:
        stop(str(why))
    return {"mml_" + call: int(allowed) for call, allowed in MEASURED.findall(text)}


def main():
    if len(sys.argv) != 2:
        stop("one word is wanted: the file that stack.c wrote")
    bounds = read_bounds(sys.argv[1])
    frame, names = read_frames(sys.stdin)
    calls = {name for name in frame if name.startswith("mml_")}
    if calls != set(bounds):
        stop(f"these calls are only in one of the library and {sys.argv[1]}: {' '.join(sorted(calls ^ set(bounds)))}")
    if not calls:
        stop("there is no call")
    for call, allowed in bounds.items():
        most = depth(call, frame, names)
        print(f"{call} {most} bytes of stack at most, by its frames")
        if allowed < most:
            stop(f"{call} can take more than {allowed} bytes")


main()
