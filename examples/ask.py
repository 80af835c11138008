"""An example in Python: the answer to a literal of an image file, with the trees that it rests on.

    cc -shared -Wl,--whole-archive target/staticlib/libfoqtirel.a -Wl,--no-whole-archive -o target/libfoqtirel.so
    python3 examples/ask.py target/libfoqtirel.so IMAGE LITERAL [BUDGET]

It prints the arguments of the program, then the trees and the answer as examples/trees.c does; of a program whose strict
rules contradict each other, the numbers of some that do. The exit status is 0 for an answer, 1 for a refusal, 2 where there
was nothing to ask, and 3 where a file could not be read or the answer not be written.
"""

import ctypes
import sys

# As include/foqtirel.h has them.
MOST_IMAGE = 1836
MOST_RULES = 96
MOST_NODES = 4096
ARGUMENTS = 4096
BRANCHES = 12
ANSWERS = {1: "YES", 2: "NO", 3: "UNDECIDED", 4: "UNKNOWN", 5: "UNFINISHED"}
CODES = {answer: code for code, answer in ANSWERS.items()}
WITHOUT_TREES = ("UNKNOWN", "UNFINISHED")
KINDS = {0: "root", 1: "proper", 2: "blocking"}
MARKS = {1: "U", 2: "D"}
STRICT_CONTRADICTION = 14

ANSWERED, REFUSED, MISUSED, FAILED = range(4)


class Node(ctypes.Structure):
    """struct foqtirel_node."""

    _fields_ = [
        ("argument", ctypes.c_uint32),
        ("parent", ctypes.c_uint32),
        ("kind", ctypes.c_uint8),
        ("mark", ctypes.c_uint8),
    ]


class Billed(ctypes.Structure):
    """struct foqtirel_billed."""

    _fields_ = [
        ("number", ctypes.c_uint32),
        ("place", ctypes.c_uint32),
        ("shares", ctypes.c_uint32 * BRANCHES),
    ]


class Refused(Exception):
    """A call was turned away: the cause's number, and the rule, pair or line it is about."""

    def __init__(self, number, place):
        super().__init__(f"refused {number} {place}")
        self.number = number


class Foqtirel:
    """The calls of the shared library. What they refuse is raised."""

    def __init__(self, path):
        library = ctypes.CDLL(path)
        image = (ctypes.c_char_p, ctypes.c_size_t)
        asked = (ctypes.c_uint32, ctypes.c_uint32)
        arguments = (ctypes.POINTER(ctypes.c_uint32), ctypes.c_size_t)
        nodes = (ctypes.POINTER(Node), ctypes.c_size_t)
        out = numbers = marks = (ctypes.POINTER(ctypes.c_uint8), ctypes.c_size_t)
        lines = (ctypes.POINTER(ctypes.c_uint64), ctypes.c_size_t)
        self._check = declared(library.foqtirel_check, ctypes.c_uint64, image)
        self._clash = declared(library.foqtirel_clash, ctypes.c_uint64, image + marks)
        self._file = declared(library.foqtirel_file, ctypes.c_uint64, image + out + numbers)
        self._unfile = declared(library.foqtirel_unfile, ctypes.c_uint64, image + numbers + out)
        self._list = declared(library.foqtirel_list, ctypes.c_uint64, image + arguments)
        self._trees = declared(library.foqtirel_trees, ctypes.c_uint64, image + asked + arguments + nodes)
        self._query = declared(library.foqtirel_query, ctypes.c_uint32, image + asked)
        self._bill = declared(library.foqtirel_bill, Billed, lines)

    def check(self, image):
        granted(self._check(image, len(image)))

    def clash(self, image):
        """The numbers of strict rules that contradict each other, and no longer do without any single one of them."""
        marks = (ctypes.c_uint8 * MOST_RULES)()
        count = granted(self._clash(image, len(image), marks, len(marks)))
        return [rule for rule in range(count) if marks[rule] == 1]

    def file(self, image):
        """The filed form, the same bytes for the same program in whatever order it was typed, and the order: a table with
        the old number of each rule."""
        table, numbers = (ctypes.c_uint8 * len(image))(), (ctypes.c_uint8 * MOST_RULES)()
        length = granted(self._file(image, len(image), table, len(table), numbers, len(numbers)))
        return bytes(table[:length]), numbers

    def unfile(self, form, numbers):
        """The image that was filed."""
        table = (ctypes.c_uint8 * len(form))()
        length = granted(self._unfile(form, len(form), numbers, len(numbers), table, len(table)))
        return bytes(table[:length])

    def list(self, image):
        """The arguments, each as mask * 128 + literal."""
        table = (ctypes.c_uint32 * ARGUMENTS)()
        count = granted(self._list(image, len(image), table, len(table)))
        return table[:count]

    def trees(self, image, literal, budget):
        """The answer, its number of nodes, and the nodes of the trees."""
        arguments = (ctypes.c_uint32 * ARGUMENTS)()
        table = (Node * MOST_NODES)()
        result = self._trees(image, len(image), literal, budget, arguments, len(arguments), table, len(table))
        answer, count = answered(granted(result))
        return answer, count, [] if answer in WITHOUT_TREES else table[:count]

    def query(self, image, literal, budget):
        """The answer and its number of nodes."""
        result = self._query(image, len(image), literal, budget)
        if result < 65536:
            raise Refused(result, 0)
        return answered(result)

    def bill(self, lines):
        """What each branch pays in cents, for lines of a branch, an answer and its number of nodes."""
        table = (ctypes.c_uint64 * len(lines))()
        for place, (branch, answer, nodes) in enumerate(lines):
            table[place] = line(branch, answer, nodes)
        billed = self._bill(table, len(table))
        if billed.number != 0:
            raise Refused(billed.number, billed.place)
        return list(billed.shares)


def line(branch, answer, nodes):
    # What has no room in its field would pass for another line: it becomes one that the call refuses.
    if not (0 <= branch < 2**32 and 0 <= nodes < 2**16):
        return 2**64 - 1
    return branch * 2**32 + CODES[answer] * 2**16 + nodes


def declared(call, result, parameters):
    # Undeclared, a result is cut to an int, and a refusal at place 0 reads as success.
    call.restype, call.argtypes = result, parameters
    return call


def granted(result):
    """What a result of 64 bits says where it is no refusal."""
    number, rest = divmod(result, 2**32)
    if number != 0:
        raise Refused(number, rest)
    return rest


def answered(result):
    code, nodes = divmod(result, 65536)
    return ANSWERS[code], nodes


def told(literal, arguments, nodes):
    """The trees for the literal, then those for its complement, each node below its parent."""
    trees = {literal: [], literal ^ 1: []}
    depths = []
    for node in nodes:
        mask, concluded = divmod(arguments[node.argument], 128)
        is_root = KINDS[node.kind] == "root"
        if is_root:
            tree = trees[concluded]
        depths.append(1 if is_root else depths[node.parent] + 1)
        tree.append(f"{'  ' * depths[-1]}{MARKS[node.mark]} {KINDS[node.kind]} 0x{mask:04x} {concluded}")
    return [line for root, tree in trees.items() for line in [f"for {root}:"] + tree]


def check(foqtirel, image):
    """Raises Refused, with the rules that clash where some do."""
    try:
        foqtirel.check(image)
    except Refused as refused:
        if refused.number == STRICT_CONTRADICTION:
            rules = " ".join(str(rule) for rule in foqtirel.clash(image))
            refused.args = (f"{refused}: rules {rules}",)
        raise


def ask(library, image, literal, budget):
    """Every call but `clash`, which is for an image that is refused with 14, and `bill`, which is for the answers to many
    questions. Raises Refused."""
    foqtirel = Foqtirel(library)
    check(foqtirel, image)
    arguments = foqtirel.list(image)
    answer, count, nodes = foqtirel.trees(image, literal, budget)
    form, numbers = foqtirel.file(image)
    assert foqtirel.unfile(form, numbers) == image
    assert foqtirel.query(image, literal, budget) == foqtirel.query(form, literal, budget) == (answer, count)
    lines = [f"arguments {len(arguments)}"]
    if answer not in WITHOUT_TREES:
        lines += told(literal, arguments, nodes)
    return lines + [f"{answer} {count}"]


def main(words):
    numbers = [int(word) for word in words[2:] if word.isascii() and word.isdigit() and int(word) < 2**32]
    if len(words) not in (3, 4) or len(numbers) != len(words) - 2:
        print("usage: ask.py LIBRARY IMAGE LITERAL [BUDGET]", file=sys.stderr)
        return MISUSED
    try:
        # One byte more than the longest image: a file that is too long is handed over too long, and refused.
        with open(words[1], "rb") as file:
            image = file.read(MOST_IMAGE + 1)
        lines, status = ask(words[0], image, *(numbers + [MOST_NODES])[:2]), ANSWERED
    except OSError as error:
        print(error, file=sys.stderr)
        return FAILED
    except Refused as refused:
        lines, status = [str(refused)], REFUSED
    try:
        print("\n".join(lines), flush=True)
    except OSError as error:
        print(error, file=sys.stderr)
        return FAILED
    return status


if __name__ == "__main__":
    sys.exit(main(sys.argv[1:]))
