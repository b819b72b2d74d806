"""Which kinds of statements and expressions a unit has. For figures only: it takes units that can be read."""
import sys

# a unit may nest 200 nodes, each of which takes a few calls here
sys.setrecursionlimit(10000)

# Fields in order: digits are bytes to pass over, E an expression, R a run of them, B a block, P a run of expressions
# each with a block; m is a mark, and b and e are a block and an expression that are there if it is 1; c is a constant
# from its byte on, C a callee from its function to its parameters.
STATEMENTS = ["", "E", "B", "EB", "Pmb", "4E4mPb", "44R", "414", "", "", "me"]
EXPRESSIONS = ["", "", "c", "1", "4", "4R", "EE", "14E", "14EE", "EEE", "41E", "14", "1114R", "CR", "CR", "1ECR", "E42R"]
STATEMENT_NAMES = ["", "Expr", "Block", "While", "Branches", "Switch", "InitArray", "InitDefault", "Break", "Continue", "Return"]
EXPRESSION_NAMES = ["", "Nop", "Const", "Null", "NewInstance", "Construct", "Assign", "Field", "Index", "Conditional",
                    "DynCast", "Local", "intrinsic call", "free call", "static call", "instance call", "closure call"]
CONSTANT_WIDTHS = [4, 4, 4, 4, 8, 4, 8, 1, 2, 4, 8, 1, 2, 4, 8, 1]


class Walk:
    def __init__(self, data):
        self.data = data
        self.at = 0
        self.mark = 0
        self.kinds = set()
        self.deepest = 0

    def number(self, width):
        self.at += width
        return int.from_bytes(self.data[self.at - width:self.at], "big")

    def skip(self, count):
        self.at += count

    def run(self, item, depth):
        count = self.number(4)
        end = self.at + count
        while self.at < end:
            item(depth)

    def node(self, fields, names, depth):
        self.deepest = max(self.deepest, depth)
        self.skip(4)
        kind = self.number(1)
        self.kinds.add(names[kind])
        for field in fields[kind]:
            self.field(field, depth)

    def statement(self, depth):
        self.node(STATEMENTS, STATEMENT_NAMES, depth)

    def expression(self, depth):
        self.node(EXPRESSIONS, EXPRESSION_NAMES, depth)

    def block(self, depth):
        self.run(self.statement, depth)

    def arm(self, depth):
        self.expression(depth)
        self.block(depth)

    def field(self, field, depth):
        if field.isdigit():
            self.skip(int(field))
        elif field == "m":
            self.mark = self.number(1)
        elif field == "c":
            self.skip(CONSTANT_WIDTHS[self.number(1)])
        elif field == "C":
            self.skip(11)
            self.skip(self.number(1))
        elif field == "R":
            self.run(self.expression, depth + 1)
        elif field == "P":
            mark = self.mark
            self.run(self.arm, depth + 1)
            self.mark = mark
        elif field == "E" or field == "e" and self.mark:
            self.expression(depth + 1)
        elif field == "B" or field == "b" and self.mark:
            self.block(depth + 1)


def walk(unit):
    """The names of a unit's kinds, and how deep its nodes are nested."""
    w = Walk(bytes.fromhex(unit.hex))
    w.skip(6)
    w.block(1)
    return w.kinds, w.deepest
