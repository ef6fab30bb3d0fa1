"""Whole numbers as a shell computes them: 64 bits, division toward zero, C's precedence. No text is run as a program."""
import re

from .values import Unfit, shown

TOKEN = re.compile(r"\s*(?:(0[xX][0-9a-fA-F]+|[0-9]+)|([A-Za-z_]\w*)|(\*\*|<<|>>|<=|>=|==|!=|&&|\|\||[-+*/%()<>!~&^|?:]))", re.ASCII)
# From the loosest to the tightest; all of them take their left side first.
LEVELS = (("||",), ("&&",), ("|",), ("^",), ("&",), ("==", "!="), ("<", "<=", ">", ">="), ("<<", ">>"), ("+", "-"), ("*", "/", "%"))
LONGEST, DEEPEST, DIGITS = 1000, 50, 20


def divided(left, right):
    """Toward zero, as C divides."""
    if not right:
        raise Unfit("it divides by 0")
    quotient = abs(left) // abs(right)
    return quotient if (left < 0) == (right < 0) else -quotient


def power(left, right):
    if not 0 <= right <= 64:
        raise Unfit("the power is too large")
    return left**right


def shifted(left, right):
    if not 0 <= right < 64:
        raise Unfit("the shift is too large")
    return left << right


DOES = {
    "||": lambda a, b: int(bool(a or b)), "&&": lambda a, b: int(bool(a and b)),
    "|": lambda a, b: a | b, "^": lambda a, b: a ^ b, "&": lambda a, b: a & b,
    "==": lambda a, b: int(a == b), "!=": lambda a, b: int(a != b),
    "<": lambda a, b: int(a < b), "<=": lambda a, b: int(a <= b), ">": lambda a, b: int(a > b), ">=": lambda a, b: int(a >= b),
    "<<": shifted, ">>": lambda a, b: shifted(a, b) and a >> b,
    "+": lambda a, b: a + b, "-": lambda a, b: a - b,
    "*": lambda a, b: a * b, "/": divided, "%": lambda a, b: a - b * divided(a, b), "**": power,
}  # fmt: skip


def tokens_of(text):
    if len(text) > LONGEST:
        raise Unfit(f"a sum of {len(text)} characters is too long")
    found, at, text = [], 0, text.rstrip()
    while at < len(text):
        it = TOKEN.match(text, at)
        if not it:
            raise Unfit(f"the sum {shown(text)} is not followed")
        found.append(it)
        at = it.end()
    return found


class Sum:
    """Reads one sum by recursive descent."""

    def __init__(self, text, value_of, is_expr=False):
        self.text, self.value_of, self.is_expr = text, value_of, is_expr
        self.tokens, self.at, self.depth = tokens_of(text), 0, 0

    def fault(self):
        return Unfit(f"the sum {shown(self.text)} is not followed")

    def next_is(self, *operators):
        it = self.tokens[self.at] if self.at < len(self.tokens) else None
        if it and it[3] in operators:
            self.at += 1
            return it[3]
        return None

    def whole(self):
        result = self.chosen()
        if self.at < len(self.tokens):
            raise self.fault()
        return result

    def chosen(self):
        """A value, or one of two by a condition."""
        self.depth += 1
        if self.depth > DEEPEST:
            raise self.fault()
        result = self.level(0)
        if self.next_is("?"):
            first = self.chosen()
            if not self.next_is(":"):
                raise self.fault()
            second = self.chosen()
            result = first if result else second
        self.depth -= 1
        return result

    def level(self, number):
        if number == len(LEVELS):
            return self.raised()
        result = self.level(number + 1)
        while operator := self.next_is(*LEVELS[number]):
            result = in_range(DOES[operator](result, self.level(number + 1)))
        return result

    def raised(self):
        base = self.signed()
        if self.next_is("**"):
            return in_range(power(base, self.raised()))
        return base

    def signed(self):
        self.depth += 1
        if self.depth > DEEPEST:
            raise self.fault()
        operator = self.next_is("-", "+", "!", "~")
        result = self.signed() if operator else self.value()
        self.depth -= 1
        return {"-": -result, "!": int(not result), "~": ~result}.get(operator, result)

    def value(self):
        if self.next_is("("):
            result = self.chosen()
            if not self.next_is(")"):
                raise self.fault()
            return result
        if self.at == len(self.tokens) or self.tokens[self.at][3]:
            raise self.fault()
        it = self.tokens[self.at]
        self.at += 1
        if it[1]:
            return number_of(it[1], self.is_expr)
        return self.value_of(it[2])


def in_range(value):
    if not -(2**63) <= value < 2**63:
        raise Unfit("a sum leaves the 64 bits of a shell")
    return value


def number_of(digits, is_expr):
    """A constant: expr reads 010 as ten, a shell as eight."""
    if len(digits) > DIGITS:
        raise Unfit(f"a number of {len(digits)} digits is too large")
    if digits[:2] in ("0x", "0X"):
        return in_range(int(digits, 16))
    is_octal = digits[0] == "0" and not is_expr
    if is_octal and not re.fullmatch("[0-7]+", digits):
        raise Unfit(f"{digits} is no octal number")
    return in_range(int(digits, 8 if is_octal else 10))


def computed(text, value_of):
    """The value of $((TEXT)); value_of gives the text of a variable."""

    def named(name, depth=0):
        text = value_of(name).strip()
        if not re.fullmatch(r"[-+]?(0[xX][0-9a-fA-F]+|[0-9]+)", text, re.ASCII):
            raise Unfit(f"${name} is no number")
        sign, digits = (-1 if text[0] == "-" else 1), text.lstrip("+-")
        return sign * number_of(digits, False)

    if not text.strip():
        raise Unfit("a sum is empty")
    return Sum(text, named).whole()


def expr(words):
    """What `expr WORDS` prints of whole numbers with + - * / % and brackets."""
    for it in words:
        if not re.fullmatch(r"-?[0-9]+|[-+*/%()]", it, re.ASCII):
            raise Unfit(f"expr {shown(' '.join(words))} is not followed")

    def unnamed(name):
        raise Unfit(f"expr has the name {shown(name)}")

    return Sum(" ".join(words), unnamed, True).whole()
