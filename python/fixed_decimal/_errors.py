"""The error of decimals."""

# Why numbers of digits are those of no format, by `at` (an `fd_digit_reason` of the C library).
_DIGIT_REASONS = (
    "integer digits are from 1 to 21", "there is no such rounding increment",
    "significant digits are from 1 to 21, and the minimum is at most the maximum",
    "fraction digits are from 0 to 100, and the minimum is at most the maximum",
    "an increment is not used with significant digits, a priority or compact notation",
    "an increment is used with one number of fraction digits",
)


def _start(text):
    """The text if it has at most 40 bytes, and else whole characters of these and two dots."""
    size = 0
    for at, character in enumerate(text):
        size += len(character.encode("utf-8", "surrogatepass"))
        if size > 40:
            return text[:at] + ".."
    return text


class DecimalError(ValueError):
    """`reason` says why a text, a call or a locale is rejected, and `at` where: the number of the call.

    `text` is the text, the tag, the skeleton or the rules that fail, or None; after 40 bytes it is cut. In a column,
    `line` is the 0-based index of the text that fails. It is None if no text is at fault, as of an unknown locale.

    >>> column(["1", "1x"])
    Traceback (most recent call last):
    fixed_decimal._errors.DecimalError: line 1: syntax: '1x'
    """

    line = None

    def __init__(self, reason, at=0, text=None):
        super().__init__(reason)
        self.reason = reason
        self.at = at
        self.text = None if text is None else _start(text)

    def __str__(self):
        line = "" if self.line is None else f"line {self.line}: "
        text = "" if self.text is None else f": {self.text!r}"
        if self.reason == "digit options":
            text = f": {_DIGIT_REASONS[self.at]}"
        return line + self.reason + text
