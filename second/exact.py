"""The functions of demo.py, which work in exact fractions, without what it prints and with a faster rounding."""
import contextlib
import io

with contextlib.redirect_stdout(io.StringIO()):
    import demo
from demo import FORMATS, Refusal, exact_text, factor, numbers, solve  # noqa: F401

FORMAT_OF = {"": "binary64", "32": "binary32"}


def rounded(fmt, q):
    """As demo.rounded, which tries one exponent after the other; here the exponent is worked out from the digits."""
    digits, top, _ = FORMATS[fmt]
    above, below = q.numerator, q.denominator
    leading = above.bit_length() - below.bit_length()          # or one more than the power of the leading digit
    if above << max(-leading, 0) < below << max(leading, 0):
        leading -= 1
    power = max(leading - digits + 1, 2 - top - digits)
    below <<= max(power, 0)
    whole, rest = divmod(above << max(-power, 0), below)
    if 2 * rest > below or (2 * rest == below and whole % 2 == 1):
        whole += 1
    return (whole, power) if whole.bit_length() + power <= top + 1 else None


demo.rounded = rounded
