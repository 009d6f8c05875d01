"""Nanoseconds a call in Python, beside decimal and Babel: `python3 bench.py [FIXDEC_LINES]`, the least of rounds in
turns. Babel's patterns are parsed once, as the formats here are made once.

A column of 1,000,000 texts is timed beside that program on a file of the same lines, and beside Python's own `join` and
`split` of them.
"""
import decimal
import os
import subprocess
import sys
import tempfile
import time
import timeit

from fixed_decimal import Decimal, NumberFormat, column

try:
    import babel
    from babel.numbers import format_decimal
except ImportError:
    format_decimal = None

ROUNDS = 15
NAMES = {"D": Decimal, "P": decimal.Decimal, "t": "1234.5650", "cent": decimal.Decimal("0.01"), "f": format_decimal,
         "d": Decimal("1234567.50"), "p": decimal.Decimal("1234567.50")}


def beside(ours, theirs, label=""):
    timers = [timeit.Timer(code, globals=NAMES) for code in (ours, theirs)]
    counts = [timer.timeit(1) and max(1, timer.autorange()[0] // 4) for timer in timers]
    best = [float("inf")] * 2
    for _ in range(ROUNDS):
        for i, timer in enumerate(timers):
            best[i] = min(best[i], timer.timeit(counts[i]) / counts[i] * 1e9)
    print(f"|{label}`{ours}`, `{theirs}`|{best[0]:.0f}|{best[1]:.0f}|{best[0] / best[1]:.2f}|")


print("\n|Call|here, ns|there, ns|ratio|\n|---|---|---|---|")
beside("D(t)", "P(t)")
beside("d.round(-2)", "p.quantize(cent)")
beside("str(D(t).round(-2))", "str(P(t).quantize(cent))")
beside("d < d", "p < p")
# Makers of formats: ours, and Babel's pattern and locale.
KINDS = {
    "currency": ({"style": "currency", "currency": "EUR"}, lambda it: it.currency_formats["standard"], ("EUR",)),
    "percent": ({"style": "percent"}, lambda it: it.percent_formats[None], ()),
}
if format_decimal:
    beside("d.format('de')", "f(p, locale='de')")
    for tag in ("en", "de", "hi", "ar_EG", "ja"):
        for kind, (options, pattern_of, arguments) in KINDS.items():
            locale = babel.Locale.parse(tag)
            ours, theirs = NumberFormat(tag, **options), pattern_of(locale)
            NAMES |= {"nf": ours.format, "babel": theirs.apply, "locale": locale, "x": Decimal("1234.5"),
                      "y": decimal.Decimal("1234.5"), "a": arguments}
            beside("nf(x)", "babel(y, locale, *a)", f"{kind}, {tag}: ")
    NAMES |= {"o": {"style": "currency", "currency": "EUR"}}
    beside("x.format('de', **o)", "nf(x)")


def least(run):
    """The least time, and the least processor's time, of five runs; results are dropped outside them."""
    best = [float("inf")] * 2
    for _ in range(5):
        start, used = time.perf_counter(), sum(os.times()[:4])
        kept = run()
        best = [min(best[0], time.perf_counter() - start), min(best[1], sum(os.times()[:4]) - used)]
        del kept
    return best


texts = [f"{i}.{i % 10000:04}" for i in range(1_000_000)]
runs = {"`column`, round": lambda: column(texts, "round:-2:half-even:1"),
        "`join`, `split`": lambda: "\n".join(texts).split("\n")}
print("\n|A text of 1,000,000|time|processor's time|\n|---|---|---|")
with tempfile.TemporaryFile() as lines, open(os.devnull, "wb") as null:
    lines.write("\n".join(texts).encode() + b"\n")
    if len(sys.argv) > 1:
        def program():
            lines.seek(0)
            subprocess.run([sys.argv[1], "round:-2:half-even:1"], stdin=lines, stdout=null, check=True)

        runs["`fixdec_lines`, round"] = program
    for name, run in runs.items():
        print("|{}|{:.0f} ns|{:.0f} ns|".format(name, *[seconds * 1000 for seconds in least(run)]))
