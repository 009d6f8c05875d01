"""Python's decimal, which is libmpdec, through Python.

mpdec.py version               the version of libmpdec
mpdec.py whole TEXT DECIMALS   parses a text, shifts it by -2, rounds it half-even and prints it
mpdec.py time TEXT..           a line for each text and operation: OPERATION SIZE NANOSECONDS
                               (to_u64 is of the text without its decimal point)
"""
import decimal
import sys
import timeit

decimal.getcontext().prec = 70_000
decimal.getcontext().rounding = decimal.ROUND_HALF_EVEN


def whole(text, unit):
    return str(decimal.Decimal(text).scaleb(-2).quantize(unit))


def least(call, size):
    count = 10 if size > 1000 else 1000
    return min(timeit.repeat(call, repeat=50, number=count)) / count * 1e9


def main(word, *texts):
    if word == "version":
        print(decimal.__libmpdec_version__)
    elif word == "whole":
        print(whole(texts[0], decimal.Decimal(1).scaleb(-int(texts[1]))))
    for text in texts if word == "time" else ():
        size = sum(byte.isdigit() for byte in text)
        number, cent = decimal.Decimal(text), decimal.Decimal("0.01")
        twin, other = decimal.Decimal(text), decimal.Decimal(text[:-1] + "8")
        print("parse", size, least(lambda: decimal.Decimal(text), size))
        print("shift", size, least(lambda: number.scaleb(-2), size))
        print("round", size, least(lambda: number.quantize(cent), size))
        print("print", size, least(lambda: str(number), size))
        print("whole", size, least(lambda: whole(text, cent), size))
        print("compare", size, least(lambda: number.compare(twin), size))
        print("compare_last", size, least(lambda: number.compare(other), size))
        if size < 20:
            integer = decimal.Decimal(text.replace(".", ""))
            print("to_u64", size, least(lambda: int(integer), size))


main(*sys.argv[1:])
