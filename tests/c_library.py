"""The C library for tests in Python, by its header: `fd.fd_run` is a function, `TYPES["fd_result"]` a struct, and
`NUMBERS["FD_OK"]` a constant. What of the library is not built of these sources is built first.
"""
import ctypes
import os
import re
import subprocess
import sys

ROOT = os.path.dirname(os.path.dirname(os.path.abspath(__file__)))
TYPES = {"uint8_t": ctypes.c_uint8, "uint16_t": ctypes.c_uint16, "int16_t": ctypes.c_int16, "size_t": ctypes.c_size_t,
         "uint32_t": ctypes.c_uint32, "uint64_t": ctypes.c_uint64, "int64_t": ctypes.c_int64}

with open(f"{ROOT}/c/fixed_decimal.h", encoding="utf-8") as _file:
    _HEADER = re.sub(r"/\*.*?\*/", "", _file.read(), flags=re.S)
NUMBERS = {name: int(number) for name, number in re.findall(r"\b(FD_\w+)(?: =)? (\d+)\b", _HEADER)}
for _body, _name in re.findall(r"typedef struct \w+ \{(.*?)\} (\w+);", _HEADER, re.S):
    _fields = re.findall(r"(\w+) (\w+)(?:\[(\d+)\])?;", _body)
    TYPES[_name] = type(_name, (ctypes.Structure,), {"_fields_": [
        (field, TYPES[kind] * int(count) if count else TYPES[kind]) for kind, field, count in _fields]})


def parameter(text):
    """The type of a parameter: a pointer to bytes or structs, or a number."""
    if "*" not in text:
        return TYPES[text.split()[0]]
    kind = text.replace("const ", "").split()[0]
    return ctypes.c_char_p if kind == "uint8_t" else ctypes.POINTER(TYPES[kind])


if subprocess.run(["bash", f"{ROOT}/c/build.sh"], stdout=subprocess.DEVNULL).returncode:
    sys.exit("c/build.sh failed")
fd = ctypes.CDLL(f"{ROOT}/c/out/libfixed_decimal.so")
for _kind, _name, _parameters in re.findall(r"^(\w+) (fd_\w+)\((.*?)\);", _HEADER, re.M | re.S):
    _function = getattr(fd, _name)
    _function.restype = TYPES[_kind]
    _function.argtypes = [] if _parameters == "void" else [parameter(it) for it in _parameters.split(",")]
