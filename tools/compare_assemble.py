#!/usr/bin/env python3
"""compare_assemble.py [COUNT [SEED]]: hold `assemble` against another reading of docs/ASSEMBLE.md.

First fixed texts, for each reason and each bound, bad bytes and no text at all; then COUNT texts by chance (4,000), some of them with bytes changed. What
the program writes to standard output and to standard error has to be the same. Needs rt. Exit status 0 if it is, 1 if one text differs."""
import pathlib
import random
import re
import struct
import subprocess
import sys

ROOT = pathlib.Path(__file__).resolve().parent.parent
PROGRAM = ROOT / "target/bin/assemble"
CALLS = {
    "cre_tsk": (0x01, ["itskpri"]), "del_tsk": (0x02, ["tskid"]), "sta_tsk": (0x03, ["tskid"]), "ext_tsk": (0x04, []), "ter_tsk": (0x05, ["tskid"]),
    "chg_pri": (0x06, ["tskid", "tskpri"]), "cre_mtx": (0x10, ["mtxatr", "ceilpri"]), "del_mtx": (0x11, ["mtxid"]), "loc_mtx": (0x12, ["mtxid", "tmout"]),
    "unl_mtx": (0x13, ["mtxid"]), "cre_mbf": (0x20, ["mbfatr", "bufsz", "maxmsz"]), "del_mbf": (0x21, ["mbfid"]),
    "snd_mbf": (0x22, ["mbfid", "msgsz", "tmout"]), "rcv_mbf": (0x23, ["mbfid", "tmout"]), "cre_mpf": (0x30, ["mpfatr", "mpfcnt", "blfsz"]),
    "del_mpf": (0x31, ["mpfid"]), "get_mpf": (0x32, ["mpfid", "tmout"]), "rel_mpf": (0x33, ["mpfid", "blf"]), "tick": (0x40, []),
}
WORD = re.compile(r"[ \t\r]*([^ \t\r#]*)")


class Wrong(Exception):
    pass


def over(rest):
    return rest == "" or rest[0] == "#"


def message(rest):
    """The message in front, and what is behind it."""
    if over(rest):
        return b"", rest
    form, rest, made = rest[0], rest[1:], b""
    if form not in '"x':
        raise Wrong("bad message")
    while True:
        if form == '"' and rest[:1] == '"':
            return made, rest[1:]
        if form == "x" and (rest == "" or rest[0] in " \t\r#"):
            return made, rest
        found = re.match(r"\\x([0-9a-fA-F]{2})" if form == '"' else r"([0-9a-fA-F]{2})", rest)
        if found:
            made, rest = made + bytes([int(found.group(1), 16)]), rest[found.end():]
        elif form == '"' and rest != "" and rest[0] != "\\":
            made, rest = made + rest[0].encode("latin1"), rest[1:]
        else:
            raise Wrong("bad message")
        if len(made) > 32:
            raise Wrong("the message is longer than 32 bytes")


def record(line):
    name = WORD.match(line)
    if name.group(1) == "":
        return b""
    if name.group(1) not in CALLS:
        raise Wrong("unknown call")
    kind, fields = CALLS[name.group(1)]
    made, rest = bytes([kind]), line[name.end():]
    for field in fields:
        found = WORD.match(rest)
        word, rest = found.group(1), rest[found.end():]
        if word == "":
            raise Wrong("a field is missing")
        name_of, equals, number = word.partition("=")
        if equals == "":
            number = word
        elif name_of != field:
            raise Wrong("this field has another name")
        if not re.fullmatch(r"-?[0-9]+", number) or not -2**31 <= int(number) < 2**31:
            raise Wrong("not a number of 32 bits")
        made += struct.pack("<i", int(number))
    rest = rest.lstrip(" \t\r")
    if name.group(1) == "snd_mbf":
        sent, rest = message(rest)
        made += sent.ljust(32, b"\0")
    if not over(rest.lstrip(" \t\r")):
        raise Wrong("something is left over")
    return made


def expected(text):
    made = b""
    if len(text) > 262144:
        return b"", b"the text is longer than 262144 bytes\n"
    for number, line in enumerate(text.decode("latin1").split("\n"), 1):
        try:
            made += record(line)
            if len(made) > 16384:
                raise Wrong("the script is longer than 16384 bytes")
        except Wrong as why:
            return b"", f"line {number}: {why}\n".encode()
    return made, b""


def written(text):
    run = subprocess.run([PROGRAM], input=text, capture_output=True, check=True)
    return run.stdout, run.stderr


SEND = b"snd_mbf 1 1 0 "
FIXED = [
    b"", b"\n", b"#", b"tick", b"tick\n", b"tick#", b"tick 1", b"tock", b"TICK", b"tic", b"tickk", b"tick\0", b"\0", b"\xff\xfe", b"\xef\xbb\xbftick", b"\xef\xbb\xbf# first\n", bytes(range(256)),
    b"\r\n\r\ntick\r\n", b"cre_tsk", b"cre_tsk # 5", b"cre_tsk 5 6", b"cre_tsk x", b"cre_tsk itskpri=", b"cre_tsk itskpri", b"cre_tsk =5", b"cre_tsk --5",
    b"cre_tsk -", b"cre_tsk +5", b"cre_tsk 2147483647", b"cre_tsk 2147483648", b"cre_tsk -2147483648", b"cre_tsk -2147483649", b"cre_tsk 4294967295",
    b"cre_tsk 99999999999999999999", b"cre_tsk 0000000000000000000000005", b"cre_tsk -0", b"cre_tsk tskid=5", b"cre_tsk 5=5", b"cre_tsk itskpri=itskpri=5",
    b"cre_tsk itskpri=5=", b"cre_tsk itskprio=5", b"cre_tsk itskpr=5", b"cre_tsk tskid=x", b"loc_mtx tmout=1 5", b"loc_mtx 1 mtxid=5", b"cre_tsk =", b"cre_tsk 5#=",
    SEND + b'"', SEND + b'"a', SEND + b'"\\"', SEND + b'"\\x4"', SEND + b'"\\x4', SEND + b'"\\xg0"', SEND + b"x", SEND + b"x4", SEND + b"x4g", SEND + b"hello",
    SEND + b'"a" b', SEND + b'"a"b', SEND + b'"a"#b', b'snd_mbf 1 1 0"a"', SEND + b'"' + b"1" * 32 + b'"', SEND + b'"' + b"1" * 33 + b'"', SEND + b'"' + b"1" * 32,
    SEND + b'"' + b"1" * 32 + b"\\", SEND + b"x" + b"11" * 32, SEND + b"x" + b"11" * 33, SEND + b"x" + b"11" * 32 + b"1", b"tick\n" * 16384, b"tick\n" * 16385,
    b"tick\n" * 16384 + b"\n# end\n", SEND * 1 + b"\n" + (SEND + b"\n") * 363, (SEND + b"\n") * 365, b"#" * 262144, b"#" * 262145,
]


def word():
    return random.choice([
        str(random.choice([0, 1, 5, -1, 2**31 - 1, 2**31, -2**31, -2**31 - 1, random.randint(-2**33, 2**33)])),
        random.choice(["itskpri", "tskid", "tmout", "mbfid", "msgsz", "mtxid", "blf"]) + f"={random.randint(-5, 40)}",
        random.choice(['"hello"', '"a\\x00b"', "x00ff", "x0", '"', '""', "#", '"a # b"', "\\", "x", '"\\x']),
        '"' + "z" * random.randint(28, 36) + '"', "x" + "ab" * random.randint(30, 34),
    ])


def text():
    lines = []
    for _ in range(random.randint(1, 4)):
        name = random.choice(list(CALLS) + ["tock", "#", ""])
        words = [name]
        for field in CALLS.get(name, (0, ["a"]))[1]:
            value = str(random.choice([0, 1, -1, 7, 2**31 - 1, -2**31]))
            words.append(random.choice([value, f"{field}={value}"]) if random.random() < 0.93 else word())
        if name == "snd_mbf" or random.random() < 0.1:
            words.append(word())
        lines.append(random.choice([" ", "\t", "  ", " \r"]).join(words) + random.choice(["", " ", "# c", " # c", "\r"]))
    made = bytearray("\n".join(lines).encode("latin1"))
    if made and random.random() < 0.3:
        for _ in range(random.randint(1, 3)):
            made[random.randrange(len(made))] = random.randrange(256)
    return bytes(made)


def main():
    count, seed = (list(map(int, sys.argv[1:])) + [4000, 7][len(sys.argv) - 1:])[:2]
    subprocess.run([ROOT / "tools/build_programs", "assemble"], check=True)
    random.seed(seed)
    wrong, refused = 0, 0
    for one in FIXED + [text() for _ in range(count)]:
        want = expected(one)
        refused += want[1] != b""
        if written(one) != want:
            wrong += 1
            print(f"{one[:200]!r}: {written(one)!r}, and not {want!r}")
    print(f"{len(FIXED) + count} texts, of which {refused} are refused; {wrong} differ")
    sys.exit(wrong != 0)


if __name__ == "__main__":
    main()
