"""Writes a canonical Directory to a file.

    make_directory.py FILE NODES          mixed: of NODES nodes, 6 in 10 are files, 3 in 10 directories, 1 in 10 links
    make_directory.py FILE NODES --turns  half files and half directories, whose names alternate in their order

The same arguments give the same bytes. Names have 8 to 30 bytes of ASCII, targets 20 to 40, sizes are below 2^22 (half of
them below 2048), and one file in five is executable.
"""
import random
import sys

WORDS = "lib src test main util core data index config build cache map node tree list hash read write page part".split()
ENDS = [".c", ".h", ".o", ".cc", ".rs", ".py", ".txt", ".json", ".html", ".so", ".a", ""]


def number(n):
    out = bytearray()
    while n >= 0x80:
        out.append(n & 0x7F | 0x80)
        n >>= 7
    out.append(n)
    return bytes(out)


def field(tag, text):
    return bytes([tag]) + number(len(text)) + text


def digest(rnd):
    size = int(2 ** rnd.uniform(0, 22)) - 1
    return field(0x0A, b"%064x" % rnd.getrandbits(256)) + (b"\x10" + number(size) if size else b"")


def file_node(rnd, name):
    mark = b"\x20\x01" if rnd.random() < 0.2 else b""
    return field(0x0A, field(0x0A, name) + field(0x12, digest(rnd)) + mark)


def directory_node(rnd, name):
    return field(0x12, field(0x0A, name) + field(0x12, digest(rnd)))


def link_node(rnd, name):
    target = b"../"
    least = rnd.randint(20, 40)
    while len(target) < least:
        target += rnd.choice(WORDS).encode() + b"/"
    return field(0x1A, field(0x0A, name) + field(0x12, target[:least - 1] + b"x"))


def random_name(rnd):
    name = "_".join(rnd.choice(WORDS) for _ in range(rnd.randint(1, 3)))
    name += "_%04d" % rnd.randrange(10000) + rnd.choice(ENDS)
    return name[:30].encode()


def random_names(rnd, count):
    names = set()
    while len(names) < count:
        name = random_name(rnd)
        if len(name) >= 8:
            names.add(name)
    return rnd.sample(sorted(names), count)


def main():
    path, nodes = sys.argv[1], int(sys.argv[2])
    rnd = random.Random(nodes)
    if sys.argv[3:] == ["--turns"]:
        names = [b"entry_%06d" % i for i in range(nodes)]
        files, directories, links = names[0::2], names[1::2], []
    else:
        names = random_names(rnd, nodes)
        files = sorted(names[:nodes * 6 // 10])
        directories = sorted(names[nodes * 6 // 10:nodes * 9 // 10])
        links = sorted(names[nodes * 9 // 10:])
    out = b"".join(file_node(rnd, n) for n in files)
    out += b"".join(directory_node(rnd, n) for n in directories)
    out += b"".join(link_node(rnd, n) for n in links)
    with open(path, "wb") as f:
        f.write(out)


main()
