#!/usr/bin/env bash
# Times the program on texts of growing size, `dm_reprint` on what the program writes, and `dm_speed`, which derives twenty times with
# items, one process each, and prints bytes, seconds and the ratio to the size before.
# It asserts nothing, and the gate doesn't run it. It times the programs that the gate left in this checkout; where there is none it proves
# and builds them first, which takes about as long as the gate. Needs `rt` and python3.
set -eu
cd "$(dirname "$0")/.."
program=crates/dm_prog/out/dm_prog reprint=crates/dm_reprint/out/dm_reprint calls=crates/dm_speed/out/dm_speed
[ -x "$program" ] || (cd crates/dm_prog && rt run < stdin > /dev/null)
[ -x "$reprint" ] || (cd crates/dm_reprint && rt run < stdin > /dev/null)
[ -x "$calls" ] || (cd crates/dm_speed && rt run)
work=$(mktemp -d)
trap 'rm -rf "$work"' EXIT

cat > "$work/speed.py" <<'PY'
import os, subprocess, sys, time

program, reprint, calls, work = sys.argv[1:]
SIZES = (16 << 10, 64 << 10, 256 << 10, 1 << 20)


def repeated(part, size):
    return (part * (size // len(part) + 1))[:size]


def fields(size):
    head, tail = "struct P(", ");"
    count = (size - len(head) - len(tail)) // len("Field00,")
    return head + "".join("Field%02x," % (i % 256) for i in range(count)) + tail


def listed(head, part, tail):
    """A text of numbered parts between a head and a tail."""
    def text(size):
        parts, length = [], len(head) + len(tail)
        while length < size - 600:
            parts.append(part(len(parts)))
            length += len(parts[-1])
        return head + "".join(parts) + tail
    return text


def variant(i):
    return ("V%d," % i, "V%d(T, u8)," % i, "V%d { a: T, b: u8 }," % i)[i % 3]


def sample(count):
    return "enum Sample<T> {" + "".join(variant(i) for i in range(count)) + " }"


def names(count):
    return ",".join("T%d" % i for i in range(count))


def nested_comments(size):
    depth = size // 4
    return "/*" * depth + "*/" * depth


# What is timed, and its text of about so many bytes.
TEXTS = {
    "a tuple struct whose fields have types of seven letters": fields,
    "identifiers": lambda size: repeated("name_1 ", size),
    "one raw string": lambda size: 'r#"' + "x" * (size - 5) + '"#',
    "nested comments": nested_comments,
    "open parentheses": lambda size: "(" * size,
    "puncts": lambda size: repeated("+-=", size),
    "fields that each mention a parameter": listed("struct S<T>(", lambda i: "A%d<T>," % i, ");"),
    "an enum of unit variants": listed("enum E {", lambda i: "V%d," % i, "}"),
    "an enum of variants of all forms": listed("enum Sample<T> {", variant, " }"),
    "generic parameters": listed("struct S<", lambda i: "T%d: A," % i, ">;"),
    "attributes": listed("", lambda i: "#[a%d(b)]" % i, "struct S;"),
    "types nested 127 deep": listed("struct S(", lambda i: "&" * 127 + "u8,", ");"),
    "paths nested 127 deep": listed("struct S(", lambda i: "a<" * 127 + "u8" + ">" * 127 + ",", ");"),
    "discriminants": listed("enum E {", lambda i: "V%d = a::<b, c>::d + %d," % (i, i), "}"),
}

# What is timed at one size.
ONCE = {
    "a name of no trait": "Hash\n",
    "a struct of three fields": "PartialEq\nstruct S { a: u8, b: u8, c: u8 }",
    "an enum of 2000 variants": "PartialEq\n" + sample(2000),
    "10000 parameters and a field of each": "PartialEq\nstruct S<" + names(10000) + ">(" + names(10000) + ");",
}


# Each trait on a declaration that it is derived for, with 2000 variants, or as many fields.
ALIKE = ["Add", "BitAnd", "BitOr", "BitXor", "Sub"]
ANY = ["Div", "Mul", "Rem", "Shl", "Shr"]
STRUCT = "struct Sample<T> {" + "".join(" f%d: %s," % (i, "T" if i % 2 else "u8") for i in range(2000)) + " }"
DERIVED = [(name, sample(2000)) for name in ["PartialEq", *ALIKE, "Not", "Neg"]]
DERIVED += [(name, STRUCT) for name in ["PartialEq", *(it + "Assign" for it in ALIKE), *ANY, *(it + "Assign" for it in ANY)]]


def best_of(path, times, run=program):
    best = None
    for _ in range(times):
        with open(path) as source:
            start = time.perf_counter()
            answer = subprocess.run([run], stdin=source, stdout=subprocess.PIPE)
            took = time.perf_counter() - start
        best = took if best is None else min(best, took)
    return best, answer.stdout


for name, text in ONCE.items():
    path = f"{work}/input"
    with open(path, "w") as file:
        file.write(text)
    took, written = best_of(path, 20)
    print(f"{name}: {took:.4f}, {len(written)} bytes written")

for name, decl in DERIVED:
    path = f"{work}/input"
    with open(path, "w") as file:
        file.write(name + "\n" + decl)
    took, written = best_of(path, 20)
    print(f"{name}, {decl[:4].strip()} of 2000: {took:.4f}, {len(written)} bytes written")

start = time.perf_counter()
subprocess.run([program, "sample", "2000"], stdout=subprocess.DEVNULL)
print(f"sample 2000: {time.perf_counter() - start:.4f}")

# One call of `derive_text`, of the twenty of a process, with its items.
print(f"derive_text, PartialEq of 2000, a call: {best_of(os.devnull, 10, calls)[0] / 20:.4f}")

# Implementations, which `dm_reprint` reads by `read_items` and prints again by `print_items`. What `derive_text` does beside printing is to
# read its text so.
path = f"{work}/input"
with open(path, "w") as file:
    file.write("PartialEq\n" + sample(2000))
written = best_of(path, 1)[1]
with open(path, "wb") as file:
    file.write(written)
took, again = best_of(path, 20, reprint)
print(f"read_items and print_items, PartialEq of 2000: {took:.4f}, {len(again)} bytes, {'the same' if again == written else 'another text'}")
with open(path, "w") as file:
    file.write("PartialEq\n" + sample(20))
one = best_of(path, 1)[1]
print("read_items and print_items, implementations of PartialEq")
before = None
for size in SIZES:
    with open(path, "wb") as file:
        file.write(one * (size // len(one)))
    took, again = best_of(path, 5, reprint)
    ratio = "" if before is None else f"{took / before:8.2f}"
    print(f"{size:10d}{took:10.4f} {ratio:>8}  {len(again)} bytes written")
    before = took

for name, text in TEXTS.items():
    print(name)
    before = None
    for size in SIZES:
        line = "PartialEq\n"
        path = f"{work}/input"
        with open(path, "w") as file:
            file.write(line + text(size - len(line)))
        took, written = best_of(path, 5)
        ratio = "" if before is None else f"{took / before:8.2f}"
        answer = written[:60].decode().split("\n")[0] if len(written) < 100 else f"{len(written)} bytes written"
        print(f"{size:10d}{took:10.4f} {ratio:>8}  {answer}")
        before = took
PY
python3 "$work/speed.py" "$program" "$reprint" "$calls" "$work"
