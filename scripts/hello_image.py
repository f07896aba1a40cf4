#!/usr/bin/env python3
"""Puts the image of examples/hello together by hand, from docs/IMAGE.md and the RISC-V manual alone.

    python3 scripts/hello_image.py          prints the words, the bytes of text and image, and the digest
    python3 scripts/hello_image.py FILE     also writes the text's bytes into FILE, for a disassembler
"""

import hashlib
import struct
import sys

RAM_BYTES = 4194304
PAGE_BYTES = 4096
TEXT_START = 0x80040000
LITERAL = b"hello\n"
ECALL = 0x00000073


def le32(number):
    return struct.pack("<I", number)


def addi(rd, rs1, imm):
    return (imm & 0xFFF) << 20 | rs1 << 15 | rd << 7 | 0x13


def lui(rd, imm):
    return imm & 0xFFFFF000 | rd << 7 | 0x37


def jal(rd, offset):
    bits = offset & 0x1FFFFF
    upper = (bits >> 20 & 1) << 31 | (bits >> 1 & 0x3FF) << 21
    return upper | (bits >> 11 & 1) << 20 | (bits >> 12 & 0xFF) << 12 | rd << 7 | 0x6F


def jalr(rd, rs1, imm):
    return (imm & 0xFFF) << 20 | rs1 << 15 | rd << 7 | 0x67


def stub(number):
    return [addi(11, 10, 0), addi(10, 0, number), ECALL]


def text_and_main():
    """The words of the text, its bytes with the literal, and the main function's address."""
    stubs = stub(1) + stub(2)
    proxy_at = TEXT_START + 4 * len(stubs)
    proxy = [addi(13, 12, 0), addi(12, 11, 0), addi(11, 10, 0), addi(10, 0, 16), ECALL, jalr(0, 1, 0)]
    main_at = proxy_at + 4 * len(proxy)
    literal_at = main_at + 4 * 8
    upper = (literal_at + 0x800) & 0xFFFFF000
    main = [
        addi(8, 1, 0),
        addi(10, 0, 1),
        lui(11, upper),
        addi(11, 11, literal_at - upper),
        addi(12, 0, len(LITERAL)),
        jal(1, proxy_at - (main_at + 4 * 5)),
        addi(10, 0, 0),
        jalr(0, 8, 0),
    ]
    words = stubs + proxy + main
    text = b"".join(map(le32, words)) + LITERAL + b"\0"
    return words, text + b"\0" * (-len(text) % 16), main_at


def image_of(text, main_at):
    data_at = TEXT_START + (len(text) + PAGE_BYTES - 1) // PAGE_BYTES * PAGE_BYTES
    gate = struct.pack("<H", 16) + bytes([3, 0, 0, 1, 4, 0, 0, 0, 0, 0])
    parts = [b"NXI1", le32(0), le32(RAM_BYTES), le32(1), gate, le32(1), b"hello".ljust(32, b"\0")]
    numbers = [TEXT_START, len(text), data_at, 0, main_at, TEXT_START, TEXT_START + 12]
    return b"".join(parts + list(map(le32, numbers))) + text


def main():
    words, text, main_at = text_and_main()
    image = image_of(text, main_at)
    print(" ".join(f"{word:08x}" for word in words))
    print(len(text), len(image))
    print(hashlib.sha256(image).hexdigest())
    if len(sys.argv) > 1:
        with open(sys.argv[1], "wb") as file:
            file.write(text)


if __name__ == "__main__":
    main()
