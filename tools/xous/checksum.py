"""The check number of images and states: CRC-16/X-25."""

import binascii

REVERSED = bytes(int(f"{byte:08b}"[::-1], 2) for byte in range(256))


def check_number(data: bytes) -> int:
    """The CRC-16/X-25 of some bytes. Python has the same polynomial for bytes whose bits come in the other order."""
    crc = binascii.crc_hqx(bytes(data).translate(REVERSED), 0xFFFF)
    return int(f"{crc:016b}"[::-1], 2) ^ 0xFFFF
