"""The texts of ISD-AS numbers: the ISD is in the upper 16 bits, and the AS in the lower 48."""
from __future__ import annotations

import re

GROUP = r"([0-9a-fA-F]{1,4})"
ISD_AS = re.compile(rf"([0-9]+)-(?:([0-9]+)|{GROUP}:{GROUP}:{GROUP})")


def parse_isd_as(text: str) -> int:
    """The number of a text such as `1-ff00:0:110` or `2-64512`; ValueError where it is none."""
    parts = ISD_AS.fullmatch(text)
    if parts is None:
        raise ValueError(f"no ISD-AS: {text}")
    isd, decimal, *groups = parts.groups()
    number = int(decimal) if decimal else int("".join(group.zfill(4) for group in groups), 16)
    if int(isd) >= 1 << 16 or (decimal and number >= 1 << 32):
        raise ValueError(f"too large: {text}")
    return int(isd) << 48 | number


def isd_as_text(number: int) -> str:
    """The one canonical text: an AS below 2^32 in decimal, a larger one in three groups of
    hexadecimal digits."""
    isd, asn = number >> 48, number & (1 << 48) - 1
    if asn < 1 << 32:
        return f"{isd}-{asn}"
    return f"{isd}-{asn >> 32:x}:{asn >> 16 & 0xFFFF:x}:{asn & 0xFFFF:x}"


def isd_as_of(it: int | str) -> int:
    """The number that is given, or that of a text."""
    return parse_isd_as(it) if isinstance(it, str) else it
