"""Addresses of servers."""
from __future__ import annotations

from typing import NamedTuple


class Address(NamedTuple):
    """A host and a port."""

    host: str
    port: int

    def __str__(self) -> str:
        return f"[{self.host}]:{self.port}" if ":" in self.host else f"{self.host}:{self.port}"


def parse_address(text: str) -> Address:
    """The address of a text such as `127.0.0.1:30252` or `[::1]:30252`. ValueError where it has
    none."""
    host, colon, port = text.rpartition(":")
    if not colon or not host or not 0 <= int(port) < 1 << 16:
        raise ValueError(f"no address: {text}")
    return Address(host.strip("[]"), int(port))


def parse_addresses(text: str) -> list[Address]:
    """The addresses of a text, with commas between. ValueError where one is none, or occurs
    twice."""
    addresses = [parse_address(part) for part in text.split(",")]
    if len(set(addresses)) < len(addresses):
        raise ValueError(f"an address occurs twice: {text}")
    return addresses
