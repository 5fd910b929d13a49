"""Addresses and secrets, as they are given."""
from __future__ import annotations


def host_and_port(address: str) -> tuple[str, int]:
    """The two parts of an address as 127.0.0.1:4710, or [::1]:4710; a ValueError where it is none."""
    host, colon, port = address.rpartition(":")
    if not colon or not host or not port.isdigit() or not 0 < int(port) < 65536:
        raise ValueError(f"{address!r} is no address: it has a host, a colon and a port")
    return host.removeprefix("[").removesuffix("]"), int(port)


def secret_of(given: bytes | str) -> bytes:
    """A secret of 16 bytes, or of 32 hexadecimal digits; a ValueError where it is none, which doesn't show it."""
    try:
        secret = bytes.fromhex(given) if isinstance(given, str) else bytes(given)
    except ValueError:
        secret = b""
    if len(secret) != 16:
        raise ValueError("a secret has 16 bytes, or 32 hexadecimal digits")
    return secret
