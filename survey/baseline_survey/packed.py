"""Packed files: known by how they begin, and refused with the command that unpacks them."""
from __future__ import annotations

STARTS = {b"\x1f\x8b": "gunzip", b"\x1f\x9d": "uncompress", b"PK\x03\x04": "unzip", b"BZh": "bunzip2", b"\xfd7zXZ": "unxz"}
# The label in columns 61 to 80 of the first line of a file that Hatanaka's method packed (.crx, .05d).
HATANAKA = b"CRINEX VERS   / TYPE"


def why_packed(data: bytes) -> str:
    """What to say of a packed file; empty where the bytes aren't one."""
    if data[60:80] == HATANAKA:
        return "packed by Hatanaka's method: unpack it first (CRX2RNX of RNXCMP)"
    command = next((it for start, it in STARTS.items() if data.startswith(start)), "")
    return f"packed: unpack it first ({command})" if command else ""
