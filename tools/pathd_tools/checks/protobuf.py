"""Checks docs/segments.proto and the worked example of docs/PROTOCOL.md with Google's protobuf.

    tools/pathd-tools protobuf

It encodes the example segment, its registration and its lookup, and compares them with the bytes
that the program's stored run has (crates/pathd/stdin). It is no part of the gate. It needs Debian's
protobuf-compiler and python3-protobuf.
"""
from __future__ import annotations

import importlib
import subprocess
import sys
import tempfile
from types import ModuleType

from pathd_tools import TOP, messages, need, toolbox

CORE = 0x0001_FF00_0000_0110
LEAF = 0x0001_FF00_0000_0111


def compiled() -> ModuleType:
    """The module that protoc makes of docs/segments.proto."""
    with tempfile.TemporaryDirectory() as folder:
        words = ["protoc", f"--python_out={folder}", f"--proto_path={TOP / 'docs'}", "segments.proto"]
        subprocess.run(words, check=True)
        sys.path.insert(0, folder)
        try:
            return importlib.import_module("segments_pb2")
        finally:
            sys.path.remove(folder)


def entry(pb: ModuleType, ia: int, following: int, ingress: int, egress: int, mac: str) -> object:
    """An entry of the segment."""
    field = pb.HopField(ingress=ingress, egress=egress, exp_time=63, mac=bytes.fromhex(mac))
    body = pb.ASEntrySignedBody(isd_as=ia, next_isd_as=following, hop_entry=pb.HopEntry(hop_field=field), mtu=1472)
    signed = pb.HeaderAndBody(body=body.SerializeToString())
    return pb.ASEntry(signed=pb.SignedMessage(header_and_body=signed.SerializeToString()))


def requests() -> list[str]:
    """The frames of the registration and of the lookup, as hexadecimal text."""
    pb = compiled()
    info = pb.SegmentInformation(timestamp=1_700_000_000, segment_id=7)
    segment = pb.PathSegment(
        segment_info=info.SerializeToString(),
        as_entries=[entry(pb, CORE, LEAF, 0, 1, "010203040506"), entry(pb, LEAF, 0, 2, 0, "0a0b0c0d0e0f")],
    )
    registration = pb.SegmentsRegistrationRequest()
    registration.segments[pb.SEGMENT_TYPE_DOWN].segments.append(segment)
    lookup = pb.SegmentsRequest(src_isd_as=CORE, dst_isd_as=LEAF)
    bodies = [registration.SerializeToString(deterministic=True), lookup.SerializeToString(deterministic=True)]
    return [messages.frame(kind, body).hex() for kind, body in zip((messages.REGISTER, messages.LOOKUP), bodies)]


def main(words: list[str]) -> int:
    """Compares the requests."""
    toolbox.parser(__doc__).parse_args(words)
    need.require("protoc", "python3-protobuf")
    lines = (TOP / "crates/pathd/stdin").read_text().split()
    made = requests()
    for name, wanted, got in zip(("registration", "lookup"), lines, made):
        print(f"{name}: {'the same' if wanted == got else f'differs: {got}'}")
    return 0 if lines == made else 1
