"""The package: the generated module, and what is built of the folder."""
from __future__ import annotations

import importlib.util
import shutil
import subprocess
import sys
import tempfile
import unittest
import zipfile
from pathlib import Path
from typing import ClassVar

from google.protobuf.descriptor_pb2 import FileDescriptorProto, FileDescriptorSet

from pathd_client import segments_pb2

FOLDER = Path(__file__).resolve().parents[1]
DOCS = FOLDER.parents[1] / "docs"
HAS_PROTOC = shutil.which("protoc") is not None
HAS_BUILDERS = all(importlib.util.find_spec(name) for name in ("setuptools", "wheel"))

# Builds what the word says of the folder it runs in, into the folder `out`, as `pip` would.
BUILD = "import sys; from setuptools import build_meta; getattr(build_meta, sys.argv[1])('out')"


class Messages(unittest.TestCase):
    """The messages."""

    @unittest.skipUnless(DOCS.is_dir() and HAS_PROTOC, "docs or protoc is not here")
    def test_generated_module_is_that_of_the_description(self) -> None:
        with tempfile.NamedTemporaryFile() as file:
            words = [f"--proto_path=pathd_client={DOCS}", f"--descriptor_set_out={file.name}"]
            subprocess.run(["protoc", *words, "pathd_client/segments.proto"], check=True)
            described = FileDescriptorSet.FromString(file.read()).file[0]
        generated = FileDescriptorProto()
        segments_pb2.DESCRIPTOR.CopyToProto(generated)
        for message in (described, generated):
            forget_json_names(message)
        self.assertEqual(generated, described)


def forget_json_names(message: FileDescriptorProto) -> None:
    """Leaves out what protoc adds to a set of descriptions alone."""
    for kind in message.message_type:
        for part in (kind, *kind.nested_type):
            for field in part.field:
                field.ClearField("json_name")


def build(folder: Path, what: str) -> Path:
    """Builds `sdist` or `wheel` of a folder in which nothing else is."""
    (folder / "out").mkdir(exist_ok=True)
    words = [sys.executable, "-c", BUILD, f"build_{what}"]
    subprocess.run(words, cwd=folder, check=True, capture_output=True)
    (built,) = (folder / "out").glob("*.tar.gz" if what == "sdist" else "*.whl")
    return built


@unittest.skipUnless(HAS_BUILDERS, "setuptools or wheel is not here")
class Builds(unittest.TestCase):
    """A source distribution of the folder alone, and a wheel of that alone."""

    unpacked: ClassVar[Path]
    names: ClassVar[list[str]]

    @classmethod
    def setUpClass(cls) -> None:
        folder = tempfile.TemporaryDirectory()
        cls.addClassCleanup(folder.cleanup)
        work = Path(folder.name)
        unwanted = shutil.ignore_patterns("__pycache__", "*.egg-info", "build", "dist")
        shutil.copytree(FOLDER, work / "python", ignore=unwanted)
        shutil.unpack_archive(build(work / "python", "sdist"), work)
        shutil.rmtree(work / "python")
        (cls.unpacked,) = work.iterdir()
        with zipfile.ZipFile(build(cls.unpacked, "wheel")) as wheel:
            cls.names = wheel.namelist()

    def test_source_distribution_has_the_tests(self) -> None:
        for name in ("tests/test_package.py", "README.md", "demo.py", "expected.txt"):
            self.assertTrue((self.unpacked / name).exists(), name)

    def test_wheel_has_one_package(self) -> None:
        roots = {name.split("/")[0] for name in self.names}
        self.assertEqual({root for root in roots if ".dist-info" not in root}, {"pathd_client"})

    def test_wheel_has_the_types(self) -> None:
        for name in ("py.typed", "segments_pb2.py", "segments_pb2.pyi"):
            self.assertIn(f"pathd_client/{name}", self.names)


if __name__ == "__main__":
    unittest.main()
