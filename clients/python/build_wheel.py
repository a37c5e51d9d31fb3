#!/usr/bin/env python3
"""Writes the package's wheel, with only the standard library, so that nothing is fetched.

    build_wheel.py FOLDER

writes one for each processor that `make lib` and `make lib-arm` have built the library for: with
the library in it, and with the program as the command `clearmap` where it is built for that
processor too. `pip install ./clients/python` calls `build_wheel` by pyproject.toml: the wheel has
what is built for this machine, and else the modules alone. `pip install -e ./clients/python` calls
`build_editable`: the modules, and the library, are those of the tree.
"""
import base64
import hashlib
import io
import pathlib
import platform
import re
import sys
import tarfile
import zipfile
from typing import Dict, Optional

HERE = pathlib.Path(__file__).resolve().parent
MODULES = sorted(f"clearmap/{path.name}" for path in HERE.glob("clearmap/*.py"))
PARTS = (*MODULES, "clearmap/py.typed")
SOURCES = (*PARTS, "build_wheel.py", "pyproject.toml")
LIBRARY = "libclearmap.so.2"
BUILT = HERE.parent.parent / "crates/libclearmap/out"
PROGRAM = HERE.parent.parent / "crates/clearmap/out/clearmap"
PROCESSORS = {62: "x86_64", 183: "aarch64"}  # by the number in the head of an ELF file


def settings() -> Dict[str, str]:
    """The words of the table [project]."""
    text = (HERE / "pyproject.toml").read_text(encoding="utf-8").partition("[project]")[2]
    return dict(re.findall(r'^([a-z-]+) = "(.*)"$', text, re.MULTILINE))


def optional_dependencies() -> Dict[str, str]:
    """The table [project.optional-dependencies]: what each extra needs."""
    text = (HERE / "pyproject.toml").read_text(encoding="utf-8")
    table = text.partition("[project.optional-dependencies]")[2]
    return dict(re.findall(r'^([a-z]+) = \["(.*)"\]$', table, re.MULTILINE))


def metadata() -> str:
    """What METADATA and PKG-INFO say."""
    told = settings()
    extras = "".join(
        f'Provides-Extra: {extra}\nRequires-Dist: {need}; extra == "{extra}"\n'
        for extra, need in optional_dependencies().items()
    )
    return (
        f"Metadata-Version: 2.1\nName: {told['name']}\nVersion: {told['version']}\n"
        f"Summary: {told['description']}\nLicense: MIT\n"
        f"Requires-Python: {told['requires-python']}\n{extras}"
    )


def processor_of(path: pathlib.Path) -> Optional[str]:
    """The processor that an ELF file is for; `None` if there is no such file."""
    head = path.read_bytes()[:20] if path.exists() else b""
    if not head.startswith(b"\x7fELF"):
        return None
    return PROCESSORS.get(int.from_bytes(head[18:20], "little"))


def libraries() -> Dict[str, pathlib.Path]:
    """The libraries that are built, by their processors."""
    paths = ((processor_of(path), path) for path in (BUILT / LIBRARY, BUILT / "aarch64" / LIBRARY))
    return {processor: path for processor, path in paths if processor}


def write_wheel(folder: str, processor: Optional[str] = None) -> str:
    """Writes the wheel with the library of a processor, or with none, and returns its file name."""
    tag = f"py3-none-linux_{processor}" if processor else "py3-none-any"
    files = {part: (HERE / part).read_bytes() for part in PARTS}
    if processor:
        files[f"clearmap/{LIBRARY}"] = libraries()[processor].read_bytes()
        if processor_of(PROGRAM) == processor:
            files[f"{stem()}.data/scripts/clearmap"] = PROGRAM.read_bytes()
    return pack(folder, tag, files)


def stem() -> str:
    """The start of a wheel's file name and of its folders."""
    return "{name}-{version}".format(**settings())


def pack(folder: str, tag: str, files: Dict[str, bytes]) -> str:
    """Writes a wheel of these files, and returns its file name. `files` gets what describes it."""
    info = f"{stem()}.dist-info"
    pure = str(tag.endswith("-any")).lower()
    files[f"{info}/METADATA"] = metadata().encode()
    files[f"{info}/WHEEL"] = (
        f"Wheel-Version: 1.0\nGenerator: clearmap\nRoot-Is-Purelib: {pure}\nTag: {tag}\n".encode()
    )
    files[f"{info}/RECORD"] = record(files, f"{info}/RECORD")
    name = f"{stem()}-{tag}.whl"
    with zipfile.ZipFile(pathlib.Path(folder, name), "w", zipfile.ZIP_DEFLATED) as wheel:
        for path, data in files.items():
            entry = zipfile.ZipInfo(path)
            entry.external_attr = (0o100755 if ".data/scripts/" in path else 0o100644) << 16
            wheel.writestr(entry, data, zipfile.ZIP_DEFLATED)
    return name


def record(files: Dict[str, bytes], own_name: str) -> bytes:
    """The list of a wheel's files, each with its hash and its length."""
    lines = []
    for name, data in files.items():
        digest = base64.urlsafe_b64encode(hashlib.sha256(data).digest()).rstrip(b"=").decode()
        lines.append(f"{name},sha256={digest},{len(data)}\n")
    return "".join([*lines, f"{own_name},,\n"]).encode()


def build_wheel(
    wheel_directory: str, config_settings: object = None, metadata_directory: object = None
) -> str:
    """Writes the wheel for this machine into a folder, and returns its file name."""
    here = platform.machine() if sys.platform == "linux" else None
    return write_wheel(wheel_directory, here if here in libraries() else None)


def build_editable(
    wheel_directory: str, config_settings: object = None, metadata_directory: object = None
) -> str:
    """Writes a wheel that leads to the modules of this folder, and returns its file name."""
    return pack(wheel_directory, "py3-none-any", {"clearmap.pth": f"{HERE}\n".encode()})


def build_sdist(sdist_directory: str, config_settings: object = None) -> str:
    """Writes the sources into a folder, and returns the file name."""
    name = f"{stem()}.tar.gz"
    with tarfile.open(pathlib.Path(sdist_directory, name), "w:gz") as sources:
        for part in SOURCES:
            sources.add(HERE / part, f"{stem()}/{part}")
        about = tarfile.TarInfo(f"{stem()}/PKG-INFO")
        about.size = len(metadata().encode())
        sources.addfile(about, io.BytesIO(metadata().encode()))
    return name


def main() -> None:
    """Writes a wheel for each library that is built, and prints its path."""
    if len(sys.argv) != 2:
        sys.exit("build_wheel.py: name the folder for the wheels")
    if not libraries():
        sys.exit("build_wheel.py: the library isn't built: make lib")
    folder = pathlib.Path(sys.argv[1])
    folder.mkdir(parents=True, exist_ok=True)
    for processor in libraries():
        print(folder / write_wheel(str(folder), processor))


if __name__ == "__main__":
    main()
