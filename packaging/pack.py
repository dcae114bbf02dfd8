#!/usr/bin/env python3
"""Writes the release's archives: equal files give equal bytes.

Usage: pack.py tree FOLDER TO        a .tar.gz of a folder, which is its top
       pack.py wheel LIBRARY TAG TO  the Python wheel, with the shared object inside; TAG says where pip takes it
       pack.py sdist TO              the Python sources, without a library
       pack.py crate LIBRARY TO      the Rust crate, with the archive inside
TO is the file; of a wheel, an sdist and a crate its folder. SOURCE_DATE_EPOCH is the time of each file.
"""
import base64
import gzip
import hashlib
import io
import json
import os
import re
import sys
import tarfile
import time
import tomllib
import zipfile

TOP = os.path.dirname(os.path.dirname(os.path.abspath(__file__)))
EPOCH = int(os.environ["SOURCE_DATE_EPOCH"])


def read(*path):
    with open(os.path.join(TOP, *path), "rb") as file:
        return file.read()


def files_of(folder, ending):
    """The files of a folder whose names end so, as name and bytes."""
    names = sorted(name for name in os.listdir(os.path.join(TOP, folder)) if name.endswith(ending))
    return [(name, read(folder, name)) for name in names]


def entry(name, mode):
    """An entry of a tar archive without a body."""
    made = tarfile.TarInfo(name)
    made.mtime, made.mode = EPOCH, mode
    return made


def write_tar(to, entries):
    """Writes entries, each with its bytes, as a .tar.gz."""
    with open(to, "wb") as file, gzip.GzipFile("", "wb", 9, file, EPOCH) as packed:
        with tarfile.open(fileobj=packed, mode="w", format=tarfile.GNU_FORMAT) as archive:
            for made, body in entries:
                made.size = len(body)
                archive.addfile(made, io.BytesIO(body))


def tree_entries(folder):
    """The entries of a folder, in the order of their names."""
    above = os.path.dirname(os.path.abspath(folder))
    paths = [folder]
    for place, folders, names in os.walk(folder):
        paths += [os.path.join(place, name) for name in folders + names]
    for path in sorted(map(os.path.abspath, paths)):
        name = os.path.relpath(path, above)
        if os.path.islink(path):
            made = entry(name, 0o777)
            made.type, made.linkname = tarfile.SYMTYPE, os.readlink(path)
            yield made, b""
        elif os.path.isdir(path):
            made = entry(name, 0o755)
            made.type = tarfile.DIRTYPE
            yield made, b""
        else:
            with open(path, "rb") as file:
                yield entry(name, 0o755 if os.access(path, os.X_OK) else 0o644), file.read()


def pack_tree(folder, to):
    write_tar(to, tree_entries(folder))


def pack_sources(name, files, folder, ending):
    """Writes files below one folder as an archive of sources."""
    write_tar(os.path.join(folder, name + ending), ((entry(f"{name}/{path}", 0o644), body) for path, body in files))


# ---- Python

PROJECT = tomllib.loads(read("abi/python/pyproject.toml").decode())["project"]
NAME = f"{PROJECT['name']}-{PROJECT['version']}"


def metadata():
    """What an installer reads of the package."""
    lines = ["Metadata-Version: 2.1", f"Name: {PROJECT['name']}", f"Version: {PROJECT['version']}",
             f"Summary: {PROJECT['description']}", f"Requires-Python: {PROJECT['requires-python']}",
             *(f"Classifier: {it}" for it in PROJECT["classifiers"]), "Description-Content-Type: text/markdown", "", ""]
    return "\n".join(lines).encode() + read("packaging/python.md")


def package():
    """The files of the package."""
    found = [*files_of("abi/python/kijolvar", ".py"), *files_of("abi/python/kijolvar", ".typed")]
    return [(f"kijolvar/{name}", body) for name, body in found]


def pack_wheel(library, tag, folder):
    with open(library, "rb") as file:
        files = [*package(), ("kijolvar/libkijolvar.so", file.read())]
    info = f"{NAME}.dist-info"
    wheel = f"Wheel-Version: 1.0\nGenerator: kijolvar\nRoot-Is-Purelib: false\nTag: {tag}\n"
    files = sorted(files) + [(f"{info}/METADATA", metadata()), (f"{info}/WHEEL", wheel.encode())]
    sums = [f"{path},sha256={sum_for_record(body)},{len(body)}\n" for path, body in files]
    files.append((f"{info}/RECORD", "".join([*sums, f"{info}/RECORD,,\n"]).encode()))
    with zipfile.ZipFile(os.path.join(folder, f"{NAME}-{tag}.whl"), "w") as archive:
        for path, body in files:
            made = zipfile.ZipInfo(path, time.gmtime(EPOCH)[:6])
            made.external_attr = (0o755 if path.endswith(".so") else 0o644) << 16
            archive.writestr(made, body, zipfile.ZIP_DEFLATED, 9)


def sum_for_record(body):
    return base64.urlsafe_b64encode(hashlib.sha256(body).digest()).rstrip(b"=").decode()


def pack_sdist(folder):
    files = [("PKG-INFO", metadata()), ("README.md", read("packaging/python.md")),
             ("pyproject.toml", read("abi/python/pyproject.toml"))]
    pack_sources(NAME, files + package(), folder, ".tar.gz")


# ---- Rust

CRATE = "abi/rust/kijolvar"


def crate_manifest(text, examples):
    """Cargo.toml, with the examples in the crate's own folder."""
    for example in examples:
        text = re.sub(rf'(\[\[example\]\]\nname = "{example["name"]}"\npath = ")[^"]*"',
                      rf'\1examples/{example["name"]}.rs"', text)
    return text


def pack_crate(library, folder):
    manifest = read(CRATE, "Cargo.toml").decode()
    said = tomllib.loads(manifest)
    version = said["package"]["version"]
    files = [("Cargo.toml", crate_manifest(manifest, said["example"]).encode()), ("build.rs", read(CRATE, "build.rs")),
             ("README.md", read("packaging/rust.md").replace(b"@VERSION@", version.encode()))]
    for inner in ("src", "tests"):
        files += [(f"{inner}/{name}", body) for name, body in files_of(f"{CRATE}/{inner}", ".rs")]
    files += [(f"examples/{it['name']}.rs", read(CRATE, it["path"])) for it in said["example"]]
    with open(library, "rb") as file:
        files.append(("libkijolvar.a", file.read()))
    # A folder of vendored crates wants the checksums.
    sums = {path: hashlib.sha256(body).hexdigest() for path, body in files}
    files.append((".cargo-checksum.json", json.dumps({"files": sums, "package": None}, sort_keys=True).encode()))
    pack_sources(f"{said['package']['name']}-{version}", files, folder, ".crate")


def main():
    kinds = {"tree": (pack_tree, 2), "wheel": (pack_wheel, 3), "sdist": (pack_sdist, 1), "crate": (pack_crate, 2)}
    pack, count = kinds.get(sys.argv[1] if len(sys.argv) > 1 else "", (None, 0))
    if pack is None or len(sys.argv) != count + 2:
        sys.exit(__doc__)
    pack(*sys.argv[2:])


main()
