"""Makes the wheel for `pip install bindings/python`: the package, with the shared library that bindings/c/build made.

It needs no other package, so that pip needs no network: a wheel is a zip file with some files of metadata (PEP 427 and
639). The same files give the same bytes. `pip install -e` makes one that only says where the package is (PEP 660).
"""
import base64
import hashlib
import os
import pathlib
import re
import sysconfig
import zipfile

from sdist import build_sdist  # noqa: F401

HERE = pathlib.Path(__file__).resolve().parent
TOP = HERE.parent.parent
LIBRARY = HERE.parent / "c" / "out" / "lib" / "libsimple_asn1.so"


def build_wheel(wheel_directory, config_settings=None, metadata_directory=None):
    library = _library()
    name = _fields()["name"]
    files = {f"{name}/{path.name}": path.read_bytes() for path in sorted((HERE / name).glob("*.py"))}
    files[f"{name}/py.typed"] = b""
    files[f"{name}/libsimple_asn1.so"] = library
    return _wheel(wheel_directory, files, _tags(library))


def build_editable(wheel_directory, config_settings=None, metadata_directory=None):
    """The package is used where it is, with the library that it finds there."""
    path = f"{HERE}\n".encode()
    return _wheel(wheel_directory, {f"{_fields()['name']}.pth": path}, _tags(_library()))


def _library():
    library = pathlib.Path(os.environ.get("SIMPLE_ASN1_LIBRARY") or LIBRARY)
    platform = sysconfig.get_platform()
    # pip shows one sentence, where an error would have the frames of all calls
    if library == LIBRARY and platform != "linux-x86_64":
        raise SystemExit(f"simple_asn1 has its library for Linux on x86-64 alone, and this is {platform}: set "
                         "SIMPLE_ASN1_LIBRARY to a libsimple_asn1 that was built for it.")
    if not library.exists():
        raise SystemExit(f"There is no {library}: run bindings/c/build first, which makes it.")
    return library.read_bytes()


def licences():
    """Ours, and NOTICES, which has those of the kit's code in the library: bindings/c/build writes it, and a source
    distribution has it at the top."""
    notices = [path for path in (TOP / "NOTICES", LIBRARY.parent.parent / "NOTICES") if path.exists()]
    if not notices:
        missing = LIBRARY.parent.parent / "NOTICES"
        raise SystemExit(f"There is no {missing}: run bindings/c/build first, which makes it.")
    return {"LICENSE": (TOP / "LICENSE").read_bytes(), "NOTICES": notices[0].read_bytes()}


def _fields():
    project = (HERE / "pyproject.toml").read_text()
    keys = ("name", "version", "description", "readme", "requires-python", "license")
    return {key: re.search(rf'^{key} = "(.*)"$', project, re.MULTILINE)[1] for key in keys}


def _classifiers():
    project = (HERE / "pyproject.toml").read_text()
    listed = re.search(r"^classifiers = \[\n(.*?)^\]$", project, re.MULTILINE | re.DOTALL)[1]
    return re.findall(r'^    "(.*)",$', listed, re.MULTILINE)


def _tags(library):
    """The platforms that the library runs on: those with the newest version of glibc of which it needs a symbol, and
    those with musl, whose loader takes itself for libc.so.6 and heeds no versions of symbols."""
    platform = re.sub(r"[-.]", "_", sysconfig.get_platform())
    versions = [tuple(map(int, found)) for found in re.findall(rb"\0GLIBC_(\d+)\.(\d+)(?=[.\0])", library)]
    if not versions or not platform.startswith("linux_"):
        return [platform]
    machine = platform[len("linux_") :]
    if max(versions) <= (2, 17):
        return [f"{policy}_{machine}" for policy in ("manylinux_2_17", "manylinux2014", "musllinux_1_1")]
    return ["manylinux_{}_{}_{}".format(*max(versions), machine)]


def _wheel(wheel_directory, files, platforms):
    fields = _fields()
    name, version = fields["name"], fields["version"]
    info = f"{name}-{version}.dist-info"
    files.update({f"{info}/licenses/{file}": text for file, text in licences().items()})
    named = "".join(f"License-File: {file}\n" for file in licences())
    classified = "".join(f"Classifier: {it}\n" for it in _classifiers())
    files[f"{info}/METADATA"] = (
        f"Metadata-Version: 2.4\nName: {name}\nVersion: {version}\nSummary: {fields['description']}\n"
        f"License-Expression: {fields['license']}\n{named}"
        f"Requires-Python: {fields['requires-python']}\n{classified}"
        f"Description-Content-Type: text/markdown\n\n{(HERE / fields['readme']).read_text(encoding='utf-8')}"
    ).encode()
    tags = "".join(f"Tag: py3-none-{platform}\n" for platform in platforms)
    files[f"{info}/WHEEL"] = (
        f"Wheel-Version: 1.0\nGenerator: wheel_backend\nRoot-Is-Purelib: false\n{tags}"
    ).encode()
    files[f"{info}/RECORD"] = ("".join(map(_listed, files.items())) + f"{info}/RECORD,,\n").encode()
    wheel = f"{name}-{version}-py3-none-{'.'.join(platforms)}.whl"
    with zipfile.ZipFile(pathlib.Path(wheel_directory) / wheel, "w") as out:
        for path, octets in files.items():
            entry = zipfile.ZipInfo(path)  # of 1980-01-01
            entry.external_attr = (0o100755 if path.endswith(".so") else 0o100644) << 16
            out.writestr(entry, octets, zipfile.ZIP_DEFLATED)
    return wheel


def _listed(file):
    path, octets = file
    digest = base64.urlsafe_b64encode(hashlib.sha256(octets).digest()).rstrip(b"=").decode()
    return f"{path},sha256={digest},{len(octets)}\n"
