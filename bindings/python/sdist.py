"""Makes the source distribution: a tarball from which pip makes the wheel where there is no checkout, nor the kit.

It has the files of this folder and the proved library in folders as in a checkout, so that wheel_backend finds them,
and at the top the licences, PKG-INFO and a pyproject.toml that names the folder of wheel_backend (PEP 517, 625).
"""
import gzip
import io
import os
import pathlib
import tarfile
import tempfile
import zipfile

HERE = pathlib.Path(__file__).resolve().parent
TOP = HERE.parent.parent
LIBRARY = TOP / "bindings/c/out/lib/libsimple_asn1.so"


def build_sdist(sdist_directory, config_settings=None):
    import wheel_backend

    with tempfile.TemporaryDirectory() as folder:
        wheel = wheel_backend.build_wheel(folder)
        with zipfile.ZipFile(pathlib.Path(folder) / wheel) as made:
            metadata = next(made.read(it) for it in made.namelist() if it.endswith(".dist-info/METADATA"))
    project = (HERE / "pyproject.toml").read_text()
    place = 'backend-path = ["."]'
    if place not in project:
        raise ValueError(f"pyproject.toml has no line {place}")
    project = project.replace(place, f'backend-path = ["{_named(HERE)}"]')
    # the manifest at the top names the README beside it
    files = {"PKG-INFO": metadata, "pyproject.toml": project.encode(), **wheel_backend.licences(),
             "README.md": (HERE / "README.md").read_bytes()}
    for path in [*sorted(HERE.glob("*.*")), *sorted(HERE.glob("simple_asn1/*.*")), LIBRARY]:
        if path.is_file() and path.suffix != ".pyc":
            files[_named(path)] = path.read_bytes()
    name = "-".join(wheel.split("-")[:2])
    octets = io.BytesIO()
    with tarfile.open(fileobj=octets, mode="w", format=tarfile.PAX_FORMAT) as out:
        for path, content in files.items():
            entry = tarfile.TarInfo(f"{name}/{path}")
            entry.size, entry.mtime = len(content), int(os.environ.get("SOURCE_DATE_EPOCH", 0))
            out.addfile(entry, io.BytesIO(content))
    made = f"{name}.tar.gz"
    (pathlib.Path(sdist_directory) / made).write_bytes(gzip.compress(octets.getvalue(), mtime=0))
    return made


def _named(path):
    return path.relative_to(TOP).as_posix()
