"""Builds the wheel of this package with the released program in it, by the standard library alone.

These are the hooks that `pip` and `build` call (`[build-system]` in pyproject.toml), so that an installation needs no
network.
"""

import base64
import hashlib
import io
import tarfile
import tomllib
import zipfile
from collections.abc import Iterator
from pathlib import Path
from typing import Any

HERE = Path(__file__).resolve().parent
PROGRAM = "chrrep-x86_64-linux"
TAG = "py3-none-linux_x86_64"


def build_wheel(
    wheel_directory: str, config_settings: dict[str, Any] | None = None, metadata_directory: str | None = None
) -> str:
    """Writes the wheel into the folder, and gives its name."""
    project = _project()
    full_name = f"{project['name']}-{project['version']}"
    record: list[str] = []
    name = f"{full_name}-{TAG}.whl"
    with zipfile.ZipFile(Path(wheel_directory, name), "w", zipfile.ZIP_DEFLATED) as wheel:
        for path, data, mode in _files(project, f"{full_name}.dist-info"):
            _put(wheel, path, data, mode)
            digest = base64.urlsafe_b64encode(hashlib.sha256(data).digest()).rstrip(b"=").decode()
            record.append(f"{path},sha256={digest},{len(data)}")
        listing = f"{full_name}.dist-info/RECORD"
        _put(wheel, listing, "\n".join([*record, f"{listing},,", ""]).encode(), 0o644)
    return name


def build_sdist(sdist_directory: str, config_settings: dict[str, Any] | None = None) -> str:
    """Writes the sources and the program, from which the wheel can be built, and gives the file's name."""
    project = _project()
    full_name = f"{project['name']}-{project['version']}"
    name = f"{full_name}.tar.gz"
    with tarfile.open(Path(sdist_directory, name), "w:gz", format=tarfile.PAX_FORMAT) as archive:
        for path in ("pyproject.toml", "build_backend.py", *_sources()):
            archive.add(HERE / path, f"{full_name}/{path}")
        archive.add(_program(), f"{full_name}/release/{PROGRAM}")
        metadata = _metadata(project)
        info = tarfile.TarInfo(f"{full_name}/PKG-INFO")
        info.size = len(metadata)
        archive.addfile(info, io.BytesIO(metadata))
    return name


def _project() -> dict[str, Any]:
    project: dict[str, Any] = tomllib.loads((HERE / "pyproject.toml").read_text())["project"]
    return project


def _files(project: dict[str, Any], metadata: str) -> Iterator[tuple[str, bytes, int]]:
    """The paths in the wheel, what stands there, and the modes."""
    for path in _sources():
        yield path, (HERE / path).read_bytes(), 0o644
    yield f"chrrep/bin/{PROGRAM}", _program().read_bytes(), 0o755
    yield f"{metadata}/METADATA", _metadata(project), 0o644
    made = f"Wheel-Version: 1.0\nGenerator: {Path(__file__).stem}\nRoot-Is-Purelib: false\nTag: {TAG}\n"
    yield f"{metadata}/WHEEL", made.encode(), 0o644
    scripts = "".join(f"{name} = {call}\n" for name, call in project["scripts"].items())
    yield f"{metadata}/entry_points.txt", f"[console_scripts]\n{scripts}".encode(), 0o644


def _sources() -> list[str]:
    found = [path for path in HERE.glob("chrrep/**/*") if path.suffix in (".py", ".html") or path.name == "py.typed"]
    return sorted(str(path.relative_to(HERE)) for path in found)


def _program() -> Path:
    """The released program: of the repository, or of the archive that these sources came in."""
    places = (HERE.parent / "release" / PROGRAM, HERE / "release" / PROGRAM)
    return next(place for place in places if place.is_file())


def _metadata(project: dict[str, Any]) -> bytes:
    lines = [
        "Metadata-Version: 2.1",
        f"Name: {project['name']}",
        f"Version: {project['version']}",
        f"Summary: {project['description']}",
        f"Requires-Python: {project['requires-python']}",
    ]
    for extra, needs in project["optional-dependencies"].items():
        lines.append(f"Provides-Extra: {extra}")
        lines += [f'Requires-Dist: {need} ; extra == "{extra}"' for need in needs]
    return "\n".join([*lines, ""]).encode()


def _put(wheel: zipfile.ZipFile, path: str, data: bytes, mode: int) -> None:
    info = zipfile.ZipInfo(path)
    info.external_attr = (0o100000 | mode) << 16
    info.compress_type = zipfile.ZIP_DEFLATED
    wheel.writestr(info, data)
