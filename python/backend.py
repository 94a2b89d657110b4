"""Builds the package for pip (PEP 517 and 660), with the standard library alone, so that an installation needs no network.

A wheel is a zip file: the package, and a folder of what is told of it. If the library's archive is there, the shared library is
made first and goes along; without it the assembler works all the same, and the engine says what is missing.
"""
import base64
import hashlib
import sys
import sysconfig
import tarfile
import zipfile
from pathlib import Path

ROOT = Path(__file__).resolve().parent
PACKAGE = ROOT / "bukzarn"
WHEEL_IGNORE = ("__pycache__", ".pyc")
SDIST_IGNORE = ("__pycache__", ".pyc", ".so")

# The moment that zip counts from: the same files make the same wheel.
ZIP_EPOCH = (1980, 1, 1, 0, 0, 0)

sys.path.insert(0, str(PACKAGE))
import build  # noqa: E402 (the path is set here)


def project():
    """What pyproject.toml says of the project: names and texts. Python 3.10 has no reader of TOML, and these lines need none."""
    section, found = "", {}
    for line in (ROOT / "pyproject.toml").read_text(encoding="utf-8").splitlines():
        if line.startswith("["):
            section = line.strip("[]")
        elif " = " in line and not line.startswith("#"):
            name, _, value = line.partition(" = ")
            found[section, name] = value.strip('"')
    return found


def name_and_version():
    """The name and the version, as the files of a wheel write them."""
    said = project()
    return said["project", "name"], said["project", "version"]


def metadata():
    """The head of the package, for whoever lists what is installed."""
    said, (name, version) = project(), name_and_version()
    lines = ["Metadata-Version: 2.1", f"Name: {name}", f"Version: {version}", f"Summary: {said['project', 'description']}",
             f"Requires-Python: {said['project', 'requires-python']}"]
    for (section, extra), packages in said.items():
        if section == "project.optional-dependencies":
            name = packages.strip('[]"')
            lines += [f"Provides-Extra: {extra}", f"Requires-Dist: {name}; extra == '{extra}'"]
    return "\n".join(lines) + "\n\n" + (ROOT / "README.md").read_text(encoding="utf-8")


def wheel_tag():
    """For which machines the wheel is: this one, if the shared library goes along, else any."""
    if not (PACKAGE / build.SHARED).is_file():
        return "py3-none-any"
    return f"py3-none-{sysconfig.get_platform().replace('-', '_').replace('.', '_')}"


def dist_info():
    """The files beside the package: pairs of a name and a text."""
    name, version = name_and_version()
    folder = f"{name}-{version}.dist-info"
    scripts = [f"{word} = {place}" for (section, word), place in project().items() if section == "project.scripts"]
    pure = str(wheel_tag().endswith("any")).lower()
    wheel = f"Wheel-Version: 1.0\nGenerator: backend\nRoot-Is-Purelib: {pure}\nTag: {wheel_tag()}\n"
    entries = "\n".join(["[console_scripts]", *scripts]) + "\n"
    return folder, [("METADATA", metadata()), ("WHEEL", wheel), ("entry_points.txt", entries)]


def package_files():
    """The package's files: pairs of a name and the bytes."""
    for file in sorted(PACKAGE.rglob("*")):
        if file.is_file() and not any(part in str(file) for part in WHEEL_IGNORE):
            yield str(file.relative_to(ROOT)), file.read_bytes()


def write_wheel(wheel_directory, files):
    """Writes a wheel of the files, and gives its name."""
    folder, beside = dist_info()
    entries = [*files, *((f"{folder}/{name}", text.encode()) for name, text in beside)]
    rows = []
    for name, data in entries:
        digest = base64.urlsafe_b64encode(hashlib.sha256(data).digest()).rstrip(b"=").decode()
        rows.append(f"{name},sha256={digest},{len(data)}")
    entries.append((f"{folder}/RECORD", ("\n".join([*rows, f"{folder}/RECORD,,"]) + "\n").encode()))
    made = f"{'-'.join(name_and_version())}-{wheel_tag()}.whl"
    with zipfile.ZipFile(Path(wheel_directory, made), "w", zipfile.ZIP_DEFLATED) as zipped:
        for name, data in entries:
            info = zipfile.ZipInfo(name, ZIP_EPOCH)
            info.external_attr, info.compress_type = 0o644 << 16, zipfile.ZIP_DEFLATED
            zipped.writestr(info, data)
    return made


def build_library():
    """Makes the shared library, if its archive is there."""
    source = build.archive()
    if source.is_file():
        build.make(source, PACKAGE / build.SHARED)


def build_wheel(wheel_directory, config_settings=None, metadata_directory=None):
    build_library()
    return write_wheel(wheel_directory, list(package_files()))


def build_editable(wheel_directory, config_settings=None, metadata_directory=None):
    """A wheel that names this folder, so that the files are used where they stand."""
    build_library()
    return write_wheel(wheel_directory, [("bukzarn-in-place.pth", f"{ROOT}\n".encode())])


def build_sdist(sdist_directory, config_settings=None):
    """The sources; the library is made where they are installed."""
    folder = "-".join(name_and_version())
    with tarfile.open(Path(sdist_directory, f"{folder}.tar.gz"), "w:gz") as archive:
        for file in ("pyproject.toml", "backend.py", "README.md", "bukzarn"):
            archive.add(ROOT / file, f"{folder}/{file}", filter=lambda info: None if info.name.endswith(SDIST_IGNORE) else info)
    return f"{folder}.tar.gz"
