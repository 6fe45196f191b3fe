"""Builds the package without any other package, so that `pip install bindings/python` needs no network (PEP 517, PEP 660, and PEP 427 for the wheel). It writes
nothing beside the file that is asked for."""
import base64
import hashlib
import io
import os
import tarfile
import zipfile

TOP = os.path.dirname(os.path.dirname(os.path.abspath(__file__)))
NAME, TAG = "patchsard", "py3-none-any"
# In archives, so that the same files make the same archive.
BEGIN = (1980, 1, 1, 0, 0, 0)
# In a wheel that has the program.
PROGRAM = "patchsard/bin/patchsard"
COMMAND = "[console_scripts]\npatchsard = patchsard._command:main\n"


def _version():
    with open(f"{TOP}/patchsard/__init__.py", encoding="utf-8") as file:
        return next(line.split('"')[1] for line in file if line.startswith("__version__"))


def _metadata():
    with open(f"{TOP}/README.md", encoding="utf-8") as file:
        readme = file.read()
    head = [
        "Metadata-Version: 2.1",
        f"Name: {NAME}",
        f"Version: {_version()}",
        "Summary: Resolves JSON Schema references by the program patchsard, whose answers are proved",
        "License: MIT",
        "Keywords: json schema,$ref,referencing,resolver",
        "Classifier: License :: OSI Approved :: MIT License",
        "Classifier: Operating System :: POSIX :: Linux",
        "Classifier: Programming Language :: Python :: 3",
        "Classifier: Typing :: Typed",
        "Requires-Python: >=3.8",
        "Provides-Extra: jsonschema",
        'Requires-Dist: jsonschema>=4.18; extra == "jsonschema"',
        "Description-Content-Type: text/markdown",
    ]
    return "\n".join(head) + "\n\n" + readme


def _package():
    """The files of the package, each with its path in it."""
    for name in sorted(os.listdir(f"{TOP}/patchsard")):
        if name.endswith(".py") or name == "py.typed":
            with open(f"{TOP}/patchsard/{name}", "rb") as file:
                yield f"patchsard/{name}", file.read()


def _wheel(folder, files, tag=TAG, begin=BEGIN, programs=()):
    """Writes a wheel with these files, into a folder or a file that is open, and returns its name."""
    info, is_pure = f"{NAME}-{_version()}.dist-info", "false" if programs else "true"
    files = [*files, (f"{info}/METADATA", _metadata().encode()), (f"{info}/WHEEL", f"Wheel-Version: 1.0\nGenerator: patchsard_backend\nRoot-Is-Purelib: {is_pure}\nTag: {tag}\n".encode())]
    record = "".join(f"{path},sha256={base64.urlsafe_b64encode(hashlib.sha256(data).digest()).rstrip(b'=').decode()},{len(data)}\n" for path, data in files)
    name = f"{NAME}-{_version()}-{tag}.whl"
    with zipfile.ZipFile(os.path.join(folder, name) if isinstance(folder, (str, os.PathLike)) else folder, "w", zipfile.ZIP_DEFLATED) as wheel:
        for path, data in [*files, (f"{info}/RECORD", f"{record}{info}/RECORD,,\n".encode())]:
            entry = zipfile.ZipInfo(path, begin)
            entry.external_attr = (0o100755 if path in programs else 0o100644) << 16
            wheel.writestr(entry, data, zipfile.ZIP_DEFLATED)
    return name


def build_wheel(wheel_directory, config_settings=None, metadata_directory=None):
    return _wheel(wheel_directory, list(_package()))


def wheel_with_program(program, tag, more, begin):
    """The name and the bytes of a wheel with the program's bytes, which has a command too, and with more files about it. `scripts/package` calls it."""
    info, out = f"{NAME}-{_version()}.dist-info", io.BytesIO()
    files = [*_package(), (PROGRAM, program), *((f"{info}/{path}", data) for path, data in more), (f"{info}/entry_points.txt", COMMAND.encode())]
    name = _wheel(out, files, tag, begin, (PROGRAM,))
    return name, out.getvalue()


def build_editable(wheel_directory, config_settings=None, metadata_directory=None):
    return _wheel(wheel_directory, [("patchsard.pth", f"{TOP}\n".encode())])


def build_sdist(sdist_directory, config_settings=None):
    root = f"{NAME}-{_version()}"
    name = f"{root}.tar.gz"
    with tarfile.open(os.path.join(sdist_directory, name), "w:gz") as archive:
        for path in ("pyproject.toml", "README.md", "backend/patchsard_backend.py", *(path for path, _ in _package())):
            archive.add(f"{TOP}/{path}", f"{root}/{path}")
    return name
