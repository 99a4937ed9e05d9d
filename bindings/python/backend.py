"""backend: builds the wheel of this package, by `pip wheel .`, or `python3 backend.py FOLDER`;
`python3 backend.py --sdist FOLDER` its source distribution, `python3 backend.py --module FILE` one
extension module alone, _calls.abi3.so or _runs.abi3.so, and `python3 backend.py --metadata FOLDER` the
folder by which pip knows of an installed package.

The modules are compiled by the C compiler CC, of calls.c with the archive libfcanon.a and of runs.c
with libfcanon_runs.a: those of the folder FCANON_LIB, or those which `make library` left in the
repository, or the installed ones. A source distribution has two files of C, by tools/portable, in the
place of the archives. A module is for the machine that CC compiles for, and serves every Python from
3.8 on. Nothing is downloaded, and the same files make the same bytes.
"""

import base64
import gzip
import hashlib
import io
import os
import re
import shlex
import subprocess
import sys
import sysconfig
import tarfile
import tempfile
import zipfile
from pathlib import Path

HERE = Path(__file__).resolve().parent
TOP = HERE.parent.parent
CC = shlex.split(os.environ.get("CC", "cc"))
FLAGS = ["-std=gnu11", "-O2", "-fvisibility=hidden"]
LINKED = {  # how a module is linked, by a part of the name of the machine that CC compiles for
    "darwin": ["-fPIC", "-bundle", "-undefined", "dynamic_lookup"],
    "mingw": ["-shared", "-s", "-static-libgcc", f"-L{sys.base_prefix}/libs", "-lpython3"],
    "": ["-fPIC", "-shared", "-Wl,--exclude-libs,ALL", "-Wl,-s,-z,relro,-z,now", "-Wl,--build-id=none"],
}
# Each module: its source, the archive that it is linked with, and the file of C that is in its place.
MODULES = {"_calls.abi3.so": ("calls.c", "libfcanon.a", "fcanon-portable.c"),
           "_runs.abi3.so": ("runs.c", "libfcanon_runs.a", "fcanon-runs-portable.c")}
PORTABLE = ["fcanon-portable.c", "fcanon-runs-portable.c", "fcanon.h", "fcanon_runs.h"]
# The systems that a module of an archive is for, by the number of its machine in the formats ELF and PE:
# every Linux from glibc 2.17 on or with musl, and Windows.
SYSTEMS = {62: "manylinux2014_x86_64.musllinux_1_2_x86_64", 183: "manylinux2014_aarch64.musllinux_1_2_aarch64",
           0x8664: "win_amd64"}
NOON = (1980, 1, 1, 0, 0, 0)  # the first time that a wheel can have


def field(name):
    return re.search(rf'^{name} = "(.*)"$', (HERE / "pyproject.toml").read_text(), re.M)[1]


# ---- the modules


def installed():
    """The folder of the installed library, as pkg-config names it."""
    words = ["pkg-config", "--variable=libdir", "fcanon"]
    try:
        found = subprocess.run(words, stdout=subprocess.PIPE, stderr=subprocess.DEVNULL, text=True)
    except FileNotFoundError:
        return []
    return [Path(found.stdout.strip())] if found.stdout.strip() else []


def library():
    """The folder of the archives, or this one where the library is here as one file of C."""
    if "FCANON_LIB" in os.environ:
        places = [Path(os.environ["FCANON_LIB"])]
    elif (HERE / PORTABLE[0]).exists():
        return HERE
    else:
        places = [TOP / "build", *installed()]
    found = [it.resolve() for it in places if (it / "libfcanon.a").exists()]
    if not found:
        raise SystemExit("libfcanon.a is not found: name its folder in FCANON_LIB, or run"
                         " make library, or install it for pkg-config")
    return found[0]


def linking():
    """The words by which CC links a module."""
    machine = subprocess.run([*CC, "-dumpmachine"], stdout=subprocess.PIPE, check=True, text=True).stdout
    return next(words for part, words in LINKED.items() if part in machine)


def module(name):
    """An extension module, as CC compiles it."""
    folder = library()
    source, archive, portable = MODULES[name]
    linked = folder / (portable if folder == HERE else archive)
    if not linked.exists():
        raise SystemExit(f"{archive} is not found beside libfcanon.a")
    headers = [sysconfig.get_path("include"), folder, folder.parent / "include"]
    with tempfile.TemporaryDirectory() as room:
        made = Path(room) / name  # without an ending mingw gives it its own
        words = [*CC, *FLAGS, *(f"-I{it}" for it in headers), HERE / source, linked, *linking(), "-o", made]
        subprocess.run([str(it) for it in words], check=True)
        return made.read_bytes()


def modules():
    """Both, by the names that Python finds them by."""
    ending = ".pyd" if "-lpython3" in linking() else ".abi3.so"
    return {name.replace(".abi3.so", ending): module(name) for name in MODULES}


# ---- the wheel


def tag(made):
    """The systems that modules are for: the known ones of their machine, or that of this Python."""
    made = next(iter(made.values()))
    at = 4 + int.from_bytes(made[60:64], "little") if made.startswith(b"MZ") else 18
    systems = SYSTEMS.get(int.from_bytes(made[at:at + 2], "little"))
    if not systems or library() == HERE:
        systems = re.sub("[-.]", "_", sysconfig.get_platform())
    return f"cp38-abi3-{systems}"


def sum_of(data):
    return base64.urlsafe_b64encode(hashlib.sha256(data).digest()).rstrip(b"=").decode()


def licences():
    """The files of licences and notices, in the repository, in the source distribution, or with the archives."""
    found = {it.name: it for folder in (HERE, TOP, TOP / "build", Path(os.environ.get("FCANON_LIB", HERE)))
             for pattern in ("LICENSE-*", "THIRD-PARTY-libfcanon*", "THIRD-PARTY-mingw-w64") for it in folder.glob(pattern)}
    return [found[name] for name in sorted(found)]


def metadata():
    listed = re.search(r"^classifiers = \[\n(.*?)^\]", (HERE / "pyproject.toml").read_text(), re.M | re.S)[1]
    lines = ["Metadata-Version: 2.4", "Name: fcanon", f"Version: {field('version')}",
             f"Summary: {field('description')}", f"License-Expression: {field('license')}",
             *(f"License-File: {it.name}" for it in licences()),
             *(f"Classifier: {it}" for it in re.findall(r'"(.*)"', listed)),
             f"Requires-Python: {field('requires-python')}", "Description-Content-Type: text/markdown"]
    return ("\n".join(lines) + f"\n\n{(HERE / 'README.md').read_text()}").encode()


def info():
    """What pip is told of the package, by the names of its files."""
    folder = f"fcanon-{field('version')}.dist-info"
    texts = {f"{folder}/licenses/{it.name}": it.read_bytes() for it in licences()}
    return {f"{folder}/METADATA": metadata(), **texts}


def prepare_metadata_for_build_wheel(metadata_directory, config_settings=None):
    files = info()
    for name, data in files.items():
        file = Path(metadata_directory) / name
        file.parent.mkdir(parents=True, exist_ok=True)
        file.write_bytes(data)
    return next(iter(files)).split("/")[0]


def package():
    """The package's own files, but for its modules."""
    return [it for it in sorted((HERE / "fcanon").iterdir()) if it.is_file() and it.suffix != ".so"]


def write_wheel(folder, files, tagged):
    """Writes a wheel of these files, by their names, and of what each wheel has."""
    files.update(info())
    place = f"fcanon-{field('version')}.dist-info"
    abi, _, systems = tagged.rpartition("-")
    tags = "".join(f"Tag: {abi}-{it}\n" for it in systems.split("."))
    files[f"{place}/WHEEL"] = f"Wheel-Version: 1.0\nGenerator: fcanon\nRoot-Is-Purelib: false\n{tags}".encode()
    lines = [f"{name},sha256={sum_of(it)},{len(it)}\n" for name, it in files.items()]
    files[f"{place}/RECORD"] = "".join([*lines, f"{place}/RECORD,,\n"]).encode()
    name = f"fcanon-{field('version')}-{tagged}.whl"
    with zipfile.ZipFile(Path(folder) / name, "w", zipfile.ZIP_DEFLATED) as wheel:
        for path, data in files.items():
            entry = zipfile.ZipInfo(path, NOON)
            entry.external_attr, entry.create_system = 0o100644 << 16, 3
            entry.compress_type = zipfile.ZIP_DEFLATED
            wheel.writestr(entry, data)
    return name


def build_wheel(wheel_directory, config_settings=None, metadata_directory=None):
    made = modules()
    files = {f"fcanon/{it.name}": it.read_bytes() for it in package()}
    files.update({f"fcanon/{name}": data for name, data in made.items()})
    return write_wheel(wheel_directory, files, tag(made))


def build_editable(wheel_directory, config_settings=None, metadata_directory=None):
    """Puts the modules into the package here, and makes a wheel that names this folder."""
    made = modules()
    for name, data in made.items():
        (HERE / "fcanon" / name).write_bytes(data)
    return write_wheel(wheel_directory, {"fcanon.pth": f"{HERE}\n".encode()}, tag(made))


# ---- the source distribution


def portable():
    """The library as one file of C, with its header: here, in the folder FCANON_PORTABLE, or made anew."""
    here = Path(os.environ.get("FCANON_PORTABLE", HERE))
    if (here / PORTABLE[0]).exists():
        return {name: (here / name).read_bytes() for name in PORTABLE}
    with tempfile.TemporaryDirectory() as room:
        subprocess.run([str(TOP / "tools" / "portable"), room], check=True, stdout=sys.stderr)
        return {name: (Path(room) / name).read_bytes() for name in PORTABLE}


def build_sdist(sdist_directory, config_settings=None):
    top = f"fcanon-{field('version')}"
    own = ["README.md", "backend.py", "calls.c", "runs.c", "pyproject.toml"]
    files = {"PKG-INFO": metadata(), **portable(), **{name: (HERE / name).read_bytes() for name in own}}
    files.update({f"fcanon/{it.name}": it.read_bytes() for it in package()})
    files.update({it.name: it.read_bytes() for it in licences()})
    packed = io.BytesIO()
    with tarfile.open(fileobj=packed, mode="w", format=tarfile.USTAR_FORMAT) as archive:
        for name, data in sorted(files.items(), key=lambda it: it[0].split("/")):
            entry = tarfile.TarInfo(f"{top}/{name}")
            entry.size, entry.mtime = len(data), int(os.environ.get("SOURCE_DATE_EPOCH", 0))
            archive.addfile(entry, io.BytesIO(data))
    name = f"{top}.tar.gz"
    (Path(sdist_directory) / name).write_bytes(gzip.compress(packed.getvalue(), mtime=0))
    return name


def main(words):
    if words[0] == "--module":
        file = Path(words[1])
        file.write_bytes(module(file.name))
    elif words[0] == "--metadata":
        print(prepare_metadata_for_build_wheel(words[1]))
    elif words[0] == "--sdist":
        print(build_sdist(words[1]))
    else:
        print(build_wheel(words[0]))


if __name__ == "__main__":
    main(sys.argv[1:])
