"""Builds the wheel of the package, for pip: its modules, and beside them the shared library pgn_c.

The library is the one that the environment variable GILLSPOON_LIBRARY names. Else it is what
bin/build_program --library of the repository has built or builds: by Cargo in half a minute, or by
rt. The wheel is for this platform and for any Python 3, since ctypes loads the library.

A source distribution has the modules, this script, and the Cargo workspace of the library as
bin/to_cargo writes it. So it needs Cargo and no repository, and the network only where the crates
arrayvec and itoa are not Debian's.

This is a build backend (PEP 517) of the standard library alone, so pip needs no index and no other
package for it. The package is described in pyproject.toml.
"""
import base64
import glob
import gzip
import hashlib
import importlib.machinery
import importlib.util
import io
import os
import re
import shutil
import subprocess
import sys
import sysconfig
import tarfile
import zipfile

HERE = os.path.dirname(os.path.realpath(__file__))
ROOT = os.path.dirname(HERE)
FILE = "libpgn_c.dylib" if sys.platform == "darwin" else "libpgn_c.so"
# Of a source distribution: the Cargo workspace of the library.
WORKSPACE = HERE + "/library"
CRATE = "pgn_c"
DEBIAN = "/usr/share/cargo/registry"
METADATA = """Metadata-Version: 2.1
Name: gillspoon
Version: %s
Summary: %s
License: MIT
Requires-Python: %s
Description-Content-Type: text/markdown

%s"""
COMMANDS = """[console_scripts]
gillspoon = gillspoon._command:main
"""
WHEEL = """Wheel-Version: 1.0
Generator: gillspoon
Root-Is-Purelib: false
Tag: %s
"""


def read(path):
    """The text of a file."""
    with open(path, encoding="utf-8") as file:
        return file.read()


def loaded(path):
    """A script or a file of the package as a module."""
    sys.dont_write_bytecode = True
    loader = importlib.machinery.SourceFileLoader("script", path)
    module = importlib.util.module_from_spec(importlib.util.spec_from_loader("script", loader))
    loader.exec_module(module)
    return module


def version():
    """The version of the program, which is that of all its parts."""
    return loaded(HERE + "/gillspoon/_version.py").version()


def licence():
    """The text of the licence: of the repository, or of a source distribution."""
    return read((HERE if os.path.isdir(WORKSPACE) else ROOT) + "/LICENSE-MIT")


def library():
    """The path of the shared library, which is built if it is missing or older than a source."""
    named = os.environ.get("GILLSPOON_LIBRARY")
    if named:
        return named
    if os.path.isdir(WORKSPACE):
        return built_from_workspace()
    ran = subprocess.run([ROOT + "/bin/build_program", "--library"], stdout=subprocess.PIPE,
                         check=False)
    if ran.returncode:
        sys.exit("build_wheel.py: bin/build_program --library did not build the library")
    static = os.fsdecode(ran.stdout).rstrip("\n")
    return os.path.join(os.path.dirname(static), FILE)


def built_from_workspace():
    """The path of the shared library that Cargo builds of a source distribution."""
    words = ["cargo", "build", "--release", "--package", CRATE, "--target-dir",
             WORKSPACE + "/target"]
    if all(glob.glob("%s/%s-[0-9]*" % (DEBIAN, it)) for it in ("arrayvec", "itoa")):
        words += ["--offline", "--config", 'source.crates-io.replace-with="debian"',
                  "--config", 'source.debian.directory="%s"' % DEBIAN]
    try:
        status = subprocess.run(words, cwd=WORKSPACE, check=False).returncode
    except FileNotFoundError:
        sys.exit("build_wheel.py: cargo is not on the PATH: install Rust, or let GILLSPOON_LIBRARY "
                 "name a library that is built")
    if status:
        sys.exit("build_wheel.py: cargo did not build the library")
    return "%s/target/release/%s" % (WORKSPACE, FILE)


def workspace_files():
    """The text of each file of the Cargo workspace of the library, by its path."""
    if os.path.isdir(WORKSPACE):
        paths = glob.glob(WORKSPACE + "/crates/**/*.*", recursive=True)
        paths.append(WORKSPACE + "/Cargo.toml")
        return {os.path.relpath(it, WORKSPACE): read(it) for it in paths}
    to_cargo = loaded(ROOT + "/bin/to_cargo")
    crates = [CRATE]
    for crate in crates:
        crates += [it for it in to_cargo.dependencies(crate)
                   if it not in crates and it not in to_cargo.OUTSIDE]
    folders = tuple("crates/%s/" % it for it in crates)
    return {name: text for name, text in to_cargo.files().items()
            if name == "Cargo.toml" or name.startswith(folders) and not name.endswith("LICENSE-MIT")}


def platform():
    """The tag of the platform, as pip compares it: linux_x86_64."""
    return re.sub(r"\W", "_", sysconfig.get_platform())


def metadata():
    """The text of METADATA."""
    project = dict(re.findall(r'(?m)^([\w-]+) = "(.*)"$', read(HERE + "/pyproject.toml")))
    return METADATA % (version(), project["description"], project["requires-python"],
                       read(HERE + "/README.md"))


def build(folder, files):
    """Writes a wheel of these files, by their paths in it, to a folder, and gives its name."""
    tag = "py3-none-" + platform()
    info = "gillspoon-%s.dist-info/" % version()
    name = "gillspoon-%s-%s.whl" % (version(), tag)
    files = {**files, info + "LICENSE-MIT": licence().encode(),
             info + "entry_points.txt": COMMANDS.encode(),
             info + "METADATA": metadata().encode(), info + "WHEEL": (WHEEL % tag).encode()}
    record = ""
    with zipfile.ZipFile(os.path.join(folder, name), "w", zipfile.ZIP_DEFLATED) as wheel:
        for path, data in files.items():
            put(wheel, path, data)
            digest = base64.urlsafe_b64encode(hashlib.sha256(data).digest()).rstrip(b"=").decode()
            record += "%s,sha256=%s,%d\n" % (path, digest, len(data))
        put(wheel, info + "RECORD", (record + "%sRECORD,,\n" % info).encode())
    return name


def put(wheel, path, data):
    """Adds a file, always with the same date: the same files are the same wheel."""
    entry = zipfile.ZipInfo(path)
    entry.compress_type, entry.external_attr = zipfile.ZIP_DEFLATED, 0o644 << 16
    wheel.writestr(entry, data)


def build_wheel(wheel_directory, config_settings=None, metadata_directory=None):
    """Called by pip install ./python, and by pip wheel."""
    files = modules()
    with open(library(), "rb") as file:
        files["gillspoon/" + FILE] = file.read()
    return build(wheel_directory, files)


def modules():
    """The files of the package without its library, by their paths in the wheel."""
    paths = [*sorted(glob.glob(HERE + "/gillspoon/*.py")), HERE + "/gillspoon/py.typed",
             HERE + "/gillspoon/fixes.json"]
    files = {"gillspoon/" + os.path.basename(it): read(it).encode() for it in paths}
    files["gillspoon/VERSION"] = version().encode()
    return files


def build_sdist(sdist_directory, config_settings=None):
    """Called by python3 -m build, and by bin/dist: writes the source distribution."""
    files = {**modules(), "PKG-INFO": metadata().encode(), "LICENSE-MIT": licence().encode()}
    for name in ("README.md", "build_wheel.py", "pyproject.toml"):
        files[name] = read("%s/%s" % (HERE, name)).encode()
    files.update(("library/" + name, text.encode()) for name, text in workspace_files().items())
    name = "gillspoon-" + version()
    # always with the same date: the same files are the same archive
    with open(os.path.join(sdist_directory, name + ".tar.gz"), "wb") as out, \
            gzip.GzipFile("", "wb", fileobj=out, mtime=0) as packed, \
            tarfile.open(fileobj=packed, mode="w", format=tarfile.PAX_FORMAT) as archive:
        for path, data in sorted(files.items()):
            entry = tarfile.TarInfo("%s/%s" % (name, path))
            entry.size, entry.mode, entry.mtime = len(data), 0o644, 1577836800
            archive.addfile(entry, io.BytesIO(data))
    return name + ".tar.gz"


def build_editable(wheel_directory, config_settings=None, metadata_directory=None):
    """Called by pip install --editable ./python: modules and library stay where they are."""
    built = library()
    if os.path.isdir(WORKSPACE):
        shutil.copy(built, HERE + "/gillspoon")
    return build(wheel_directory, {"gillspoon.pth": (HERE + "\n").encode()})


def get_requires_for_build_wheel(config_settings=None):
    """Called by pip: no other package is needed."""
    return []


get_requires_for_build_editable = get_requires_for_build_sdist = get_requires_for_build_wheel
