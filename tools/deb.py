"""The Debian package of a release, which tools/package --deb makes."""
import contextlib
import gzip
import hashlib
import os
import subprocess
import sys
import tempfile
import time

import sbom

ROOT = os.path.dirname(os.path.dirname(os.path.abspath(__file__)))
PARTS = f"{ROOT}/tools/debian"
DOC = "usr/share/doc/raxunto"
MAINTAINER = "Raxunto maintainers <maintainers@users.noreply.raxunto.example>"
# The pages for those who use and run it.
USE = sorted(f"docs/use/{name}" for name in os.listdir(f"{ROOT}/docs/use"))
# The figures.
REPORTS = sorted(f"reports/{name}" for name in os.listdir(f"{ROOT}/reports"))
# How a link of a page begins, and how it does in the package, where no page lies below docs/.
LINKS = (
    (b"](docs/", b"]("),
    (b"](../docs/", b"](../"),
    (b"](../../reports/", b"](../reports/"),
    (b"](../../CHANGELOG.md", b"](../CHANGELOG.md"),
    (b"](../../clients/", b"](../clients/"),
    (b"](../../docs/", b"](../../"),
)
ASSURANCE = sorted(f"docs/assurance/{name}" for name in os.listdir(f"{ROOT}/docs/assurance"))
# Where each file of the repository goes, and whether it is packed by gzip there.
FILES = (
    ("examples/systemd/lra.service", "usr/lib/systemd/system/lra.service", False),
    ("examples/systemd/lra-archive.service", "usr/lib/systemd/system/lra-archive.service", False),
    ("examples/systemd/lra-archive.timer", "usr/lib/systemd/system/lra-archive.timer", False),
    ("examples/systemd/lra.default", "etc/default/lra", False),
    ("examples/systemd/lra.toml", "etc/lra/lra.toml", False),
    ("completions/lra", "usr/share/bash-completion/completions/lra", False),
    ("man/lra.1", "usr/share/man/man1/lra.1.gz", True),
    ("man/lra_audit.1", "usr/share/man/man1/lra_audit.1.gz", True),
    ("tools/debian/lintian-overrides", "usr/share/lintian/overrides/raxunto", False),
    ("README.md", f"{DOC}/README.md", False),
    ("CHANGELOG.md", f"{DOC}/CHANGELOG.md", False),
    ("clients/python/README.md", f"{DOC}/clients/python/README.md", False),
    ("clients/python/raxunto.py", f"{DOC}/clients/python/raxunto.py", False),
    *((path, f"{DOC}/use/{os.path.basename(path)}", False) for path in USE),
    *((path, f"{DOC}/assurance/{os.path.basename(path)}", False) for path in ASSURANCE),
    *((path, f"{DOC}/{path}", False) for path in REPORTS),
    ("examples/systemd/gentle.conf", f"{DOC}/examples/gentle.conf", False),
)
# What an administrator may change, and an upgrade or a removal leaves as it is.
SETTINGS = ("etc/default/lra", "etc/lra/lra.toml")


def read(path):
    with open(path, "rb") as it:
        return it.read()


@contextlib.contextmanager
def written(path):
    """Gives the name under which a release's file is written, and then names the file. Ends the program where it can't
    be written. (A run that is ended early leaves nothing under a release's name.)"""
    try:
        yield f"{path}.part"
        os.replace(f"{path}.part", path)
    except OSError as fault:
        sys.exit(f"package: cannot write {path}: {fault.strerror}")


def filled(part, words):
    """A text of tools/debian, with these words in their places."""
    text = read(f"{PARTS}/{part}").decode()
    for name, value in words.items():
        text = text.replace(f"@{name}@", value)
    return text.encode()


def put(tree, path, data, mode=0o644):
    """Makes a file, and the folders above it."""
    path = f"{tree}/{path}"
    os.makedirs(os.path.dirname(path), exist_ok=True)
    with open(path, "wb") as it:
        it.write(data)
    os.chmod(path, mode)


def ran(*words, folder=None, moment=0):
    """What a command prints. Where it fails, so does the package, by its words."""
    environment = os.environ | {"SOURCE_DATE_EPOCH": str(moment)}
    done = subprocess.run(words, cwd=folder, env=environment, capture_output=True, text=True, check=False)
    if done.returncode != 0:
        sys.exit(f"package: {words[0]}: {done.stderr.strip()}")
    return done.stdout.strip()


def wanted(paths):
    """The packages that programs want, by the libraries that they are linked to."""
    with tempfile.TemporaryDirectory() as folder:
        put(folder, "debian/control", b"Source: raxunto\n\nPackage: raxunto\nArchitecture: any\n")
        told = ran("dpkg-shlibdeps", "-O", *(f"-e{path}" for path in paths), folder=folder)
    return told.partition("=")[2]


def changes(release):
    """The package's own list of changes."""
    when = time.strftime("%a, %d %b %Y %H:%M:%S +0000", time.gmtime(release.moment))
    said = f"Version {release.version}, of commit {release.commit}: CHANGELOG.md says what is new."
    return f"raxunto ({release.version}) unstable; urgency=medium\n\n  * {said}\n\n -- {MAINTAINER}  {when}\n"


def linked(path, data):
    """The bytes of a file, with a page's links as they lead on in the package."""
    for link, packed in LINKS if path.endswith(".md") else ():
        data = data.replace(link, packed)
    return data


def fill(tree, release):
    """Makes all that is installed."""
    for path, place, is_packed in FILES:
        data = linked(path, read(f"{ROOT}/{path}"))
        put(tree, place, gzip.compress(data, mtime=0) if is_packed else data)
    for name, program in release.programs.items():
        put(tree, f"usr/bin/{name}", read(program), 0o755)
    os.symlink("lra", f"{tree}/usr/share/bash-completion/completions/lra_audit")
    put(tree, f"{DOC}/PROVED", release.proved.encode())
    put(tree, f"{DOC}/{sbom.NAME}", release.sbom.encode())
    put(tree, f"{DOC}/copyright", filled("copyright", {"COMMIT": release.commit}))
    put(tree, f"{DOC}/changelog.gz", gzip.compress(changes(release).encode(), mtime=0))


def files_of(tree):
    """The names of all files, sorted."""
    return sorted(os.path.relpath(f"{folder}/{name}", tree) for folder, _, names in os.walk(tree) for name in names)


def describe(tree, release):
    """Makes what dpkg reads of the package."""
    names = [name for name in files_of(tree) if not os.path.islink(f"{tree}/{name}")]
    sums = [f"{hashlib.md5(read(f'{tree}/{name}')).hexdigest()}  {name}\n" for name in names if name not in SETTINGS]
    size = sum(os.path.getsize(f"{tree}/{name}") + 1023 >> 10 for name in names)
    words = {
        "VERSION": release.version,
        "ARCHITECTURE": ran("dpkg", "--print-architecture"),
        "MAINTAINER": MAINTAINER,
        "SIZE": str(size),
        "DEPENDS": wanted(release.programs.values()),
    }
    put(tree, "DEBIAN/control", filled("control", words))
    put(tree, "DEBIAN/md5sums", "".join(sums).encode())
    put(tree, "DEBIAN/conffiles", "".join(f"/{name}\n" for name in SETTINGS).encode())
    for script in ("postinst", "prerm", "postrm"):
        put(tree, f"DEBIAN/{script}", read(f"{PARTS}/{script}"), 0o755)
    return words["ARCHITECTURE"]


def build(folder, release):
    """Makes a release's package in a folder, and answers its path. The same release gives the same bytes."""
    with tempfile.TemporaryDirectory() as tree:
        os.chmod(tree, 0o755)
        before = os.umask(0o022)
        fill(tree, release)
        architecture = describe(tree, release)
        os.umask(before)
        path = os.path.join(folder, f"raxunto_{release.version}_{architecture}.deb")
        with written(path) as part:
            words = ("dpkg-deb", "--root-owner-group", "--threads-max=1", "-Zxz", "-z3", "--build", tree, part)
            ran(*words, moment=release.moment)
    return path
