"""The container's image of a release, which tools/package --image makes by buildah of what its Containerfile names."""
import hashlib
import io
import json
import os
import platform
import shutil
import subprocess
import sys
import tarfile
import tempfile

import deb

ROOT = os.path.dirname(os.path.dirname(os.path.abspath(__file__)))
CONTEXT = "examples/container"
# What buildah takes beside the program, and the mode that each has.
FILES = {"Containerfile": 0o644, "start": 0o755, "alive": 0o755}
# Where a base that is given as a tar stands among the images.
IMPORTED = "localhost/base"


class Store:
    """Images in a folder for temporary files, and buildah over them."""

    def __init__(self, folder):
        self.words = ("buildah", "--root", f"{folder}/images", "--runroot", f"{folder}/run", "--storage-driver", "vfs")

    def __call__(self, *words):
        """Calls buildah, and answers what it prints; ends the program where it fails."""
        done = subprocess.run((*self.words, *words), capture_output=True, text=True, check=False)
        if done.returncode != 0:
            sys.exit(f"package: buildah {words[0]}: {done.stderr.strip()}")
        return done.stdout.strip()

    def take(self, base, moment):
        """Answers the name of a base: an image's, or that of an image that is made of a root's tar."""
        if not os.path.isfile(base):
            return base
        made = self("from", "scratch")
        self("add", "--quiet", made, base, "/")
        path = "/usr/local/bin:/usr/local/sbin:/usr/bin:/usr/sbin:/bin:/sbin"
        self("config", "--env", f"PATH={path}", made)
        self("commit", "--quiet", "--rm", "--timestamp", str(moment), made, IMPORTED)
        return IMPORTED


def fill(context, program):
    """Copies what an image is built from, with the modes that it has there."""
    for name, mode in {**FILES, "lra": 0o755}.items():
        path = program if name == "lra" else f"{ROOT}/{CONTEXT}/{name}"
        shutil.copyfile(path, f"{context}/{name}")
        os.chmod(f"{context}/{name}", mode)


def put(tar, name, data, mode=0o644, moment=0):
    """Adds a file to an archive, of a moment and nobody's."""
    entry = tarfile.TarInfo(name)
    entry.size, entry.mode, entry.mtime = len(data), mode, moment
    tar.addfile(entry, io.BytesIO(data))


def settle(saved, path):
    """Writes an image that buildah saved, without the names that buildah draws by lot for each build."""
    with tarfile.open(saved) as tar, tarfile.open(path, "w", format=tarfile.USTAR_FORMAT) as settled:
        manifest = json.load(tar.extractfile("manifest.json"))[0]
        config = json.load(tar.extractfile(manifest["Config"]))
        config.pop("container", None)
        for part in ("config", "container_config"):
            config.get(part, {}).pop("Hostname", None)
        text = json.dumps(config, separators=(",", ":")).encode()
        manifest["Config"] = f"{hashlib.sha256(text).hexdigest()}.json"
        for name in manifest["Layers"]:
            put(settled, name, tar.extractfile(name).read())
        put(settled, manifest["Config"], text)
        put(settled, "manifest.json", json.dumps([manifest], separators=(",", ":")).encode())


def build(folder, release, base):
    """Makes a release's image of a base in a folder, as `podman load` and `docker load` read it; answers its path."""
    version = release.version.replace("~", "-")
    path = os.path.join(folder, f"raxunto-{version}-{platform.machine()}.image.tar")
    moment = str(release.moment)
    with tempfile.TemporaryDirectory() as work:
        store, context = Store(work), f"{work}/context"
        os.mkdir(context)
        fill(context, release.programs["lra"])
        labels = {"revision": release.commit, "description": release.proved}
        said = [word for key, text in labels.items() for word in ("--label", f"org.opencontainers.image.{key}={text}")]
        made = store(
            *("build", "--quiet", "--isolation", "chroot", "--format", "docker", "--timestamp", moment),
            *("--build-arg", f"BASE={store.take(base, moment)}", "--build-arg", f"SOURCE_DATE_EPOCH={moment}"),
            *(*said, context),
        )
        store("push", "--quiet", made, f"docker-archive:{work}/saved.tar:raxunto:{version}")
        with deb.written(path) as part:
            settle(f"{work}/saved.tar", part)
    return path
