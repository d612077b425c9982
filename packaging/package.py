"""Makes the packages of a program: see ./package. `package.py ROOT PROGRAM FOLDER EPOCH`.

The same program makes the same bytes: each file has the time EPOCH (seconds since 1970, UTC) and
belongs to root."""
import gzip
import hashlib
import os
import pathlib
import re
import signal
import stat
import subprocess
import sys
import tarfile
import tempfile
import time

import completion
import manual

NAME = "bucketreed"
UNITS = "lib/systemd/system"
# What is called by name from a unit or from cron(8), and what these files import.
SCRIPTS = ("follow-haproxy", "follow-nginx", "following.py", "notify", "report",
           "serve-and-notify", "watchdog", "write-metrics")
# Where the examples have what the package has elsewhere.
MOVED = (("/usr/local/lib/canary/", "/usr/lib/canary/"), ("/usr/local/bin/", "/usr/bin/"))
MAINTAINER = "Bucketreed maintainers <maintainers@users.noreply.bucketreed.example>"
DESCRIPTION = """Judges canary releases: a desk, an agent and what stands beside them
 A desk decides the steps of canary releases by measurements, as Argo Rollouts
 does. It settles each numbered request of a caller once, whatever the network
 loses or repeats. An agent measures what Argo's manifests ask for. Followers
 give HAProxy and nginx the weights."""


def version_of(program):
    """The version that the program prints, and the package's: one without proofs is earlier."""
    made = subprocess.run([program, "--version"], check=True, capture_output=True, text=True)
    found = re.fullmatch(r"canary (\d+\.\d+\.\d+)( \(unproved\))?\n", made.stdout)
    if not found:
        sys.exit(f"package: {program} prints another version than a desk: {made.stdout!r}")
    return found[1], found[1] + ("~unproved" if found[2] else "")


def moved(text):
    """A text of the examples with the places that the package has."""
    for before, after in MOVED:
        text = text.replace(before, after)
    return text


def without_head(unit):
    """A unit without the comment at its top, which says how to install it by hand."""
    return unit[unit.index("[Unit]"):]


class Tree:
    """The files of a package below a folder."""

    def __init__(self, root, folder):
        self.root, self.folder = pathlib.Path(root), pathlib.Path(folder)

    def write(self, path, data, mode=0o644):
        place = self.folder / path
        place.parent.mkdir(parents=True, exist_ok=True)
        place.write_bytes(data if isinstance(data, bytes) else data.encode())
        place.chmod(mode)

    def write_packed(self, path, text):
        """A file that is compressed, with no name and no time in it."""
        self.write(path + ".gz", gzip.compress(text.encode(), 9, mtime=0))

    def read(self, path):
        return (self.root / path).read_text(encoding="utf-8")

    def add_program(self, program):
        """The program, without its symbols."""
        place = self.folder / "usr/bin/canary"
        place.parent.mkdir(parents=True)
        subprocess.run(["strip", "--strip-unneeded", "-o", place, program], check=True)
        place.chmod(0o755)

    def add_units(self):
        for path in sorted((self.root / "examples/operations").glob("canary*.[st]*")):
            if path.suffix in (".service", ".timer"):
                unit = without_head(path.read_text(encoding="utf-8"))
                self.write(f"{UNITS}/{path.name}", moved(unit))

    def add_scripts(self):
        for name in SCRIPTS:
            path = self.root / "examples/operations" / name
            mode = stat.S_IMODE(path.stat().st_mode) & 0o755
            self.write(f"usr/lib/canary/{name}", moved(path.read_text("utf-8")), mode)

    def add_settings(self):
        for path in sorted((self.root / "packaging/default").iterdir()):
            self.write(f"etc/default/{path.name}", path.read_bytes())
        self.write(f"usr/lib/sysusers.d/{NAME}.conf", self.read("packaging/sysusers.conf"))
        self.write(f"usr/lib/tmpfiles.d/{NAME}.conf", self.read("packaging/tmpfiles.conf"))

    def add_words(self, program, version, epoch):
        """Manual pages and completions."""
        for name, text in manual.pages(program, version, epoch).items():
            self.write_packed(f"usr/share/man/man1/{name}", text)
        self.write("usr/share/bash-completion/completions/canary", completion.bash(program))
        self.write("usr/share/zsh/vendor-completions/_canary", completion.zsh(program))

    def add_documents(self):
        folder = f"usr/share/doc/{NAME}"
        self.write(f"{folder}/copyright", self.read("packaging/copyright"))
        for path in ["README.md", *sorted(self.root.glob("docs/*.md"))]:
            name = pathlib.Path(path).name
            self.write_packed(f"{folder}/{name}", self.read(path))
        for path in sorted((self.root / "examples").rglob("*")):
            inside = path.relative_to(self.root)
            if path.is_file() and "__pycache__" not in inside.parts:
                mode = 0o755 if os.access(path, os.X_OK) else 0o644
                self.write(f"{folder}/{inside}", path.read_bytes(), mode)

    def set_times(self, epoch):
        for path in [self.folder, *self.folder.rglob("*")]:
            if path.is_dir():
                path.chmod(0o755)
            os.utime(path, (epoch, epoch), follow_symlinks=False)

    def files(self):
        return sorted(it for it in self.folder.rglob("*")
                      if it.is_file() and "DEBIAN" not in it.parts)


def c_library(program):
    """The oldest version of the C library that has all that the program calls."""
    made = subprocess.run(["objdump", "-T", program], check=True, capture_output=True, text=True)
    found = {tuple(map(int, it.split("."))) for it in re.findall(r"GLIBC_(\d+\.\d+)", made.stdout)}
    return ".".join(map(str, max(found, default=(2, 17))))


def control(tree, program, version):
    size = sum(-(-it.stat().st_size // 1024) for it in tree.files())
    return f"""Package: {NAME}
Version: {version}
Section: admin
Priority: optional
Architecture: amd64
Maintainer: {MAINTAINER}
Installed-Size: {size}
Depends: libc6 (>= {c_library(program)})
Recommends: python3, systemd
Suggests: haproxy, nginx, prometheus-node-exporter
Description: {DESCRIPTION}
"""


def add_control(tree, program, version, epoch):
    """What dpkg wants to know of the package."""
    changed = time.strftime("%a, %d %b %Y %H:%M:%S +0000", time.gmtime(epoch))
    log = f"""{NAME} ({version}) unstable; urgency=low

  * CHANGELOG.md of the repository has what changed.

 -- {MAINTAINER}  {changed}
"""
    tree.write_packed(f"usr/share/doc/{NAME}/changelog", log)
    sums = [f"{hashlib.md5(it.read_bytes()).hexdigest()}  {it.relative_to(tree.folder)}\n"
            for it in tree.files() if "etc" != it.relative_to(tree.folder).parts[0]]
    settings = [f"/{it.relative_to(tree.folder)}\n" for it in tree.files()
                if it.relative_to(tree.folder).parts[0] == "etc"]
    tree.write("DEBIAN/control", control(tree, program, version))
    tree.write("DEBIAN/md5sums", "".join(sums))
    tree.write("DEBIAN/conffiles", "".join(settings))
    for path in sorted((tree.root / "packaging/scripts").iterdir()):
        tree.write(f"DEBIAN/{path.name}", path.read_bytes(), 0o755)


def make_tree(tree, program, version, epoch):
    tree.add_program(program)
    tree.add_units()
    tree.add_scripts()
    tree.add_settings()
    tree.add_words(program, version, epoch)
    tree.add_documents()
    tree.write(f"usr/share/lintian/overrides/{NAME}", tree.read("packaging/lintian-overrides"))


def make_archive(tree, path, top, epoch):
    """A tar archive of the files, below a folder of that name."""

    def owned(member):
        member.uid = member.gid = 0
        member.uname = member.gname = "root"
        member.mtime = epoch
        return member

    with open(path, "wb") as file, gzip.GzipFile("", "wb", 9, file, mtime=epoch) as packed, \
            tarfile.open(fileobj=packed, mode="w", format=tarfile.GNU_FORMAT) as archive:
        for it in tree.files():
            archive.add(it, f"{top}/{it.relative_to(tree.folder)}", recursive=False, filter=owned)


def make_package(tree, path, epoch):
    words = ["dpkg-deb", "--root-owner-group", "-Zxz", "--threads-max=1", "--build",
             str(tree.folder), str(path)]
    env = {**os.environ, "SOURCE_DATE_EPOCH": str(epoch)}
    subprocess.run(words, check=True, env=env, stdout=subprocess.DEVNULL)


def build(root, program, out, epoch, version, packaged):
    """Makes both packages of this program in the folder `out`, and gives their names. They are
    there once they are whole."""
    names = (f"{NAME}_{packaged}_amd64.deb", f"{NAME}-{packaged}-linux-amd64.tar.gz")
    out.mkdir(parents=True, exist_ok=True)
    with tempfile.TemporaryDirectory(dir=out, prefix="part-") as work:
        tree = Tree(root, f"{work}/tree")
        make_tree(tree, program, version, epoch)
        make_archive(tree, f"{work}/{names[1]}", f"{NAME}-{packaged}", epoch)
        add_control(tree, program, packaged, epoch)
        tree.set_times(epoch)
        make_package(tree, f"{work}/{names[0]}", epoch)
        sums = "".join(f"{hashlib.sha256(pathlib.Path(work, it).read_bytes()).hexdigest()}  {it}\n"
                       for it in names)
        pathlib.Path(work, "SHA256SUMS").write_text(sums, encoding="utf-8")
        for name in (*names, "SHA256SUMS"):
            os.replace(f"{work}/{name}", out / name)
    return names


def main():
    root, program, folder, epoch = sys.argv[1:5]
    for it in (signal.SIGTERM, signal.SIGINT, signal.SIGHUP):
        signal.signal(it, lambda number, _: sys.exit(128 + number))
    out = pathlib.Path(folder)
    try:
        names = build(root, program, out, int(epoch), *version_of(program))
    except OSError as error:
        sys.exit(f"package: {error.filename or out}: {error.strerror or error}")
    except subprocess.CalledProcessError as error:
        sys.exit(f"package: {error.cmd[0]} failed with status {error.returncode}")
    print(*(out / it for it in (*names, "SHA256SUMS")), sep="\n")


if __name__ == "__main__":
    main()
