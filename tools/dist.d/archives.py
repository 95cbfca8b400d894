"""The archives and the Debian packages of a release. The same files give the same bytes, wherever and whenever they are made: each
file has the time of the last commit and belongs to root, names are sorted, and modes don't depend on the umask."""
import hashlib
import os
import re
import shutil
import subprocess
import tempfile
from dataclasses import dataclass
from email.utils import formatdate
from pathlib import Path

from release import TOP, Lacking, directory_of, run, time_of_release, version

# What an archive has beside the program, by its place there and in the repository.
FILES = {
    "docs/gixcfg.1": "docs/gixcfg.1",
    "completions/gixcfg.bash": "completions/gixcfg.bash",
    "completions/_gixcfg": "completions/_gixcfg",
    "completions/gixcfg.fish": "completions/gixcfg.fish",
    "LICENSE-MIT": "LICENSE-MIT",
    "LICENSE-APACHE": "LICENSE-APACHE",
    "dist/copyright": "dist/copyright",
    "README.md": "README.md",
    "CHANGELOG.md": "CHANGELOG.md",
    "INSTALL": "dist/INSTALL",
    "Makefile": "dist/install.mk",
}
# What one for x86_64 has of the library for C, in its directory lib.
LIBRARY_FILES = ["gix_config.h", "gix_config.pc", "gix_config.3", "gix_config_disk.h", "gix_config_disk.c", "libgix_config.a", "libgix_config_c.a",
                 "libgix_config.so.0"]

DEBIAN = {"x86_64": "amd64", "aarch64": "arm64"}
# Where Debian has libraries for x86_64, which is all that the library for C is for.
LIBRARIES = "usr/lib/x86_64-linux-gnu"
SHARED = f"{LIBRARIES}/libgix_config.so.0"
MAINTAINER = "Bugyortev maintainers <maintainers@users.noreply.bugyortev.example>"
# Where lintian asks for something else of each package, and why it isn't so.
OVERRIDES = """\
# The package is made by its own project, and not uploaded to Debian.
{name}: initial-upload-closes-no-bugs *
"""


@dataclass(frozen=True)
class Package:
    """What a Debian package has of its own: also further lines of its control file, and of its overrides for lintian."""
    name: str
    section: str
    description: str
    more: str = ""
    overrides: str = ""


PROGRAM = Package("gixcfg", "vcs", """reads, checks and edits git's configuration files
 gixcfg has the commands of git config, and beside them fmt, check and diff. An
 edit changes what it names and keeps all else, comments and layout too, and a
 file that can't be read is reported with its line, column and reason.
 .
 Each function of the program was proved to be safe, to end, and to do what its
 contract says, before it was compiled.""", overrides="""\
# The program is packaged byte for byte as it was linked, so that its sum shows of which proved sources it is.
gixcfg: unstripped-binary-or-object [usr/bin/gixcfg]
""")
OF_LIBRARY = """
 The library parses git's configuration files, looks values up, and edits and
 prints files. Each of its calls was proved to be safe, to end, and to do what
 its contract says, before it was compiled.
 .
 This package has """
RUNTIME = Package("libgix-config0", "libs", "git's configuration files, read and edited (shared library)" + OF_LIBRARY +
                  "the library that programs ask for as they start.",
                  more="Source: gixcfg\nMulti-Arch: same\n", overrides=f"""\
# The library is packaged byte for byte as it was linked and tested.
libgix-config0: unstripped-binary-or-object [{SHARED}]
""")
DEVELOPMENT = Package("libgix-config-dev", "libdevel", "git's configuration files, read and edited (development)" + OF_LIBRARY +
                      "what programs in C are built with: the header, the\n library to be linked with, and its manual page.",
                      more="Source: gixcfg\nMulti-Arch: same\n")


def put(source, to, mode=0o644):
    """Copies a file with this mode."""
    to.parent.mkdir(parents=True, exist_ok=True)
    shutil.copyfile(source, to)
    to.chmod(mode)


def write(to, content):
    to.parent.mkdir(parents=True, exist_ok=True)
    to.write_bytes(content if isinstance(content, bytes) else content.encode())
    to.chmod(0o644)


def packed(content):
    """A text as gzip -9n packs it."""
    return subprocess.run(["gzip", "-9nc"], input=content, stdout=subprocess.PIPE, check=True).stdout


def settle(directory, time):
    """Gives all below a directory, and itself, modes that don't depend on the umask, and one time."""
    for at, _, names in os.walk(directory, topdown=False):
        for name in names:
            os.utime(os.path.join(at, name), (time, time), follow_symlinks=False)
        os.chmod(at, 0o755)
        os.utime(at, (time, time))


def archive(program, processor, to, library=None):
    """Makes the archive for a processor in the directory `to`, with the library of a directory if there is one, and returns its path."""
    name, time = directory_of(processor), time_of_release()
    made = to / f"{name}.tar.gz"
    with tempfile.TemporaryDirectory() as room:
        top = Path(room, name)
        put(program, top / "gixcfg", 0o755)
        for place, source in FILES.items():
            put(TOP / source, top / place)
        for file in LIBRARY_FILES if library else []:
            put(library / file, top / "lib" / file)
        settle(top, time)
        tar = run_bytes("tar", "-C", room, "--sort=name", "--format=ustar", "--owner=0", "--group=0", "--numeric-owner",
                        f"--mtime=@{time}", "-cf", "-", name)
    made.write_bytes(packed(tar))
    return made


def run_bytes(*words):
    """What a command writes."""
    ran = subprocess.run(words, stdout=subprocess.PIPE, stderr=subprocess.PIPE, check=False)
    if ran.returncode:
        raise Lacking(f"{words[0]} failed: {ran.stderr.decode(errors='replace').strip()}")
    return ran.stdout


def depends(linked):
    """The packages that what was linked needs, by the versions of glibc that its symbols are of: a symbol of GLIBC_2.34 is there from 2.34 on."""
    told = run("readelf", "--wide", "--dynamic", "--version-info", str(linked))
    libraries = set(re.findall(r"\(NEEDED\).*\[(.+)\]", told))
    if libraries != {"libc.so.6"}:
        raise Lacking(f"{linked} needs {sorted(libraries)}, where depends() in tools/dist.d/archives.py knows the package of libc.so.6 alone")
    versions = {tuple(map(int, it.split("."))) for it in re.findall(r"\bGLIBC_([\d.]+)", told)}
    return f"libc6 (>= {'.'.join(map(str, max(versions)))})"


def control(package, processor, needs, size):
    return f"""Package: {package.name}
Version: {version()}-1
Architecture: {DEBIAN[processor]}
Maintainer: {MAINTAINER}
Installed-Size: {size}
Depends: {needs}
Section: {package.section}
Priority: optional
{package.more}Description: {package.description}
"""


def changelog(time):
    return f"""gixcfg ({version()}-1) unstable; urgency=medium

  * The release {version()} of the project.

 -- {MAINTAINER}  {formatdate(time)}
"""


def install(target, top, *words):
    """Puts below a directory what a target of make installs; of the licences what Debian wants."""
    run("make", "-s", "-C", str(TOP), "-f", "dist/install.mk", target, f"DESTDIR={top}", "PREFIX=/usr", "licences=dist/copyright", *words,
        env=plain_environment())


def pack_page(page):
    write(page.with_name(f"{page.name}.gz"), packed(page.read_bytes()))
    page.unlink()


def file_of(package, processor):
    """What the file of a Debian package is called."""
    return f"{package.name}_{version()}-1_{DEBIAN[processor]}.deb"


def pack(package, processor, top, needs, to):
    """Makes a Debian package of what lies in a directory, and of what each package has, in the directory `to`, and returns its path."""
    time = time_of_release()
    made = to / file_of(package, processor)
    write(top / f"usr/share/doc/{package.name}/changelog.Debian.gz", packed(changelog(time).encode()))
    write(top / f"usr/share/lintian/overrides/{package.name}", package.overrides + OVERRIDES.format(name=package.name))
    held = sorted(path for path in top.rglob("*") if "DEBIAN" not in path.relative_to(top).parts)
    files = [path for path in held if path.is_file() and not path.is_symlink()]
    # (as dpkg-gencontrol counts it)
    size = sum(-(-path.stat().st_size // 1024) for path in files) + len(held) - len(files)
    write(top / "DEBIAN/md5sums", "".join(f"{hashlib.md5(path.read_bytes()).hexdigest()}  {path.relative_to(top)}\n" for path in files))
    write(top / "DEBIAN/control", control(package, processor, needs, size))
    settle(top, time)
    run("dpkg-deb", "--root-owner-group", "-Zxz", "--build", str(top), str(made), env={**os.environ, "SOURCE_DATE_EPOCH": str(time)})
    return made


def program_package(program, processor, to):
    """Makes the Debian package of the program for a processor in the directory `to`, and returns its path."""
    with tempfile.TemporaryDirectory() as room:
        top = Path(room, "package")
        # (Debian has its own place for zsh's functions)
        install("install", top, f"PROGRAM={program}", "zshcompletiondir=/usr/share/zsh/vendor-completions")
        pack_page(top / "usr/share/man/man1/gixcfg.1")
        return pack(PROGRAM, processor, top, depends(program), to)


def library_packages(library, to):
    """Makes the two Debian packages of the library for C that lies in a directory, in the directory `to`, and returns their paths."""
    with tempfile.TemporaryDirectory() as room:
        runtime, top = Path(room, "runtime"), Path(room, "development")
        install("install-lib", top, f"LIBRARY={library}", f"libdir=/{LIBRARIES}", f"libdocdir=/usr/share/doc/{DEVELOPMENT.name}")
        pack_page(top / "usr/share/man/man3/gix_config.3")
        shared = runtime / SHARED
        shared.parent.mkdir(parents=True)
        (top / SHARED).rename(shared)
        put(TOP / "dist/copyright", runtime / f"usr/share/doc/{RUNTIME.name}/copyright")
        write(runtime / "DEBIAN/shlibs", f"libgix_config 0 {RUNTIME.name} (>= {version()})\n")
        write(runtime / "DEBIAN/triggers", "activate-noawait ldconfig\n")
        return [pack(RUNTIME, "x86_64", runtime, depends(shared), to),
                pack(DEVELOPMENT, "x86_64", top, f"{RUNTIME.name} (= {version()}-1)", to)]


def plain_environment():
    """The environment without what a `make` above tells its own."""
    return {name: value for name, value in os.environ.items() if name not in ("MAKEFLAGS", "MFLAGS", "MAKELEVEL", "DESTDIR", "PREFIX")}
