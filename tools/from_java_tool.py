"""The Java half of tools/from-java: built once into a folder outside the repository, and run."""
import hashlib
import os
import shutil
import subprocess
import tempfile
from pathlib import Path

from kaba_tools import HERE, fail

SOURCES = HERE / "tools" / "from-java-src"
LIBRARY = HERE / "tools" / "from-java-lib"


def command(name):
    """The path of a command of the JDK."""
    home = os.environ.get("JAVA_HOME")
    found = shutil.which(os.path.join(home, "bin", name)) if home else None
    found = found or shutil.which(name)
    if not found:
        fail(f"there is no {name}: install a JDK, 17 or later (Debian: apt-get install openjdk-17-jdk-headless)", 127)
    return found


def has_java():
    """Whether there is a JDK."""
    home = os.environ.get("JAVA_HOME")
    return all(home and shutil.which(os.path.join(home, "bin", name)) or shutil.which(name) for name in ("java", "javac"))


def built():
    """The folder of the tool's classes; where its sources changed it is made anew."""
    files = sorted(SOURCES.glob("*.java"))
    known = hashlib.sha256(b"".join(file.name.encode() + file.read_bytes() for file in files)).hexdigest()[:16]
    cache = Path(os.environ.get("XDG_CACHE_HOME") or Path.home() / ".cache") / "kaba"
    folder = cache / f"from-java-{known}"
    if (folder / "FromJava.class").exists():
        return folder
    try:
        cache.mkdir(parents=True, exist_ok=True)
        made = Path(tempfile.mkdtemp(prefix="making-", dir=cache))
    except OSError as error:
        fail(f"cannot write into {cache}: {error.strerror}", 74)
    done = subprocess.run([command("javac"), "-encoding", "UTF-8", "-nowarn", "-d", str(made), *map(str, files)],
        capture_output=True, text=True)
    if done.returncode:
        shutil.rmtree(made, ignore_errors=True)
        said = next((line for line in done.stderr.splitlines() if line), "no reason told")
        fail(f"cannot build the tool by javac: {said}", 70)
    for old in cache.glob("from-java-*"):
        shutil.rmtree(old, ignore_errors=True)
    try:
        made.rename(folder)
    except OSError:  # another call was faster
        shutil.rmtree(made, ignore_errors=True)
    return folder


def sources_of(paths):
    """The Java files that the paths name: files, and all below folders."""
    files = []
    for path in paths:
        if os.path.isdir(path):
            files += sorted(str(file) for file in Path(path).rglob("*.java"))
        elif os.path.isfile(path):
            files.append(path)
        else:
            fail(f"cannot read {path}: No such file or directory", 66)
    if not files:
        fail(f"no Java file in {' '.join(paths)}", 66)
    return files


def brought(files, out="-", where="-", main="-", apart=False):
    """What the tool says of the files."""
    java = [command("java"), "-Xshare:auto", "-XX:TieredStopAtLevel=1", "-XX:+UseSerialGC", *(["-Dapart=true"] if apart else []), "-cp",
        str(built()), "FromJava"]
    return subprocess.run([*java, str(LIBRARY), out, where, main, *files], stdin=subprocess.DEVNULL,
        capture_output=True)
