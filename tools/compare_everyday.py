"""The part of tools/compare-java that judges everyday programs: as they are by Java, as the text that tools/from-java
writes of them by Java and by Kaba, and as what `regen` writes of that text by both."""
import collections
import re
import shutil
import subprocess
import sys
import tempfile
from concurrent.futures import ThreadPoolExecutor
from pathlib import Path

from compare_regen import WORDS, harness
from from_java_tool import LIBRARY, built, command
from kaba_tools import HERE, kaba
from random_everyday import Everyday as RandomProgram

CORPUS = HERE / "examples" / "everyday"
STEPS = "30000000"
OWN = {
    "NullPointerException": "Null", "ArrayIndexOutOfBoundsException": "Bounds", "NegativeArraySizeException": "NegativeSize",
    "ArrayStoreException": "ArrayStore", "ClassCastException": "ClassCast", "ArithmeticException": "DivZero",
    "StringIndexOutOfBoundsException": "Bounds",
}


def main_of(file):
    """The class of a file that has a main, with its package; nothing where it has none."""
    text = file.read_text()
    package = re.search(r"^package ([\w.]+);", text, re.M)
    return (f"{package[1]}." if package else "") + file.stem if "void main(String" in text else ""


class Everyday:
    """A program of the corpus, what was made of it, and what differs."""

    def __init__(self, path, folder):
        self.path, self.name, self.folder, self.wrong, self.analysed = path, path.stem, folder / path.stem, [], False
        (self.folder / "old").mkdir(parents=True)
        self.files = sorted(path.rglob("*.java")) if path.is_dir() else [path]
        for file in self.files:
            shutil.copy(file, self.folder / "old" / file.name)
        self.main = next(filter(None, map(main_of, self.files)), path.stem)
        self.text, self.left_out = self.folder / "text.java", ""
        self.classes = {}

    def job(self):
        return "\t".join([str(self.text), str(self.folder / "map.json"), self.main, *map(str, self.files)])

    def taken(self):
        """Whether it was brought in; if not, what stands in the way is what is wrong."""
        if not self.text.exists():
            told = Path(f"{self.text}.told")
            self.wrong.append("not brought in: " + (told.read_text().strip().split("\n")[-1] if told.exists()
                else "the tool failed"))
        return self.text.exists()

    def put(self, part, text):
        """A text in a folder of its own, under the name of its main class."""
        front = text[: text.index("void main(String[]")]
        main = re.findall(r"^(?:abstract )?class (\w+)", front, re.M)[-1]
        (self.folder / part).mkdir()
        (self.folder / part / f"{main}.java").write_text(text)
        self.classes[part] = main

    def run(self, with_regen):
        text = self.text.read_text()
        self.put("new", text)
        self.ends = [kaba("run", str(self.text), STEPS, *words) for words in WORDS]
        if not with_regen:
            return
        status, out, err = kaba("regen", str(self.text), "/dev/null")
        if status not in (0, 67, 68, 5):
            self.wrong.append(f"regen: {status} {err[-200:]}")
        self.left_out = {0: "", 67: "too large", 68: "too many concepts", 5: "no tree"}.get(status, "")
        if status == 0:
            self.analysed = True
            self.put("again", out.decode())
            again = self.folder / "again.java"
            again.write_bytes(out)
            for words, was in zip(WORDS, self.ends):
                if kaba("run", str(again), STEPS, *words) != was:
                    self.wrong.append(f"regen: kaba run differs on {words}")

    def jobs(self):
        return [f"{self.folder / part} {main}" for part, main in (("old", self.main), *self.classes.items())]

    def said(self, part):
        found = self.folder / part / "javac"
        return found.read_text() if found.exists() else "not compiled"

    def outcome(self, part, n):
        at = self.folder / part
        return (at / f"{n}.out").read_bytes(), (at / f"{n}.end").read_text()

    def compare(self):
        for part in ("old", *self.classes):
            if self.said(part):
                self.wrong.append(f"{part}: javac: {self.said(part)[:300]}")
                return
        for n, words in enumerate(WORDS):
            out, end = self.outcome("old", n)
            status, got, err = self.ends[n]
            wanted = {"kaba: fault " + OWN.get(end, "NegativeSize"),
                "kaba: fault NegativeSize"} if end != "ok" else {""}
            if got != out or err not in wanted:
                self.wrong.append(f"kaba run differs on {words}: {status} {err}, java {end}")
            for part in self.classes:
                other, ends = self.outcome(part, n)
                fits = ends == end or end != "ok" and ends == "NegativeArraySizeException"
                if other != out or not fits:
                    self.wrong.append(f"{part}: java differs on {words}: {ends}, before {end}")


def brought(programs, folder, apart=False):
    """Brings all programs in by one call of the Java half."""
    (folder / "bring").write_text("".join(program.job() + "\n" for program in programs))
    words = [command("java"), "-XX:TieredStopAtLevel=1", "-XX:+UseSerialGC", *(["-Dapart=true"] if apart else []), "-cp",
        str(built()), "Batch", str(LIBRARY), str(folder / "bring")]
    done = subprocess.run(words, capture_output=True, text=True)
    if done.returncode:
        sys.exit(f"{done.stderr}\nfrom-java failed in {folder}")


def random_programs(folder, count, seed):
    """The files of random programs, written into a folder."""
    folder.mkdir()
    for n in range(seed, seed + count):
        (folder / f"R{n}.java").write_text(RandomProgram(n, f"R{n}").source())
    return folder


def compare_everyday(names, run, with_regen=True, count=0, seed=0, apart=False):
    """Judges the programs of the corpus, or those of them that are named, or random ones, and counts."""
    folder = Path(tempfile.mkdtemp(prefix="compare-java-"))
    corpus = random_programs(folder / "random", count, seed) if count else CORPUS
    paths = sorted(path for path in corpus.iterdir() if path.suffix == ".java" or path.is_dir()
        and path.name != "wanted")
    programs = [Everyday(path, folder) for path in paths if count or not names or path.stem in names]
    brought(programs, folder, apart)
    there = [program for program in programs if program.taken()]
    with ThreadPoolExecutor(3) as pool:
        list(pool.map(lambda program: program.run(with_regen), there))
    (folder / "Judge.java").write_text(harness())
    (folder / "jobs").write_text("".join(job + "\n" for program in there for job in program.jobs()))
    for words in ([command("javac"), "-nowarn", "Judge.java"],
        [command("java"), "-Dline.separator=\n", "-cp", ".", "Judge"]):
        done = run(words, cwd=folder)
        if done.returncode:
            sys.exit(f"{done.stderr.decode()}\n{words[0]} failed in {folder}")
    for program in there:
        program.compare()
    different = [program for program in programs if program.wrong]
    for program in different:
        print(f"{program.folder}: {'; '.join(program.wrong)}")
    left = collections.Counter(program.left_out for program in there if with_regen and program.left_out)
    analysed = sum(program.analysed for program in there)
    why = ", ".join(f"{n} {reason}" for reason, n in left.most_common()) or "none"
    print(f"{len(programs)} everyday programs, {len(there)} brought in, {analysed} written again, {len(different)} different; not analysed: {why}")
    if not different:
        shutil.rmtree(folder, ignore_errors=True)
    return 1 if different else 0
