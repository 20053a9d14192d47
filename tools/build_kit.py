"""The kit's own functions, for tools/build: crates are proved side by side in one process, as `rt lib` proves each.

A command `rt lib` locks all crates below its own, so that several of them wait for each other, and works out the sum of
a crate's text once for each way down to it. Here the locks are taken once, and the sums are worked out once a question.
No document of the kit speaks of these functions: so they are used with the kits of TESTED alone, by the line that
`rt version` prints.
"""
import copy
import importlib.machinery
import importlib.util
import os
import shutil
import sys
import threading
import traceback
from pathlib import Path

TESTED = ("rattle-kit-13f logic dac8208d650f15bf",)
SHOWN = 2000


def kit():
    """The kit's command rt as a module, with the sum of each crate's text worked out once a question."""
    loader = importlib.machinery.SourceFileLoader("kit_rt", os.path.realpath(shutil.which("rt")))
    spec = importlib.util.spec_from_loader("kit_rt", loader)
    rt = importlib.util.module_from_spec(spec)
    sys.modules["kit_rt"] = rt
    sys.dont_write_bytecode = True
    loader.exec_module(rt)
    of_kit = rt.rtlib.Crate
    made, stamp, below = of_kit.__init__, of_kit.stamp, of_kit.below
    asked, lower = threading.local(), {}

    def make(crate, *given, **named):
        made(crate, *given, **named)
        rt.read_files(crate)

    def stamp_once(crate):
        sums = getattr(asked, "sums", None)
        if sums is None:
            asked.sums = {}
            try:
                return stamp_once(crate)
            finally:
                asked.sums = None
        if crate.folder not in sums:
            sums[crate.folder] = stamp(crate)
        return sums[crate.folder]

    def below_once(crate):
        if crate.folder not in lower:
            lower[crate.folder] = below(crate)
        return list(lower[crate.folder])

    of_kit.__init__, of_kit.stamp, of_kit.below = make, stamp_once, below_once
    # Some kits share the work that is kept; others keep it in each crate's folder alone.
    if hasattr(rt, "share_work"):
        rt.share_work(True)
    return rt


def keep_statements(rt, crates):
    """Has the libraries made without kept work, in a folder of their own."""
    rt.rtlib.KEPT = []
    for crate in crates:
        crate.rlib = f"{crate.folder}/out/rlib/statements/{crate.name}.rlib"


def build_statements(rt, crate, jobs):
    """Proves a library and keeps its statements, where that was not done for the same text over the same libraries.

    It gives the status.
    """
    kept = Path(crate.rlib).parent / "stamp"
    # Statements fit only the very libraries that they were built over.
    made = [str((Path(it.rlib).parent / "stamp").stat().st_mtime_ns) for it in crate.below()]
    stamp = " ".join([crate.stamp(), *made])
    if Path(crate.rlib).is_dir() and kept.is_file() and kept.read_text() == stamp:
        return 0
    shutil.rmtree(kept.parent, ignore_errors=True)
    kept.parent.mkdir(parents=True)
    status = crate.call(rt.rtlib.RATTLE, "build", *crate.words(jobs, keeps=False), "--statements", "-o", crate.rlib)
    if status == 0 and not stamp.startswith(crate.stamp()):
        print("the text was changed while it was proved", file=crate.out)
        return 1
    if status == 0:
        kept.write_text(stamp)
    return status


def prove(rt, crate, jobs, keeps):
    """Proves one crate and builds its library or program; gives whether it could, and the end of what was said.

    A program that is there stays until the next one is made.
    """
    crate, jobs = copy.copy(crate), ["--jobs", str(jobs)]
    folder = Path(crate.folder)
    (folder / "out").mkdir(exist_ok=True)
    with open(folder / "out" / "build.log", "w+", errors="replace") as crate.out:
        try:
            if crate.is_program:
                # What builds a program runs it too: so it is asked for little, and its status tells of the proof.
                # Of the locks that a command lets go before it runs a program none is this crate's own.
                crate.held = []
                status = crate.run(jobs, ["--version"], tests=False)
            else:
                status = crate.build_rlib(jobs, False) if keeps else build_statements(rt, crate, jobs)
        except (Exception, SystemExit):
            # The kit's own code may stop in other ways in another kit: then this crate failed, and its log says how.
            traceback.print_exc(file=crate.out)
            status = 1
    return status == 0, (folder / "out" / "build.log").read_text(errors="replace")[-SHOWN:]


class Kit:
    """The wanted crates, locked as long as this is open."""

    def __init__(self, here, wanted, keeps):
        self.rt = kit()
        self.by_name = {it.name: it for it in self.rt.rtlib.crates_below(str(here)) if it.name in wanted}
        self.keeps = keeps

    def __enter__(self):
        crates = self.by_name.values()
        self.held = self.rt.rtlib.lock(crates)
        self.keeps = self.keeps or any(it.is_built() for it in crates if not it.is_program)
        if not self.keeps:
            keep_statements(self.rt, crates)
        # The guard of the commands to come listens for a signal, which only the first thread may ask for.
        self.rt.rtlib.guarded()
        return self

    def __exit__(self, *_):
        for it in self.held:
            os.close(it)

    def prove(self, name, jobs):
        return prove(self.rt, self.by_name[name], jobs, self.keeps)
