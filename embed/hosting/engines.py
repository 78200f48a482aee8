"""The engines that run a guest over a sandbox: Node by the addon, or wasm2c and a C compiler."""

from __future__ import annotations

import shutil
import subprocess
from pathlib import Path
from typing import Callable, Dict, List, Optional

from wasitools.scripts import Mistake

EMBED = Path(__file__).resolve().parent.parent
LIBRARY = EMBED.parent / "crates/wasi_c/out/libwasi_c.a"


def is_older(made: Path, sources: List[Path]) -> bool:
    return not made.exists() or any(source.stat().st_mtime > made.stat().st_mtime for source in sources)


def build(words: List[str]) -> None:
    ran = subprocess.run(words, stdout=subprocess.PIPE, stderr=subprocess.STDOUT)
    if ran.returncode != 0:
        said = ran.stdout.decode(errors="replace").strip().splitlines() or ["nothing was said"]
        raise Mistake(f"{Path(words[0]).relative_to(EMBED.parent)} failed: {said[-1]}")


def by_node(guest: str, script: Path, report: Path, job: Optional[Path] = None) -> int:
    """Runs a guest; with a job its calls are written down too."""
    addon, folder = EMBED / "node/out/wasi.node", EMBED / "node"
    if is_older(addon, [LIBRARY, folder / "addon.c", EMBED / "zurgwenad/calls.h", EMBED / "zurgwenad/wasi.h"]):
        build([str(folder / "build"), str(LIBRARY)])
    words = ["node", "--no-warnings", folder / "run.js", guest, script, report, *([job] if job else [])]
    return subprocess.run([str(word) for word in words]).returncode


def by_wasm2c(guest: str, script: Path, report: Path, job: Optional[Path] = None) -> int:
    if job:
        raise Mistake("the engine wasm2c writes down no calls")
    program = script.parent / "program"
    build([str(EMBED / "build"), guest, str(program), str(LIBRARY)])
    return subprocess.run([str(program), str(script), str(report)]).returncode


ENGINES: Dict[str, Callable[[str, Path, Path, Optional[Path]], int]] = {"node": by_node, "wasm2c": by_wasm2c}


def engine_of(asked: str) -> Callable[[str, Path, Path, Optional[Path]], int]:
    """The engine of a name, or the first of which the program is there."""
    if not LIBRARY.exists():
        raise Mistake(f"there is no {LIBRARY}: `rt lib` in its crate proves and builds it")
    for name, engine in ENGINES.items():
        if shutil.which(name) and asked in ("", name):
            return engine
    raise Mistake(f"no `{asked}` is on the path" if asked else "neither `node` nor `wasm2c` is on the path")
