"""The commands and their words."""
from __future__ import annotations

import argparse
import os
import sys
from pathlib import Path
from typing import Callable, Sequence

from . import __version__
from .errors import Status, UserError
from .packages import need

Command = Callable[[argparse.Namespace], Status]


def _say(lines: Sequence[str]) -> None:
    print("\n".join(lines))


def _prepare(words: argparse.Namespace) -> Status:
    need("numpy")
    from . import prepare
    from .sources import Reader

    x, y, z = words.origin
    wish = prepare.Wish(words.unit, words.fit, (x, y, z), words.centre, words.cut,
                        words.drop_points, Reader(words.reader))
    _say(prepare.run(words.mesh, words.out, wish))
    return Status.DONE


def _explain(words: argparse.Namespace) -> Status:
    from .explain import FileKind, explain, kind_of
    from .program import find_program

    if len(words.files) > 2:
        raise UserError("a mesh, a script, or both", Status.WORDS)
    if words.kind and len(words.files) == 2:
        raise UserError("--as is for a single file", Status.WORDS)
    files = [(FileKind(words.kind) if words.kind else kind_of(path), path)
             for path in words.files]
    explained = explain(find_program(words.octopus), files)
    _say(explained.lines)
    return Status.DONE if explained.accepted else Status.FOUND


def _show(words: argparse.Namespace) -> Status:
    need("numpy", *(["matplotlib"] if words.png else ["vtkmodules"]))
    from . import show
    from .program import find_program

    run = show.load_run(find_program(words.octopus), words.mesh, words.script, words.report)
    if words.png:
        _say([show.show_png(run, words.session, words.box, words.png, words.size)])
    elif words.vtu:
        _say([show.show_vtu(run, words.session, words.box, words.vtu, words.whole, words.undo)])
    else:
        _say(show.show_series(run, words.series, words.every, words.whole, words.undo))
    return Status.DONE


def _timeline(words: argparse.Namespace) -> Status:
    from .timeline import timeline

    _say([timeline(words.report, words.svg)])
    return Status.DONE


def _compare(words: argparse.Namespace) -> Status:
    need("numpy", "vtkmodules")
    from .compare import compare
    from .program import find_program

    lines, is_right = compare(find_program(words.octopus), words.mesh, words.script,
                              words.report, words.list)
    _say(lines)
    return Status.DONE if is_right else Status.FOUND


def _size(text: str) -> tuple[int, int]:
    width, mark, height = text.partition("x")
    if mark and width.isdigit() and height.isdigit() \
            and all(100 <= int(part) <= 8000 for part in (width, height)):
        return int(width), int(height)
    raise argparse.ArgumentTypeError("a size is WIDTHxHEIGHT, each from 100 to 8000")


def _from_one(text: str) -> int:
    if text.isdigit() and int(text) >= 1:
        return int(text)
    raise argparse.ArgumentTypeError("a whole number from 1 on")


def _add_prepare(commands: argparse._SubParsersAction[argparse.ArgumentParser]) -> None:
    parser = commands.add_parser(
        "prepare", help="turn a mesh of another program into one that octopus reads",
        description="Reads any mesh that meshio or VTK reads, keeps its tetrahedra, scales and "
                    "rounds its coordinates, and writes a text that octopus accepts, with the "
                    "scale in its title. Says what it did and what was lost.")
    parser.add_argument("mesh", metavar="IN", type=Path, help="the mesh to read")
    parser.add_argument("out", metavar="OUT", type=Path, help="the file to write")
    scale = parser.add_mutually_exclusive_group()
    scale.add_argument("--unit", type=float, metavar="U",
                       help="the length that becomes 1, in the mesh's own units (0.001: metres "
                            "become millimetres)")
    scale.add_argument("--fit", action="store_true",
                       help="take the least unit (1, 2 or 5 times a power of ten) that fits")
    parser.add_argument("--origin", type=float, nargs=3, default=(0.0, 0.0, 0.0),
                        metavar=("X", "Y", "Z"), help="the place that becomes 0 0 0")
    parser.add_argument("--centre", action="store_true",
                        help="the middle of the mesh becomes 0 0 0")
    parser.add_argument("--cut", action="store_true",
                        help="cut hexahedra, wedges and pyramids into tetrahedra")
    parser.add_argument("--drop-points", action="store_true",
                        help="drop points that no tetrahedron has (the others get new numbers)")
    parser.add_argument("--reader", choices=["auto", "meshio", "vtk"], default="auto",
                        help="what reads the mesh (auto: VTK for its own formats, else meshio)")
    parser.set_defaults(run=_prepare)


def _add_explain(commands: argparse._SubParsersAction[argparse.ArgumentParser]) -> None:
    parser = commands.add_parser(
        "explain", help="show where and why octopus refuses a file",
        description="Runs octopus on a mesh, on a script, or on both, and where it refuses shows "
                    "the line with a caret, the fault in words and what to do. Ends with 1 where "
                    "it refuses.")
    parser.add_argument("files", metavar="MESH|SCRIPT", type=Path, nargs="+",
                        help="a mesh, a script, or a mesh and a script")
    parser.add_argument("--as", dest="kind", choices=["mesh", "script"],
                        help="what a single file is, where its first line doesn't tell")
    _add_octopus(parser)
    parser.set_defaults(run=_explain)


def _add_show(commands: argparse._SubParsersAction[argparse.ArgumentParser]) -> None:
    parser = commands.add_parser(
        "show", help="picture a box of a run with its answer",
        description="Shows the surface of the step that a box was answered on, the box, the "
                    "answered vertices, and those in the box that the answer lacks.")
    parser.add_argument("mesh", metavar="MESH", type=Path)
    parser.add_argument("script", metavar="SCRIPT", type=Path)
    parser.add_argument("report", metavar="REPORT", type=Path,
                        help="what `octopus run MESH SCRIPT` wrote")
    parser.add_argument("--session", type=int, default=0, metavar="I")
    parser.add_argument("--box", type=int, default=0, metavar="Q")
    kind = parser.add_mutually_exclusive_group(required=True)
    kind.add_argument("--png", type=Path, metavar="FILE", help="a picture")
    kind.add_argument("--vtu", type=Path, metavar="FILE", help="a file for ParaView")
    kind.add_argument("--series", type=Path, metavar="FILE.pvd",
                      help="files for ParaView, one for each step, and the list of them")
    parser.add_argument("--size", type=_size, default=(900, 700), metavar="WxH",
                        help="pixels of the picture (900x700)")
    parser.add_argument("--every", type=_from_one, default=1, metavar="N",
                        help="with --series: each Nth step")
    parser.add_argument("--whole", action="store_true",
                        help="with --vtu and --series: the tetrahedra too")
    parser.add_argument("--undo", action="store_true",
                        help="with --vtu and --series: in the units before `prepare`")
    _add_octopus(parser)
    parser.set_defaults(run=_show)


def _add_timeline(commands: argparse._SubParsersAction[argparse.ArgumentParser]) -> None:
    parser = commands.add_parser(
        "timeline", help="picture the journal of a run",
        description="Draws one lane for each session with its pins as bars, a lane of published "
                    "and one of freed steps, and how many steps are held. Refuses a journal that "
                    "is no legal history. Needs no package.")
    parser.add_argument("report", metavar="REPORT", type=Path)
    parser.add_argument("--svg", type=Path, metavar="FILE", required=True)
    parser.set_defaults(run=_timeline)


def _add_compare(commands: argparse._SubParsersAction[argparse.ArgumentParser]) -> None:
    parser = commands.add_parser(
        "compare", help="how much a run's answers lack, measured by VTK",
        description="Plays the run and compares each answer with VTK's selection by box on the "
                    "same step. Ends with 1 where an answer has a vertex that VTK doesn't select.")
    parser.add_argument("mesh", metavar="MESH", type=Path)
    parser.add_argument("script", metavar="SCRIPT", type=Path)
    parser.add_argument("--report", type=Path, metavar="FILE",
                        help="take this report of the run in place of playing it")
    parser.add_argument("--list", action="store_true", help="a line for each box, step by step")
    _add_octopus(parser)
    parser.set_defaults(run=_compare)


def _add_octopus(parser: argparse.ArgumentParser) -> None:
    parser.add_argument("--octopus", metavar="PATH",
                        help="the program (else the variable OCTOPUS, else `octopus` on the PATH)")


def parser() -> argparse.ArgumentParser:
    """The parser of all commands."""
    made = argparse.ArgumentParser(
        prog="octopus-tools", description="Tools around the program octopus.",
        epilog="Ends with 0 where all went well, 1 where a refusal or a wrong answer was found, "
               "2 for words without a form, 3 where a package or the program is missing, and 4 "
               "where a file can't be read or isn't what it has to be.")
    made.add_argument("--version", action="version", version=f"%(prog)s {__version__}")
    commands = made.add_subparsers(dest="command", required=True, metavar="COMMAND")
    for add in (_add_prepare, _add_explain, _add_show, _add_timeline, _add_compare):
        add(commands)
    return made


def main(words: Sequence[str] | None = None) -> int:
    """Runs a command; gives its exit code."""
    asked = parser().parse_args(words)
    run: Command = asked.run
    try:
        return int(run(asked))
    except UserError as error:
        print(f"octopus-tools {asked.command}: {error}", file=sys.stderr)
        return int(error.status)
    except MemoryError:
        print(f"octopus-tools {asked.command}: not enough memory", file=sys.stderr)
        return int(Status.FILE)
    except BrokenPipeError:
        os.dup2(os.open(os.devnull, os.O_WRONLY), 1)  # so that the end writes nothing more
        return int(Status.FILE)
    except KeyboardInterrupt:
        return int(Status.STOPPED)
