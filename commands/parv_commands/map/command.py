"""parv-map: draws for each file of a set which slices are in place, moved or missing."""

from __future__ import annotations

import argparse
import contextlib
import os
import secrets
import shutil
from typing import Dict, Iterator, List, NamedTuple, Optional, Sequence, Set

from ..common import arguments, changes, output_and_progress as output, signals
from ..common.faults import FILES, USAGE, Fault, faults_of
from ..common.files_on_command_line import CommandFiles, link_files, most_files_at_once, read_set
from ..common.names import base_of, shown
from ..common.parv import Links, NoAnswer, Parv, SetAnswer, temporary_folder
from ..common.programs import run_to_end
from ..common.recovery_set import Member, RecoverySet
from ..common.search import ScannedFile, Search
from ..common.slice_content import is_there
from ..common.state_of_set import has_same_bytes
from . import pictures
from .pictures import IN_PLACE, MISSING, MOVED, NOT_KNOWN, Map

USUAL_WIDTH = 80        # if a terminal doesn't say how wide it is

DESCRIPTION = """\
Shows which slices of each file of a PAR2 set are in place, moved or missing. In
the folder of the files:

  parv-map -B . ./*
"""
EPILOG = """\
Each sign is a slice. If a file would take more than four lines, a sign is
several slices in a row and shows the worst of them. From the worst to the best:
  .  missing
  ?  not known: the packet files don't have the checksums of the file's slices
  +  moved: found at another offset, or in a file of another name
  #  in place: found at its offset in a file of its name
On a terminal the signs have colours, unless NO_COLOR is set.

--html and --svg write a complete file or none, and never overwrite a file.

exit status:
  0  the picture was drawn, whatever it shows
  3  usage error, or no packet file
  4  no usable set, or --tails and short slices of more than 256 lengths
  6  a file can't be read or written, or parv can't be run
  8  out of memory
PARV names the program if it isn't in PATH. See man parv-map.
"""


class Options(NamedTuple):
    """The files and options of the command line."""
    files: List[bytes]
    tails: bool
    set_id: Optional[str]
    base: bytes
    width: Optional[int]
    page: Optional[bytes]
    picture: Optional[bytes]


def bare(path: bytes, base: bytes) -> bytes:
    """Returns the name of a scanned file, without the folder of -B."""
    front = base if base.endswith(b"/") else base + b"/"
    return path[len(front):] if base and path.startswith(front) else path


def _is_in_place(the_set: RecoverySet, file: Member, number: int, opened: int, tails: bool) -> bool:
    """Returns whether an open file has the slice at its offset, by the rules of parv."""
    if file.sums is None:
        return False
    size, own, offset = the_set.size, the_set.own_length(file, number), number * the_set.size
    compared_length = own if tails else max(own, min(size, os.fstat(opened).st_size - offset))
    return is_there(opened, offset, compared_length, size, file.sums[number])


def _map_in_place(the_set: RecoverySet, file: Member, own: Sequence[ScannedFile], tails: bool) -> Map:
    """Returns the map of a file from the searched files with its name. All other slices are missing, or not known."""
    states = [NOT_KNOWN if file.sums is None else MISSING] * file.slices
    for scanned_file in own if file.sums else []:
        with output.doing(f"{file.shown} is read", file.length), faults_of("read", scanned_file.shown):
            opened = scanned_file.opener()
            try:
                for number in range(file.slices):
                    signals.end_if_signalled()
                    output.show_progress(number * the_set.size)
                    if states[number] != IN_PLACE and _is_in_place(the_set, file, number, opened, tails):
                        states[number] = IN_PLACE
            finally:
                os.close(opened)
    return Map(file, states, {})


def _map_of_unknown(file: Member, source: Optional[ScannedFile], own: Sequence[ScannedFile]) -> Map:
    """Returns the map of a file whose slices have no checksums, from the searched file that has its content according
    to parv, and those that have its name."""
    state = NOT_KNOWN
    if source is not None:
        with output.doing("equal files are compared"):
            is_own = source in own or any(has_same_bytes(source.opener, each.opener) for each in own)
            state = IN_PLACE if is_own else MOVED
    return Map(file, [state] * file.slices, {})


def _may_be_whole(the_set: RecoverySet, files: CommandFiles, most_files: int) -> List[ScannedFile]:
    """Returns the searched files that may have the content of a file whose slices have no checksums: those with the
    length of one."""
    lengths = {file.length for file in the_set.files if file.sums is None and file.slices}
    candidates = [file for file in files.scanned_files if file.length in lengths]
    if len(candidates) > most_files - len(files.packet_words):
        raise Fault(FILES, f"{len(candidates)} files have the length of one without checksums of slices; parv takes "
                           f"{max(0, most_files - len(files.packet_words))} here")
    return candidates


def maps_of(the_set: RecoverySet, answer: SetAnswer, files: CommandFiles, parv: Parv, tails: bool, base: bytes,
            most_files: int) -> List[Map]:
    """Returns the maps of all files. parv gets `most_files` at once."""
    by_name: Dict[bytes, List[ScannedFile]] = {}
    for scanned_file in files.scanned_files:
        by_name.setdefault(bare(files.paths[scanned_file.word], base), []).append(scanned_file)
    maps = [_map_in_place(the_set, file, by_name.get(file.name, []), tails) for file in the_set.files]
    if any(file.sums is None and file.slices for file in the_set.files):
        candidates = _may_be_whole(the_set, files, most_files)
        most = sum(file.length for file in candidates) * 2
        by_word = {file.word: file for file in candidates}
        verdict = run_to_end(parv.verify(answer, files.packet_words, list(by_word), False, most))
        if any(state.word not in (None, *by_word) for state in verdict.states):
            raise NoAnswer("verify")
        sources = [by_word.get(state.word or "") for state in verdict.states]
        maps = [_map_of_unknown(each.file, source, by_name.get(each.file.name, [])) if each.file.sums is None else each
                for each, source in zip(maps, sources)]
    search = Search(the_set, parv, files.scanned_files, tails, _missing(maps), most_files=most_files)
    _find_moved_slices(maps, search)
    return maps


def _missing(maps: Sequence[Map]) -> Set[int]:
    """Returns the numbers, in the whole set, of the missing slices."""
    return {number for each in maps for number, state in zip(each.file.numbers, each.states) if state == MISSING}


def _find_moved_slices(maps: Sequence[Map], search: Search) -> None:
    """Records where a search finds slices that were missing until then."""
    owners = [each for each in maps for _ in each.states]
    for at, offset, number in search.sightings():
        search.targets.discard(number)
        each = owners[number]
        each.states[number - each.file.first] = MOVED
        each.where[number - each.file.first] = search.files[at].shown, offset


# Pages and pictures in files.

class NewFile(NamedTuple):
    """A file that is to be made: the opened folder that it is in, its name there, and its name in messages."""
    place: int
    name: bytes
    shown: str

    def refuse_taken(self) -> None:
        """Ends the command if something has the name already."""
        if not self.name:
            raise Fault(FILES, f"cannot write {self.shown}: Is a directory")
        with contextlib.suppress(FileNotFoundError):
            os.stat(self.name, dir_fd=self.place, follow_symlinks=False)
            raise Fault(FILES, f"{self.shown} is there already")

    def is_same(self, other: NewFile) -> bool:
        return self.name == other.name and os.path.samestat(os.fstat(self.place), os.fstat(other.place))

    @contextlib.contextmanager
    def writing(self, text: str) -> Iterator[None]:
        """Writes the file with a temporary name. At the end it gets its own, unless something has that by then."""
        temporary = b".parv-%s" % secrets.token_hex(8).encode()
        with faults_of("write", self.shown):
            try:
                with changes.whole_file(self.place, self.name, temporary) as opened:
                    changes.write(opened, text.encode("ascii"))
                    yield
            except FileExistsError as fault:
                raise Fault(FILES, f"{self.shown} is there already") from fault


@contextlib.contextmanager
def new_files(paths: Sequence[bytes]) -> Iterator[List[NewFile]]:
    """Opens the folders of files that are to be made at these paths. Nothing may be there yet."""
    with contextlib.ExitStack() as stack:
        files: List[NewFile] = []
        for path in paths:
            with faults_of("write", shown(path)):
                place = os.open(os.path.dirname(path) or b".", os.O_RDONLY | os.O_DIRECTORY | os.O_CLOEXEC)
                stack.callback(os.close, place)
                files.append(NewFile(place, base_of(path), shown(path)))
                files[-1].refuse_taken()
        if len(files) == 2 and files[0].is_same(files[1]):
            raise Fault(USAGE, f"{files[0].shown} and {files[1].shown} are one file: --html and --svg need one each")
        yield files


def write_all(files: Sequence[NewFile], texts: Sequence[str]) -> None:
    """Makes the files, each with its text. None gets its name before all are written."""
    with contextlib.ExitStack() as stack:
        for file, text in reversed(list(zip(files, texts))):    # (the last one gets its name first)
            stack.enter_context(file.writing(text))


def draw(options: Options) -> int:
    """Runs the command, and returns its exit status."""
    program = arguments.needed_parv()
    most_files = most_files_at_once()
    writers = [(path, text_of) for path, text_of in
               ((options.page, pictures.page_of), (options.picture, pictures.svg_of)) if path is not None]
    with new_files([path for path, _ in writers]) as pages:
        with temporary_folder() as temporary:
            parv = Parv(program, Links(temporary, ()))
            files = link_files(parv, options.files)
            answer, the_set = read_set(parv, files, options.set_id)
            maps = maps_of(the_set, answer, files, parv, options.tails, options.base, most_files)
        has_colours = os.isatty(1) and not os.environ.get("NO_COLOR")
        width = options.width or shutil.get_terminal_size().columns or USUAL_WIDTH
        lines = pictures.lines_of(the_set, maps, width, has_colours)
        with signals.interruptible():
            output.tell(lines)
        write_all(pages, [text_of(the_set, maps) for _, text_of in writers])
    return 0


def parser() -> arguments.Parser:
    reader = arguments.Parser("parv-map", DESCRIPTION, EPILOG)
    reader.add_argument("files", metavar="FILES", nargs="+", help=arguments.SEARCHED)
    reader.add_argument("--tails", action="store_true", help=arguments.TAILS)
    reader.add_argument("--set", metavar="ID", type=arguments.set_id_of, help=arguments.CHOSEN_SET)
    reader.add_argument("-B", "--base", metavar="DIR", default="", help="remove DIR/ from the names of searched files")
    reader.add_argument("--width", metavar="N", type=int,
                        help="draw lines of N characters (default: as wide as the terminal)")
    reader.add_argument("--html", metavar="FILE", type=os.fsencode,
                        help="also write a page, with the position of each moved slice")
    reader.add_argument("--svg", metavar="FILE", type=os.fsencode, help="also write a picture")
    return reader


def run(reader: arguments.Parser, words: argparse.Namespace) -> int:
    if words.width is not None and words.width < 1:
        reader.error("a line has one character at least")
    if b"" in (words.html, words.svg):
        reader.error("a page or a picture needs a name")
    return draw(Options(list(map(os.fsencode, words.files)), words.tails, words.set, os.fsencode(words.base),
                      words.width, words.html, words.svg))


def main() -> int:
    return arguments.run_with_arguments(parser, run)
