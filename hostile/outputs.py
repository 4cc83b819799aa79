"""What becomes of outputs: standard streams, links, devices, folders, files that can't be replaced, and searches that are stopped."""

import os
import re
import shutil
import signal
import stat
import subprocess
import tempfile
import threading
import time
from contextlib import contextmanager
from pathlib import Path

from inputs import NOT_THERE, not_written, refused, same
from program import OLDER, PROGRAM, is_draft, is_second_name
from refusing import ROOT
from samples import APART, GAP, GAP_PROOF, GAP_UPGRADED, MINI, SAME

LIKE02, LIKE05 = (str(ROOT / "examples" / name) for name in ("like02", "like05"))
NOBODY = 65_534
# How long a refusal may take that comes before the search.
AT_ONCE = 1.5
ONE_PERIOD = (
    b"Name: Full Courses: 1 Rooms: 1 Days: 1 Periods_per_day: 1 Curricula: 256 Constraints: 0 "
    b"COURSES: c0 t0 1 1 1 ROOMS: R0 1 CURRICULA: %s UNAVAILABILITY_CONSTRAINTS: END."
)
# Names of standard output and of standard error.
OUT_NAMES = ["-", "/dev/stdout", "/dev/fd/1", "/proc/self/fd/1", "log", "./log", "link"]
ERR_NAMES = ["/dev/stderr", "/dev/fd/2", "/proc/self/fd/2", "log", "link"]
# A line of progress, and how it is cleared.
LINE, NO_LINE = rb"\r\x1b\[\?7l%s\x1b\[K\x1b\[\?7h", b"\r\x1b[K"


class Skipped(Exception):
    """What the system doesn't give."""


def or_skipped(row):
    """The row; where the system doesn't give what it needs, it says so."""

    def tried(desk):
        try:
            return row(desk)
        except Skipped as why:
            return f"left out: {why}"

    return tried


def filled(desk):
    """Puts the files of most commands on the desk, and returns what is there."""
    desk.put(instance=GAP, solution=APART, proof=GAP_PROOF)
    return texts(desk)


def texts(desk, below="."):
    return {it.name: it.read_bytes() for it in (desk.folder / below).iterdir() if it.is_file()}


def is_timetable(desk, text):
    """Whether a text is a timetable of Gap that breaks no hard rule."""
    desk.put(instance=GAP, looked=text)
    status, out, _ = desk.told("validate instance looked")
    (desk.folder / "looked").unlink()
    return status == 0 and b"\nhard 0\n" in out


# ---- standard streams


def run_with(desk, words, **streams):
    """Runs a command with files as standard streams: each a mode and a name; returns the status and what pipes took."""
    opened = {key: open(desk.folder / name, mode) for key, (mode, name) in streams.items()}
    pipes = {key: subprocess.PIPE for key in ("stdout", "stderr") if key not in opened}
    try:
        done = subprocess.run([PROGRAM, *words.split()], cwd=desk.folder, stdin=subprocess.DEVNULL, timeout=60, **opened, **pipes)
    finally:
        for file in opened.values():
            file.close()
    return done.returncode, done.stdout, done.stderr


def check_stream(desk, words, key, mode, wanted):
    """Runs a command whose output is a standard stream in a file: the file stays the same one, keeps what was in it if it is opened to append,
    and has the result and, on standard output, the answer after it."""
    log = desk.folder / "log"
    log.write_bytes(b"before\n")
    link = desk.folder / "link"
    if not link.is_symlink():
        link.symlink_to("log")
    number, before = log.stat().st_ino, b"before\n" if mode == "ab" else b""
    status, out, err = run_with(desk, words, **{key: (mode, "log")})
    where = f"{words}, {key} opened by {mode}: {status}, {out}, {err}, {log.read_bytes()}"
    assert status == 0 and log.stat().st_ino == number and link.is_symlink(), where
    text = log.read_bytes()
    assert text.startswith(before), where
    result, answer = (text[len(before) :], out) if key == "stderr" else (text[len(before) :], b"")
    assert wanted(result + answer), where
    assert key == "stderr" or not err, where
    assert not [it for it in os.listdir(desk.folder) if is_draft(it)], where


def standard_streams_as_outputs(desk):
    """Standard output and standard error, in files, under each of their names."""
    filled(desk)
    improved = lambda text: text.endswith(b"hard 0 cost 5\n") and is_timetable(desk, text.removesuffix(b"hard 0 cost 5\n"))
    solved = lambda text: text.endswith(b"cost 5 bound 5 finished\n") and is_timetable(desk, text.removesuffix(b"cost 5 bound 5 finished\n"))
    proved = lambda text: re.fullmatch(rb"CTTP \d bound 5\n(.*\n)+end\ncost 5 bound 5 finished\n", text)
    upgraded = lambda text: text == GAP_UPGRADED + b"bound 5\n"
    shown = lambda text: text.startswith(b"<!DOCTYPE html>") and text.endswith(b"</html>\n")
    count = 0
    for key, names in [("stdout", OUT_NAMES), ("stderr", ERR_NAMES)]:
        for mode in ("wb", "ab"):
            for name in names:
                for words, wanted in [
                    (f"improve instance solution {name}", improved),
                    (f"solve instance {name} other", solved),
                    (f"solve instance other {name}", proved),
                    (f"upgrade instance proof {name}", upgraded),
                    (f"page instance solution {name}", shown),
                ]:
                    check_stream(desk, words, key, mode, wanted)
                    count += 1
    return f"{count} runs"


def standard_output_in_a_folder(desk):
    """Standard output is a file of OUTDIR: it isn't replaced."""
    filled(desk)
    for command, name, answer in [("best", "best.sol", b"cost 5 bound 5 optimal\n"), ("best", "page.html", b"cost 5 bound 5 optimal\n"),
                                  ("parts", "rooms.proof", b"bound 5 parts 2\n")]:
        folder = desk.folder / f"{command}-{name}"
        folder.mkdir()
        (folder / name).write_bytes(OLDER)
        number = (folder / name).stat().st_ino
        told = run_with(desk, f"{command} instance {folder.name}", stdout=("ab", f"{folder.name}/{name}"))
        text = (folder / name).read_bytes()
        assert told[0] == 0 and (folder / name).stat().st_ino == number and text.startswith(OLDER) and text.endswith(answer), f"{told}, {text}"
        assert len(text) > len(OLDER + answer), f"{name} is lost: {text}"


def standard_streams_twice(desk):
    """Two outputs that are one stream are refused; a terminal or /dev/null may be both."""
    before = filled(desk)
    for words, role, path, other in [
        ("solve instance - -", "proof", "-", b"solution"),
        ("solve instance - /dev/stdout", "proof", "/dev/stdout", b"solution"),
        ("solve instance /dev/fd/1 -", "proof", "-", b"solution"),
    ]:
        same(desk.told(words), not_written(role, path, b"is also output " + other))
    told = run_with(desk, "solve instance - log", stdout=("ab", "log"))
    same((told[0], told[2]), (2, b"refused: cannot write: output proof: log: is also output solution\n"))
    (desk.folder / "log").unlink()
    same(desk.told("solve instance /dev/null /dev/null"), (0, b"cost 5 bound 5 finished\n", b""))
    assert texts(desk) == before


def standard_input_as_an_output(desk):
    """A file that is standard input isn't written over, whether it is read or not."""
    before = filled(desk)
    for words, name in [("bound instance -", None), ("upgrade instance - proof", "proof"), ("improve instance solution proof", "solution"),
                        ("solve - proof other", "solution"), ("upgrade instance - /dev/stdin", "proof")]:
        with open(desk.folder / ("proof" if "solve" not in words else "instance"), "rb") as given:
            if "solve" in words:
                words = words.replace("proof", "instance")
            done = subprocess.run([PROGRAM, *words.split()], cwd=desk.folder, stdin=given, capture_output=True, timeout=60)
        if name is None:
            same((done.returncode, done.stdout), (0, b"bound 5\n"))
            continue
        assert done.returncode == 2 and re.fullmatch(rb"refused: cannot write: output %s: [^\n:]+: is [^\n]+\n" % name.encode(), done.stderr), f"{words}: {done}"
        assert texts(desk) == before, f"{words} changes a file"


def closed_streams(desk):
    """Without a standard stream the next file that is opened has its number: no file gets what isn't its own."""
    before = filled(desk)
    for words in ["validate instance solution", "bound instance proof", "improve instance solution out", "solve instance out other",
                  "upgrade instance proof out", "page instance solution out", "parts instance parts", "best instance best", "solve instance - out",
                  "sum instance proof"]:
        open_run = subprocess.run([PROGRAM, *words.split()], cwd=desk.folder, capture_output=True, timeout=60)
        wanted = {**texts(desk), **{f"{it}/{name}": text for it in ("parts", "best") if (desk.folder / it).is_dir() for name, text in texts(desk, it).items()}}
        for closed in ("0<&-", "1>&-", "2>&-", "0<&- 1>&- 2>&-", "1>&- 2>&-"):
            for name in ("out", "other"):
                (desk.folder / name).unlink(missing_ok=True)
            for name in ("parts", "best"):
                shutil.rmtree(desk.folder / name, ignore_errors=True)
            done = subprocess.run(["sh", "-c", f'exec "$0" {words} {closed}', PROGRAM], cwd=desk.folder, capture_output=True, timeout=60, stdin=subprocess.DEVNULL)
            assert done.returncode in (open_run.returncode, 2), f"{words} {closed}: {done}"
            for name, text in {**texts(desk), **{f"{it}/{name}": text for it in ("parts", "best") if (desk.folder / it).is_dir() for name, text in texts(desk, it).items()}}.items():
                assert name in wanted and text == wanted[name], f"{words} {closed}: {name} is {text[:200]}"
        for name in ("out", "other"):
            (desk.folder / name).unlink(missing_ok=True)
        for name in ("parts", "best"):
            shutil.rmtree(desk.folder / name, ignore_errors=True)
        assert texts(desk) == before, f"{words} changes an input"
    # What is shown doesn't go into a page that has the number of standard error.
    put_large_page(desk)
    assert desk.told("page instance solution out")[0] == 0
    wanted = (desk.folder / "out").read_bytes()
    done = subprocess.run(["sh", "-c", 'exec "$0" page instance solution out --progress 2>&-', PROGRAM], cwd=desk.folder, timeout=60)
    assert done.returncode in (0, 2) and (desk.folder / "out").read_bytes() == wanted, f"{done}: the page has {len((desk.folder / 'out').read_bytes()) - len(wanted)} bytes more"


def put_large_page(desk):
    """Puts an instance and a timetable whose page has some 20 MB, and is written in pieces."""
    desk.put(instance=ONE_PERIOD % b"".join(b"q%d 1 c0\n" % it for it in range(256)), solution=b"c0 R0 0 0\n" * 256)


# ---- names, links and folders


def outputs_that_are_inputs(desk):
    """An output that is an input under any name is refused, and so are two outputs that are one; no file changes."""
    filled(desk)
    os.symlink("instance", desk.folder / "link")
    os.link(desk.folder / "solution", desk.folder / "hard")
    (desk.folder / "room").mkdir()
    os.link(desk.folder / "instance", desk.folder / "room" / "groups.proof")
    os.symlink("nowhere", desk.folder / "loose")
    for name in ("hall", "corner"):
        (desk.folder / name).mkdir()
    os.symlink("rooms.proof", desk.folder / "hall" / "groups.proof")
    os.symlink("../page.html", desk.folder / "corner" / "best.sol")
    os.symlink("../page.html", desk.folder / "corner" / "page.html")
    os.mkfifo(desk.folder / "pipe")
    before = texts(desk)
    is_read, is_table = b"is a file that the command reads", b"is also output solution"
    for words, role, path, why in [
        ("improve instance solution instance", "solution", "instance", is_read),
        ("improve instance solution ./solution", "solution", "./solution", is_read),
        ("improve instance solution room/../instance", "solution", "room/../instance", is_read),
        ("improve instance solution link", "solution", "link", is_read),
        ("improve instance solution hard", "solution", "hard", is_read),
        ("page instance solution link", "page", "link", is_read),
        ("page instance solution proof --proof proof", "page", "proof", is_read),
        ("upgrade instance proof ./proof", "proof", "./proof", is_read),
        ("upgrade instance proof instance", "proof", "instance", is_read),
        ("upgrade instance pipe pipe", "proof", "pipe", is_read),
        ("solve instance link other", "solution", "link", is_read),
        ("solve instance other instance", "proof", "instance", is_read),
        ("solve instance same same", "proof", "same", is_table),
        ("solve instance same ./same", "proof", "./same", is_table),
        ("solve instance loose nowhere", "proof", "nowhere", is_table),
        ("solve instance pipe pipe", "proof", "pipe", is_table),
        ("parts instance room", "proof", "room/groups.proof", is_read),
        ("parts instance hall", "proof", "hall/rooms.proof", b"is also output proof"),
        ("best instance room", "proof", "room/groups.proof", is_read),
        ("best instance corner", "page", "corner/page.html", is_table),
        ("improve instance solution room", "solution", "room", b"is a folder"),
        ("improve instance solution other/", "solution", "other/", b"ends in /"),
    ]:
        same(desk.told(words, seconds=20), not_written(role, path, why))
        assert texts(desk) == before, f"{words} changes a file"


def outputs_behind_links(desk):
    """The file that a link leads to is written, and the link stays; a file's permissions stay."""
    filled(desk)
    (desk.folder / "room").mkdir()
    os.symlink("room/target", desk.folder / "first")
    os.symlink("first", desk.folder / "second")
    for mode in (None, 0o600, 0o640, 0o444):
        target = desk.folder / "room" / "target"
        if mode is not None:
            target.chmod(mode)
        same(desk.told("improve instance solution second"), (0, b"hard 0 cost 5\n", b""))
        assert os.readlink(desk.folder / "second") == "first" and os.readlink(desk.folder / "first") == "room/target"
        assert mode is None or stat.S_IMODE(target.stat().st_mode) == mode
    assert {it.name for it in (desk.folder / "room").iterdir()} == {"target"}


def groups_of_files(desk):
    """A file that is replaced keeps its group; where the new one can't have it, the group has no rights."""
    if os.getuid():
        raise Skipped("only root gives files away")
    filled(desk)
    out = desk.folder / "out"
    out.write_bytes(OLDER)
    os.chown(out, 0, 12)
    out.chmod(0o660)
    same(desk.told("improve instance solution out"), (0, b"hard 0 cost 5\n", b""))
    assert (out.stat().st_gid, stat.S_IMODE(out.stat().st_mode)) == (12, 0o660), f"{out.stat()}"
    desk.folder.chmod(0o777)
    out.write_bytes(OLDER)
    same(as_nobody(desk, "improve instance solution out")[:2], (0, b"hard 0 cost 5\n"))
    assert out.stat().st_uid == NOBODY and stat.S_IMODE(out.stat().st_mode) in (0o600, 0o606) and out.stat().st_gid != 12, f"{out.stat()}"


def devices_and_pipes(desk):
    """A device or a pipe is written to, and stays one."""
    filled(desk)
    os.mkfifo(desk.folder / "pipe")
    read = []
    reader = threading.Thread(target=lambda: read.append((desk.folder / "pipe").read_bytes()))
    reader.start()
    same(desk.told("improve instance solution pipe"), (0, b"hard 0 cost 5\n", b""))
    reader.join()
    assert len(read[0].split()) == 8 and stat.S_ISFIFO((desk.folder / "pipe").stat().st_mode)
    same(desk.told("page instance solution /dev/null"), (0, b"", b""))
    assert stat.S_ISCHR(os.stat("/dev/null").st_mode)
    same(desk.told("upgrade instance proof /dev/stdout"), (0, GAP_UPGRADED + b"bound 5\n", b""))
    full = b"No space left on device (os error 28)"
    same(desk.told("page instance solution /dev/full"), not_written("page", "/dev/full", full))
    # What was found goes to standard output then.
    status, out, err = desk.told("improve instance solution /dev/full")
    assert (status, err) == (2, b"refused: cannot write: output solution: /dev/full: " + full + b"; output solution is on standard output\n"), f"{err}"
    assert is_timetable(desk, out), f"{out}"


def outputs_that_cannot_be(desk):
    """What can't be written is refused before a search begins."""
    before = filled(desk)
    (desk.folder / "folder").mkdir()
    slash, folder = b"ends in /", b"is a folder"
    improve, solve = f"improve {LIKE02}.ctt {LIKE02}.sol %s --steps 1000000 --runs 1000", f"solve {LIKE02}.ctt %s --nodes 65536"
    for words, role, path, why in [
        (improve % "none/out", "solution", "none/out", NOT_THERE),
        (improve % "new/.", "solution", "new/.", slash),
        (improve % "new/..", "solution", "new/..", slash),
        (improve % "new/", "solution", "new/", slash),
        (improve % "folder", "solution", "folder", folder),
        (improve % "folder/.", "solution", "folder/.", folder),
        (improve % ".", "solution", ".", folder),
        (improve % "instance/out", "solution", "instance/out", b"Not a directory (os error 20)"),
        (improve % ("x" * 256), "solution", "x" * 256, b"File name too long (os error 36)"),
        (solve % "none/out other", "solution", "none/out", NOT_THERE),
        (solve % "other none/out", "proof", "none/out", NOT_THERE),
        (solve % "other new/.", "proof", "new/.", slash),
        (f"parts {LIKE02}.ctt none/none --nodes 1000000", "proof", "none/none/groups.proof", NOT_THERE),
        (f"best {LIKE02}.ctt none/none --rounds 1000", "solution", "none/none/best.sol", NOT_THERE),
        (f"best {LIKE02}.ctt new/. --rounds 1000", "solution", "new/./best.sol", NOT_THERE),
        (f"best {LIKE02}.ctt instance --rounds 1000", "solution", "instance/best.sol", b"Not a directory (os error 20)"),
        ("page instance solution none/out", "page", "none/out", NOT_THERE),
        ("page instance solution new/.", "page", "new/.", slash),
        ("upgrade instance proof none/out", "proof", "none/out", NOT_THERE),
    ]:
        start = time.perf_counter()
        same(desk.told(words), not_written(role, path, why))
        assert time.perf_counter() - start < AT_ONCE, f"{words} takes long"
    for words, role in [
        (["improve", f"{LIKE02}.ctt", f"{LIKE02}.sol", "", "--steps", "1000000"], "solution"),
        (["solve", f"{LIKE02}.ctt", "", "other"], "solution"),
        (["solve", f"{LIKE02}.ctt", "other", ""], "proof"),
        (["upgrade", "instance", "proof", ""], "proof"),
        (["page", "instance", "solution", ""], "page"),
    ]:
        start = time.perf_counter()
        same(desk.told(words), not_written(role, "", b"is empty"))
        assert time.perf_counter() - start < AT_ONCE, f"{words} takes long"
    assert texts(desk) == before and not any((desk.folder / "folder").iterdir())


def an_empty_folder_name(desk):
    """An OUTDIR without a name is refused, and nothing is written to the root folder; tried by a user who can't write there."""
    filled(desk)
    before = set(os.listdir("/"))
    run = as_nobody if os.getuid() == 0 else lambda desk, words: desk.told(words)
    desk.folder.chmod(0o755)
    for words in (["best", "instance", ""], ["parts", "instance", ""]):
        same(run(desk, words), not_written("folder", "", b"is empty"))
    assert set(os.listdir("/")) == before


def folders_that_are_made(desk):
    """The folder of `parts` and of `best` is made, and removed again where nothing is written to it."""
    filled(desk)
    desk.put(bad=b"bad")
    for command, names in [("parts", {"groups.proof", "rooms.proof"}), ("best", {"best.sol", "page.html", "tree.proof"})]:
        assert desk.told(f"{command} instance {command}")[0] == 0
        assert {it.name for it in (desk.folder / command).iterdir()} == names
        same(desk.told(f"{command} bad new"), refused(b"instance: Expected Name: at byte 0"))
        assert not (desk.folder / "new").exists()
    same(desk.told("parts instance new --solution bad"), refused(b"solution: UnknownCourse at byte 0"))
    same(desk.told("best instance new --from bad"), refused(b"solution: UnknownCourse at byte 0"))
    assert not (desk.folder / "new").exists()


def none_found(desk, instance):
    """`best` proves that there is no timetable, and says why."""
    status, out, err = desk.told(f"best {instance} out")
    assert (status, out) == (1, b"cost none bound none\n") and err.startswith(b"can't be: ") and err.endswith(b"\n"), (status, out, err)


def older_folders(desk):
    """What an earlier run left in OUTDIR and this one doesn't write gets another name, and an older file of that name is replaced."""
    desk.put(gap=GAP, same=SAME)
    same(desk.told("best gap out"), (0, b"cost 5 bound 5 optimal\n", b""))
    first = texts(desk, "out")
    assert first.keys() == {"best.sol", "page.html", "tree.proof"}
    (desk.folder / "out" / "groups.proof").write_bytes(OLDER)
    (desk.folder / "out" / "other").write_bytes(OLDER)
    none_found(desk, "same")
    second = texts(desk, "out")
    assert second.keys() == {"tree.proof", "best.sol.old", "partial.sol", "page.html", "groups.proof.old", "other"}, f"{sorted(second)}"
    assert second["best.sol.old"] == first["best.sol"] and second["page.html"] != first["page.html"] and second["groups.proof.old"] == OLDER
    same(desk.told("sum same out/tree.proof"), (0, b"bound none\n", b""))
    same(desk.told("best gap out"), (0, b"cost 5 bound 5 optimal\n", b""))
    third = texts(desk, "out")
    assert "partial.sol" not in third and third["partial.sol.old"] == second["partial.sol"]
    (desk.folder / "out" / "best.sol").write_bytes(b"newer")
    none_found(desk, "same")
    assert texts(desk, "out")["best.sol.old"] == b"newer"
    # The same of `parts`.
    same(desk.told("parts gap parts"), (0, b"bound 5 parts 2\n", b""))
    desk.put(free=MINI.replace(b"R 11", b"R 12"))
    same(desk.told("parts free parts"), (0, b"bound 0 parts 0\n", b""))
    assert texts(desk, "parts").keys() == {"groups.proof.old", "rooms.proof.old"}, f"{sorted(texts(desk, 'parts'))}"


# ---- files that can't be replaced


def as_nobody(desk, words):
    """Runs a command as a user without rights."""
    words = words.split() if isinstance(words, str) else words
    program = Path(tempfile.gettempdir()) / f"tt-{os.getpid()}"
    try:
        if not program.exists():
            shutil.copy(PROGRAM, program)
            program.chmod(0o755)
        reach(desk.folder)
        done = subprocess.run([program, *words], cwd=desk.folder, capture_output=True, timeout=60, user=NOBODY, group=NOBODY, extra_groups=[])
    finally:
        program.unlink(missing_ok=True)
    return done.returncode, done.stdout, done.stderr


def reach(folder):
    """Lets other users go to a folder of this test."""
    top = Path(tempfile.gettempdir())
    while top in folder.parents:
        folder.chmod(folder.stat().st_mode | 0o055)
        folder = folder.parent


def check_kept(desk, told, path, reason, before, role="solution"):
    """A refusal after the search says why and where the result is, which is whole there; the older file stays."""
    folder = str(Path(path).parent)
    form = f"refused: cannot write: output {role}: {path}: {reason}; output solution is kept as (\\S+)\n"
    found = re.fullmatch(form, told[2].decode())
    assert told[:2] == (2, b"") and found, f"{told}"
    kept = Path(found[1])
    assert str(kept.parent) == folder and is_draft(kept), f"{told}"
    assert is_timetable(desk, (desk.folder / kept).read_bytes()), f"{(desk.folder / kept).read_bytes()}"
    assert (desk.folder / path).read_bytes() == before
    assert [it for it in os.listdir(desk.folder / folder) if it.startswith("tt-")] == [kept.name]
    (desk.folder / kept).unlink()


def sticky_folders(desk):
    """Another user's file in a folder in which each may only replace his own."""
    if os.getuid():
        raise Skipped("only root makes files of two users")
    filled(desk)
    room = desk.folder / "room"
    room.mkdir()
    room.chmod(0o1777)
    (room / "out").write_bytes(OLDER)
    (room / "out").chmod(0o666)
    check_kept(desk, as_nobody(desk, "improve instance solution room/out"), "room/out", r"Operation not permitted \(os error 1\)", OLDER)
    status, out, err = as_nobody(desk, "solve instance room/new room/out")
    said = rb"refused: cannot write: output proof: room/out: Operation not permitted \(os error 1\); output solution is kept as (\S+); output proof is kept as (\S+)\n"
    found = re.fullmatch(said, err)
    assert (status, out) == (2, b"") and found, f"{status}, {out}, {err}"
    assert is_timetable(desk, (desk.folder / found[1].decode()).read_bytes())
    desk.put(proof2=(desk.folder / found[2].decode()).read_bytes())
    same(desk.told("bound instance proof2"), (0, b"bound 5\n", b""))
    assert not (room / "new").exists() and (room / "out").read_bytes() == OLDER
    left = {it.name for it in room.iterdir()} - {"out", *(Path(it.decode()).name for it in found.groups())}
    # The second name of the older file is the other user's too, and can't be removed.
    assert all(is_second_name(it) and (room / it).samefile(room / "out") for it in left), f"{left}"
    return "a second name of the older file stays" if left else None


@contextmanager
def immutable(path):
    """A file that the system lets nobody change."""
    tool = shutil.which("chattr")
    if not tool or subprocess.run([tool, "+i", path], capture_output=True).returncode:
        raise Skipped("no file can be made immutable here")
    try:
        yield
    finally:
        subprocess.run([tool, "-i", path], check=True)


@contextmanager
def mounted(path, over):
    """A file that is mounted at the place of another."""
    if subprocess.run(["mount", "--bind", path, over], capture_output=True).returncode:
        raise Skipped("no file can be mounted here")
    try:
        yield
    finally:
        subprocess.run(["umount", over], check=True)


def immutable_files(desk):
    filled(desk)
    (desk.folder / "out").write_bytes(OLDER)
    with immutable(desk.folder / "out"):
        check_kept(desk, desk.told("improve instance solution out"), "out", r"Operation not permitted \(os error 1\)", OLDER)


def mounted_files(desk):
    filled(desk)
    (desk.folder / "out").write_bytes(b"")
    (desk.folder / "source").write_bytes(OLDER)
    with mounted(desk.folder / "source", desk.folder / "out"):
        check_kept(desk, desk.told("improve instance solution out"), "out", r"Device or resource busy \(os error 16\)", OLDER)


def kept_ways_that_fail(desk):
    """A search with --keep whose output can't be replaced leaves no new files but those that its refusal names."""
    for words, name in [
        (f"improve {LIKE05}.ctt {LIKE05}.sol room/out --steps 1000000", "out"),
        (f"solve {LIKE05}.ctt room/out room/out.proof --nodes 65536", "out"),
        (f"parts {LIKE05}.ctt room --nodes 1000000", "groups.proof"),
        (f"best {LIKE05}.ctt room --rounds 1000", "best.sol"),
    ]:
        room = desk.folder / "room"
        room.mkdir()
        (room / name).write_bytes(OLDER)
        with immutable(room / name):
            told = desk.told(f"{words} --time 7 --keep")
            left = [it for it in os.listdir(room) if it.startswith("tt-")]
            unnamed = [it for it in left if it.encode() not in told[2]]
            assert told[0] == 2 and left and not unnamed, f"{words}: {told}, left {left}"
            assert (room / name).read_bytes() == OLDER
        shutil.rmtree(room)


def links_that_may_not_be_followed(desk):
    """Another user's link in a folder like /tmp, which the system lets nobody follow, is refused as an output."""
    setting = Path("/proc/sys/fs/protected_symlinks")
    filled(desk)
    if os.getuid():
        raise Skipped("only root makes files of two users")
    room = desk.folder / "room"
    room.mkdir()
    room.chmod(0o1777)
    target = desk.folder / "precious"
    target.write_bytes(OLDER)
    target.chmod(0o600)
    os.symlink(target, room / "out")
    os.symlink(desk.folder / "instance", room / "link")
    for name in ("out", "link"):
        os.chown(room / name, NOBODY, NOBODY, follow_symlinks=False)
    before = setting.read_text()
    try:
        setting.write_text("1")
    except OSError as why:
        raise Skipped(f"{setting}: {why.strerror}") from None
    try:
        denied = b"Permission denied (os error 13)"
        for words, role, path in [
            ("improve instance solution room/out", "solution", "room/out"),
            ("improve instance solution room/link", "solution", "room/link"),
            ("solve instance other room/out", "proof", "room/out"),
            ("page instance solution room/out", "page", "room/out"),
        ]:
            same(desk.told(words), not_written(role, path, denied))
    finally:
        setting.write_text(before)
    assert target.read_bytes() == OLDER and stat.S_IMODE(target.stat().st_mode) == 0o600
    assert {it.name for it in room.iterdir()} == {"out", "link"}


@contextmanager
def small_disk(room):
    """A new folder that is a disk of its own."""
    room.mkdir()
    if subprocess.run(["mount", "-t", "tmpfs", "-o", "size=64k", "none", room], capture_output=True).returncode:
        raise Skipped("no disk can be mounted here")
    try:
        yield
    finally:
        subprocess.run(["umount", room], check=True)


def equal_numbers_on_two_disks(desk):
    """Files that have one number, but on two disks, are two files."""
    filled(desk)
    one, two = desk.folder / "one", desk.folder / "two"
    with small_disk(one), small_disk(two):
        for room, text in ((one, OLDER), (two, GAP)):
            (room / "file").write_bytes(text)
        if os.stat(one / "file").st_ino != os.stat(two / "file").st_ino:
            raise Skipped("files on two new disks have different numbers here")
        # An output on one, and an input on the other; then an output on each.
        status, _, err = desk.told("improve two/file solution one/file")
        assert (status, err) == (0, b"") and is_timetable(desk, (one / "file").read_bytes()), f"{status}, {err}"
        status, _, err = desk.told("solve instance one/file two/file")
        assert (status, err) == (0, b"") and is_timetable(desk, (one / "file").read_bytes()), f"{status}, {err}"


def full_disks(desk):
    """On a disk without space what was found goes to standard output."""
    filled(desk)
    room = desk.folder / "room"
    with small_disk(room):
        with open(room / "filling", "wb", buffering=0) as file:
            try:
                while True:
                    file.write(b"x" * 512)
            except OSError:
                pass
        status, out, err = desk.told("improve instance solution room/out")
        said = b"refused: cannot write: output solution: room/out: No space left on device (os error 28); output solution is on standard output\n"
        assert (status, err) == (2, said) and is_timetable(desk, out), f"{status}, {out}, {err}"
        assert {it.name for it in room.iterdir()} == {"filling"}


# ---- searches that are stopped, or go on from earlier results


def sum_of(desk, instance, folder):
    """What `sum` says of the timetable and the proofs of a folder."""
    proofs = " ".join(f"{folder}/{it.name}" for it in sorted((desk.folder / folder).glob("*.proof")))
    return desk.told(f"sum {instance} --solution {folder}/best.sol {proofs}")


def search_for_a_second(desk):
    """Each search ends soon after its limit, with all files, and its line says what they hold."""
    taken = []
    for words, files, line in [
        (f"improve {LIKE05}.ctt {LIKE05}.sol out --steps 1000000 --runs 1000", ["out"], rb"hard 0 cost (\d+)\n"),
        (f"solve {LIKE05}.ctt out other --nodes 65536", ["out", "other"], rb"cost (\d+) bound (\d+) unfinished\n"),
        (f"parts {LIKE05}.ctt parts --nodes 1000000", [], rb"bound (\d+) parts (\d+)\n"),
        (f"best {LIKE05}.ctt best --rounds 1000", ["best/best.sol", "best/page.html"], rb"cost (\d+) bound (\d+)( optimal)?\n"),
        (f"best {LIKE02}.ctt best --rounds 1000", ["best/best.sol", "best/page.html"], rb"cost (\d+) bound (\d+)( optimal)?\n"),
        (f"best {LIKE02}.ctt best --rounds 1000 --from {LIKE02}.sol", ["best/best.sol", "best/page.html"], rb"cost (\d+) bound (\d+)( optimal)?\n"),
    ]:
        instance = words.split()[1]
        for seconds in (1, 3):
            start = time.perf_counter()
            status, out, err = desk.told(f"{words} --time {seconds}")
            took = time.perf_counter() - start
            found = re.fullmatch(line, out)
            assert (status, err) == (0, b"") and found, f"{words} --time {seconds}: {status}, {out}, {err}"
            assert took < seconds + 4, f"{words} --time {seconds} takes {took:.1f} s"
            taken.append(took - seconds)
            for name in files:
                assert (desk.folder / name).stat().st_size, f"{words} writes no {name}"
            if words.startswith("improve"):
                counts = desk.told(f"validate {instance} out")[1]
                assert counts.endswith(b"hard 0\ncost %s\n" % found[1]), f"{counts}"
            elif words.startswith("solve"):
                told = desk.told(f"sum {instance} --solution out other")
                assert told[0] == 0 and told[1].startswith(b"yes cost %s bound %s" % found.group(1, 2)), f"{told}"
            elif words.startswith("parts"):
                proofs = sorted(f"parts/{it.name}" for it in (desk.folder / "parts").glob("*.proof"))
                same(desk.told(f"sum {instance} {' '.join(proofs)}"), (0, b"bound %s\n" % found[1], b""))
                assert len(proofs) == int(found[2])
            else:
                told = sum_of(desk, instance, "best")
                assert told[0] == 0 and told[1].startswith(b"yes cost %s bound %s" % found.group(1, 2)), f"{told}"
    return f"at most {max(taken):.1f} s after the limit"


def limits_of_time(desk):
    filled(desk)
    for words in ("improve instance solution out", "solve instance out other", "parts instance out", "best instance out"):
        for seconds in ("0", "1000001", "-1", "x", "1.5"):
            told = desk.told(f"{words} --time={seconds}")
            assert told[:2] == (2, b"") and told[2].startswith(b"error: "), f"{words} --time={seconds}: {told}"
        assert desk.told(f"{words} --time 1000000")[0] == 0, words
        for name in ("out", "other"):
            shutil.rmtree(desk.folder / name) if (desk.folder / name).is_dir() else (desk.folder / name).unlink(missing_ok=True)


def stopped(desk, words, ready, seconds=300, how=signal.SIGKILL):
    """Runs a command until something is there, and stops it then."""
    run = subprocess.Popen([PROGRAM, *words.split()], cwd=desk.folder, stdout=subprocess.DEVNULL, stderr=subprocess.PIPE)
    start = time.perf_counter()
    try:
        while not ready():
            assert run.poll() is None, f"{words} ends by itself: {run.returncode}, {run.stderr.read()}"
            assert time.perf_counter() - start < seconds, f"{words}: nothing after {seconds} s"
            time.sleep(0.02)
    finally:
        run.send_signal(how)
        run.wait()
        run.stderr.close()
    return time.perf_counter() - start


def there(desk, *names):
    return lambda: all((desk.folder / name).exists() for name in names)


def kept_searches(desk):
    """Searches that are killed leave, with --keep, what they had: timetables, proofs and pages that hold."""
    said = []
    words = f"improve {LIKE02}.ctt {LIKE02}.sol kept --steps 1000000 --runs 1000 --keep"
    said.append(f"improve after {stopped(desk, words, there(desk, 'kept')):.1f} s")
    counts = desk.told(f"validate {LIKE02}.ctt kept")
    assert counts[0] == 0 and b"hard 0\n" in counts[1], f"{counts}"
    words = f"solve {LIKE05}.ctt out out.proof --nodes 65536 --keep"
    said.append(f"solve after {stopped(desk, words, there(desk, 'out', 'out.proof')):.1f} s")
    told = desk.told(f"sum {LIKE05}.ctt --solution out out.proof")
    assert told[0] == 0 and told[1].startswith(b"yes cost "), f"{told}"
    words = f"parts {LIKE05}.ctt parts --nodes 1000000 --keep"
    said.append(f"parts after {stopped(desk, words, there(desk, 'parts/groups.proof')):.1f} s")
    told = desk.told(f"sum {LIKE05}.ctt parts/groups.proof" + (" parts/rooms.proof" if there(desk, "parts/rooms.proof")() else ""))
    assert told[0] == 0 and told[1].startswith(b"bound "), f"{told}"
    words = f"best {LIKE05}.ctt best --rounds 1000 --keep"
    said.append(f"best after {stopped(desk, words, there(desk, 'best/best.sol', 'best/page.html', 'best/groups.proof')):.1f} s")
    told = sum_of(desk, f"{LIKE05}.ctt", "best")
    assert told[0] == 0 and told[1].startswith(b"yes cost ") and not told[1].endswith(b" bound 0\n"), f"{told}"
    assert (desk.folder / "best" / "page.html").read_bytes().endswith(b"</html>\n")
    # A proof of an earlier step that the best timetable doesn't rest on has its other name.
    left = [it.name for it in (desk.folder / "best").iterdir() if not it.name.startswith("tt-")]
    proofs = {f"{kind}.proof{end}" for kind in ("groups", "prices", "tree") for end in ("", ".old")}
    assert set(left) <= {"best.sol", "page.html", *proofs}, f"{left}"
    return ", ".join(said)


def kept_over_an_older_folder(desk):
    """A search that is killed in a folder of another instance leaves nothing of that one under its own names."""
    for more in ("", f" --from {LIKE05}.sol"):
        folder = desk.folder / "best"
        shutil.rmtree(folder, ignore_errors=True)
        assert desk.told(f"best {LIKE02}.ctt best --rounds 2")[0] == 0
        before = texts(desk, "best")
        fresh = lambda: (folder / "best.sol").exists() and (folder / "best.sol").read_bytes() != before["best.sol"]
        stopped(desk, f"best {LIKE05}.ctt best --rounds 1000 --keep{more}", fresh)
        now = texts(desk, "best")
        stale = [it for it in ("best.sol", "page.html", "groups.proof", "tree.proof") if it in now and now[it] == before.get(it)]
        assert not stale, f"with{more or 'out --from'}: of the other instance: {stale}"
        told = sum_of(desk, f"{LIKE05}.ctt", "best")
        assert told[0] == 0 and told[1].startswith(b"yes cost "), f"{told}"


def kept_and_not_put(desk):
    """A timetable that was kept on the way stays if another file of the search can't be put in its place."""
    (desk.folder / "t").mkdir()
    words = [PROGRAM, "solve", f"{LIKE05}.ctt", "t/out", "t/out.proof", "--nodes", "65536", "--time", "15", "--keep"]
    run = subprocess.Popen(words, cwd=desk.folder, stdout=subprocess.PIPE, stderr=subprocess.PIPE)
    start = time.perf_counter()
    while not there(desk, "t/out")() and time.perf_counter() - start < 12:
        time.sleep(0.02)
    proof = desk.folder / "t" / "out.proof"
    while proof.exists() or not proof.is_dir():
        try:
            proof.unlink(missing_ok=True)
            proof.mkdir()
        except OSError:
            pass
        if proof.is_dir():
            break
    out, err = run.communicate(timeout=60)
    found = re.fullmatch(rb"refused: cannot write: output proof: t/out\.proof: [^\n;]+; output solution is kept as (t/tt-\S+); output proof is [^\n;]+\n", err)
    assert run.returncode == 2 and found, f"{run.returncode}, {out[:200]}, {err}"
    for name in ("t/out", found[1].decode()):
        counts = desk.told(f"validate {LIKE05}.ctt {name}")
        assert counts[0] == 0 and b"hard 0\n" in counts[1], f"{name}: {counts}"


def left_over_files(desk):
    """What killed runs leave keeps no later one from writing."""
    filled(desk)
    for number in range(200):
        (desk.folder / f"out.new{number}").touch()
        (desk.folder / f"tt-{number:016x}.new").touch()
    same(desk.told("improve instance solution out"), (0, b"hard 0 cost 5\n", b""))


def signals(desk):
    """A search that is ended by a signal leaves no half file."""
    for how in (signal.SIGTERM, signal.SIGINT, signal.SIGKILL):
        for wait in (0.3, 1.3, 2.2):
            words = f"best {LIKE05}.ctt best --rounds 1000 --keep"
            start = time.perf_counter()
            stopped(desk, words, lambda: time.perf_counter() - start > wait, how=how)
            for name, text in texts(desk, "best").items() if (desk.folder / "best").exists() else []:
                if name == "page.html":
                    assert text.endswith(b"</html>\n"), f"{name} is cut"
                elif name == "best.sol":
                    assert desk.told(f"validate {LIKE05}.ctt best/best.sol")[0] == 0, f"{name} is cut"
                elif name.endswith(".proof"):
                    assert desk.told(f"sum {LIKE05}.ctt best/{name}")[0] == 0, f"{name} is cut"
            shutil.rmtree(desk.folder / "best", ignore_errors=True)


def starts(desk):
    """`best --from` is never worse than the timetable from which it begins, and takes up proofs that still hold."""
    same(desk.told(f"parts {LIKE02}.ctt best --nodes 20000")[::2], (0, b""))
    bound = int(desk.told(f"sum {LIKE02}.ctt best/groups.proof")[1].split()[1])
    (desk.folder / "best" / "rooms.proof").unlink(missing_ok=True)
    begin = f"{LIKE02}.best.sol"
    status, out, err = desk.told(f"best {LIKE02}.ctt best --from {begin} --time 2")
    found = re.fullmatch(rb"cost (\d+) bound (\d+)( optimal)?\n", out)
    assert (status, err) == (0, b"") and found and int(found[1]) <= 52 and int(found[2]) >= bound, f"at least {bound}: {status}, {out}, {err}"
    told = sum_of(desk, f"{LIKE02}.ctt", "best")
    assert told[0] == 0 and told[1].startswith(b"yes cost %s bound %s" % found.group(1, 2)), f"{told}"
    # From the timetable that it replaces, with its own proofs.
    again = desk.told(f"best {LIKE02}.ctt best --from best/best.sol --time 2")
    more = re.fullmatch(rb"cost (\d+) bound (\d+)( optimal)?\n", again[1])
    assert again[0] == 0 and more and int(more[1]) <= int(found[1]) and int(more[2]) >= int(found[2]), f"{again} after {out}"
    # Proofs of another instance, cut ones and other texts are passed over.
    for text in ((ROOT / "examples" / "like04.groups").read_bytes(), b"CTTG 1 bound", b"", OLDER):
        (desk.folder / "best" / "groups.proof").write_bytes(text)
        (desk.folder / "best" / "tree.proof").write_bytes(text)
        told = desk.told(f"best {LIKE02}.ctt best --from {begin} --time 1")
        assert told[0] == 0 and re.fullmatch(rb"cost \d+ bound \d+( optimal)?\n", told[1]), f"{text[:20]}: {told}"
        told = sum_of(desk, f"{LIKE02}.ctt", "best")
        assert told[0] == 0 and told[1].startswith(b"yes cost "), f"{told}"
    # Starts that are none.
    desk.put(gap=GAP, short=b"a R 0 0\n", broken=b"a R 0 0\nb R 0 0\n", good=APART, other=b"x R 0 0\n")
    same(desk.told("best gap new --from other"), refused(b"solution: UnknownCourse at byte 0"))
    assert not (desk.folder / "new").exists()
    for name in ("short", "broken", "good"):
        status, out, _ = desk.told(f"best gap {name}-out --from {name}")
        assert status == 0 and out == b"cost 5 bound 5 optimal\n", f"{name}: {status}, {out}"


# ---- what is shown


def progress(desk):
    """What is shown goes to standard error, only where it is asked for or a terminal is there, and is cleared."""
    words = f"improve {LIKE02}.ctt {LIKE02}.sol out --steps 100000"
    assert desk.told(words)[2] == b"" and desk.told(f"{words} --progress --quiet")[2] == b""
    shown = desk.told(f"{words} --progress")[2]
    assert re.fullmatch(rb"(" + LINE % rb"improve: [\d,]+ of 100,000 steps, cost \d+, \d+ s" + rb")+" + re.escape(NO_LINE), shown), f"{shown[:300]}"
    put_large_page(desk)
    shown = desk.told("page instance solution out --progress")[2]
    assert re.fullmatch(rb"(" + LINE % rb"page: [\d,]+ bytes written, \d+ s" + rb")+" + re.escape(NO_LINE), shown), f"{shown[:300]}"
    # The rounds of a search show the best cost and bound so far.
    shown = desk.told(f"best {LIKE05}.ctt best --rounds 3 --time 12 --progress")[2]
    lines = re.findall(LINE % rb"([^\x1b]*)", shown)
    form = re.compile(rb"best: round (\d+) of 3(?:, cost (\d+))?(?:, bound (\d+))?, (\d+) s")
    assert lines and shown.endswith(NO_LINE) and all(form.fullmatch(it) for it in lines), f"{lines[:3]}, {lines[-3:]}"
    numbers = [form.fullmatch(it).groups() for it in lines]
    for place, sign in [(0, 1), (1, -1), (2, 1), (3, 1)]:
        known = [sign * int(it[place]) for it in numbers if it[place] is not None]
        assert known == sorted(known), f"goes back: {[it for it in lines]}"
    # A pipe has no size.
    desk.put(instance=GAP, proof=GAP_PROOF)
    slow = subprocess.Popen(["sh", "-c", 'cat proof; sleep 1; head -c 3000000 /dev/zero | tr "\\0" " "; sleep 1; echo'], cwd=desk.folder, stdout=subprocess.PIPE)
    done = subprocess.run([PROGRAM, "bound", "instance", "-", "--progress"], cwd=desk.folder, stdin=slow.stdout, capture_output=True, timeout=60)
    slow.stdout.close()
    slow.wait()
    assert done.stdout == b"bound 5\n" and b" of 0 bytes" not in done.stderr, f"{done}"
    assert re.fullmatch(rb"(" + LINE % rb"bound: [\d,]+ bytes, \d+ s" + rb")+" + re.escape(NO_LINE), done.stderr), f"{done.stderr}"


def a_closed_output(desk):
    desk.put(instance=GAP, solution=APART, proof=GAP_PROOF)
    full = b"refused: cannot write: standard output: No space left on device (os error 28)\n"
    for words in ["", "--help", "check instance solution proof", "sum instance proof", "report instance solution --by room", "report instance solution --csv",
                  "report instance solution --changes solution", "inspect instance", "solve instance out other"]:
        with open("/dev/full", "wb") as taken:
            done = subprocess.run([PROGRAM, *words.split()], cwd=desk.folder, stdout=taken, stderr=subprocess.PIPE, timeout=60)
        same((done.returncode, done.stderr), (2, full))


ROWS = [
    ("standard output and standard error as outputs", standard_streams_as_outputs),
    ("standard output that is a file of OUTDIR", standard_output_in_a_folder),
    ("two outputs that are one stream", standard_streams_twice),
    ("standard input as an output", standard_input_as_an_output),
    ("closed standard streams", closed_streams),
    ("outputs that are inputs", outputs_that_are_inputs),
    ("outputs behind links", outputs_behind_links),
    ("groups of files", groups_of_files),
    ("devices and pipes as outputs", devices_and_pipes),
    ("outputs that can't be", outputs_that_cannot_be),
    ("an empty name of a folder", an_empty_folder_name),
    ("folders that are made", folders_that_are_made),
    ("folders of an earlier run", older_folders),
    ("another user's file in a sticky folder", sticky_folders),
    ("immutable files", immutable_files),
    ("mounted files", mounted_files),
    ("a full disk", full_disks),
    ("equal numbers of files on two disks", equal_numbers_on_two_disks),
    ("what a search can't keep on the way", kept_ways_that_fail),
    ("links that may not be followed", links_that_may_not_be_followed),
    ("searches with a limit of time", search_for_a_second),
    ("limits of time", limits_of_time),
    ("searches that are killed", kept_searches),
    ("searches that are killed, over another instance's files", kept_over_an_older_folder),
    ("a kept timetable whose proof can't be put", kept_and_not_put),
    ("files that killed runs leave", left_over_files),
    ("searches that are ended by signals", signals),
    ("searches from a timetable", starts),
    ("progress on standard error", progress),
    ("an output that takes nothing", a_closed_output),
]
ROWS = [(name, or_skipped(row)) for name, row in ROWS]
