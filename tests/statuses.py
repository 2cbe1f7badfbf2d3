"""The exit statuses, the text and the messages of ./measure and ./mend, and the files that ./mend leaves.

check PROGRAM  runs ./measure on the listing program, and on stand-ins for it, in each case
mends PROGRAM  runs ./mend on the salvage program, and on stand-ins for it, in each case
"""

import os
import shutil
import signal
import socket
import stat
import struct
import subprocess
import tempfile
import threading
from typing import NamedTuple, Optional

from commands import dispatch, tallied
from files import example_files, header, stored_files, write
from images import gate_image, mended_image
from reference import BANK_BYTES, listing

ROOT = os.path.join(os.path.dirname(os.path.abspath(__file__)), "..")
# seconds, for a case; to list the huge file takes minutes
LIMIT = 30
HUGE_BYTES = 40 * 10**9
# a descriptor that writes to a pipe without a reader
UNREAD = 9
# root may read every file, and another user may not
AS_A_USER = "setpriv --reuid=65534 --clear-groups " if os.geteuid() == 0 else ""


class Script(NamedTuple):
    """A script by name, its program, the tools that it may use beside the kit, and the files of its cases."""
    name: str
    program: str
    tools: tuple
    files: dict


class Case(NamedTuple):
    """A command line, its exit status, its text, and a part of its message, the whole where a newline ends it, or
    nothing where it has none. A stand-in is a shell script that is run in the program's place. A line may be run
    before; the files that the case then makes or alters are given by name, or not looked at."""
    line: str
    status: int
    text: bytes = b""
    said: str = ""
    stand_in: Optional[str] = None
    before: str = "true"
    made: Optional[dict] = None


# ---------------------------------------------------------------------------
# The cases of ./measure

FILES = {
    "sound": example_files()["document"],
    "header only": header(50, 10),
    "-long": stored_files()["long"],
    "cut": example_files()["cut_short"],
    "empty": b"",
    "wrong": header(51, 10) + bytes(600),
}
TEXTS = {name: listing(data) for name, data in FILES.items()}
SOUND = TEXTS["sound"]
MEASURE = Script("measure", "listing", ("bash", "dirname", "readlink", "tail", "tee"),
                 {name + ".phs": data for name, data in FILES.items()})


def without_last_line(text):
    """What is printed of a listing that fails before its end."""
    return b"".join(text.splitlines(keepends=True)[:-1])


def whole_listings():
    """0 where the listing is whole, wherever the script, the file and the output are."""
    yield Case("./measure sound.phs", 0, SOUND)
    yield Case("./measure 'header only.phs'", 0, TEXTS["header only"])
    yield Case("./measure -long.phs", 0, TEXTS["-long"])
    yield Case("./measure -long.phs | cat; exit ${PIPESTATUS[0]}", 0, TEXTS["-long"])
    yield Case("./measure <(cat ./-long.phs)", 0, TEXTS["-long"])
    yield Case("./measure /dev/stdin <sound.phs", 0, SOUND)
    yield Case("bash measure sound.phs", 0, SOUND)
    yield Case("cd / && \"$OLDPWD/measure\" \"$OLDPWD/sound.phs\"", 0, SOUND)
    yield Case("mkdir 'a b' && cd 'a b' && ln -s ../measure m && CDPATH=/ ./m ../sound.phs", 0, SOUND)
    yield Case("echo first >out && ./measure sound.phs >>out && cat out", 0, b"first\n" + SOUND)
    yield Case("{ echo first && ./measure sound.phs; } >out && cat out", 0, b"first\n" + SOUND)
    yield Case("./measure sound.phs <&- 2>&-", 0, SOUND)


def refusals():
    """1 where the listing ends in a refusal."""
    for name in ("cut", "empty", "wrong"):
        yield Case("./measure %s.phs" % name, 1, TEXTS[name])
    yield Case("./measure cut.phs | cat; exit ${PIPESTATUS[0]}", 1, TEXTS["cut"])


def wrong_uses():
    """2 where there is not one FILE."""
    yield Case("./measure", 2, said="usage: ./measure FILE")
    yield Case("./measure sound.phs cut.phs", 2, said="usage: ./measure FILE")


def reads():
    """2 where the file cannot be read."""
    yield Case("./measure none.phs", 2, said="none.phs: No such file or directory")
    yield Case("./measure ''", 2, said="No such file or directory")
    yield Case("POSIXLY_CORRECT=1 ./measure none.phs", 2, said="none.phs: No such file or directory")
    yield Case("./measure none.phs 2>&-", 2)
    yield Case("chmod 0 sound.phs && %s./measure sound.phs" % AS_A_USER, 2, said="sound.phs: Permission denied")
    yield Case("./measure .", 2, said="Is a directory")
    yield Case("./measure /proc/self/mem", 2, said="Input/output error")
    yield Case("./measure /dev/tcp/127.0.0.1/%d" % reset_after(FILES["sound"]), 2, without_last_line(SOUND),
               "Connection reset by peer")


def writes():
    """2 where the text cannot be written, and the program does not run on."""
    for name in ("sound", "cut", "-long", "huge"):
        yield Case("./measure %s.phs >/dev/full" % name, 2, said="No space left on device")
        yield Case("./measure %s.phs >&-" % name, 2, said="standard output is closed")
        yield Case("./measure %s.phs >&%d" % (name, UNREAD), 2, said="Broken pipe")
        yield Case("trap '' PIPE; ./measure %s.phs >&%d" % (name, UNREAD), 2, said="Broken pipe")
    yield Case("POSIXLY_CORRECT=1 ./measure sound.phs >&-", 2, said="standard output is closed")
    yield Case("ulimit -f 10; ./measure -long.phs >out", 2, said="the listing is not whole")
    for name in ("-long", "huge"):
        yield Case("./measure %s.phs | true; exit ${PIPESTATUS[0]}" % name, 2, said="Broken pipe")
        yield Case("./measure %s.phs | head -c 10; exit ${PIPESTATUS[0]}" % name, 2, b"PHS 1 50 5", "Broken pipe")


def first_use(kit, line):
    """The line of a first use, with a stand-in for the kit's `rt` among the tools where one is given."""
    lay = "printf '#!/bin/sh\\n%s\\n' >tools/rt && chmod +x tools/rt && " % kit if kit else ""
    return lay + "rm -r crates/*/out && PATH=$PWD/tools " + line


def builder(script, first):
    """A stand-in for the kit's `rt` that first does something and then builds the program."""
    return "PATH=/usr/bin:/bin; %s; mkdir -p out; cp ../../program out/%s" % (first, script.program)


def builds():
    """2 where the program cannot be built; where it can, the text is the listing alone."""
    line = "./measure sound.phs"
    yield Case(first_use(None, line), 2, said="the program cannot be built")
    yield Case(first_use("exit 1", line), 2, said="the program cannot be built")
    yield Case(first_use("exit 0", line), 2, said="No such file or directory")
    yield Case(first_use(builder(MEASURE, "echo proved >&2"), line), 0, SOUND, "proved")
    # what the building reads is not the file, even where that is standard input
    yield Case(first_use(builder(MEASURE, "cat"), "./measure /dev/stdin < <(/bin/cat sound.phs)"), 0, SOUND)
    yield Case("PATH=$PWD/tools ./measure sound.phs", 0, SOUND)


def by_itself():
    """The program without the script ends with 0 and says what failed."""
    program = "crates/listing/out/listing"
    for name in ("sound", "empty"):
        yield Case("%s <%s.phs >/dev/full" % (program, name), 0,
                   said="listing: standard output: No space left on device")
    yield Case("%s <." % program, 0, said="listing: standard input: Is a directory")
    yield Case("%s <&-" % program, 0, said="listing: standard input: Bad file descriptor")


def cut_texts():
    """2 where the text does not end in a whole last line, or the program is killed."""
    whole, refused = "PHS 1 60 60\nreports 0 samples 9\n", "PHS 1 60 60\nrefused 15\n"
    for text in (whole, refused, "refused 14\n"):
        status = 0 if text == whole else 1
        yield Case("./measure sound.phs", status, text.encode(), stand_in="printf '%s'" % text)
        for length in range(len(text)):
            yield Case("./measure sound.phs", 2, text[:length].encode(), "the listing is not whole",
                       "printf '%s'" % text[:length])
        for name in ("KILL", "TERM", "SEGV"):
            yield Case("./measure sound.phs", 2, text.encode(), "the listing is not whole",
                       "printf '%s'; kill -s %s $$" % (text, name))
    for line in ("reports", "reports 0", "reports 0 samples", "reports 0 samples 0 ", "reports -1 samples 0",
                 " refused 15", "refused", "refused x", "1000 1 0 0 0 0 1", ""):
        yield Case("./measure sound.phs", 2, line.encode() + b"\n", "the listing is not whole", "echo '%s'" % line)


def ended_scripts():
    """A script that is ended ends the program too."""
    yield Case("./measure huge.phs >/dev/null & sleep 1; kill $!; wait $!", 128 + signal.SIGTERM)


MEASURE_CASES = (whole_listings, refusals, wrong_uses, reads, writes, builds, by_itself, cut_texts, ended_scripts)


# ---------------------------------------------------------------------------
# The cases of ./mend: the image stays as it is, and no file is left but the mended image where the status is 0

IMAGE = gate_image()
MENDED, FATES = mended_image(IMAGE)
AGAIN = mended_image(MENDED).errors
MEND = Script("mend", "mend", ("bash", "dirname", "mktemp", "mv", "readlink", "rm", "wc"),
              {"image.bank": IMAGE, "-sound.bank": MENDED, "short.bank": IMAGE[:-1], "long.bank": IMAGE + b"\0",
               "empty.bank": b"", "two.bank": IMAGE * 2})
OLD = "echo old >mended.bank"
MEND_LINE = "./mend image.bank mended.bank"
NOT_WHOLE = "the mended image is not whole"


def mends_it(line, name="mended.bank", before="true", said=FATES.decode()):
    """A case in which the image is mended and the mended one has this name."""
    return Case(line, 0, said=said, before=before, made={name: MENDED})


def makes_none(line, status, said="", stand_in=None, before="true"):
    """A case in which no file is made or altered."""
    return Case(line, status, said=said, stand_in=stand_in, before=before, made={})


def whole_images():
    """0 where the mended image is written, wherever the script, the image and the mended one are."""
    yield mends_it(MEND_LINE)
    yield mends_it(MEND_LINE, before=OLD)
    yield mends_it(MEND_LINE, before="chmod 444 image.bank")
    yield mends_it("./mend image.bank -m", "-m")
    yield mends_it("./mend -sound.bank mended.bank", said=AGAIN.decode())
    yield mends_it("./mend image.bank 'a b/c d'", "a b/c d", before="mkdir 'a b'")
    yield mends_it("bash mend image.bank mended.bank")
    yield mends_it("cd / && \"$OLDPWD/mend\" \"$OLDPWD/image.bank\" \"$OLDPWD/mended.bank\"")
    yield mends_it("cd 'a b' && CDPATH=/ ./m ../image.bank mended.bank", "a b/mended.bank",
                   before="mkdir 'a b' && ln -s ../mend 'a b/m'")
    yield mends_it("./mend <(cat image.bank) mended.bank")
    yield mends_it("cat image.bank | ./mend /dev/stdin mended.bank")
    yield mends_it("./mend image.bank mended.bank <&- >&-")
    yield mends_it("ulimit -f 4; ./mend image.bank mended.bank")
    yield Case("./mend image.bank once && ./mend once twice", 0, said=(FATES + AGAIN).decode(),
               made={"once": MENDED, "twice": MENDED})
    for mask, mode in (("022", b"644\n"), ("027", b"640\n"), ("077", b"600\n")):
        yield mends_it("umask %s; %s; s=$?; stat -c %%a mended.bank; exit $s" % (mask, MEND_LINE))._replace(text=mode)


def images_refused():
    """1 where the image is not 4096 bytes."""
    for image in ("short.bank", "long.bank", "empty.bank", "two.bank", "/dev/null", "<(cat two.bank)"):
        for before in ("true", OLD):
            yield makes_none("./mend %s mended.bank" % image, 1, "refused 1\n", before=before)


def wrong_mends():
    """2 where there are not an IMAGE and a MENDED."""
    for arguments in ("", " image.bank", " image.bank mended.bank mended.bank"):
        yield makes_none("./mend" + arguments, 2, "usage: ./mend IMAGE MENDED\n")


def images_unread():
    """2 where the image cannot be read."""
    yield makes_none("./mend none.bank mended.bank", 2, "none.bank: No such file or directory")
    yield makes_none("./mend '' mended.bank", 2, "No such file or directory")
    yield makes_none("POSIXLY_CORRECT=1 ./mend none.bank mended.bank", 2, "none.bank: No such file or directory")
    yield makes_none("./mend none.bank mended.bank 2>&-", 2)
    yield makes_none("chmod 0 image.bank && %s%s; s=$?; chmod 644 image.bank; exit $s" % (AS_A_USER, MEND_LINE), 2,
                     "image.bank: Permission denied")
    yield makes_none("./mend none.bank mended.bank", 2, "none.bank: No such file or directory", before=OLD)
    yield makes_none("./mend . mended.bank", 2, NOT_WHOLE)
    yield makes_none("./mend /proc/self/mem mended.bank", 2, NOT_WHOLE)
    for data in (IMAGE[:1000], IMAGE):
        yield makes_none("./mend /dev/tcp/127.0.0.1/%d mended.bank" % reset_after(data), 2, NOT_WHOLE)


def images_themselves():
    """2 where MENDED is the image itself, by whatever path or link."""
    itself = "is the image itself"
    for name in ("image.bank", "./image.bank", "crates/../image.bank", "$PWD/image.bank"):
        yield makes_none("./mend image.bank %s" % name, 2, itself)
        yield makes_none("./mend %s image.bank" % name, 2, itself)
    for link in ("ln -s image.bank other", "ln image.bank other", "ln -s image.bank link && ln -s link other"):
        yield makes_none("./mend image.bank other", 2, itself, before=link)
        yield makes_none("./mend other image.bank", 2, itself, before=link)
    yield makes_none("./mend /dev/stdin image.bank <image.bank", 2, itself)
    yield makes_none("./mend short.bank short.bank", 2, itself)


def mended_unwritten():
    """2 where MENDED is no file or cannot be written."""
    no_file = "not a regular file"
    for before in ("mkdir other", "mkfifo other", "mkdir folder && ln -s folder other", "ln -s /dev/null other"):
        yield makes_none("./mend image.bank other", 2, no_file, before=before)
    yield makes_none("./mend image.bank other/", 2, no_file, before="mkdir other")
    for before in ("echo old >file && ln -s file other", "ln -s none other"):
        yield makes_none("./mend image.bank other", 2, "a symbolic link", before=before)
    yield makes_none("%s./mend image.bank /dev/stdout >>out" % AS_A_USER, 2, "a symbolic link", before="echo old >out")
    for device in ("/dev/null", "/dev/full"):
        yield makes_none("%s./mend image.bank %s; s=$?; [ -c %s ] && exit $s" % (AS_A_USER, device, device), 2, no_file)
    for name in ("none/mended.bank", "short.bank/mended.bank", "none/", "short.bank/"):
        yield makes_none("./mend image.bank %s" % name, 2, "%s: cannot be written" % name)
    yield makes_none("%s./mend image.bank other/mended.bank" % AS_A_USER, 2, "other/mended.bank: cannot be written",
                     before="mkdir other && chmod 555 other")
    yield makes_none("./mend image.bank ''", 2, "mend: ")
    # a file of fewer than 4096 bytes is all that may be written; with the signal ignored the program is told so
    for trap, blocks in (("true", 0), ("true", 1), ("true", 3), ("trap '' XFSZ", 0), ("trap '' XFSZ", 3)):
        for before in ("true", OLD):
            yield makes_none("%s; ulimit -f %d; %s" % (trap, blocks, MEND_LINE), 2, NOT_WHOLE, before=before)


def mended_unsaid():
    """2 where the lines cannot be written to standard error."""
    for image in ("image.bank", "short.bank"):
        for errors in ("2>&-", "2>/dev/full"):
            yield makes_none("./mend %s mended.bank %s" % (image, errors), 2)
        for trap in ("true", "trap '' PIPE"):
            yield makes_none("%s; ./mend %s mended.bank 2>&%d" % (trap, image, UNREAD), 2)
        yield makes_none("./mend %s mended.bank 2>&-" % image, 2, before=OLD)


def mend_builds():
    """2 where the program cannot be built."""
    yield makes_none(first_use(None, MEND_LINE), 2, "the program cannot be built")
    yield makes_none(first_use("exit 1", MEND_LINE), 2, "the program cannot be built")
    yield makes_none(first_use("exit 0", MEND_LINE), 2, "No such file or directory")
    # the run that the building ends with says nothing
    yield mends_it(first_use(builder(MEND, "echo proved >&2; echo refused 1 >&2"), MEND_LINE),
                   said="proved\n" + FATES.decode())
    yield mends_it(first_use(builder(MEND, "cat"), "./mend /dev/stdin mended.bank < <(/bin/cat image.bank)"))
    yield mends_it("PATH=$PWD/tools " + MEND_LINE)


def writing(count, said, then="true"):
    """A stand-in that writes so many zeros, says something and then does something."""
    return "head -c %d /dev/zero; printf '%%s' '%s' >&2; %s" % (count, said, then)


def cut_images():
    """2 where what the program writes is not a whole image and sixteen lines, or it ends otherwise than with 0."""
    lines = mended_image(bytes(BANK_BYTES)).errors.decode()
    for before in ("true", OLD):
        yield Case(MEND_LINE, 0, said=lines, stand_in=writing(BANK_BYTES, lines), before=before,
                   made={"mended.bank": bytes(BANK_BYTES)})
        for count in (0, 1, 4095, 4097, 8192):
            yield makes_none(MEND_LINE, 2, NOT_WHOLE, writing(count, lines), before)
    *most, last = lines.splitlines(keepends=True)
    for whole, line in (("".join(most), last), ("", "refused 1\n")):
        for length in range(len(line)):
            yield makes_none(MEND_LINE, 2, NOT_WHOLE, writing(BANK_BYTES, whole + line[:length]))
    for line in ("slot 15 lost 0", "slot 15 sound x", "slot 15 sound -1", "slot 16 sound 0", " slot 15 sound 0",
                 "slot 15 sound 0 ", "slot 15 sound 0 0", "", "refused", "refused 2", "refused 11", " refused 1"):
        yield makes_none(MEND_LINE, 2, NOT_WHOLE, writing(BANK_BYTES, "".join(most) + line + "\n"))
    for said in ("", last, "".join(most[1:]) + last, lines + lines):
        yield makes_none(MEND_LINE, 2, NOT_WHOLE, writing(BANK_BYTES, said))
    for count in (0, BANK_BYTES):
        yield makes_none(MEND_LINE, 1, "refused 1\n", writing(count, "refused 1\n"))
    for then in ("exit 1", "kill -s KILL $$", "kill -s TERM $$", "kill -s SEGV $$"):
        yield makes_none(MEND_LINE, 2, NOT_WHOLE, writing(BANK_BYTES, lines, then))
        yield makes_none(MEND_LINE, 2, NOT_WHOLE, writing(0, "refused 1\n", then))


def ended_mends():
    """A script that is ended leaves no file, and ends the program too, which else would hold the case's output."""
    lines = mended_image(bytes(BANK_BYTES)).errors.decode()
    for stand_in in ("exec sleep 60", writing(BANK_BYTES, lines, "exec sleep 60")):
        for number, said in ((signal.SIGTERM, ""), (signal.SIGHUP, "Hangup")):
            yield makes_none("%s 7>&1 & sleep 1; kill -%d $!; wait $!" % (MEND_LINE, number), 128 + number, said,
                             stand_in)
        # `timeout` ends the script and then its group, the script once more with it
        for number in (signal.SIGINT, signal.SIGTERM):
            yield makes_none("timeout --preserve-status -s %d 1 %s 7>&1" % (number, MEND_LINE), 128 + number,
                             stand_in=stand_in, before=OLD)


MEND_CASES = (whole_images, images_refused, wrong_mends, images_unread, images_themselves, mended_unwritten,
              mended_unsaid, mend_builds, cut_images, ended_mends)


# ---------------------------------------------------------------------------
# The running of a case

def reset_after(data):
    """The port of a connection that gives the bytes and then is reset, which is a read error."""
    server = socket.create_server(("127.0.0.1", 0))

    def serve():
        connection, _ = server.accept()
        connection.sendall(data)
        connection.setsockopt(socket.SOL_SOCKET, socket.SO_LINGER, struct.pack("ii", 1, 0))
        connection.close()
        server.close()

    threading.Thread(target=serve, daemon=True).start()
    return server.getsockname()[1]


def lay_out(folder, script, program, case):
    """A folder with the script, the program or the case's stand-in, the tools and the files."""
    os.chmod(folder, 0o755)
    shutil.copy(os.path.join(ROOT, script.name), os.path.join(folder, script.name))
    shutil.copy(program, os.path.join(folder, "program"))
    built = os.path.join(folder, "crates", script.program, "out", script.program)
    os.makedirs(os.path.dirname(built))
    shutil.copy(program, built)
    if case.stand_in is not None:
        write(built, b"#!/bin/sh\n" + case.stand_in.encode())
    os.mkdir(os.path.join(folder, "tools"))
    for tool in script.tools:
        os.symlink(shutil.which(tool), os.path.join(folder, "tools", tool))
    for name, data in script.files.items():
        write(os.path.join(folder, name), data)
    if "huge.phs" in case.line:
        write(os.path.join(folder, "huge.phs"), header(50, 50))
        os.truncate(os.path.join(folder, "huge.phs"), HUGE_BYTES)


def content(path):
    """A file's bytes and the time of its last change, a link's target, or another kind."""
    status = os.lstat(path)
    if stat.S_ISREG(status.st_mode):
        with open(path, "rb") as file:
            return file.read(), status.st_mtime_ns
    return os.readlink(path) if stat.S_ISLNK(status.st_mode) else stat.S_IFMT(status.st_mode), None


def contents(folder):
    """What is in a folder by name, but for the program and the tools."""
    found = {}
    for at, folders, files in os.walk(folder):
        if at == folder:
            folders[:] = sorted(set(folders) - {"crates", "tools"})
        for path in [os.path.join(at, name) for name in folders + files]:
            found[os.path.relpath(path, folder)] = content(path)
    return found


def altered(before, after):
    """What is made or altered by name; None where it is gone."""
    return {name: after.get(name, (None,))[0] for name in before.keys() | after.keys()
            if before.get(name) != after.get(name)}


class Outcome(NamedTuple):
    """The status, None where a case runs on, the text, the message, and the files that are made or altered, None
    where they are not looked at."""
    status: Optional[int]
    text: bytes
    message: str
    made: Optional[dict]


def ran(script, program, case):
    """The outcome of a case."""
    with tempfile.TemporaryDirectory() as folder:
        lay_out(folder, script, program, case)
        subprocess.run(["bash", "-c", case.before], cwd=folder, check=True)
        before = None if case.made is None else contents(folder)
        run = subprocess.Popen(["bash", "-c", case.line], cwd=folder, env={**os.environ, "LC_ALL": "C"},
                               stdin=subprocess.DEVNULL, stdout=subprocess.PIPE, stderr=subprocess.PIPE,
                               pass_fds=(UNREAD,), start_new_session=True)
        try:
            text, message = run.communicate(timeout=LIMIT)
            status = run.returncode
        except subprocess.TimeoutExpired:
            os.killpg(run.pid, signal.SIGKILL)
            text, message = run.communicate()
            status = None
        made = None if before is None else altered(before, contents(folder))
        return Outcome(status, text, message.decode("utf-8", "replace"), made)


def is_said(said, message):
    """Whether a message is the one said, or has the part that is said."""
    return message == said if not said or said.endswith("\n") else said in message


def outcomes(script, makers, program):
    """Whether the outcome of each case is the case's, and what is shown where it is not."""
    reader, writer = os.pipe()
    os.dup2(writer, UNREAD)
    os.close(reader)
    for case in [case for maker in makers for case in maker()]:
        status, text, message, made = ran(script, program, case)
        holds = (status, text, made) == (case.status, case.text, case.made) and is_said(case.said, message)
        yield holds, "%s\n  expected %s %r %r %s\n  was      %s %r %r %s" % (
            case.line, case.status, case.text[-200:], case.said, sorted(case.made or ()),
            status, text[-200:], message, sorted(made or ()))


def check(program):
    """Runs every case of ./measure; 0 if every status, text and message holds, else 1."""
    return tallied(outcomes(MEASURE, MEASURE_CASES, program), "%d of %d statuses hold")


def mends(program):
    """Runs every case of ./mend; 0 if every status, message and file holds, else 1."""
    return tallied(outcomes(MEND, MEND_CASES, program), "%d of %d statuses hold")


if __name__ == "__main__":
    dispatch(__doc__, check, mends)
