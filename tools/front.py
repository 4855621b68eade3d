"""What ./nestrun does around the program: a FILE as last argument, and words for people on standard error.

usage: front.py [--quiet] [--unproved] PROGRAM [WORD..]     runs PROGRAM with these words, and ends with its status
       front.py --help

Standard output is the program's alone. Where it refuses a text, or the words, standard error says where and why, unless
--quiet is given. With --unproved the folder of the program's crate stands in place of PROGRAM: `rt try` builds the code
without its proofs and runs it once. The exit is 70 where that gives no answer.
"""
import os
import re
import signal
import stat
import subprocess
import sys
import tempfile

sys.dont_write_bytecode = True
sys.path.insert(0, os.path.dirname(os.path.abspath(__file__)))
import command_table
import explained

USAGE, REFUSED, NO_ANSWER = 64, 2, 70
TRY_SECONDS = 600
NOT_PROVED = "nestrun: NOT PROVED: this answer is by the code without its proofs (`rt try`), and nothing is promised of it"
NO_TRY = f"""nestrun: the try without proofs gave no answer. Its limits: an answer of at most 1 MiB, {TRY_SECONDS} seconds of running, with
nestrun: checks that make it some ten times slower. ./nestrun MODE .. proves and builds the program, which has neither."""


def say(text):
    sys.stderr.write(text if text.endswith("\n") else text + "\n")
    sys.stderr.flush()


def judged(words):
    """The command that these words are, or why they are none."""
    try:
        return command_table.command_of(words)
    except command_table.Misuse as found:
        return found


def with_file(words):
    """The words for the program, the command that they are, and the FILE that stands last, if one does."""
    command = judged(words)
    if isinstance(command, command_table.Misuse) and len(words) > 1:
        shorter = judged(words[:-1])
        if isinstance(shorter, command_table.Command) and shorter.mode.reads and words[-1][:1] not in ("", "-"):
            return words[:-1], shorter, words[-1]
    return words, command, None


def kept_text(source, most):
    """The bytes that a program may read of standard input, as a file from its start; None where a read fails."""
    copy = tempfile.TemporaryFile()
    left = most + 1
    try:
        while left:
            part = os.read(source, min(left, 1 << 16))
            if not part:
                break
            copy.write(part)
            left -= len(part)
    except OSError:
        return None
    copy.seek(0)
    return copy


def opened_text(file, command, is_quiet):
    """Standard input for the program; where its text may have to be shown, one that can be read again."""
    if file is not None:
        return open(file, "rb")
    again = isinstance(command, command_table.Command) and command.mode.reads and not is_quiet
    if not again or stat.S_ISREG(os.fstat(0).st_mode):
        return None
    return kept_text(0, command.mode.reads)


class Text:
    """The text on a program's standard input, read again from where it began."""

    def __init__(self, source, most):
        self.descriptor = source.fileno() if source else 0
        self.most = most
        try:
            self.start = os.lseek(self.descriptor, 0, os.SEEK_CUR)
        except OSError:
            self.start = None

    def again(self):
        if self.start is None:
            return None
        os.lseek(self.descriptor, self.start, os.SEEK_SET)
        with os.fdopen(os.dup(self.descriptor), "rb") as file:
            data = file.read(self.most + 1)
        os.lseek(self.descriptor, self.start, os.SEEK_SET)
        return data


def refusal_of(answer):
    found = re.match(rb"refused (\d+) (\w+)\n\Z", answer)
    return found and (int(found[1]), found[2].decode())


def explain_refusal(program, words, text):
    """Has the program refuse the same text once more, and says why."""
    data = text.again()
    if data is None:
        return
    with tempfile.TemporaryFile() as source:
        source.write(data)
        source.seek(0)
        answer = subprocess.run([program, *words], stdin=source, stdout=subprocess.PIPE).stdout
    if refusal_of(answer):
        say(explained.refusal(data, *refusal_of(answer)))


def run(program, words, command, source, is_quiet):
    text = Text(source, command.mode.reads) if isinstance(command, command_table.Command) else None
    signal.signal(signal.SIGINT, signal.SIG_IGN)
    done = subprocess.run([program, *words], stdin=source, preexec_fn=lambda: signal.signal(signal.SIGINT, signal.SIG_DFL))
    status = done.returncode
    if status < 0:
        signal.signal(-status, signal.SIG_DFL)
        os.kill(os.getpid(), -status)
    if is_quiet:
        return status
    if status == REFUSED and text:
        explain_refusal(program, words, text)
    elif status in (3, 4, 5, 65):
        say("nestrun: " + dict(command_table.EXITS)[status])
    return status


def run_unproved(crate, words, command, source, is_quiet):
    if isinstance(command, command_table.Misuse):
        # nothing has to be built for that
        print(command_table.usage_line())
        return USAGE
    say("nestrun: NOT PROVED: building the code without its proofs and running it once, which takes two to three minutes; nothing of it is kept")
    data = (source or sys.stdin.buffer).read(command.mode.reads + 1) if command.mode.reads else b""
    done = subprocess.run(["rt", "try", "--seconds", str(TRY_SECONDS), "--", *words], cwd=crate, input=data, stdout=subprocess.PIPE, stderr=subprocess.PIPE)
    ended = re.search(rb"^run=ended status=(\d+) ", done.stderr, re.M)
    if not ended:
        say(done.stderr.decode(errors="replace") + NO_TRY)
        return NO_ANSWER
    sys.stdout.buffer.write(done.stdout)
    sys.stdout.buffer.flush()
    say(NOT_PROVED)
    if not is_quiet and int(ended[1]) == REFUSED and refusal_of(done.stdout):
        say(explained.refusal(data, *refusal_of(done.stdout)))
    return int(ended[1])


def main(arguments):
    if arguments[:1] == ["--help"]:
        import command_papers

        sys.stdout.write(command_papers.help_text())
        return 0
    is_quiet = is_unproved = False
    while arguments and arguments[0] in ("--quiet", "--unproved"):
        is_quiet, is_unproved = is_quiet or arguments[0] == "--quiet", is_unproved or arguments[0] == "--unproved"
        arguments = arguments[1:]
    program, words = arguments[0], arguments[1:]
    shorter, command, file = with_file(words)
    try:
        source = opened_text(file, command, is_quiet)
        words = shorter
    except OSError as error:
        source, command = None, command_table.Misuse(len(words), f"this can't be read as the file: {error.strerror}")
    if isinstance(command, command_table.Misuse) and not is_quiet:
        say(explained.misuse(words, command))
    return (run_unproved if is_unproved else run)(program, words, command, source, is_quiet)


if __name__ == "__main__":
    sys.exit(main(sys.argv[1:]))
