"""How scripts take words, ask programs, say things and end."""
import os
import subprocess
import sys

import pytest
from gadvresa import cli
from gadvresa.running import SIGNALLED, Status

HEAD = """Does a thing.

    thing FILE [--cmd PROGRAM]

More of it.
"""


def ended(capfd, call, *words):
    """The status with which a call ends the script, and what went to standard output and standard error."""
    with pytest.raises(SystemExit) as end:
        call(*words)
    return (end.value.code, *capfd.readouterr())


def program(tmp_path, text):
    path = tmp_path / "asked"
    path.write_text("#!/bin/bash\n" + text)
    path.chmod(0o755)
    return str(path)


def test_words(capfd, monkeypatch):
    monkeypatch.setattr(sys, "argv", ["tools/thing"])
    parser = cli.Parser.of_head(HEAD)
    parser.add_argument("file")
    parser.add_program("what is asked")
    assert parser.parse_args(["a"]).cmd == cli.PLANNER and os.path.basename(cli.PLANNER) == "planner"
    assert parser.parse_args(["a", "--cmd", "b"]).cmd == "b"
    status, said, errors = ended(capfd, parser.parse_args, [])
    assert (status, said) == (Status.SCRIPT_WORDS, "") and errors.startswith("thing: ") and "usage: thing" in errors
    assert HEAD.split("\n\n", 1)[1] in parser.format_help()


def test_the_launcher_is_that_of_the_clone():
    top = os.path.dirname(os.path.dirname(os.path.dirname(os.path.abspath(__file__))))
    assert cli.PLANNER == os.path.join(top, "planner")


def test_files(capfd, tmp_path):
    (tmp_path / "one").write_bytes(b"\xff\n")
    assert cli.held(str(tmp_path / "one")) == b"\xff\n"
    status, _, errors = ended(capfd, cli.held, str(tmp_path / "none"))
    assert status == Status.SCRIPT_UNREAD and f"{tmp_path}/none: No such file" in errors


@pytest.mark.parametrize("text, status", [("echo no; exit 3", 3), ("echo no; kill -9 $$", SIGNALLED + 9)])
def test_statuses_are_handed_on(capfd, tmp_path, text, status):
    assert ended(capfd, cli.asked, [program(tmp_path, text)]) == (status, "", "no\n")


def test_statuses_that_are_taken(capfd, tmp_path):
    assert cli.asked([program(tmp_path, "echo yes; exit 1")], (0, 1)) == (1, b"yes\n")
    status, _, errors = ended(capfd, cli.asked, [str(tmp_path / "none")])
    assert status == Status.TOOL_MISSING and f"{tmp_path}/none: No such file" in errors


def test_pipes_are_handed_on(tmp_path):
    reading, writing = os.pipe()
    os.set_inheritable(reading, True)
    os.write(writing, b"held\n")
    os.close(writing)
    try:
        assert cli.asked([program(tmp_path, f"cat /dev/fd/{reading}")], close_fds=False) == (0, b"held\n")
        assert cli.asked([program(tmp_path, f"cat /dev/fd/{reading} 2>&1")], (0, 1))[0] == 1
    finally:
        os.close(reading)


SCRIPT = """import sys
sys.path.insert(0, {source!r})
from gadvresa.cli import run_script, say
def main():
    {body}
run_script(main)
"""


@pytest.mark.parametrize("body, status, said, errors", [
    ("say('a\\udcff\\n')", 0, b"a\xff\n", b""), ("raise KeyboardInterrupt", 130, b"", b""),
    ("raise ValueError('odd')", 70, b"", b"ValueError: odd\n"), ("sys.exit(5)", 5, b"", b"")])
def test_ends(body, status, said, errors):
    ran = subprocess.run([sys.executable, "-Bc", SCRIPT.format(body=body, source=os.path.abspath("python/src"))],
                         stdout=subprocess.PIPE, stderr=subprocess.PIPE)
    assert (ran.returncode, ran.stdout) == (status, said) and ran.stderr.endswith(errors)


def ended_with(body, redirections):
    """The status of a script whose standard files a shell sets so, and what went to standard output and error."""
    call = [sys.executable, "-Bc", SCRIPT.format(body=body, source=os.path.abspath("python/src"))]
    ran = subprocess.run(["bash", "-c", f'"$@" {redirections}', "bash", *call], stdin=subprocess.DEVNULL,
                         stdout=subprocess.PIPE, stderr=subprocess.PIPE)
    return ran.returncode, ran.stdout, ran.stderr


HELP = "from gadvresa.cli import Parser; Parser().parse_args(['--help'])"
STOP = "from gadvresa.cli import stop; stop(65, 'why')"
HANDED_ON = "from gadvresa.cli import asked; asked(['sh', '-c', 'echo no; exit 3'])"


@pytest.mark.parametrize("body", ["say('a')", HELP])
@pytest.mark.parametrize("redirection, fault", [(">/dev/full", b"No space left"), (">&-", b"Bad file descriptor")])
def test_standard_output_that_takes_nothing(body, redirection, fault):
    status, said, errors = ended_with(body, redirection)
    assert (status, said) == (Status.SCRIPT_UNWRITTEN, b"") and b"standard output: " + fault in errors


@pytest.mark.parametrize("body, status", [
    (STOP, 65), (HANDED_ON, 3), ("raise ValueError('odd')", 70), ("say('a\\n')", 0)])
@pytest.mark.parametrize("redirection", ["2>/dev/full", "2>&-", "2>&- <&-"])
def test_standard_error_that_takes_nothing(body, status, redirection):
    assert ended_with(body, redirection)[:2] == (status, b"a\n" if status == 0 else b"")


@pytest.mark.parametrize("body, status", [("say('a')", 74), (STOP, 65)])
def test_nothing_is_said_into_a_file_that_is_opened(tmp_path, body, status):
    path = tmp_path / "file"
    path.write_bytes(b"held\n")
    opened = f"import os; [os.open({str(path)!r}, os.O_RDWR) for _ in range(3)]; {body}"
    assert ended_with(opened, ">&- 2>&- <&-")[0] == status and path.read_bytes() == b"held\n"
