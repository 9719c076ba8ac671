"""The pipe: replies by their grammar, children that end, are killed or answer out of turn, and long lines both ways."""

from __future__ import annotations

import os
import signal
import subprocess
import sys
import threading
import time
from concurrent.futures import ThreadPoolExecutor
from pathlib import Path

import pytest

from pevudlo import Machine, Status
from pevudlo.wire.pipe import Ended, OutOfTurn, Pipe
from pevudlo.wire.program import find

REPOSITORY = Path(__file__).resolve().parents[2]


@pytest.fixture(scope="session")
def program() -> Path:
    return find()


def fake(folder: Path, body: str) -> Path:
    """A program in Python that takes the place of paris_front."""
    path = folder / "fake"
    path.write_text(f"#!{sys.executable}\nimport os, sys, time\n{body}\n")
    path.chmod(0o755)
    return path


def is_alive(process: int) -> bool:
    try:
        os.kill(process, 0)
    except ProcessLookupError:
        return False
    return Path(f"/proc/{process}/stat").read_text().rsplit(")", 1)[1].split()[0] != "Z"


def gone_in_time(process: int) -> bool:
    for _ in range(100):
        if not is_alive(process):
            return True
        time.sleep(0.05)
    return False


def test_first_sum_line_by_line(program: Path) -> None:
    script = (REPOSITORY / "examples/first-sum.paris").read_text().splitlines()
    expected = (REPOSITORY / "examples/first-sum.expected").read_text().splitlines()
    with Pipe(program) as pipe:
        replies = [pipe.ask(line) for line in script]
    assert [line for reply in replies for line in reply] == expected
    for line, reply in zip(script, replies):
        assert bool(reply) == (bool(line) and not line.startswith("#"))


def test_status_says_whether_a_line_was_refused(program: Path) -> None:
    for line, status in (("set S 4", 0), ("set S 3", 1)):
        pipe = Pipe(program)
        pipe.ask(line)
        assert pipe.close() == status
        assert pipe.close() == status


def test_lines_with_replies_of_many_lines(program: Path) -> None:
    with Pipe(program) as pipe:
        pipe.ask("set S 4")
        for _ in range(3):
            pipe.ask("insert end set-test S")
        assert len(pipe.ask("list")) == 4
        assert pipe.ask("faults") == ["faults 0"]
        assert pipe.ask("settle") == ["settled 3"]


def test_bytes_that_are_not_utf8_are_refused_in_their_column(program: Path) -> None:
    with Pipe(program) as pipe:
        assert pipe.ask("set S \udcff") == ["refused 20 7"]
        assert pipe.ask("set S\t4") == ["refused 20 5"]
        with pytest.raises(ValueError):
            pipe.ask("set S 4\nlist")
        with pytest.raises(UnicodeEncodeError):
            pipe.ask("set S \ud800")
        assert pipe.ask("set S 4\r") == ["refused 20 7"]
        assert pipe.ask("set S 4") == ["ok"]


def test_a_line_above_the_limit(program: Path) -> None:
    with Pipe(program) as pipe:
        assert pipe.ask("x" * 1_000_000) == ["refused 20 65537"]
        assert pipe.ask("#" * 1_000_000) == []
        assert pipe.ask("settle") == ["settled 0"]


def test_65536_numbers_both_ways(program: Path) -> None:
    numbers = [str((v * 2654435761 + 2**63) % 2**64) for v in range(65_536)]
    with Pipe(program) as pipe:
        pipe.ask("set S 65536")
        pipe.ask("field a S 64")
        for at in range(0, 65_536, 3_000):
            line = f"input a {at} " + " ".join(numbers[at : at + 3_000])
            assert 32_768 < len(line) < 65_536 or at + 3_000 > 65_536
            assert pipe.ask(line) == ["ok"]
        (reply,) = pipe.ask("show a end")
    assert reply == "values " + " ".join(numbers)
    assert len(reply) > 1_000_000


def test_an_ended_program_is_named_with_status_and_line(tmp_path: Path) -> None:
    pipe = Pipe(fake(tmp_path, "sys.stdin.readline(); print('no memory', file=sys.stderr); sys.exit(4)"))
    with pytest.raises(Ended) as ended:
        pipe.ask("settle")
    assert (ended.value.status, ended.value.line) == (4, "no memory")
    assert "exit status 4" in str(ended.value) and "no memory" in str(ended.value)
    with pytest.raises(Ended):
        pipe.ask("settle")
    assert pipe.close() == 4


def test_a_program_that_takes_no_more_lines_is_killed(tmp_path: Path) -> None:
    with Pipe(fake(tmp_path, "os.close(0); time.sleep(60)")) as pipe:
        with pytest.raises(Ended) as ended:
            # More than a pipe holds.
            pipe.ask("x" * 2_000_000)
    assert ended.value.status == -signal.SIGKILL
    assert not is_alive(pipe.process)


def test_wrong_workers_end_the_program(program: Path) -> None:
    with Pipe(program, workers=17) as pipe:
        with pytest.raises(Ended) as ended:
            pipe.ask("settle")
    assert ended.value.status == 2


def test_a_killed_program(program: Path) -> None:
    with Pipe(program) as pipe:
        assert pipe.ask("set S 4") == ["ok"]
        os.kill(pipe.process, signal.SIGKILL)
        with pytest.raises(Ended) as ended:
            pipe.ask("list")
    assert ended.value.status == -signal.SIGKILL
    assert pipe.close() == -signal.SIGKILL


@pytest.mark.parametrize(
    "body",
    [
        "print('ok', flush=True); time.sleep(60)",
        "[print('ok\\nok', flush=True) for line in sys.stdin]",
        "os.write(1, b'ok\\n' * 1_000_000); time.sleep(60)",
    ],
)
def test_a_program_that_answers_out_of_turn_is_killed(tmp_path: Path, body: str) -> None:
    pipe = Pipe(fake(tmp_path, body))
    with pytest.raises(OutOfTurn) as error:
        for _ in range(100):
            pipe.ask("list" * 100_000)
            time.sleep(0.05)
    assert error.value.status == -signal.SIGKILL
    assert not is_alive(pipe.process)


def test_what_comes_between_two_lines_is_out_of_turn(tmp_path: Path) -> None:
    """The text is there before the second line is written, and isn't taken for its reply."""
    body = "for line in sys.stdin:\n    print('ok', flush=True); time.sleep(0.05); print('late', flush=True)"
    with Pipe(fake(tmp_path, body)) as pipe:
        assert pipe.ask("release") == ["ok"]
        time.sleep(1)
        with pytest.raises(OutOfTurn, match="late"):
            pipe.ask("release")
    assert not is_alive(pipe.process)


def test_more_than_a_reply_is_out_of_turn_at_once(tmp_path: Path) -> None:
    with Pipe(fake(tmp_path, "for line in sys.stdin: os.write(1, b'rows 1\\nrow\\nok\\n')")) as pipe:
        with pytest.raises(OutOfTurn, match="more than a reply"):
            pipe.ask("list")
    assert not is_alive(pipe.process)


def test_ctrl_c_at_a_terminal_reaches_who_holds_the_pipe_alone(program: Path) -> None:
    """A terminal sends it to a whole group of processes. Between two lines it can be caught, and the child lives on."""
    held = "import sys, time; sys.path.insert(0, sys.argv[1])\n"
    held += "from pevudlo.wire.pipe import Pipe; from pathlib import Path\n"
    held += "with Pipe(Path(sys.argv[2])) as pipe:\n    print(pipe.ask('set S 4'), flush=True)\n"
    held += "    try: time.sleep(20)\n    except KeyboardInterrupt: print(pipe.ask('field a S 8'), pipe.close())\n"
    words = [sys.executable, "-c", held, str(REPOSITORY / "python"), str(program)]
    holder = subprocess.Popen(words, stdout=subprocess.PIPE, text=True, start_new_session=True)
    assert holder.stdout is not None and holder.stdout.readline() == "['ok']\n"
    time.sleep(0.3)
    os.killpg(holder.pid, signal.SIGINT)
    said, _ = holder.communicate(timeout=20)
    assert said == "['ok'] 0\n"


def test_ctrl_c_leaves_no_process(program: Path) -> None:
    held = "import sys; sys.path.insert(0, sys.argv[1]); from pevudlo.wire.pipe import Pipe; from pathlib import Path\n"
    held += "with Pipe(Path(sys.argv[2])) as pipe:\n    pipe.ask('set S 65536'); pipe.ask('field a S 64')\n"
    held += "    [pipe.ask('insert end u-truncate-3-1L a a a 64') for _ in range(4000)]\n"
    held += "    print(pipe.process, flush=True); pipe.ask('settle'); print('settled')\n"
    holder = subprocess.Popen(
        [sys.executable, "-c", held, str(REPOSITORY / "python"), str(program)],
        stdout=subprocess.PIPE,
        stderr=subprocess.PIPE,
        text=True,
    )
    assert holder.stdout is not None
    child = int(holder.stdout.readline())
    assert is_alive(child)
    time.sleep(0.3)
    holder.send_signal(signal.SIGINT)
    said, error = holder.communicate(timeout=20)
    assert "KeyboardInterrupt" in error and "settled" not in said
    assert gone_in_time(child)


def test_a_pipe_that_nobody_closes_leaves_no_process(program: Path) -> None:
    held = "import sys; sys.path.insert(0, sys.argv[1]); from pevudlo.wire.pipe import Pipe; from pathlib import Path\n"
    held += "pipe = Pipe(Path(sys.argv[2])); print(pipe.process, pipe.ask('settle'))"
    words = [sys.executable, "-c", held, str(REPOSITORY / "python"), str(program)]
    ran = subprocess.run(words, capture_output=True, text=True, timeout=20)
    process, reply = ran.stdout.strip().split(" ", 1)
    assert reply == "['settled 0']"
    assert gone_in_time(int(process))


def test_threads_share_a_pipe(program: Path) -> None:
    """Each thread gets the reply to its own line."""
    with Pipe(program) as pipe, ThreadPoolExecutor(8) as threads:
        pipe.ask("set S 1")
        for name in range(8):
            pipe.ask(f"field f{name} S 8")
            pipe.ask(f"input f{name} 0 {name}")
        wanted = [name % 8 for name in range(2_000)]
        replies = list(threads.map(lambda name: pipe.ask(f"show f{name} end"), wanted))
    assert replies == [[f"values {name}"] for name in wanted]


def test_a_thread_that_kills_ends_one_that_waits(program: Path) -> None:
    with Pipe(program) as pipe, ThreadPoolExecutor(1) as threads:
        pipe.ask("set S 65536")
        pipe.ask("field a S 64")
        for _ in range(4_000):
            pipe.ask("insert end u-truncate-3-1L a a a 64")
        waits = threads.submit(pipe.ask, "settle")
        time.sleep(0.2)
        assert not waits.done()
        pipe.kill()
        with pytest.raises(Ended):
            waits.result(timeout=20)
    assert not is_alive(pipe.process)


def test_many_lines_in_one_write(program: Path) -> None:
    script = (REPOSITORY / "examples/first-sum.paris").read_text().splitlines()
    with Pipe(program) as pipe, Pipe(program) as other:
        assert pipe.ask_all([*script, "list", "", "faults"]) == [
            other.ask(line) for line in [*script, "list", "", "faults"]
        ]
        assert pipe.ask_all([]) == [] and pipe.ask("settle") == ["settled 0"]
        with pytest.raises(ValueError):
            pipe.ask_all(["settle", "set S\n4"])


def test_many_lines_with_more_replies_than_a_pipe_holds(program: Path) -> None:
    with Pipe(program) as pipe:
        pipe.ask_all(["set S 65536", "field a S 64", "input a 0 18446744073709551615"])
        lines = ["show a end", f"# {'x' * 60_000}", "list"] * 60
        replies = pipe.ask_all(lines)
    assert replies == [pipe_reply for _ in range(60) for pipe_reply in (replies[0], [], ["rows 0"])]
    assert len(replies[0][0]) > 100_000


@pytest.mark.parametrize(
    ("body", "error"),
    [("input(); print('ok', flush=True)", Ended), ("print('ok\\n' * 9, flush=True); input()", OutOfTurn)],
)
def test_many_lines_to_a_program_that_ends_or_says_more(tmp_path: Path, body: str, error: type[Exception]) -> None:
    with pytest.raises(error):
        Pipe(fake(tmp_path, body)).ask_all(["settle"] * 3)


def test_ctrl_c_in_a_settle_loses_nothing() -> None:
    with Machine() as machine:
        machine.set("S", 65536)
        machine.field("a", "S", 64)
        for _ in range(300):
            machine.insert("u-truncate-3-1L a a a 64")
        for _ in range(2):
            threading.Timer(0.02, lambda: os.kill(os.getpid(), signal.SIGINT)).start()
            with pytest.raises(KeyboardInterrupt):
                machine.settle()
                time.sleep(5)
        # The call waits for the settle that goes on.
        assert all(row.status is Status.SETTLED for row in machine.rows())
        assert machine.settle() == 0
        assert machine.close() == 0
