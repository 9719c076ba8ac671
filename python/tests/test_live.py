"""A live page in headless Chromium by keys and clicks: numbers, rows, two tabs, commands; and its end by Ctrl-C."""

from __future__ import annotations

import re
import signal
import socket
import subprocess
import sys
from collections.abc import Iterator
from pathlib import Path

import pytest
from browsers import PATIENCE, command as send
from browsers import complaints, evaluated, focus, is_at_rest, one, press, rows, until, values
from live_tabs import serve
from pages import REPOSITORY, answers, script_of
from selenium.webdriver.common.by import By
from selenium.webdriver.common.keys import Keys
from selenium.webdriver.remote.webdriver import WebDriver
from usages import is_usage_of

from pevudlo.live import command
from pevudlo.live.server import Server


@pytest.fixture
def served(request: pytest.FixtureRequest, libparis: Path) -> Iterator[Server]:
    """A server of a gallery program, or of lines."""
    yield from serve(script_of(request.param) if isinstance(request.param, str) else request.param)


def opened(driver: WebDriver, server: Server) -> None:
    """Opens the page, and waits for its rows and their values."""
    driver.get(server.address)
    until(driver, lambda: is_at_rest(driver) and is_current(driver, server))


def is_current(driver: WebDriver, server: Server) -> bool:
    """Whether the page shows the session as it is."""
    return bool(evaluated(driver, "return document.body.dataset.version") == str(server.session.version))


def shown(lines: list[str], look: str) -> list[str]:
    """The numbers of a look, once all rows are settled."""
    return answers([*lines, "settle", look])[-1][0].split(" ")[1:]


def selected(driver: WebDriver) -> int:
    """The row that is selected."""
    row: int = evaluated(driver, "return pevudlo.view.items[pevudlo.view.selected].id")
    return row


def shows(driver: WebDriver, row: int | str, wanted: list[str]) -> None:
    """Waits until a line has these numbers."""
    until(driver, lambda: values(driver, row) == wanted)


@pytest.mark.parametrize("served", ["life"], indirect=True)
def test_a_bit_of_life_is_turned_over(browser: WebDriver, served: Server) -> None:
    lines = script_of("life")
    opened(browser, served)
    assert rows(browser)[:20] == list(range(1, 21)) and "all 62 rows settled" in one(browser, "#state").text
    shows(browser, 17, before := shown(lines, "show cell after 17"))
    one(browser, "#r-in_cell [data-i='11']").click()
    lines += ["input cell 11 1"]
    shows(browser, 17, after := shown(lines, "show cell after 17"))
    assert before != after
    changed = [str(place) for place, (one, other) in enumerate(zip(before, after)) if one != other]
    script = "return [...document.querySelectorAll('#r-17 b.new')].map(cell => cell.dataset.i)"
    assert evaluated(browser, script) == changed
    assert one(browser, "#r-17 .st").get_attribute("aria-label") == "changed by the last edit"
    assert evaluated(browser, "return document.querySelectorAll('#r-1 b.new').length") == 0


@pytest.mark.parametrize("served", ["sum-by-scan"], indirect=True)
def test_rows_are_edited_by_keys(browser: WebDriver, served: Server) -> None:
    lines = script_of("sum-by-scan")
    opened(browser, served)
    focus(browser, 1)
    press(browser, Keys.ENTER)
    until(browser, lambda: browser.switch_to.active_element.tag_name == "input")
    editor = browser.switch_to.active_element
    assert editor.get_attribute("value") == "scan-with-u-add-1L prefix v 0 16 upward inclusive none"
    editor.clear()
    editor.send_keys("scan-with-u-max-1L prefix w 0 16 upward inclusive none", Keys.ENTER)
    until(browser, lambda: "no field has this name" in one(browser, "#r-1 .told").text)
    assert "`" not in one(browser, "#r-1 .told").text
    assert evaluated(browser, "return document.querySelector('#r-1 .mark').textContent.indexOf('▲')") == 26
    editor.clear()
    editor.send_keys("scan-with-u-max-1L prefix v 0 16 upward inclusive none", Keys.ENTER)
    lines += ["replace 1 scan-with-u-max-1L prefix v 0 16 upward inclusive none"]
    shows(browser, 1, shown(lines, "show prefix after 1"))
    assert evaluated(browser, "return document.activeElement.id") == "list"
    focus(browser, 2)
    press(browser, Keys.DELETE)
    until(browser, lambda: rows(browser) == [1])
    press(browser, Keys.CONTROL, "z")
    until(browser, lambda: rows(browser) == [1, 2])
    assert served.session.script().splitlines() == [line for line in lines if not line.startswith("show")]
    evaluated(browser, "document.querySelector('#list').focus()")
    press(browser, Keys.CONTROL, "y")
    until(browser, lambda: rows(browser) == [1])


@pytest.mark.parametrize("served", ["sum-by-scan"], indirect=True)
def test_new_rows_are_typed_with_completion(browser: WebDriver, served: Server) -> None:
    lines = script_of("sum-by-scan")
    opened(browser, served)
    focus(browser, 1)
    for key, place, row in (("O", "start", 3), ("o", "after 3", 4)):
        press(browser, key)
        until(browser, lambda: browser.switch_to.active_element.tag_name == "input")
        press(browser, "u-move-cons", Keys.TAB)
        assert one(browser, ".edit .spell").text == "u-move-constant-1L D K L"
        press(browser, f"v {row} 16", Keys.ENTER)
        lines += [f"insert {place} u-move-constant-1L v {row} 16"]
        until(browser, lambda: row in rows(browser))
        until(browser, lambda: selected(browser) == row)
    assert rows(browser) == [3, 4, 1, 2]
    shows(browser, 4, ["4"] * 8)
    shows(browser, 1, shown(lines, "show prefix after 1"))
    press(browser, "o")
    until(browser, lambda: browser.switch_to.active_element.tag_name == "input")
    press(browser, Keys.ESCAPE)
    until(browser, lambda: not browser.find_elements(By.CSS_SELECTOR, ".edit"))
    assert rows(browser) == [3, 4, 1, 2]


@pytest.mark.parametrize("served", ["sum-by-scan"], indirect=True)
def test_a_number_is_typed_into_a_cell(browser: WebDriver, served: Server) -> None:
    lines = script_of("sum-by-scan")
    opened(browser, served)
    one(browser, "#r-in_v [data-i='2']").click()
    until(browser, lambda: len(browser.find_elements(By.CSS_SELECTOR, ".num")) == 1)
    typed = one(browser, ".num")
    assert typed.get_attribute("value") == "4"
    typed.send_keys("99999", Keys.ENTER)
    until(browser, lambda: typed.get_attribute("aria-invalid") == "true")
    assert "needs more than the 16 bits" in one(browser, "#said").text
    for word in ("-5", "0x10", ""):
        typed.send_keys(Keys.CONTROL + "a")
        typed.send_keys(Keys.DELETE, word, Keys.ENTER)
        until(browser, lambda: "without a sign is wanted" in one(browser, "#said").text)
    typed.send_keys(Keys.CONTROL + "a")
    typed.send_keys("1000", Keys.ENTER)
    lines += ["input v 2 1000"]
    shows(browser, "in_v", shown(lines, "show v start"))
    shows(browser, 1, shown(lines, "show prefix after 1"))
    assert not browser.find_elements(By.CSS_SELECTOR, ".num")
    # The same by keys alone, from the number at the cursor on.
    focus(browser, "in_v")
    press(browser, Keys.ARROW_RIGHT, Keys.ARROW_RIGHT, Keys.ENTER)
    until(browser, lambda: browser.switch_to.active_element.get_attribute("class") == "num")
    press(browser, "7", Keys.ENTER)
    shows(browser, "in_v", shown([*lines, f"input v {cursor(browser)} 7"], "show v start"))


def cursor(driver: WebDriver) -> int:
    """The processor at the cursor."""
    return int(evaluated(driver, "return pevudlo.view.cell"))


@pytest.mark.parametrize("served", ["life"], indirect=True)
def test_two_tabs_see_the_same(browser: WebDriver, served: Server) -> None:
    opened(browser, served)
    first = browser.current_window_handle
    browser.switch_to.new_window("tab")
    try:
        opened(browser, served)
        one(browser, "#r-in_cell [data-i='63']").click()
        wanted = shown([*script_of("life"), "input cell 63 1"], "show cell after 17")
        shows(browser, 17, wanted)
        browser.switch_to.window(first)
        shows(browser, 17, wanted)
    finally:
        browser.switch_to.window(next(handle for handle in browser.window_handles if handle != first))
        browser.close()
        browser.switch_to.window(first)


HOSTILE = "<img src=x onerror=document.title='taken'>"


@pytest.mark.parametrize("served", ["first-sum"], indirect=True)
def test_hostile_text_stays_text(browser: WebDriver, served: Server) -> None:
    opened(browser, served)
    send(browser, HOSTILE)
    until(browser, lambda: "did you mean" in one(browser, "#refused").text or one(browser, "#refused").text != "")
    until(browser, lambda: "onerror" in one(browser, "#log").text)
    assert browser.find_elements(By.CSS_SELECTOR, "img") == [] and browser.title != "taken"
    focus(browser, 1)
    press(browser, Keys.ENTER)
    until(browser, lambda: browser.switch_to.active_element.tag_name == "input")
    editor = browser.switch_to.active_element
    editor.clear()
    editor.send_keys(HOSTILE, Keys.ENTER)
    until(browser, lambda: one(browser, "#r-1 .told").is_displayed())
    assert browser.find_elements(By.CSS_SELECTOR, "img") == [] and browser.title != "taken"


@pytest.mark.parametrize("served", ["first-sum"], indirect=True)
def test_bases_are_switched(browser: WebDriver, served: Server) -> None:
    lines = script_of("first-sum")
    opened(browser, served)
    numbers = [int(word) for word in shown(lines, "show a start")]
    expected = {
        "signed": [str(number - 256 if number >= 128 else number) for number in numbers],
        "hex": [f"{number:02x}" for number in numbers],
        "bits": [f"{number:08b}" for number in numbers],
        "unsigned": [str(number) for number in numbers],
    }
    for base, texts in expected.items():
        evaluated(browser, "document.querySelector('#list').focus()")
        press(browser, "b")
        assert one(browser, "#base").text == base
        shows(browser, "in_a", texts)


@pytest.mark.parametrize("served", ["first-sum"], indirect=True)
def test_a_number_is_typed_as_it_is_shown(browser: WebDriver, served: Server) -> None:
    opened(browser, served)
    for base, text, number in (("signed", "-2", 254), ("hex", "1f", 31), ("bits", "101", 5)):
        evaluated(browser, "document.querySelector('#list').focus()")
        press(browser, "b")
        until(browser, lambda: one(browser, "#base").text == base)
        one(browser, "#r-in_a [data-i='0']").click()
        until(browser, lambda: len(browser.find_elements(By.CSS_SELECTOR, ".num")) == 1)
        one(browser, ".num").send_keys(text, Keys.ENTER)
        until(browser, lambda: served.session.taken[-1] == f"input a 0 {number}")
        until(browser, lambda: not browser.find_elements(By.CSS_SELECTOR, ".num"))


def test_a_program_is_begun_by_commands(browser: WebDriver, libparis: Path) -> None:
    for server in serve([], title="a new program"):
        browser.get(server.address)
        until(browser, lambda: "it begins with commands" in one(browser, "#list").text)
        for line in ("set S 4", "field a S 8", "input a 0 1 2 3 4", "insert end u-add-3-1L a a a 8"):
            send(browser, line)
            until(browser, lambda: server.session.taken[-1:] == [line])
        shows(browser, 1, ["2", "4", "6", "8"])
        assert "→ row 1" in one(browser, "#log").text
        send(browser, "show a end")
        until(browser, lambda: "→ values 2 4 6 8" in one(browser, "#log").text)
        assert "The accepted commands as a script" in one(browser, "#commands").text


LONG = ["set S 4", "field a S 8", "field b S 8", *["insert end u-add-3-1L a a b 8"] * 40]


@pytest.mark.parametrize("served", [[*LONG, "insert end u-move-1L b a 8"]], indirect=True)
def test_rows_are_found_by_a_filter_and_by_their_writers(browser: WebDriver, served: Server) -> None:
    opened(browser, served)
    focus(browser, 1)
    press(browser, "/")
    press(browser, "writes:b")
    until(browser, lambda: rows(browser) == [41])
    press(browser, Keys.ENTER)
    press(browser, Keys.ESCAPE)
    until(browser, lambda: len(rows(browser)) > 20)
    evaluated(browser, "document.querySelector('#list').focus()")
    press(browser, Keys.END, "w")
    until(browser, lambda: selected(browser) == 40)
    assert "u-add-3-1L a a b 8" in one(browser, "#inspect h2").text
    one(browser, "#inspect [data-go]").click()
    until(browser, lambda: selected(browser) == 39)


def test_the_browser_complained_of_nothing(browser: WebDriver) -> None:
    assert complaints(browser) == []


def test_ctrl_c_ends_the_server(libparis: Path) -> None:
    words = [sys.executable, "-m", "pevudlo", "live", str(REPOSITORY / "examples/first-sum.paris")]
    folder = REPOSITORY / "python"
    with subprocess.Popen(words, cwd=folder, stdout=subprocess.PIPE, text=True, start_new_session=True) as process:
        try:
            assert process.stdout is not None
            assert re.search(r"http://127\.0\.0\.1:\d+/[\w-]{32,}/ ", process.stdout.readline())
            process.send_signal(signal.SIGINT)
            assert process.wait(PATIENCE) == 0
        finally:
            process.kill()


def test_a_page_says_that_its_server_has_ended(browser: WebDriver, libparis: Path) -> None:
    words = [sys.executable, "-m", "pevudlo", "live"]
    with subprocess.Popen(words, cwd=REPOSITORY / "python", stdout=subprocess.PIPE, text=True) as process:
        try:
            assert process.stdout is not None
            browser.get(process.stdout.readline().split(" ")[1])
            until(browser, lambda: "it begins with commands" in one(browser, "#list").text)
            process.send_signal(signal.SIGINT)
            assert process.wait(PATIENCE) == 0
            until(browser, lambda: "Nobody answers" in one(browser, "#notice").text)
        finally:
            process.kill()


@pytest.mark.parametrize(
    "words", [["a", "b"], ["--port", "x"], ["--port=70000"], ["--workers", "0"], ["-o", "x"], ["-"], ["--program"]]
)
def test_wrong_words_have_status_2(words: list[str], capsys: pytest.CaptureFixture[str]) -> None:
    with pytest.raises(SystemExit) as ended:
        command.main(words)
    assert ended.value.code == 2 and is_usage_of("live", capsys.readouterr().err)


def test_a_port_that_is_taken(capsys: pytest.CaptureFixture[str], libparis: Path) -> None:
    with socket.create_server(("127.0.0.1", 0)) as taken:
        port = taken.getsockname()[1]
        assert command.main(["--port", str(port)]) == 2
    assert capsys.readouterr().err == f"paris live: can't listen at port {port}: Address already in use\n"
