"""A class in five browsers: who teaches, the wall, and three students."""

from __future__ import annotations

from collections.abc import Iterator
from contextlib import ExitStack
from pathlib import Path

import pytest
from browsers import complaints, evaluated, one, started, until
from selenium.webdriver.common.by import By
from selenium.webdriver.common.keys import Keys
from selenium.webdriver.remote.webdriver import WebDriver
from serving import Server, served
from test_serve import EMPTY, EXERCISE, LOOK, ROWS, SOLUTION

MARKUP = "<img src=x onerror=alert(1)>"


@pytest.fixture(scope="module")
def browsers() -> Iterator[list[WebDriver]]:
    """Five browsers, each a process of its own."""
    with ExitStack() as stack:
        drivers = []
        for _ in range(5):
            drivers.append(started())
            stack.callback(drivers[-1].quit)
        yield drivers


@pytest.fixture
def server(libparis: Path, tmp_path: Path) -> Iterator[Server]:
    """A class of three."""
    words = ("--class", "3", EXERCISE, "--check", SOLUTION, "--folder", tmp_path / "kept")
    with served(*words, cwd=tmp_path) as server:
        yield server


def open_at(driver: WebDriver, server: Server, token: str) -> None:
    """Opens the page of a token, which a page of another token may stand in."""
    driver.get("about:blank")
    driver.get(f"{server.base}/#{token}")


def join(driver: WebDriver, server: Server, name: str) -> None:
    """Comes in by a name."""
    open_at(driver, server, server.token("The class"))
    one(driver, "#name").send_keys(name, Keys.ENTER)
    until(driver, lambda: len(texts(driver)) > 3)


def texts(driver: WebDriver) -> list[str]:
    """The lines on the page."""
    script = "return [...document.querySelectorAll('.line > .text')].map(each => each.textContent)"
    lines: list[str] = evaluated(driver, script)
    return lines


def gives(driver: WebDriver, at: int) -> str:
    """What stands beside the line of an index."""
    said: str = evaluated(
        driver, "return document.querySelectorAll('.line > .gives')[arguments[0]]?.textContent ?? ''", at
    )
    return said


def board(driver: WebDriver, seat: int, column: int) -> str:
    """A cell of the board."""
    return driver.find_elements(By.CSS_SELECTOR, f"#board tr:nth-child({seat + 1}) td")[column].text


def type_into(driver: WebDriver, at: int, *words: str) -> None:
    """Clicks on a line, and types."""
    driver.find_elements(By.CSS_SELECTOR, ".line > .text")[at].click()
    one(driver, ".line input")
    evaluated(driver, "document.activeElement.select()")
    driver.switch_to.active_element.send_keys(*words)


def test_a_class_in_five_browsers(browsers: list[WebDriver], server: Server) -> None:
    teacher, wall, ann, bob, other = browsers
    open_at(teacher, server, server.teacher)
    open_at(wall, server, server.token("The wall"))
    join(ann, server, "Ann")
    join(bob, server, "Bob")
    join(other, server, MARKUP)
    until(teacher, lambda: [board(teacher, seat, 1) for seat in (1, 2, 3)] == ["Ann", "Bob", MARKUP])
    # Ann types each row, and Enter begins the next.
    type_into(ann, EMPTY, Keys.ENTER.join(ROWS), Keys.ENTER)
    until(ann, lambda: gives(ann, LOOK + len(ROWS)) == "→ a 9 2 7 50")
    until(teacher, lambda: board(teacher, 1, 2) == "✓" and board(teacher, 2, 2).startswith("✗ processor 1 has 4"))
    # What Bob types is shown as it is, whatever it holds.
    type_into(bob, 0, f"# {MARKUP} \u202e", Keys.ARROW_DOWN)
    until(bob, lambda: texts(bob)[0] == f"# {MARKUP} \\u202e")
    teacher.find_element(By.CSS_SELECTOR, "#board tr:nth-child(3) td:nth-child(2) button").click()
    until(teacher, lambda: texts(teacher)[0] == f"# {MARKUP} \\u202e")
    # Who teaches and Bob work hand in hand.
    type_into(teacher, EMPTY, "u-move-constant-1L one 1 8", Keys.ARROW_DOWN)
    until(bob, lambda: texts(bob)[EMPTY] == "u-move-constant-1L one 1 8" and "one 1 1 1 1" in gives(bob, EMPTY))
    # The wall.
    teacher.find_element(By.XPATH, "//tr[2]//button[.='Wall']").click()
    until(wall, lambda: one(wall, "#whose").text == "Ann" and gives(wall, LOOK + len(ROWS)) == "→ a 9 2 7 50")
    # Handed in, and a page that is loaded again is at the same seat.
    ann.find_element(By.XPATH, "//button[.='Hand in']").click()
    until(ann, lambda: one(ann, "#said").text.startswith("Handed in at "))
    until(teacher, lambda: board(teacher, 1, 6) != "")
    ann.refresh()
    until(ann, lambda: one(ann, "#whose").text == "Ann" and gives(ann, LOOK + len(ROWS)) == "→ a 9 2 7 50")
    # A line that is left alone for a moment is sent, and the numbers of a value are a grid.
    type_into(other, 0, "# still")
    until(teacher, lambda: board(teacher, 3, 5) != "")
    one(ann, ".gives button").click()
    until(ann, lambda: len(ann.find_elements(By.CSS_SELECTOR, "#panel td")) == 4)
    for driver in browsers:
        assert complaints(driver) == []


def test_what_is_refused_is_said_on_the_page(browsers: list[WebDriver], server: Server) -> None:
    open_at(browsers[0], server, "x")
    until(browsers[0], lambda: "of no seat here" in one(browsers[0], "#said").text)
    open_at(browsers[1], server, "")
    until(browsers[1], lambda: "has no token" in one(browsers[1], "#said").text)
    join(browsers[2], server, "Ann")
    type_into(browsers[2], 0, "set T 4096", Keys.ARROW_DOWN)
    until(browsers[2], lambda: "a set of 4,096 processors is too large" in one(browsers[2], "#said").text)
    until(browsers[2], lambda: texts(browsers[2])[0].startswith("# Let each processor"))


def test_one_program_in_two_browsers(browsers: list[WebDriver], libparis: Path, tmp_path: Path) -> None:
    teacher, ann = browsers[:2]
    file = tmp_path / "double.paris"
    file.write_text("set S 4\nfield a S 8\ninput a 0 1 2 3 4\nu-add-3-1L a a a 8\nshow a end\n")
    with served(file, "--history", cwd=tmp_path) as server:
        open_at(teacher, server, server.teacher)
        open_at(ann, server, server.token("All others"))
        one(ann, "#name").send_keys("Ann", Keys.ENTER)
        until(ann, lambda: gives(ann, 4) == "→ a 2 4 6 8")
        # Who teaches sees where Ann is, and what she types, before it is sent; then the line with her sign.
        type_into(ann, 3, "u-multiply-3-1L a a a 8")
        until(teacher, lambda: "Ann: u-multiply" in one(teacher, ".line:nth-child(4) .caret").text)
        ann.switch_to.active_element.send_keys(Keys.ARROW_DOWN)
        until(teacher, lambda: gives(teacher, 4) == "→ a 1 4 9 16")
        bar = one(teacher, ".line:nth-child(4) .bar")
        assert bar.get_attribute("title") == "written by Ann" and bar.text == "▲"
        # Who did what, and own undo.
        one(teacher, ".line:nth-child(4) .number").click()
        until(teacher, lambda: "Ann" in one(teacher, "#panel .entry").text)
        assert "in the place of u-add-3-1L a a a 8" in one(teacher, "#panel .entry").text
        ann.find_element(By.XPATH, "//button[.='Undo']").click()
        until(teacher, lambda: texts(teacher)[3] == "u-add-3-1L a a a 8" and gives(teacher, 4) == "→ a 2 4 6 8")
        # A locked line.
        teacher.find_element(By.XPATH, "//button[.='Lock this line']").click()
        until(ann, lambda: "isLocked" in str(one(ann, ".line:nth-child(4)").get_attribute("class")))
        ann.find_elements(By.CSS_SELECTOR, ".line > .text")[3].click()
        until(ann, lambda: "is locked" in one(ann, "#said").text)
        # The history is made again. Ann has no button for it.
        teacher.find_element(By.XPATH, "//button[.='Check the history']").click()
        until(teacher, lambda: "entries of this chapter were made again, and each" in one(teacher, "#said").text)
        assert one(teacher, "#said").text.startswith("The history holds: ")
        assert not ann.find_elements(By.XPATH, "//button[.='Check the history']")
        # Back to a point.
        teacher.find_element(By.XPATH, "//button[.='Who did what']").click()
        until(teacher, lambda: len(teacher.find_elements(By.CSS_SELECTOR, "#panel .entry")) == 2)
        teacher.find_elements(By.XPATH, "//button[.='Back to here']")[1].click()
        until(ann, lambda: len(texts(ann)) == 5 and texts(ann)[3] == "u-multiply-3-1L a a a 8")
        until(ann, lambda: gives(ann, 4) == "→ a 1 4 9 16")
    until(ann, lambda: "the server was ended" in one(ann, "#said").text)
    assert complaints(teacher) == complaints(ann) == []
