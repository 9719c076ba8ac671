"""A page from a disk in headless Chromium: its numbers, its moments, its marks, and how it is printed."""

from __future__ import annotations

import base64
from pathlib import Path
from typing import Any

import pytest
from browsers import complaints, evaluated, focus, is_at_rest, one, press, rows, until, values
from page_checks import page_with
from pages import GALLERY, answers, script_of
from selenium.webdriver.common.by import By
from selenium.webdriver.remote.webdriver import WebDriver

LINES = [*script_of("first-sum"), "insert end u-subtract-3-1L c a b 8", "insert end u-move-1L b b 8", "settle"]
LINES += ["show c end", "insert end u-mve-1L b b 8", "input a 1 99", "show c end", "settle", "show c end"]


def opened(driver: WebDriver, folder: Path, lines: list[str]) -> None:
    """Opens the page of a script."""
    path = folder / "page.html"
    path.write_text(page_with(lines), encoding="utf-8")
    driver.get(path.as_uri())
    until(driver, lambda: is_at_rest(driver))


def shown(lines: list[str], look: str) -> list[str]:
    return answers([*lines, look])[-1][0].split(" ")[1:]


def go(driver: WebDriver, moment: int) -> None:
    driver.find_elements(By.CSS_SELECTOR, "#moments button")[moment].click()
    now = "return pevudlo.view.link.moment"
    until(driver, lambda: bool(evaluated(driver, now) == moment) and is_at_rest(driver))


@pytest.mark.parametrize("name", GALLERY)
def test_rows_of_the_gallery_are_shown_as_the_program_answers(browser: WebDriver, tmp_path: Path, name: str) -> None:
    lines = script_of(name)
    opened(browser, tmp_path, lines)
    seen = {row: values(browser, row) for row in rows(browser)}
    keys = {row: one(browser, f"#r-{row} .key").text for row, numbers in seen.items() if numbers}
    replies = answers([*lines, *(f"show {key} after {row}" for row, key in keys.items())])
    for row, (reply,) in zip(keys, replies[len(lines) :]):
        assert seen[row] == reply.split(" ")[1:], row
    assert complaints(browser) == []


def test_moments_have_their_values_marks_looks_and_refused_lines(browser: WebDriver, tmp_path: Path) -> None:
    opened(browser, tmp_path, LINES)
    until(browser, lambda: values(browser, 2) == shown(LINES, "show c after 2"))
    marks = "return [...document.querySelectorAll('#r-in_a b.new, #r-2 b.new')].map(cell => cell.dataset.i)"
    until(browser, lambda: bool(evaluated(browser, marks) == ["1", "1"]))
    number = len(LINES)
    assert values(browser, f"line_{number}") == shown(LINES[:-1], LINES[-1])
    assert one(browser, f"#r-line_{number - 2} .pend").text == "pending: row 2 has to run"
    assert evaluated(browser, "return document.querySelector('#acts').innerText").split() == [
        "unsigned",
        "auto",
        "◐",
        "?",
    ]

    last = max(at for at, line in enumerate(LINES) if line.startswith("input a 1"))
    assert "did you mean u-move-1L" in one(browser, f"#r-line_{last}").text
    go(browser, len(browser.find_elements(By.CSS_SELECTOR, "#moments button")) - 2)
    until(browser, lambda: values(browser, 2) == shown(LINES[:last], "show c after 2"))
    assert values(browser, "in_a") == shown(LINES[:last], "show a start")
    assert complaints(browser) == []


def test_nothing_is_edited_and_all_else_goes_by_keys(browser: WebDriver, tmp_path: Path) -> None:
    opened(browser, tmp_path, LINES)
    focus(browser, 2)
    press(browser, "\ue007")
    assert "This page is a record" in one(browser, "#said").text and not browser.find_elements(
        By.CSS_SELECTOR, ".edit input"
    )
    press(browser, "w")
    numbers = [int(word) for word in shown(LINES, "show a start")]
    for base in ("signed", "hex", "bits", "unsigned"):
        press(browser, "b")
        until(browser, lambda: one(browser, "#base").text == base)
        spelled = {
            "signed": [str(number - 256 * (number >= 128)) for number in numbers],
            "hex": [f"{number:02x}" for number in numbers],
            "bits": [f"{number:08b}" for number in numbers],
            "unsigned": list(map(str, numbers)),
        }
        until(browser, lambda: values(browser, "in_a") == spelled[base])
    colour = "return getComputedStyle(document.body).backgroundColor"
    before = evaluated(browser, colour)
    press(browser, "t")
    assert evaluated(browser, colour) != before
    browser.refresh()
    until(browser, lambda: is_at_rest(browser) and bool(evaluated(browser, colour) != before))
    evaluated(browser, "document.querySelector('#list').focus()")
    press(browser, "t")


def test_all_rows_are_printed_with_their_numbers(browser: WebDriver, tmp_path: Path) -> None:
    """Also those that aren't in view, in their order."""
    lines = ["set S 4", "field a S 16", "input a 0 1 2 3 4", *["insert end u-add-3-1L a a a 16"] * 90, "settle"]
    opened(browser, tmp_path, lines)
    evaluated(browser, "document.querySelector('#list').scrollTop = 900")
    run: Any = browser.execute_cdp_cmd  # type: ignore[attr-defined]
    assert len(base64.b64decode(run("Page.printToPDF", {})["data"])) > 10_000
    evaluated(browser, "dispatchEvent(new Event('beforeprint'))")
    printed = "return [...document.querySelectorAll('#space > .row')].map(row => row.textContent)"
    texts = [text for text in evaluated(browser, printed) if "u-add-3-1L" in text]
    assert len(texts) == 90
    for row in (1, 45, 90):
        assert texts[row - 1].endswith("".join(shown(lines, f"show a after {row}"))), row
    evaluated(browser, "dispatchEvent(new Event('afterprint'))")


def test_the_page_complained_of_nothing(browser: WebDriver) -> None:
    assert complaints(browser) == []
