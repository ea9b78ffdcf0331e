"""A browser without a window."""

import os
import pathlib
import shutil
from typing import Any

import pytest

from drivers.program import needs

WORDS = (
    *("--headless=new", "--no-sandbox", "--disable-gpu", "--disable-dev-shm-usage"),
    *("--hide-scrollbars", "--window-size=1920,1080"),
)


def browser_of(folder: pathlib.Path) -> Any:
    """A browser that keeps what it keeps in this folder; it skips the test where there is none."""
    reason = "no selenium: python3-selenium has it"
    webdriver: Any = pytest.importorskip("selenium.webdriver", reason=reason)
    needs("chromium", "chromedriver")
    options = webdriver.ChromeOptions()
    for word in *WORDS, f"--user-data-dir={folder}/kept":
        options.add_argument(word)
    env = {**os.environ, "HOME": str(folder)}
    service = webdriver.chrome.service.Service(shutil.which("chromedriver"), env=env)
    browser = webdriver.Chrome(service=service, options=options)
    # A test ends by its own limit, and not while a slow machine draws.
    browser.set_script_timeout(600)
    return browser
