"""examples/login_page in a real browser, without JavaScript.

PICTURES may name a folder to which the test writes a picture of each page.
"""

import os

from login_clients import NEW, OLD, Remote, Served
from tests.helpers import need, need_module

need("chromedriver")
need_module("selenium")

from selenium import webdriver
from selenium.common.exceptions import WebDriverException
from selenium.webdriver.chrome.service import Service
from selenium.webdriver.support.ui import WebDriverWait

PICTURES = os.environ.get("PICTURES")
CSS = "css selector"
FIELDS = "input:not([type=hidden],[hidden])"


class Browser(webdriver.Chrome):
    """Chromium, with JavaScript off."""

    def __init__(self, folder):
        options = webdriver.ChromeOptions()
        for word in ("--headless=new", "--no-sandbox", "--disable-gpu"):
            options.add_argument(word)
        options.add_argument(f"--user-data-dir={folder}")
        forbidden = {"profile.managed_default_content_settings.javascript": 2}
        options.add_experimental_option("prefs", forbidden)
        super().__init__(service=Service("/usr/bin/chromedriver"), options=options)

    def text(self, selector):
        return self.find_element(CSS, selector).text

    def leave(self, element):
        """Clicks on a link or a button, and waits until its page has been left."""

        def is_gone(_):
            try:
                return not element.is_enabled()
            except WebDriverException:
                return True

        element.click()
        WebDriverWait(self, 300).until(is_gone)

    def follow(self, link):
        self.leave(self.find_element("link text", link))

    def fill(self, **given):
        for name, text in given.items():
            field = self.find_element("name", name)
            field.clear()
            field.send_keys(text)
        self.leave(self.find_element("tag name", "button"))


class Walk(Served):
    def setUp(self):
        super().setUp()
        _, self.port = self.enterContext(self.started())
        self.browser = Browser(self.folder / "browser")
        self.addCleanup(self.browser.quit)

    def picture(self, name):
        """Takes a picture at two widths if PICTURES asks for it; nothing may be wider than the
        page."""
        for width in (640, 1280):
            self.browser.set_window_size(width, 900)
            html = self.browser.find_element(CSS, "html[lang=en]")
            self.assertLessEqual(html.get_property("scrollWidth"), width)
            if PICTURES:
                self.browser.save_screenshot(f"{PICTURES}/login-page-{name}-{width}.png")

    def form(self, name, *errors):
        """The errors are visible, and the field of the first error, or else the first field, has
        the focus."""
        fields = self.browser.find_elements(CSS, FIELDS)
        self.assertTrue(all(it.accessible_name for it in fields))
        shown = [it for it in self.browser.find_elements(CSS, ".error") if it.is_displayed()]
        self.assertEqual([it.get_attribute("id") for it in shown], [f"{it}-error" for it in errors])
        focused = self.browser.switch_to.active_element.get_attribute("id")
        first = errors[0] if errors else fields[0].get_attribute("id")
        self.assertEqual(focused, first)
        self.picture(name)

    def test_a_walk(self):
        browser, name = self.browser, "ann"
        browser.get(f"http://127.0.0.1:{self.port}/")
        self.form("login")
        browser.follow("Create an account")
        self.form("signup")
        browser.fill(name="Not a name", new="password", again="password")
        self.form("signup-wrong", "name", "new")
        browser.fill(name=name.upper(), new=OLD, again=OLD)
        self.assertEqual(browser.text("h1"), f"Hello, {name}")
        self.picture("home")
        browser.follow("Change the password")
        self.form("change")
        browser.fill(old=NEW, new=NEW, again=NEW)
        self.form("change-wrong", "old")
        browser.fill(old=OLD, new=NEW, again=NEW)
        self.assertIn("has been changed", browser.text(".done"))
        self.picture("changed")
        self.assertIsNone(browser.execute_script("return document.cookie") or None)
        browser.fill()
        self.assertEqual(browser.text("h1"), "Log in")
        for _ in range(9):
            self.assertEqual(Remote(self.port).login(name, OLD), 200)
        browser.fill(name=name, password=OLD)
        self.form("login-wrong", "password")
        browser.fill(name=name, password=OLD)
        self.assertEqual(browser.text("h1"), "Sorry")
        self.picture("too-many")
