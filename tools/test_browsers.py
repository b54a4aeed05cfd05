"""The page, and the lesson on it, in a headless chromium and a headless Firefox. Each browser is started once for all its tests."""
import unittest

from test_lesson import OnThePage
from test_page import InBrowser, needs_page
from trials import browsers
from trials.companion_trials import share

needs_chromium = unittest.skipUnless(browsers.CHROMIUM, "no chromium is installed (Debian: chromium)")
needs_firefox = unittest.skipUnless(browsers.FIREFOX, "no Firefox is installed (Debian: firefox-esr)")


class Opened(InBrowser, OnThePage):
    """All tests of the page. A class says which browser it opens, and what it tries there: widths of drawn pages and of pages, light or dark;
    which of the drawn pages; the first question of the lesson."""

    @classmethod
    def setUpClass(cls):
        try:
            cls.browser = cls.OPENS()
        except (OSError, RuntimeError) as fault:  # (a time limit is an OSError)
            raise unittest.SkipTest(f"the browser that is installed does not run here: {fault}")
        cls.addClassCleanup(cls.browser.close)


@needs_page
@needs_chromium
class InChromium(Opened, unittest.TestCase):
    OPENS, WIDTHS, DRAWN, FIRST = browsers.Chromium, share((1280,), (390, 1280)), share((0, None, 2), (None,)), 0
    LOOKS = share(((1280, False), (390, True)), ((390, False), (1280, False), (390, True)))


@needs_page
@needs_firefox
class InFirefox(Opened, unittest.TestCase):
    OPENS, WIDTHS, DRAWN, FIRST = browsers.Firefox, share((390,), (390, 1280)), share((1, None, 2), (None,)), share(1, 0)
    LOOKS = share(((390, False),), ((390, False), (1280, False), (390, True)))


if __name__ == "__main__":
    unittest.main()
