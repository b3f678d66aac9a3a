"""The walks through the page in a browser: what a treasurer does, what goes wrong, and what others try."""
import re
import time

from .books import bank_files, bound, keeping, moving_on, names, once_only, samples
from .commands import faults, finishing, first_day, imports, receiving, sending, tabs, troubles
from .guarding import alone, hostile, others, rights
from .page import Page
from .reports import broken, journals, large, looking, overview, statements, styles
from .seeing import access, german
from .volunteer import volunteer

# (in this order: most go on with the books that the ones before have made)
WALKS = (first_day, imports, looking, sending, troubles, tabs, receiving, finishing, faults, journals, overview,
         keeping, volunteer, bound, once_only, names, bank_files, samples, moving_on, statements, hostile, styles,
         broken, rights, alone, others, german, access, large)


def try_all(tally, browser, stand, wanted):
    """Tries each walk, in one tab."""
    page = Page(browser, stand)
    for walk in WALKS:
        if wanted and walk.__name__ not in wanted:
            continue
        began = time.monotonic()
        try:
            walk(tally.holds, page, browser)
        except Exception as error:
            tally.holds(f"{walk.__name__} goes to its end", False, repr(error))
        stand.mode = "pass"
        if wanted:
            print(f"{walk.__name__}: {time.monotonic() - began:.1f} s, {tally.passed} passed")
    real = [it for it in page.tab.errors
            if not re.search("Failed to load resource|Content Security Policy|Trusted|CORS", it)]
    tally.holds("the browser's log has no error of the page", not real, real[:3])
