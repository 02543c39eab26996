"""Two engines with names of eighty letters: nothing is pushed out of sight, and tables alone scroll.

What is wanted is measured in the page, with all that can be unfolded or opened.
"""
from basics import page_of, say, table_of, wants
from results import END, folder_of, game

NAMES = ("A" * 80, "B" * 80)
TOLD = "1-0 {White wins on time}"
SAID = "u info depth 5 score cp 20 pv e2e4\nu bestmove"
SIZES = (400, 1280)
# boxes whose content is wider than they are, but for those that have a table and scroll
WIDE = ("[document.documentElement, ...document.querySelectorAll('body *')]"
        ".filter(e => e.clientWidth && e.scrollWidth > e.clientWidth && !e.closest('.wide'))"
        ".map(e => (e.id || e.className || e.tagName) + ' ' + e.scrollWidth)")
SCROLLS = ("[...document.querySelectorAll('.wide')].filter(e => e.scrollWidth > e.clientWidth)"
           ".map(e => e.textContent.slice(0, 20))")
UNSEEN = ("[...document.querySelectorAll('.tools button, #game-rows button')].filter(e => {"
          " const r = e.getBoundingClientRect(); return r.left < 0 || r.right > innerWidth; })"
          ".map(e => e.textContent)")


def check_table(page, width):
    page.js("document.querySelectorAll('details').forEach(e => { e.open = true; })")
    page.js("[...document.querySelectorAll('#game-rows button')]"
            ".find(e => e.textContent === 'scores').click()")
    name = f"long names at a width of {width}"
    wide, unseen = page.js(WIDE), page.js(UNSEEN)
    wants(not wide, f"{name}: wider than their boxes are {wide}")
    wants(not unseen, f"{name}: out of sight are the buttons {unseen}")
    scrolls = page.js(SCROLLS)
    wants(width < 1000 or not scrolls, f"{name}: these tables scroll: {scrolls}")


def check_long_names(page, work, replay):
    first = game(NAMES[0], "white", TOLD).replace("u bestmove", SAID) + END
    folder = folder_of(work, replay, "long names",
                       {"first": first, "second": game(NAMES[1], "black", TOLD) + END})
    for width in SIZES:
        page.size(width)
        table_of(page, folder)
        check_table(page, width)
        page.open(page_of(folder / "first.log"))
        wide = page.js("document.documentElement.scrollWidth - document.documentElement.clientWidth")
        wants(wide == 0, f"the page of a long name is {wide} too wide at {width}")
    say(f"names of {len(NAMES[0])} letters at widths of {' and '.join(map(str, SIZES))}: "
        "tables alone scroll, and each button is seen")
