"""The pages that the commands of a document make, opened in a Chromium without a window."""
import glob
import os
import tempfile
from collections.abc import Iterator

from checks.parts import chromium


def plot_page(browser: chromium.Browser, page: str) -> Iterator[str]:
    """What is wrong with the page of a sweep, whose circles, rows and links are used."""
    browser.open(page)
    choices = browser.value('sweep.choices.length')
    if not choices or browser.value('document.querySelectorAll("#plot circle").length') != choices:
        yield 'not each choice is a circle'
    if browser.value('document.querySelectorAll("#table tbody tr").length') != choices:
        yield 'not each choice is a row'
    best = browser.value('sweep.choices.filter((it) => it.best).length')
    if browser.value('document.querySelectorAll("#plot circle.best").length') != best:
        yield 'the choices that no other beats are not filled'
    browser.click_on('#choice-0')
    if browser.value('document.querySelector("#detail h2").textContent') != browser.value('sweep.choices[0].name'):
        yield 'a click on a circle does not tell of its choice'
    gaps = browser.value('Object.keys(figures(sweep.choices[0]).gaps).length')
    if browser.value('document.querySelectorAll("#detail .gap").length') != gaps:
        yield f'not each of {gaps} lengths of gaps is a bar'
    browser.click_on(f'#row-{choices - 1}')
    if browser.value('document.querySelectorAll(".choice.chosen").length') != 1:
        yield 'a click on a row chooses no circle'
    last = browser.value('sweep.listeners.length')
    browser.click_on(f'#listener-{last}')
    if not browser.value('document.querySelector("#detail p").textContent').startswith(browser.value('sweep.listeners.at(-1)')):
        yield 'a click on a listener does not tell of it'
    yield from timeline_page(browser, os.path.join(os.path.dirname(page), browser.value('sweep.choices.at(-1).timeline')))
    browser.open(page)
    browser.click_on('#choice-0')
    browser.click_on('#timeline')


def timeline_page(browser: chromium.Browser, page: str) -> Iterator[str]:
    browser.open(page)
    if not browser.value('document.querySelectorAll("#picture rect").length'):
        yield f'{os.path.basename(page)}: nothing is drawn'


def by_pages(path: str, pages: list[str]) -> Iterator[str]:
    with tempfile.TemporaryDirectory(ignore_cleanup_errors=True) as profile, chromium.Browser(path, profile) as browser:
        for page in pages:
            with open(page, encoding='utf-8') as file:
                drawn = plot_page if 'id="plot"' in file.read() else timeline_page
            yield from (f'{os.path.basename(page)}: {it}' for it in drawn(browser, page))
        yield from (f'a script: {it}' for it in browser.faults)


def faults(folder: str) -> Iterator[str]:
    """What is wrong with the pages of a folder, by their names; nothing where no Chromium is there."""
    path, pages = chromium.find(), sorted(glob.glob(os.path.join(folder, '*.html')))
    if path is None or not pages:
        return
    try:
        yield from by_pages(path, pages)
    except chromium.BrowserFault as fault:
        yield f'browser: {fault}'
