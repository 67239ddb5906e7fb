"""The page of a run: its data in the parts that lie beside this file. timeline.py uses it."""
import html
import json
import os
import re

HERE = os.path.dirname(os.path.abspath(__file__))
SCRIPTS = ('timeline_units.js', 'timeline_picture.js', 'timeline_told.js', 'timeline_moves.js')
PLACE = re.compile(r'\{\{(\w+)\}\}')


def part(name):
    with open(os.path.join(HERE, name), encoding='utf-8') as file:
        return file.read()


def page_of(data, title):
    """The page. No octet of the data can end the element that it stands in."""
    parts = {
        'title': html.escape(title), 'style': part('timeline.css'), 'script': ''.join(map(part, SCRIPTS)),
        'run': json.dumps(data, separators=(',', ':')).replace('<', '\\u003c'),
    }
    return PLACE.sub(lambda it: parts[it[1]], part('timeline.html'))
