#!/usr/bin/env python3
"""Writes the page, one file that works from a folder and without a network.

    build_page.py MODULE.wasm LAST_LINE MADE OUT.html

MODULE.wasm is what retarget.py makes of the crate `page`, LAST_LINE the last line of its proof, and MADE a line `version VERSION sources SUM kit KIT`
of what the page is made of. The page shows both lines, and has the second one in its head, for scripts. Everything else is taken from web/ and
examples/ of this repository. web/tools/make_page.sh does all steps.
"""

from __future__ import annotations

import base64
import html
import json
import os
import re
import sys
from typing import Any

TOP = os.path.dirname(os.path.dirname(os.path.dirname(os.path.abspath(__file__))))
# Modules, each behind those that it imports, with what the scripts of the page use of them; then the scripts, which share their names.
MODULES = (('design_text', ('tokensOf',)), ('places', ('markOf',)), ('refusals', ('Refusals',)), ('clock', ('Clock', 'TICKS', 'microsecondsOf')),
           ('markup', ('asFile', 'draw', 'textAt', 'withNames')), ('outline', ('backgroundOf', 'objectAt', 'readOutline')),
           ('arrivals', ('arrivalsFor',)), ('layout', ()),
           ('diagram', ('Diagram', 'LEGIBLE', 'MOST_AT_ONCE', 'linesOfObject')),
           ('explanation', ('partsOf', 'readExplanation', 'slackOf', 'spareOf', 'termsOf', 'utilisationOf', 'wrongSums')),
           ('tables', ('chainTable',)), ('bars', ('Bars', 'scaleFor')), ('lifted', ('withLaterDeadlines', 'withoutBudgets')),
           ('traces', ('ProgramReader', 'Run', 'Trace', 'listed', 'readEvent', 'readProgram')),
           ('chart', ('Chart', 'Heights', 'LEGEND', 'MARK', 'RIGHT', 'leftOf', 'marksOf', 'pictureOf', 'tasksByPriority')))
SCRIPTS = ('texts', 'runs', 'trace_places', 'bounds', 'timeline', 'explained', 'diagram_tab', 'verbs', 'page')
# What the page calls an example, and its texts: a design, arrivals and for some a trace.
EXAMPLES = (
    ('Mine pump', 'mine_pump.design', 'one_water_alarm.arrivals', 'one_water_alarm.trace'),
    ('Mine pump, a sensor is blocked', 'mine_pump.design', 'blocked_sensor.arrivals'),
    ('Flight control', 'flight_control.design', 'flight_control.arrivals'),
    ('Data handling', 'data_handling.design', 'data_handling.arrivals'),
    ('Tank, the smallest to change', 'tank.design', 'until_150.arrivals'),
    ('An object of every kind', 'every_kind.design', 'two_presses.arrivals'),
    ('A thread that starts another', 'units_of_every_kind.design', 'until_150.arrivals'),
    ('One cyclic object', 'one_cyclic_object.design', 'until_20.arrivals'),
    ('Clients and servers in the background', 'logged_control.design', 'until_40.arrivals'),
    ('Refused: a deadline too short', 'faults/u1.design', 'flight_control.arrivals'),
    ('Refused: a request too near', 'data_handling.design', 'faults/q3.arrivals'),
    ('Refused: a trace with two inside one object', 'mine_pump.design', 'one_water_alarm.arrivals', 'faults/t2e.trace'),
)


def text_of(*path: str) -> str:
    with open(os.path.join(TOP, *path), encoding='utf-8') as text:
        return text.read()


def as_script(value: Any) -> str:
    """The value as JavaScript that may stand in a page's script."""
    return json.dumps(value).replace('<', '\\u003c')


def examples() -> dict[str, dict[str, str]]:
    kinds = ('design', 'arrivals', 'trace')
    return {name: {kind: text_of('examples', file) for kind, file in zip(kinds, files)} for name, *files in EXAMPLES}


def module(name: str, used: tuple[str, ...]) -> str:
    """A module as a part of the one script: a function that is called at once, whose value is what it exports."""
    text = text_of('web', name + '.js')
    text = re.sub(r'^import \{([^}]*)\} from "\./(\w+)\.js";$',
                  lambda found: 'const {%s} = module_%s;' % (found[1].replace(' as ', ': '), found[2]), text, flags=re.M)
    exports = re.findall(r'^export (?:const|function|class) (\w+)', text, flags=re.M)
    text = re.sub(r'^export (?=const|function|class)', '', text, flags=re.M)
    if re.search(r'^(import|export)\b', text, flags=re.M):
        sys.exit(f'build_page: {name}.js imports or exports in a form that is not known')
    return (f'const module_{name} = (() => {{\n{text}\nreturn {{ {", ".join(exports)} }};\n}})();\n'
            f'const {{ {", ".join(used)} }} = module_{name};')


def scripts() -> str:
    """The modules and scripts as one. None of them may end the element in which they stand."""
    parts = [module(name, used) for name, used in MODULES] + [text_of('web', name + '.js') for name in SCRIPTS]
    whole = '\n'.join(parts)
    if re.search('</script|<!--', whole, re.IGNORECASE):
        sys.exit('build_page: a script would end its element')
    return whole


def filled(page: str, parts: dict[str, str]) -> str:
    """The page with each part in its place. A place stands once, and what is put there is not looked at again."""
    pieces = re.split(r'@([A-Z]+)@', page)
    names = pieces[1::2]
    if sorted(names) != sorted(parts):
        sys.exit(f'build_page: page.html has places {", ".join(names)}, and not each of {", ".join(parts)} once')
    pieces[1::2] = [parts[name] for name in names]
    return ''.join(pieces)


def main() -> None:
    if len(sys.argv) != 5:
        sys.exit(__doc__)
    module, last_line, made, out = sys.argv[1:]
    told = re.fullmatch(r'version (\S+) sources ([0-9a-f]{64}) kit (\S.*)', made)
    if told is None:
        sys.exit(f'build_page: not a line of version, sources and kit: {made}')
    with open(module, 'rb') as binary:
        encoded = base64.b64encode(binary.read()).decode()
    chart, diagram, bars = [text_of('web', name + '.css') for name in ('chart', 'diagram', 'bars')]
    whole = filled(text_of('web', 'page.html'), {
        'STYLE': text_of('web', 'page.css') + chart + diagram + bars,
        'HELP': text_of('web', 'help.html'),
        'VERDICT': html.escape(last_line),
        'MADE': html.escape(made),
        'VERSION': html.escape(told[1]),
        'SOURCES': html.escape(told[2]),
        'KIT': html.escape(told[3]),
        'EXAMPLES': as_script(examples()),
        'CHART': as_script(chart),
        'DIAGRAM': as_script(diagram),
        'BARS': as_script(bars),
        'REFUSALS': as_script(json.loads(text_of('web', 'refusals.json'))),
        'WORKER': as_script(text_of('web', 'library_host.js') + text_of('web', 'library_worker.js')),
        'MODULE': encoded,
        'SCRIPT': scripts(),
    })
    with open(out, 'w', encoding='utf-8') as text:
        text.write(whole)


if __name__ == '__main__':
    main()
