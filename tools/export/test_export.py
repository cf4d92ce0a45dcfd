#!/usr/bin/env python3
"""Tests of the exports and of from_mast.py: each text is read back by a reader of its own here, or by mast.py, and compared with the program's lines.

    test_export.py [-v]

PROGRAM is the path of the program, and the proved program of this repository where it isn't set. Without one, the tests that need it are skipped,
which is told. Neither MAST, Cheddar nor a tool of AADL is run.
"""

from __future__ import annotations

import json
import os
import re
import subprocess
import sys
import tempfile
import unittest
import xml.etree.ElementTree as Tree
from fractions import Fraction
from typing import Any, Callable, Dict, Iterator

sys.dont_write_bytecode = True
HERE = os.path.dirname(os.path.abspath(__file__))
TOP = os.path.dirname(os.path.dirname(HERE))
sys.path.insert(0, HERE)
import mast     # noqa: E402

PROGRAM = os.path.abspath(os.environ.get('PROGRAM', os.path.join(TOP, 'crates', 'hrthood', 'out', 'hrthood')))
HAS_PROGRAM = os.access(PROGRAM, os.X_OK)
ACCEPTED = ('mine_pump', 'flight_control', 'data_handling', 'every_kind', 'tank', 'servo', 'one_cyclic_object', 'units_of_every_kind')
NUMBERS = ('priority', 'period', 'deadline', 'jitter', 'cost', 'blocking', 'response')

# Two threads that start one each and one that starts two, exclusive branches, nested sections, a separation that differs from the period of the
# starter, names that are reserved in the formats, and a request from outside without jitter.
AWKWARD = '''DESIGN awkward VERSION 2 IS
TICK = 20 us;
PRIORITIES 5 .. 20;
COSTS ASSIGN = 2; TEST = 1; TURN = 1; CALL = 1; NULL = 1; PUT = 1; FINISH = 1; END COSTS;
OBJECT all_of_it IS ACTIVE
OBJECTS
  OBJECT mode IS PROTECTED
  PROVIDES set PAER; get PAER;
  REQUIRES inner.keep;
  OPERATION set IS BEGIN work (3); inner.keep; END set;
  OPERATION get IS BEGIN work (2); END get;
  END mode;
  OBJECT inner IS PROTECTED
  PROVIDES keep PAER;
  OPERATION keep IS BEGIN work (4); END keep;
  END inner;
  OBJECT simple IS CYCLIC
  ATTRIBUTES PERIOD = 200; OFFSET = 7; DEADLINE = 150; THREAD_BUDGET = 60;
  REQUIRES mode.get; first.go; second.go;
  DATA n : word := 0;
  THREAD if n = 0 then mode.get; first.go; else work (9); end if; second.go; END THREAD;
  END simple;
  OBJECT first IS SPORADIC
  ATTRIBUTES SEPARATION = 200; DEADLINE = 120; THREAD_BUDGET = 20;
  PROVIDES go ASER;
  THREAD work (5); END THREAD;
  END first;
  OBJECT second IS SPORADIC
  ATTRIBUTES SEPARATION = 200; DEADLINE = 110; THREAD_BUDGET = 30;
  PROVIDES go ASER;
  REQUIRES third.go;
  THREAD third.go; END THREAD;
  END second;
  OBJECT third IS SPORADIC
  ATTRIBUTES SEPARATION = 190; DEADLINE = 100; THREAD_BUDGET = 20;
  PROVIDES go ASER;
  THREAD work (5); END THREAD;
  END third;
  OBJECT periodic IS SPORADIC
  ATTRIBUTES SEPARATION = 500; DEADLINE = 400; THREAD_BUDGET = 40; ARRIVAL_JITTER = 0;
  PROVIDES go ASER;
  REQUIRES mode.set; inner.keep;
  DATA n : word := 0;
  THREAD if n = 0 then mode.set; else inner.keep; end if; END THREAD;
  END periodic;
END all_of_it;
END awkward;
'''

# Three tasks: `low` holds r for 3 when `middle`, whose priority the ceiling of r reaches, is released.
BY_HAND = '''-- A comment
Processing_Resource (Type => Regular_Processor, Name => cpu, Speed_Factor => 1.0);
Scheduler (Type => Primary_Scheduler, Name => s, Host => cpu, Policy => (Type => Fixed_Priority));
Scheduling_Server (Type => Regular, Name => high, Server_Sched_Parameters => (Type => Fixed_Priority_Policy, The_Priority => 3), Scheduler => s);
Scheduling_Server (Type => Regular, Name => middle, Server_Sched_Parameters => (Type => Fixed_Priority_Policy, The_Priority => 2), Scheduler => s);
Scheduling_Server (Type => Regular, Name => low, Server_Sched_Parameters => (Type => Fixed_Priority_Policy, The_Priority => 1), Scheduler => s);
Shared_Resource (Type => Immediate_Ceiling_Resource, Name => r, Ceiling => 2, Preassigned => YES);
Operation (Type => Simple, Name => quick, Worst_Case_Execution_Time => 4);
Operation (Type => Simple, Name => enter, Worst_Case_Execution_Time => 1, Shared_Resources_To_Lock => (r));
Operation (Type => Simple, Name => leave, Worst_Case_Execution_Time => 2.00, Shared_Resources_To_Unlock => (r));
Operation (Type => Simple, Name => rest, Worst_Case_Execution_Time => 7);
Operation (Type => Composite, Name => slow, Composite_Operation_List => (enter, leave, rest));
Operation (Type => Enclosing, Name => using, Worst_Case_Execution_Time => 6, Composite_Operation_List => (enter, leave));
Transaction (Type => Regular, Name => t1,
   External_Events => ((Type => Periodic, Name => e1, Period => 12, Max_Jitter => 3)),
   Internal_Events => ((Type => Regular, Name => o1, Timing_Requirements => (Type => Hard_Local_Deadline, Deadline => 9))),
   Event_Handlers => ((Type => Activity, Input_Event => e1, Output_Event => o1, Activity_Operation => quick, Activity_Server => high)));
Transaction (Type => Regular, Name => t2,
   External_Events => ((Type => Periodic, Name => e2, Period => 40)),
   Internal_Events => ((Type => Regular, Name => o2,
      Timing_Requirements => (Type => Hard_Global_Deadline, Deadline => 30, Referenced_Event => e2))),
   Event_Handlers => ((Type => Activity, Input_Event => e2, Output_Event => o2, Activity_Operation => using, Activity_Server => middle)));
Transaction (Type => Regular, Name => t3,
   External_Events => ((Type => Sporadic, Name => e3, Min_Interarrival => 100)),
   Internal_Events => ((Type => Regular, Name => o3)),
   Event_Handlers => ((Type => Activity, Input_Event => e3, Output_Event => o3, Activity_Operation => slow, Activity_Server => low)));
'''


def run(*words: str) -> tuple[int, str, str]:
    """The status of a script of this folder, and what it writes on standard output and standard error."""
    done = subprocess.run([sys.executable, os.path.join(HERE, words[0]), *words[1:]], capture_output=True, text=True, timeout=300)
    return done.returncode, done.stdout, done.stderr


def program(verb: str, file: str) -> str:
    """What the program writes of a file."""
    return subprocess.run([PROGRAM, verb, file], capture_output=True, text=True, check=True, stdin=subprocess.DEVNULL, timeout=300).stdout


class Facts:
    """What a text says of a system: numbers of threads, ceilings, starters, and the sections of each thread with their ticks."""

    def __init__(self) -> None:
        self.threads: Dict[str, Dict[str, Any]] = {}
        self.ceilings: Dict[str, int] = {}
        self.starters: Dict[str, str] = {}
        self.sections: Dict[str, Dict[tuple[str, str], int]] = {}
        self.causes: set[tuple[str, str, str, int]] = set()


def facts_of_program(file: str) -> Facts:
    """What the lines of `explain` and `format` say."""
    facts = Facts()
    for line in program('explain', file).splitlines():
        words = line.split()
        if words[0] == 'thread':
            facts.threads[words[1]] = dict(zip(words[2::2], map(int, words[3::2])))
        elif words[0] == 'ceiling':
            facts.ceilings[words[1]] = int(words[2])
        elif words[0] == 'started':
            facts.starters[words[1]] = words[3]
        elif words[0] == 'blocked':
            facts.causes.add((words[3], *words[5].split('.'), int(words[7])))   # type: ignore[arg-type]
    text = program('format', file)
    tick = re.search(r'TICK = (\d+) (\w+);', text)
    length = int(tick[1]) * {'us': 1, 'ms': 1000, 's': 1000000}[tick[2]] if tick else 1
    for name, own in facts.threads.items():
        part = text[text.index(f'OBJECT {name} IS'):]
        part = part[:part.index(f'END {name};')]
        own['kind'] = 'cyclic' if f'OBJECT {name} IS CYCLIC' in part else 'sporadic'
        offset = re.search(r'OFFSET = (\d+)(?: (us|ms|s))?;', part)
        own['offset'] = 0 if not offset else int(offset[1]) * ({'us': 1, 'ms': 1000, 's': 1000000}[offset[2]] if offset[2] else length) // length
    return facts


def named(name: str) -> str:
    """A name of the design, without the number that an export appends to reserved names."""
    return re.sub(r'_2$', '', name)


def facts_of_aadl(text: str, tick: int = 1) -> Facts:
    """What a package of AADL says."""
    facts = Facts()
    subprograms = re.findall(r'subprogram (\w+)\s+properties\s+Compute_Execution_Time => 0 us .. (\d+) us;', text)
    times = {name: int(time) // tick for name, time in subprograms}
    operations: Dict[tuple[str, str], int] = {}
    for found in re.finditer(r'\n   data (\w+)\n(.*?)\n   end \1;', text, re.S):
        name = re.sub('_control$', '', named(found[1]))
        ceiling = re.search(r'Priority => (\d+);', found[2])
        assert ceiling and 'Concurrency_Control_Protocol => Priority_Ceiling;' in found[2]
        facts.ceilings[name] = int(ceiling[1])
        operations.update(((found[1], one[1]), times[one[2]]) for one in re.finditer(r'(\w+) : provides subprogram access (\w+);', found[2]))
    for found in re.finditer(r'-- \w+: blocking (\d+), response (\d+) ticks\n   thread (\w+)\n(.*?)\n   end \3.application;', text, re.S):
        values = dict(re.findall(r'(\w+) => (?:0 us \.\. )?(\w+)', found[4]))
        name = named(found[3])
        facts.threads[name] = {
            'kind': {'Periodic': 'cyclic', 'Sporadic': 'sporadic'}[values['Dispatch_Protocol']],
            'offset': int(values.get('Dispatch_Offset', 0)) // tick, 'period': int(values['Period']) // tick,
            'deadline': int(values['Deadline']) // tick, 'jitter': int(values['Dispatch_Jitter']) // tick,
            'cost': int(values['Compute_Execution_Time']) // tick, 'priority': int(values['Priority']),
            'blocking': int(found[1]), 'response': int(found[2])}
        facts.sections[name] = {(re.sub('_control$', '', named(one[1])), one[2][len('call_'):]): operations[one[1], one[2]]
                                for one in re.finditer(r'call_\d+ : subprogram (\w+)\.(\w+);', found[4])}
    for found in re.finditer(r'port the_(\w+)\.start_(\w+) -> the_(\w+)\.requested;', text):
        assert found[2] == found[3]
        facts.starters[named(found[2])] = named(found[1])
    return facts


def facts_of_cheddar(text: str) -> Facts:
    """What a file of Cheddar says."""
    facts = Facts()
    root = Tree.fromstring(text)
    for task in root.findall('./tasks/*'):
        values = {one.tag: one.text or '' for one in task}
        facts.threads[values['name']] = {
            'kind': {'PERIODIC_TYPE': 'cyclic', 'SPORADIC_TYPE': 'sporadic'}[values['task_type']],
            **{name: int(values[tag]) for name, tag in (('period', 'period'), ('deadline', 'deadline'), ('jitter', 'jitter'), ('cost', 'capacity'),
                                                        ('priority', 'priority'), ('blocking', 'blocking_time'), ('offset', 'start_time'))}}
        facts.sections[values['name']] = {}
    for resource in root.findall('./resources/*'):
        assert resource.findtext('protocol') == 'IMMEDIATE_PRIORITY_CEILING_PROTOCOL'
        name = resource.findtext('name') or ''
        facts.ceilings[name] = int(resource.findtext('priority') or 0)
        sections = list(resource.find('critical_sections') or [])
        for number, (task, section) in enumerate(zip(sections[::2], sections[1::2])):
            first, last = int(section.findtext('task_begin') or 0), int(section.findtext('task_end') or 0)
            assert 1 <= first <= last <= facts.threads[task.text or '']['cost']
            facts.sections[task.text or ''][name, str(number)] = last - first + 1
    return facts


def facts_of_json(text: str) -> Facts:
    """What a file of JSON says."""
    facts = Facts()
    value = json.loads(text)
    for task in value['tasks']:
        facts.threads[task['name']] = {key: task[key] for key in ('kind', 'offset', *NUMBERS)}
        facts.sections[task['name']] = {(one['resource'], one['operation']): one['ticks'] for one in task['sections']}
        if task['started_by'] is not None:
            facts.starters[task['name']] = task['started_by']
    facts.ceilings = {one['name']: one['ceiling'] for one in value['resources']}
    return facts


def blockings(facts: Facts) -> dict[str, int]:
    """The blocking of each thread, by the sections and ceilings that a text says."""
    return {name: max((ticks for other, held in facts.sections.items() for (resource, _), ticks in held.items()
                       if facts.threads[other]['priority'] < own['priority'] <= facts.ceilings[resource]), default=0)
            for name, own in facts.threads.items()}


def faults(value: Any, schema: Any, place: str = '$') -> Iterator[str]:
    """Where a value breaks a schema, of the words that design.schema.json uses; others are an error."""
    known = set('$schema title description type properties required additionalProperties items enum minimum minItems pattern'.split())
    assert set(schema) <= known, set(schema) - known
    kinds = {'object': dict, 'array': list, 'string': str, 'integer': int, 'null': type(None)}
    wanted = [schema['type']] if isinstance(schema.get('type'), str) else schema.get('type', [])
    if wanted and not any(isinstance(value, kinds[kind]) and not isinstance(value, bool) for kind in wanted):
        yield f'{place}: type'
        return
    if 'enum' in schema and value not in schema['enum']:
        yield f'{place}: enum'
    if isinstance(value, int) and value < schema.get('minimum', value):
        yield f'{place}: minimum'
    if isinstance(value, str) and not re.search(schema.get('pattern', ''), value):
        yield f'{place}: pattern'
    if isinstance(value, dict):
        yield from (f'{place}: {key} is missing' for key in schema.get('required', []) if key not in value)
        for key, one in value.items():
            if key in schema['properties']:
                yield from faults(one, schema['properties'][key], f'{place}.{key}')
            else:
                yield f'{place}: {key} is unknown'
    if isinstance(value, list):
        if len(value) < schema.get('minItems', 0):
            yield f'{place}: minItems'
        for number, one in enumerate(value):
            yield from faults(one, schema['items'], f'{place}[{number}]')


class ByHand(unittest.TestCase):
    """mast.py and from_mast.py on texts written by hand."""

    def refusal(self, text: str, *words: str) -> str:
        """The line by which from_mast.py refuses a text, after the name of the file."""
        with tempfile.TemporaryDirectory() as room:
            file = os.path.join(room, 'x.mast')
            with open(file, 'w', encoding='utf-8') as stream:
                stream.write(text)
            status, out, err = run('from_mast.py', *words, file)
            self.assertEqual((status, out), (2, ''))
            self.assertTrue(err.startswith(f'from_mast.py: {file}:'), err)
            return err[len(f'from_mast.py: {file}:'):].rstrip('\n')

    def test_responses(self) -> None:
        """high: 4. middle: 6 + 3 of r + two times 4 (17 + 3 over 12) = 17. low: 10 + 6 and 4 each 12: at 28, (28 + 3) / 12 is 3 times, 28."""
        system = mast.System(BY_HAND)
        self.assertEqual({name: int(system.blocking(task)) for name, task in system.tasks.items()}, {'high': 0, 'middle': 3, 'low': 0})
        self.assertEqual(system.responses(), {'high': (3, 4), 'middle': (0, 17), 'low': (0, 28)})

    def test_ceiling_below(self) -> None:
        """A resource whose ceiling is below a task doesn't block it, and one whose ceiling is above blocks all in between."""
        below = mast.System(BY_HAND.replace('Ceiling => 2', 'Ceiling => 1'))
        self.assertEqual(below.blocking(below.tasks['middle']), 0)
        above = mast.System(BY_HAND.replace('Ceiling => 2', 'Ceiling => 3'))
        self.assertEqual({name: above.blocking(task) for name, task in above.tasks.items()}, {'high': 3, 'middle': 3, 'low': 0})

    def test_equal_priorities(self) -> None:
        """Tasks of one priority delay each other and don't block: 6 + 10 + 3 times 4, each."""
        system = mast.System(BY_HAND.replace('The_Priority => 1', 'The_Priority => 2'))
        self.assertEqual(system.blocking(system.tasks['middle']), 0)
        self.assertEqual(system.responses(), {'high': (3, 4), 'middle': (0, 28), 'low': (0, 28)})

    def test_over_the_period(self) -> None:
        longer = BY_HAND.replace('Name => rest, Worst_Case_Execution_Time => 7', 'Name => rest, Worst_Case_Execution_Time => 70')
        self.assertIsNone(mast.System(longer).responses())

    def test_speed(self) -> None:
        self.assertEqual(mast.System(BY_HAND.replace('Speed_Factor => 1.0', 'Speed_Factor => 0.5')).tasks['high'].cost, 8)

    def test_fractions(self) -> None:
        system = mast.System(BY_HAND.replace('Name => quick, Worst_Case_Execution_Time => 4', 'Name => quick, Worst_Case_Execution_Time => 2.5E0'))
        self.assertEqual(system.tasks['high'].cost, Fraction(5, 2))

    def test_refusals(self) -> None:
        """Each fault has its line."""
        for before, after, line in (
                ('Name => cpu,', 'Name => cpu;', '2: ) is missing before ;'),
                ('The_Priority => 3', 'The_Priority => x', '4: x is not a number'),
                ('Immediate_Ceiling_Resource', 'Other_Resource', '7: other_resource is not an immediate ceiling resource'),
                ('Shared_Resources_To_Lock => (r)', 'Shared_Resources_To_Lock => (q)', '9: there is no shared_resource q'),
                (', Shared_Resources_To_Unlock => (r)', '', '13: r is not unlocked'),
                ('Activity_Server => low', 'Activity_Server => high', '26: the server high has a second activity'),
                ('Type => Sporadic, Name => e3', 'Type => Bursty, Name => e3', '24: an external event of type bursty is not read'),
                ('Input_Event => e3', 'Input_Event => e4', '23: transaction t3 has a handler that its external event does not reach once'),
                ('Referenced_Event => e2', 'Referenced_Event => e9',
                 '21: a hard_global_deadline that does not count from the release of its activity is not read'),
                ('Hard_Local_Deadline', 'Soft_Local_Deadline', '16: a soft_local_deadline is not read'),
                ('Regular_Processor', 'Packet_Based_Network', '2: a processing resource of type packet_based_network is not read'),
                ('Policy => (Type => Fixed_Priority)', 'Policy => (Type => EDF)', '3: a scheduler of policy edf is not read'),
                ('Name => quick, Worst', 'Name => quick, Worse', '8: worst_case_execution_time is missing'),
                ('Name => slow, Composite_Operation_List => (enter, leave, rest)', 'Name => slow, Composite_Operation_List => (slow, slow)',
                 '12: slow has more than 10000 operations, or 50 inside one another'),
                ('Speed_Factor => 1.0', 'Speed_Factor => 0.0', '2: the speed factor is 0'),
                ('The_Priority => 2', 'The_Priority => 2.5', '5: 2.5 is not a whole number'),
                ('Ceiling => 2', 'Ceiling => 1e999', '7: 1e999 is not a number'),
                ('Type => Activity, Input_Event => e3', 'Type => Multicast, Output_Events_List => (e3), Input_Event => e3',
                 '23: transaction t3 has a handler that its external event does not reach once'),
                ('-- A comment', '(' * 60 + '\n', '1: a name or a number is missing before ('),
                ('-- A comment', 'Model ' + '(' * 60 + '\n', '1: more than 50 parentheses are open'),
                ('-- A comment', '# A comment', '1: no token begins with #')):
            self.assertEqual(BY_HAND.count(before) > 0, True, before)
            self.assertEqual(self.refusal(BY_HAND.replace(before, after)), line)

    def test_what_a_design_cannot_have(self) -> None:
        for before, after, line in (
                ('Name => quick, Worst_Case_Execution_Time => 4', 'Name => quick, Worst_Case_Execution_Time => 2.5',
                 '17: 2.5 is not a whole number of ticks; give --ticks N'),
                ('Name => quick, Worst_Case_Execution_Time => 4', 'Name => quick, Worst_Case_Execution_Time => 1',
                 '17: high costs less than its calls and its end; give more --ticks'),
                ('Deadline => 9', 'Deadline => 13', '17: the deadline of high is not 1 to its period'),
                ('Max_Jitter => 3', 'Max_Jitter => 12', '17: the jitter of high is not less than its period')):
            self.assertEqual(self.refusal(BY_HAND.replace(before, after)), line)

    def test_missing_file_and_words(self) -> None:
        self.assertEqual(run('from_mast.py', '/no/such')[0::2], (2, 'from_mast.py: /no/such: No such file or directory\n'))
        for words in ('', '--ticks 0 x', 'a b'):
            self.assertEqual(run('from_mast.py', *words.split())[0], 2)
        for script in ('to_mast.py', 'to_cheddar.py', 'to_aadl.py', 'to_json.py'):
            self.assertEqual(run(script)[0], 2)
            self.assertEqual(run(script, '--help')[::2], (0, ''))

    def test_names(self) -> None:
        """Names that differ in signs alone, or are words of designs, get names of their own."""
        with tempfile.TemporaryDirectory() as room:
            file = os.path.join(room, 'high.mast')
            with open(file, 'w', encoding='utf-8') as stream:
                text = BY_HAND.replace('middle', 'hi.gh').replace('low', 'hi_gh')
                stream.write(text.replace('Name => r,', 'Name => loop,').replace('(r)', '(loop)'))
            status, out, _ = run('from_mast.py', file)
            self.assertEqual(status, 0)
            self.assertEqual(re.findall(r'(?:OBJECT|DESIGN) (\w+) IS', out), ['high_2', 'whole', 'loop_2', 'high', 'hi_gh', 'hi_gh_2'])

    def test_notes(self) -> None:
        """A skeleton says where the file has other priorities or ceilings than the program will compute."""
        with tempfile.TemporaryDirectory() as room:
            file = os.path.join(room, 'x.mast')
            with open(file, 'w', encoding='utf-8') as stream:
                text = BY_HAND.replace('Ceiling => 2', 'Ceiling => 3').replace('=> Fixed_Priority)', '=> Fixed_Priority, Worst_Switch => 1)')
                stream.write(text.replace('Deadline => 9', 'Deadline => 12').replace('Deadline => 30', 'Deadline => 11'))
            status, out, _ = run('from_mast.py', file)
            self.assertEqual(status, 0)
            self.assertEqual(out.splitlines()[1:4], ['-- The file has overheads, which no cost here includes: worst_switch.',
                                                     '-- The priorities of the file differ: by deadline the order is middle, high, low.',
                                                     '-- The ceiling of r in the file is 3, and its users have priorities up to 2.'])


@unittest.skipUnless(HAS_PROGRAM, f'there is no program {PROGRAM}')
class ByTheProgram(unittest.TestCase):
    """Exports of the examples and of an awkward design, compared with what the program writes."""

    room: tempfile.TemporaryDirectory[str]
    designs: dict[str, str] = {}
    wanted: dict[str, Facts] = {}

    @classmethod
    def setUpClass(cls) -> None:
        cls.room = tempfile.TemporaryDirectory()
        awkward = os.path.join(cls.room.name, 'awkward.design')
        with open(awkward, 'w', encoding='utf-8') as file:
            file.write(AWKWARD)
        cls.designs = {**{name: os.path.join(TOP, 'examples', name + '.design') for name in ACCEPTED}, 'awkward': awkward}
        cls.wanted = {name: facts_of_program(file) for name, file in cls.designs.items()}

    @classmethod
    def tearDownClass(cls) -> None:
        cls.room.cleanup()

    def texts(self, script: str) -> Iterator[tuple[str, str, Facts]]:
        """What a script writes of each design, with what the program says of it."""
        for name, file in self.designs.items():
            status, out, err = run(script, file)
            self.assertEqual((status, err), (0, ''), name)
            yield name, out, self.wanted[name]

    def compare(self, found: Facts, wanted: Facts, but: tuple[str, ...] = ()) -> None:
        """Compares the threads, their blockings by the sections that were read, and that the sections that block are among these."""
        threads = {name: {key: value for key, value in own.items() if key not in but} for name, own in wanted.threads.items()}
        self.assertEqual(found.threads, threads)
        self.assertEqual(blockings(found), {name: own['blocking'] for name, own in wanted.threads.items()})
        for name, ceiling in found.ceilings.items():
            self.assertEqual(ceiling, wanted.ceilings[name])

    def compare_without_responses(self, found: Facts, wanted: Facts) -> None:
        """Compares what Cheddar has."""
        self.compare(found, wanted, ('response',))

    def compare_all(self, found: Facts, wanted: Facts) -> None:
        """Compares what AADL and JSON have besides."""
        self.compare(found, wanted)
        self.assertEqual(found.starters, wanted.starters)
        for thread, resource, operation, ticks in wanted.causes:
            self.assertEqual(found.sections[thread][resource, operation], ticks)

    def test_mast_gives_the_responses(self) -> None:
        """The equations of mast.py give priority, period, deadline, jitter, cost, blocking and response of each thread, and the ceilings."""
        for name, text, wanted in self.texts('to_mast.py'):
            system = mast.System(text)
            responses = system.responses()
            assert responses is not None
            found = {task.name: dict(zip(NUMBERS, (task.priority, task.period, task.deadline, responses[task.name][0], task.cost,
                                                   system.blocking(task), responses[task.name][1]))) for task in system.tasks.values()}
            restored = {named(key) if key not in wanted.threads else key: value for key, value in found.items()}
            self.assertEqual(restored, {key: {word: own[word] for word in NUMBERS} for key, own in wanted.threads.items()}, name)
            ceilings = {named(key) if key not in wanted.ceilings else key: value for key, value in system.resources.items()}
            self.assertEqual(ceilings, wanted.ceilings, name)

    def test_mast_links(self) -> None:
        """Starters are those of the program, except where the separation is not the period of the starter."""
        for name, text, wanted in self.texts('to_mast.py'):
            system = mast.System(text)
            linked = {task.name: task.starter for task in system.tasks.values() if task.starter is not None}
            same = {key: by for key, by in wanted.starters.items() if wanted.threads[key]['period'] == wanted.threads[by]['period']}
            self.assertEqual({named(key): named(by) for key, by in linked.items()}, same, name)
            self.assertEqual(text.count('is requested by'), len(wanted.starters) - len(same))
            for task in system.tasks.values():
                if task.starter is None:
                    self.assertEqual(task.phase, wanted.threads.get(task.name, wanted.threads.get(named(task.name), {}))['offset'])

    def test_mast_notices(self) -> None:
        """Another number in the text gives other responses."""
        text = run('to_mast.py', self.designs['mine_pump'])[1]
        right = mast.System(text).responses()
        for before, after in (('Time => 4.0', 'Time => 5.0'), ('Time => 21.0', 'Time => 20.0'), ('Period => 80.0', 'Period => 70.0'),
                              ('Ceiling => 4', 'Ceiling => 3'), ('The_Priority => 3', 'The_Priority => 8'),
                              ('Max_Jitter => 5.0', 'Max_Jitter => 29.0')):
            self.assertIn(before, text)
            self.assertNotEqual(mast.System(text.replace(before, after, 1)).responses(), right, before)

    def test_aadl(self) -> None:
        for name, text, wanted in self.texts('to_aadl.py'):
            tick = re.search(r'a tick is (\d+) us', text)
            found = facts_of_aadl(text, int(tick[1]) if tick else 1)
            self.compare_all(found, wanted)
            opened = re.findall(r'^ *(?:subprogram|data|thread|processor|process|system|package)(?: implementation)? ([\w.]+)$', text, re.M)
            self.assertEqual(sorted(opened), sorted(re.findall(r'^ *end ([\w.]+);$', text, re.M)), name)

    def test_aadl_names(self) -> None:
        """No classifier is a reserved word of AADL, and each that is used is declared."""
        text = run('to_aadl.py', self.designs['awkward'])[1]
        self.assertIn('   data mode_2\n', text)
        for _, out, _ in self.texts('to_aadl.py'):
            declared = set(re.findall(r'^   (?:subprogram|data|thread|process|processor|system) (\w+)$', out, re.M))
            used = set(re.findall(r': (?:provides subprogram access|requires data access|data|thread|processor|process) (\w+)[;.]', out))
            self.assertEqual(used - declared, set())
            self.assertEqual(len(declared), len(re.findall(r'^   (?:subprogram|data|thread|process|processor|system) (\w+)$', out, re.M)))

    def test_cheddar(self) -> None:
        for name, text, wanted in self.texts('to_cheddar.py'):
            found = facts_of_cheddar(text)
            self.compare_without_responses(found, wanted)
            lengths = {key: sorted((resource, ticks) for (resource, _), ticks in held.items()) for key, held in found.sections.items()}
            as_json = facts_of_json(run('to_json.py', self.designs[name])[1]).sections
            self.assertEqual(lengths, {key: sorted((resource, ticks) for (resource, _), ticks in held.items()) for key, held in as_json.items()})
            ids = re.findall(r' id="(\w+)"', text)
            self.assertEqual(len(ids), len(set(ids)), name)

    def test_json(self) -> None:
        with open(os.path.join(HERE, 'design.schema.json'), encoding='utf-8') as file:
            schema = json.load(file)
        for name, text, wanted in self.texts('to_json.py'):
            found = facts_of_json(text)
            self.compare_all(found, wanted)
            self.assertEqual(found.ceilings, wanted.ceilings)
            self.assertEqual(list(faults(json.loads(text), schema)), [], name)

    def test_schema_notices(self) -> None:
        with open(os.path.join(HERE, 'design.schema.json'), encoding='utf-8') as file:
            schema = json.load(file)
        text = run('to_json.py', self.designs['every_kind'])[1]
        for before, after in (('"period": 100', '"period": 0'), ('"kind": "cyclic"', '"kind": "other"'), ('"jitter": 3', '"jitters": 3'),
                              ('"cost": ', '"cost": null, "more": '), ('"name": "board"', '"name": "Board"'), ('"tick_us": null', '"tick_us": true')):
            self.assertIn(before, text)
            self.assertNotEqual(list(faults(json.loads(text.replace(before, after, 1)), schema)), [], before)

    def test_readers_notice(self) -> None:
        """Another number in a text is found by its reader."""
        readers: tuple[tuple[str, Callable[[str], Facts], tuple[tuple[str, str], ...]], ...] = (
                ('to_aadl.py', facts_of_aadl, (('.. 4 us', '.. 5 us'), ('=> 6000 us', '=> 6001 us'), ('Priority => 4', 'Priority => 3'))),
                ('to_cheddar.py', facts_of_cheddar, (('<task_begin>5</task_begin>', '<task_begin>4</task_begin>'), ('<jitter>23<', '<jitter>24<'),
                                                     ('<capacity>21<', '<capacity>22<'))),
                ('to_json.py', facts_of_json, (('"ticks": 4', '"ticks": 5'), ('"started_by": "ch4_sensor"', '"started_by": null'),
                                               ('"ceiling": 4', '"ceiling": 5'))))
        for script, reader, changes in readers:
            text = run(script, self.designs['mine_pump'])[1]
            compare = self.compare_all if script != 'to_cheddar.py' else self.compare_without_responses
            compare(reader(text), self.wanted['mine_pump'])
            for before, after in changes:
                self.assertIn(before, text)
                with self.assertRaises(AssertionError, msg=before):
                    compare(reader(text.replace(before, after)), self.wanted['mine_pump'])

    def test_round_trip(self) -> None:
        """A skeleton of what to_mast.py writes has the same bounds, starters, and ceilings of the objects that block, up to the least priority. Of a
        design of which a thread has a transaction of its own, as its separation is not the period of its starter, it has the same costs."""
        for name, text, wanted in self.texts('to_mast.py'):
            file, back = (os.path.join(self.room.name, 'back.' + kind) for kind in ('mast', 'design'))
            with open(file, 'w', encoding='utf-8') as stream:
                stream.write(text)
            status, out, err = run('from_mast.py', file)
            self.assertEqual((status, err), (0, ''), name)
            with open(back, 'w', encoding='utf-8') as stream:
                stream.write(out)
            found = facts_of_program(back)
            if 'is requested by' in text:
                self.assertEqual({named(key): own['cost'] for key, own in found.threads.items()},
                                 {key: own['cost'] for key, own in wanted.threads.items()}, name)
                continue
            least = min(own['priority'] for own in wanted.threads.values()) - 1
            self.assertEqual({named(key): value for key, value in found.threads.items()},
                             {key: {**own, 'priority': own['priority'] - least} for key, own in wanted.threads.items()}, name)
            self.assertEqual({named(key): by for key, by in found.starters.items()}, wanted.starters, name)
            ceilings = {named(key): ceiling for key, ceiling in found.ceilings.items()}
            blocking = {cause[1] for cause in wanted.causes}
            self.assertEqual({key: ceilings[key] for key in blocking}, {key: wanted.ceilings[key] - least for key in blocking}, name)

    def test_skeleton_by_hand(self) -> None:
        """The program's bounds of a skeleton are those of mast.py, also where sections are in branches."""
        for text in (BY_HAND, BY_HAND.replace('Name => using, Worst_Case_Execution_Time => 6', 'Name => using, Worst_Case_Execution_Time => 6')
                     .replace('Composite_Operation_List => (enter, leave));', 'Composite_Operation_List => (enter, leave, other));')
                     .replace('Operation (Type => Simple, Name => rest', 'Operation (Type => Simple, Name => other, Worst_Case_Execution_Time => 2, '
                              'Shared_Resources_List => (r));\nOperation (Type => Simple, Name => rest')):
            file, back = (os.path.join(self.room.name, 'hand.' + kind) for kind in ('mast', 'design'))
            with open(file, 'w', encoding='utf-8') as stream:
                stream.write(text)
            status, out, err = run('from_mast.py', file)
            self.assertEqual((status, err), (0, ''))
            self.assertEqual('if turn = 0' in out, 'other' in text)
            with open(back, 'w', encoding='utf-8') as stream:
                stream.write(out)
            responses = mast.System(text).responses()
            assert responses is not None
            self.assertEqual({key: (own['jitter'], own['response']) for key, own in facts_of_program(back).threads.items()}, responses)

    def test_refused_designs(self) -> None:
        """A design that misses its limits, or breaks a rule, is refused with the program's line."""
        late = os.path.join(TOP, 'examples', 'late_control.design')
        for script in ('to_mast.py', 'to_cheddar.py', 'to_aadl.py', 'to_json.py'):
            self.assertEqual(run(script, late), (1, '', f'{script}: {late}: refused U1 star_tracker value 695 limit 600 round 2\n'))
        wrong = os.path.join(self.room.name, 'wrong.design')
        with open(wrong, 'w', encoding='utf-8') as file:
            file.write('DESIGN d IS\n')
        self.assertEqual(run('to_json.py', wrong), (1, '', f'to_json.py: {wrong}: refused S1 design line 2 column 1\n'))


if __name__ == '__main__':
    unittest.main()
