#!/usr/bin/env python3
"""Pages for the browser: python3 bench/page.py [PROGRAM] [--old DIR] [--base FILE] [--turns N] FOLDER ..

Of each package folder the page that is expected is made here, and `explain FOLDER --html` is to be the same byte for
byte. What stands here by itself: the page's fixed words and its style, what is escaped and spelled and how, the names of
places and the links to them, the class of each line, the command lines to copy; and by the marks, calls and results of
`check --json`, by the scripts' bytes, the `control` files and the table of steps below: how each scenario ends and how
often, which outcomes end in one group and where, which groups are told together and in which order, how many outcomes
have an act in each line and in each script, and which end there. Of the text of `explain` are taken: what stands below a
group's first line, why something is undecided, why a scenario was not examined, which lines no outcome reaches, and the
premises; nothing of it is left over. Besides, of the page as it is: names of places are unique, each link leads to one,
elements nest, it has no script and asks for nothing, and what is read of it is that text. Where tidy is there it says
nothing; where chromium is there its console says nothing, no request leaves, and the document that it makes has that
text, these names and links (not with UNBROWSED=1). With PAGES=DIR the pages and their pictures, at 400 and 1400 pixels,
light and dark, are put there.
"""
import difflib
import html.parser
import json
import os
import re
import shutil
import subprocess
import sys
import tempfile

VOID = {'meta'}
SCENARIOS = ['install', 'install-again', 'upgrade', 'remove', 'purge', 'purge-later']
SCRIPTS = ['preinst', 'postinst', 'prerm', 'postrm']

# The steps of each scenario: a call with its first word, and behind it as many words, none of them empty but for `-`; or
# what is done with files.
UNPACK, RESTORE = 'dpkg unpacks the files', 'dpkg puts the files back'
INSTALLS = {2: UNPACK, 5: RESTORE}
STEPS = {
    'install': {1: 'new preinst install', 3: 'new postinst configure -', 4: 'new postrm abort-install', **INSTALLS},
    'install-again': {1: 'new preinst install + +', 3: 'new postinst configure +', 4: 'new postrm abort-install + +',
                      **INSTALLS},
    'upgrade': {1: 'old prerm upgrade +', 2: 'new prerm failed-upgrade + +', 3: 'new preinst upgrade + +', 4: UNPACK,
                5: 'old postrm upgrade +', 6: 'new postrm failed-upgrade + +',
                7: 'dpkg removes what only the old package has', 8: 'new postinst configure +',
                9: 'old postinst abort-upgrade +', 10: 'new postrm abort-upgrade + +', 11: 'old postinst abort-upgrade +',
                12: RESTORE, 13: 'old preinst abort-upgrade +', 14: RESTORE},
    'remove': {1: 'new prerm remove', 2: 'dpkg removes the files', 3: 'new postrm remove', 4: 'new postinst abort-remove'},
    'purge': {1: 'new prerm remove', 2: 'dpkg removes the files', 3: 'new postrm remove', 4: 'dpkg removes the conffiles',
              5: 'new postrm purge', 6: 'new postinst abort-remove'},
    'purge-later': {1: 'dpkg removes the conffiles', 2: 'new postrm purge'},
}
STATES = {
    'Installed': 'installed', 'Unpacked': 'unpacked, but not configured (dpkg: unpacked)',
    'Half-Configured': 'unpacked, but its configuration failed (dpkg: half-configured)',
    'Half-Installed': 'neither installed nor removed as a whole (dpkg: half-installed)',
    'Config-Files': 'removed, but not purged (dpkg: config-files)', 'Not-Installed': 'not installed',
}
# What stands before all that `explain` says, and on no page.
LEGEND = '''\
An outcome stands for all systems on which a scenario goes the same way, act by act.
An undecided one is known up to its place: what it does from there is not, nor how the package is left.
Lines that are known not to be reached stand at the end of a scenario; of others nothing is said.
In the line of a script [..] stands for what is left out.

'''
WELL, FAILING, OPEN = 0, 1, 2
CLASS = ['well', 'failing', 'undecided']
HEADS = ['ends well', 'FAILS on some systems', 'UNDECIDED']
ENDS = [' end well', ' fail', ' undecided']
STYLE = '''\
:root{color-scheme:light dark;--ink:#1c1c21;--paper:#fff;--soft:#f3f3f6;--edge:#d5d5dc;--dim:#5f5f6b;
--bad:#a8201a;--open:#7a4f00;--good:#1b6430;--link:#0b4fc0;--mark:#fff3c4}
@media (prefers-color-scheme:dark){:root{--ink:#e8e8ec;--paper:#17171b;--soft:#222228;--edge:#3c3c46;--dim:#a2a2ae;
--bad:#ff9a91;--open:#f0b95a;--good:#84d79a;--link:#93bbff;--mark:#4a3d10}}
body{margin:0 auto;max-width:76rem;padding:1rem;font:1rem/1.5 system-ui,sans-serif;color:var(--ink);background:var(--paper)}
h1{font-size:1.5rem;overflow-wrap:anywhere}h2{font-size:1.25rem;margin:0}a{color:var(--link)}p{margin:.5rem 0}
section{margin:2rem 0;padding-top:1rem;border-top:2px solid var(--edge)}footer{border-top:2px solid var(--edge)}
.failing{color:var(--bad)}.undecided{color:var(--open)}.well{color:var(--good)}
details{margin:.75rem 0;padding:.5rem .75rem;border:1px solid var(--edge);border-left:.3rem solid;border-radius:.3rem}
details.script{border-left-color:var(--edge);padding:.5rem 0 0}details.script>summary{padding:0 .75rem .5rem}
summary{cursor:pointer;font-weight:600;overflow-wrap:anywhere}details>p,details>ul,details>pre{color:var(--ink)}
details a{overflow-wrap:anywhere;scroll-margin-top:5rem}
pre,td:last-child,code{font-family:ui-monospace,monospace;font-size:.875rem;white-space:pre-wrap;overflow-wrap:anywhere;tab-size:4}
pre{margin:.5rem 0;padding:.75rem;background:var(--soft);border-radius:.3rem}
.made{color:var(--good)}.taken{color:var(--bad)}.changed{color:var(--open)}.decides{font-weight:700}
table{border-collapse:collapse;width:100%;font-size:.9rem}caption{text-align:left;padding:0 .75rem;color:var(--dim)}
th,td{padding:.1rem .5rem;text-align:left;vertical-align:top}thead th{border-bottom:1px solid var(--edge);font-size:.8rem}
tbody th,td:nth-child(2){text-align:right;font-weight:400;color:var(--dim);font-variant-numeric:tabular-nums}
.acts td:nth-child(2){color:var(--ink);font-weight:700}.acts{background:var(--soft)}.left{color:var(--dim)}td a{white-space:nowrap}
td:last-child{width:100%}tr:target,a:target{background:var(--mark)}
@media (max-width:40rem){body{padding:.5rem}th,td{padding:.1rem .25rem}caption{padding:0 .25rem}}
@media print{body{max-width:none;padding:0;font-size:.8rem}details{break-inside:auto}tr{break-inside:avoid}}
'''
BEGIN = '''\
<!doctype html>
<html lang="en">
<head>
<meta charset="utf-8">
<meta name="viewport" content="width=device-width, initial-scale=1">
<meta http-equiv="Content-Security-Policy" content="default-src 'none'; style-src 'unsafe-inline'">
<title>colis: %NAME%</title>
<style>
''' + STYLE + '''\
</style>
</head>
<body>
<h1>%NAME%</h1>
<nav aria-label="Scenarios">
<ul>
'''
TABLE = '''\
</summary>
<table><caption>Acts: of how many outcomes an act stands in the line. Ends: how many end there. \
A line where both are blank may be passed all the same; lines that no outcome reaches say so, where that is known.</caption>
<thead><tr><th scope="col">Line</th><th scope="col">Acts</th><th scope="col">Ends</th>\
<th scope="col">Text</th></tr></thead>
<tbody>
'''


class Page(html.parser.HTMLParser):
    """A page as a browser reads it, and what of it may not be."""

    def __init__(self, text):
        super().__init__(convert_charrefs=True)
        self.ids, self.links, self.faults, self.stack = [], [], [], []
        self.sections, self.premises, self.title = [], '', ''
        self.policy = False
        self.feed(text)
        self.close()
        self.faults += [f'<{name}> stays open' for name, _ in self.stack]

    def within(self, *names):
        return any(name in names for name, _ in self.stack)

    def handle_starttag(self, tag, attrs):
        given = dict(attrs)
        if tag in ('script', 'link', 'img', 'iframe', 'object', 'embed', 'base', 'form', 'audio', 'video'):
            self.faults.append(f'an element {tag}')
        for name, value in attrs:
            if name.startswith('on') or name in ('src', 'style', 'srcset', 'action'):
                self.faults.append(f'an attribute {name}')
            if name == 'href':
                self.links.append(value)
            if name == 'id':
                self.ids.append(value)
        if tag == 'meta' and given.get('http-equiv') == 'Content-Security-Policy':
            self.policy = given['content'].startswith("default-src 'none'")
        if tag == 'section':
            self.sections.append({'head': '', 'counts': '', 'groups': '', 'said': '', 'tables': []})
        if tag == 'details':
            if given['class'] == 'script':
                self.sections[-1]['tables'].append({'file': '', 'left': []})
            else:
                self.sections[-1]['groups'] += '\n'
        if tag == 'tr' and given.get('class') == 'left':
            self.sections[-1]['tables'][-1]['left'].append(given['id'].rsplit('-', 1)[1])
        if tag not in VOID:
            self.stack.append((tag, given))

    def handle_endtag(self, tag):
        if not self.stack or self.stack[-1][0] != tag:
            self.faults.append(f'</{tag}> where {self.stack[-1:]} is open')
        else:
            self.stack.pop()

    def handle_data(self, text):
        if self.within('h1'):
            self.title += text
        elif self.within('footer') and self.within('pre'):
            self.premises += text
        elif self.within('section'):
            section = self.sections[-1]
            group = any(name == 'details' and given['class'] != 'script' for name, given in self.stack)
            if self.within('h2'):
                section['head'] += text
            elif group and self.within('summary'):
                # (how many outcomes end elsewhere stands below the group's first line)
                section['groups'] += text.partition('\n')[0] + '\n'
            elif group and self.within('pre'):
                section['groups'] += text
            elif self.within('summary'):
                section['tables'][-1]['file'] += text
            elif self.within('pre'):
                section['said'] += text
            elif self.within('p') and not group:
                section['counts'] += text

    def text(self):
        """What `explain` says, put together from the page."""
        whole = ''
        for section in self.sections:
            if section['said']:
                whole += section['said']
                continue
            name, words = section['head'].split(': ', 1)
            whole += f'{self.title}, {name}: {words}\n' + section['counts'] + section['groups']
            for table in section['tables']:
                if table['left']:
                    file = re.sub(r'^[a-z-]*, (?:of the old package: )?(.*): acts of .*', r'\1', table['file'])
                    whole += f'\nNot reached in any outcome of {name}: {file}, {lines_words(table["left"])}\n'
            whole += '\n'
        return whole + self.premises


# ---- texts

def lines_words(numbers):
    return f'line {numbers[0]}' if len(numbers) == 1 else f'lines {numbers[0]} to {numbers[-1]}'


def spelled(name):
    """How a name is told: its bytes that are seen, and others as numbers."""
    return ''.join(chr(b) if 33 <= b <= 126 and chr(b) not in '\\,{}()' else f'\\x{b:02x}' for b in name) or '\\e'


def shown(text):
    """Bytes as a page shows them: its characters, but for those that are not seen or turn a line."""
    told = ''
    for char in text.decode('utf-8', 'surrogateescape'):
        code = ord(char)
        plain = char in '\t\n' or not (
            code < 32 or 127 <= code <= 159 or code == 0x61c or 0x200b <= code <= 0x200f or 0x2028 <= code <= 0x202e
            or 0x2060 <= code <= 0x206f or code == 0xfeff or 0xdc80 <= code <= 0xdcff)
        told += char if plain else ''.join(f'\\x{b:02x}' for b in char.encode('utf-8', 'surrogateescape'))
    return told


def escaped(text):
    told = ''
    for char in text:
        told += {'<': '&lt;', '>': '&gt;', '&': '&amp;', '"': '&quot;', "'": '&#39;'}.get(char, char)
    return told


def lines_of(text):
    """The lines of a text (of bytes or characters): the last one is a line where something stands in it."""
    lines = text.split(b'\n' if isinstance(text, bytes) else '\n')
    return lines if lines[-1] else lines[:-1]


def pre(text):
    told = '<pre>'
    for line in lines_of(text):
        sign = {'    - ': 'taken', '    + ': 'made', '    ~ ': 'changed'}.get(line[:6])
        sign = sign or ('decides' if line.endswith('<-- told above') else '')
        told += f'<span class="{sign}">{escaped(line)}</span>\n' if sign else escaped(line) + '\n'
    return told + '</pre>\n'


def shell_word(name):
    """A name as a word of a shell."""
    name = os.fsdecode(name)
    return name if re.fullmatch(r'[A-Za-z0-9+,./:@_-]+', name) else "'" + name.replace("'", "'\\''") + "'"


def command(line):
    return f'<code>{escaped(shown(os.fsencode(line)))}</code>'


def counted(count):
    return f'{count} outcome' if count == 1 else f'{count} outcomes'


# ---- a package

class Package:
    """The names, versions and scripts of a package's folder, and of the old one where it is named."""

    def __init__(self, where, name, options):
        old = options.get('--old')
        self.folders = {'new': name, 'old': old or name}
        self.words = shell_word(name) + ''.join(
            f' {option} {shell_word(options[option])}' for option in ('--old', '--base') if option in options)
        self.turns = '' if options.get('--turns', '100') == '100' else f' --turns {options["--turns"]}'
        self.alone = old is None
        self.texts = {}
        for side, folder in self.folders.items():
            for script in SCRIPTS:
                file = os.path.join(where, folder, script)
                self.texts[side, script] = open(file, 'rb').read() if os.path.exists(file) else b''

        def version(folder):
            control = open(os.path.join(where, folder, 'control'), 'rb').read()
            return spelled(re.search(rb'^version:[ \t]*(\S*)', control, re.I | re.M).group(1))

        self.name = self.folder('new') + ' ' + version(name) + (' over ' + version(old) if old else '')

    def folder(self, side):
        return spelled(os.fsencode(self.folders[side]))

    def file(self, side, script):
        return self.folder(side) + '/' + script

    def table_of(self, side, script):
        return ('new' if self.alone else side), script


# ---- outcomes

class Outcome:
    """An outcome of `check --json`: its marks, how it ends, and at which of them."""

    def __init__(self, scenario, given):
        self.number = given['number']
        self.marks = [tuple(int(n) for n in mark.split(':')) for mark in given['trace'].split() if mark != '-']
        way, *rest = given['result'].split()
        self.verdict = {'done': WELL, 'failed': FAILING, 'incomplete': OPEN, 'bound': OPEN}[way]
        self.way, self.why = way, rest[0] if way != 'bound' else ''
        if way == 'done':
            self.site = None
        elif way == 'failed':
            self.site = self.failed_at(STEPS[scenario], [line.split()[1:] for line in given['calls']])
        else:
            self.site = tuple(int(n) for n in rest[-1].split(':'))

    def failed_at(self, steps, calls):
        """The last mark in a step that makes the first call that failed; the last of all, where none failed."""
        failed = next((call for call in calls if call[-1] == 'failed'), None)
        marks = self.marks
        if failed:
            made = ' '.join(failed[:3] + ['-' if word == '\\e' else '+' for word in failed[3:-1]])
            marks = [mark for mark in marks if steps.get(mark[0]) == made]
        return marks[-1][:2] if marks else None

    def end(self):
        return self.way, self.why, self.site


class Part:
    """What is told of a scenario's outcomes."""

    def __init__(self, package, given):
        self.package, self.name = package, given['name']
        self.outcomes = [Outcome(self.name, outcome) for outcome in given['outcomes']]
        groups = {}
        for outcome in self.outcomes:
            groups.setdefault(outcome.end(), []).append(outcome)
        self.groups = list(groups.values())
        verdicts = [outcome.verdict for outcome in self.outcomes]
        self.counts = [verdicts.count(verdict) for verdict in (WELL, FAILING, OPEN)]
        self.verdict = FAILING if self.counts[FAILING] else OPEN if self.counts[OPEN] else WELL

    def spot(self, site):
        """Where a site is: in a script (side, script, byte), or in a step on files (words, number), or nowhere."""
        work = STEPS[self.name].get(site[0]) if site else None
        if work is None:
            return None
        if work.startswith('dpkg '):
            return work, site[1]
        side, script = work.split()[:2]
        return side, script, site[1]

    def position(self, spot):
        side, script, at = spot
        before = self.package.texts[side, script][:at]
        line = before[before.rfind(b'\n') + 1:]
        return before.count(b'\n') + 1, len(line.decode('utf-8', 'surrogateescape')) + 1

    def spot_text(self, spot):
        if spot is None:
            return self.package.folder('new')
        if len(spot) == 2:
            return f'{self.package.folder("new")}: {spot[0]}, act {spot[1]}'
        return '{}:{}:{}'.format(self.package.file(*spot[:2]), *self.position(spot))

    def word(self, spot):
        """The first word of the command there."""
        if spot is None or len(spot) == 2:
            return b''
        return re.match(rb'[^ \t\n;&|<>()]*', self.package.texts[spot[:2]][spot[2]:]).group(0)

    def together(self, a, b):
        a, b = a[0], b[0]
        return (a.way == b.way != 'done' and a.why == b.why and None not in (a.site, b.site) and a.site[0] == b.site[0]
                and self.word(self.spot(a.site)) == self.word(self.spot(b.site)))

    def told(self):
        """The groups that have a first line, in their order, each with those that are told with it."""
        firsts = [group for k, group in enumerate(self.groups)
                  if not any(self.together(other, group) for other in self.groups[:k])]
        ordered = [group for verdict in (FAILING, OPEN, WELL) for group in firsts if group[0].verdict == verdict]
        return [(group, [other for other in self.groups if other is group or self.together(group, other)])
                for group in ordered]

    def group_name(self, group):
        return f'{self.name}-{group[0].number}'

    def row_name(self, table, number):
        return f'{self.name}{"-" if table[0] == "new" else "-old-"}{table[1]}-{number}'

    def title(self, group, said):
        first = group[0]
        if first.way == 'incomplete':
            # (why, in the words of explain)
            why = said.partition(': undecided: ')[2].rpartition(' (')[0]
        elif first.way == 'bound':
            why = 'a loop takes more turns than it is given'
        else:
            why = STATES[first.why]
        way = [': ends well; the package is left ', ': failure; the package is left ', ': undecided: '][first.verdict]
        return f'{self.spot_text(self.spot(first.site))}{way}{why} ({counted(len(group))})'

    def place(self, group):
        spot = self.spot(group[0].site)
        link = ''
        if spot and len(spot) == 3:
            link = f' href="#{self.row_name(self.package.table_of(*spot[:2]), self.position(spot)[0])}"'
        line = f'colis explain {self.package.words} --scenario {self.name}{self.package.turns} --outcome {group[0].number}'
        return (f'<li><a id="{self.group_name(group)}"{link}>{escaped(self.spot_text(spot))}</a>: '
                f'{command(line)}</li>\n')

    def table(self, side, script, left):
        """A script: how many outcomes have an act in it, fail in it and are undecided in it, and of each line the same."""
        package, table = self.package, (side, script)

        def here(site):
            spot = self.spot(site)
            return spot is not None and len(spot) == 3 and package.table_of(*spot[:2]) == table

        text = package.texts[table]
        acts = [{mark[1] for mark in outcome.marks if here(mark[:2])} for outcome in self.outcomes]
        failing, undecided = (sum(outcome.verdict == verdict and here(outcome.site) for outcome in self.outcomes)
                              for verdict in (FAILING, OPEN))
        page = (f'<details class="script"{" open" if failing + undecided else ""}><summary>{self.name}, '
                f'{"of the old package: " if side == "old" else ""}{escaped(package.file(side, script))}: acts of {counted(sum(map(bool, acts)))}; '
                f'here {failing} fail, {undecided} undecided' + TABLE)
        begin = 0
        for number, line in enumerate(lines_of(text), 1):
            end = begin + len(line)
            acting = sum(any(begin <= at <= end for at in sites) for sites in acts)
            is_left = number in left
            ends = 'not reached' if is_left else ''
            for group in self.groups:
                if here(group[0].site) and begin <= group[0].site[1] <= end:
                    verdict = group[0].verdict
                    ends += (f'<a class="{CLASS[verdict]}" href="#{self.group_name(group)}">'
                             f'{len(group)}{ENDS[verdict]}</a> ')
            kind = 'left' if is_left else 'acts' if acting else ''
            page += ('<tr' + f' class="{kind}"' * bool(kind) + f' id="{self.row_name(table, number)}">'
                     f'<th scope="row">{number}</th><td>{acting or ""}</td><td>{ends}</td>'
                     f'<td>{escaped(shown(line))}</td></tr>\n')
            begin = end + 1
        return page + '</tbody></table></details>\n'


# ---- the page that is expected

def section_begin(name, kind, words):
    return f'<section id="{name}">\n<h2 class="{kind}">{name}: {words}</h2>\n'


def examined(part, told):
    """A scenario's part of the page. `told` is what explain says of it from its first line on; what is left of it comes
    behind. Faults: words of explain that are not those that the outcomes give."""
    faults = []
    all_count = len(part.outcomes)
    counts = (f'{counted(all_count)}: {part.counts[FAILING]} failing, {part.counts[OPEN]} undecided, '
              f'{part.counts[WELL]} ending well\n')
    head = f'{part.package.name}, {part.name}: {HEADS[part.verdict]}\n{counts}'
    if not told.startswith(head):
        faults.append(f'{part.name}: explain says {told[:200]!r} and not {head!r}')
    paragraphs = told.split('\n\n')
    page = section_begin(part.name, CLASS[part.verdict], HEADS[part.verdict]) + f'<p>{escaped(counts)}</p>\n'
    groups = part.told()
    at = 1
    for group, others in groups:
        said, _, body = paragraphs[at].partition('\n')
        title = part.title(group, said)
        if said != title:
            faults.append(f'{part.name}: explain says {said!r} and not {title!r}')
        elsewhere = sum(len(other) for other in others if other is not group)
        further = f'and the same elsewhere: {counted(elsewhere)}' if elsewhere else ''
        page += (f'<details class="{CLASS[group[0].verdict]}"><summary>{escaped(title)}\n{further}</summary>\n<p>Places where it ends so, '
                 'each with the command line that shows its first outcome:</p>\n<ul>\n'
                 + ''.join(part.place(other) for other in others) + '</ul>\n' + pre(body + '\n') + '</details>\n')
        at += 1
    left = {}
    while paragraphs[at].startswith(f'Not reached in any outcome of {part.name}: '):
        file, first, last = re.match(r'[^:]*: (.*), lines? (\d+)(?: to (\d+))?$', paragraphs[at]).groups()
        left[file] = range(int(first), int(last or first) + 1)
        at += 1
    for side in ['new'] if part.package.alone else ['new', 'old']:
        for script in SCRIPTS:
            if part.package.texts[side, script]:
                page += part.table(side, script, left.pop(part.package.file(side, script), ()))
    faults += [f'{part.name}: {file} is not there' for file in left]
    return page + '</section>\n', '\n\n'.join(paragraphs[at:]), faults


def expected(package, parts, told):
    """The whole page, from the scenarios' parts of check --json, where they have one, and what explain says."""
    items, sections, faults = '', '', []
    for name in SCENARIOS:
        if name in parts:
            part = Part(package, parts[name])
            kind, words = CLASS[part.verdict], HEADS[part.verdict]
            section, told, found = examined(part, told)
            faults += found
        else:
            kind, words = 'undecided', 'NOT EXAMINED'
            why, _, told = told.partition('\n\n')
            if not why.startswith(f'{package.name}, {name}: NOT EXAMINED\n'):
                faults.append(f'{name}: explain says {why[:200]!r}')
            section = section_begin(name, kind, words) + pre(why + '\n\n') + '</section>\n'
        items += f'<li><a href="#{name}">{name}</a>: <strong class="{kind}">{words}</strong></li>\n'
        sections += section
    if not told.startswith('Premises: '):
        faults.append(f'behind the scenarios explain says {told[:200]!r}')
    return (BEGIN.replace('%NAME%', escaped(package.name)) + items + '</ul>\n</nav>\n<main>\n' + sections + '</main>\n<footer>\n'
            + pre(told) + f'<p>The whole report: {command("colis check " + package.words + package.turns)}</p>\n</footer>\n'
            '</body>\n</html>\n'), faults


# ---- calls

def call(program, *words, folder=None):
    env = dict(os.environ, ASAN_OPTIONS='detect_leaks=0', NO_COLOR='1')
    done = subprocess.run([program, *words], cwd=folder, env=env, stdin=subprocess.DEVNULL, capture_output=True)
    return done.returncode, done.stdout


def reported(program, words, where):
    """The parts of check --json by scenario; where not all can be reported at once, one at a time."""
    status, report = call(program, 'check', '--json', *words, folder=where)
    if status <= 2:
        return {part['name']: part for part in json.loads(report)['scenarios']}
    parts = {}
    for name in SCENARIOS:
        status, report = call(program, 'check', '--json', '--scenario', name, *words, folder=where)
        if status <= 2:
            parts[name] = json.loads(report)['scenarios'][0]
    return parts


def opened(page, home, *words):
    """What chromium prints of a page, and what its console says."""
    done = subprocess.run(
        [shutil.which('chromium'), '--headless', '--no-sandbox', '--disable-gpu', '--hide-scrollbars', '--no-first-run',
         '--disable-background-networking', '--disable-component-update', '--host-resolver-rules=MAP * ~NOTFOUND',
         f'--user-data-dir={home}', '--enable-logging=stderr', '--v=0', *words, 'file://' + page],
        capture_output=True, timeout=300)
    lines = done.stderr.decode('utf-8', 'replace').splitlines()
    return done.stdout.decode('utf-8', 'replace'), [line for line in lines if 'CONSOLE' in line]


def browsed(page, name, read, told):
    """Faults of a page in a browser: what the console says, requests, and another text or other anchors than read."""
    if not shutil.which('chromium'):
        return []
    keep = os.environ.get('PAGES')
    with tempfile.TemporaryDirectory() as home:
        dom, faults = opened(page, home, f'--log-net-log={home}/net.json', '--dump-dom')
        with open(f'{home}/net.json', encoding='utf-8') as log:
            asked = [event.get('params', {}) for event in json.load(log)['events']]
        # (the browser's own requests have no origin)
        faults += [f'a request: {params["url"]}' for params in asked
                   if 'url' in params and params.get('initiator', 'not an origin') != 'not an origin']
        seen = Page(dom)
        faults += ['the text in the browser is not that of explain'] * (seen.text() != told)
        faults += ['the browser has other anchors'] * (seen.ids != read.ids or seen.links != read.links)
        for width in (400, 1400) if keep else ():
            for look in ('light', 'dark'):
                dark = ['--force-dark-mode', '--blink-settings=preferredColorScheme=0'] if look == 'dark' else []
                faults += opened(page, home, *dark, f'--window-size={width},1800',
                                 f'--screenshot={keep}/{name}-{width}-{look}.png')[1]
    return faults


def differences(page, wanted):
    lines = list(difflib.unified_diff(wanted.split('\n'), page.split('\n'), 'expected', 'page', n=0, lineterm=''))
    return [f'not the page that is expected: {line[:300]}' for line in lines[2:14]] or ['other bytes than expected']


def looked_at(program, folder, options):
    where, name = os.path.split(folder.rstrip('/'))
    where = where or '.'
    words = [word for option in options.items() for word in option] + [name]
    status, told = call(program, 'explain', *words, folder=where)
    paged, page = call(program, 'explain', '--html', *words, folder=where)
    if status > 2:
        return [] if paged == status and not page else [f'status {paged} and not {status}']
    faults = [] if paged == status else [f'status {paged} and not {status}']
    told = told.decode('utf-8')
    if not told.startswith(LEGEND):
        faults.append(f'explain begins with {told[:200]!r}')
    told = told.removeprefix(LEGEND)
    package = Package(where, name, options)
    wanted, found = expected(package, reported(program, words, where), told)
    faults += found
    if page != wanted.encode('utf-8'):
        faults += differences(page.decode('utf-8'), wanted)
    read = Page(page.decode('utf-8'))
    faults += read.faults
    if not read.policy:
        faults.append('no policy')
    if read.text() != told:
        faults.append('the text is not that of explain')
    if len(set(read.ids)) != len(read.ids):
        faults.append('two places have one name')
    faults += [f'{link} leads nowhere' for link in read.links if link[:1] != '#' or link[1:] not in set(read.ids)]
    with tempfile.NamedTemporaryFile('wb', suffix='.html') as file:
        file.write(page)
        file.flush()
        if shutil.which('tidy'):
            done = subprocess.run(['tidy', '-q', '-e', '-utf8', file.name], capture_output=True, text=True)
            faults += [f'tidy: {line}' for line in done.stderr.splitlines()[:5]]
        if os.environ.get('PAGES'):
            shutil.copy(file.name, f'{os.environ["PAGES"]}/{name}.html')
        if not os.environ.get('UNBROWSED'):
            faults += browsed(file.name, name, read, told)
    return faults


def main():
    words = sys.argv[1:]
    program = os.path.join(os.path.dirname(os.path.abspath(__file__)), '..', 'colis')
    if words and os.path.isfile(words[0]):
        program = os.path.abspath(words.pop(0))
    options = {}
    while words and words[0] in ('--old', '--base', '--turns'):
        options[words[0]] = words[1] if words[0] == '--turns' else os.path.abspath(words[1])
        words = words[2:]
    bad = 0
    for folder in words:
        faults = looked_at(program, folder, options)
        bad += 1 if faults else 0
        for fault in faults:
            print(f'{folder}: {fault}')
    print(f'{len(words)} pages, {bad} with faults')
    return 1 if bad else 0


if __name__ == '__main__':
    sys.exit(main())
