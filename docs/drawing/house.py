"""The house: every crate of crates.txt, and an arrow to each crate that its sources call.

What is called is read from the sources and not from crates.txt, which may list more than is used. A crate without a function holds
theorems; its arrows, dashed, go to what its definitions and proofs cite. An arrow that a longer way implies is left out, as tred does:
most crates call wire, many bank, and the picture would be all arrows. Crates stand on floors: wire at the bottom, each other crate one
floor above the highest that it uses."""
import glob
import re
import subprocess
import textwrap
import xml.etree.ElementTree as xml
from xml.sax.saxutils import escape

SVG = "{http://www.w3.org/2000/svg}"


# ---- what is there

def listed(path):
    """Each crate of crates.txt with the comment above it."""
    crates, comment = {}, ""
    with open(path, encoding="utf-8") as f:
        for line in map(str.strip, f):
            if line.startswith("#"):
                comment = line[1:].strip()
            elif ":" in line:
                # a static library's line has a word behind the name
                crates[line.split(":")[0].split()[0]] = comment
    return crates


def text_of(*patterns):
    found = sorted(path for pattern in patterns for path in glob.glob(pattern, recursive=True))
    parts = []
    for path in found:
        with open(path, encoding="utf-8") as f:
            parts.append(f.read())
    return "\n".join(parts)


class Crate:
    def __init__(self, root, name, comment):
        self.name, self.comment, folder = name, comment, root + "/" + name
        # comments, texts and attributes aside, which may name lemmas, a name in front of :: is a crate or a type
        code = re.sub(r'//.*|"(\\.|[^"\\])*"|#!?\[[^\]]*\]', "", text_of(folder + "/src/**/*.rt"))
        laws = re.sub(r"(^|\s)--.*", "", text_of(folder + "/specs/**/*.antt", folder + "/proofs/**/*.antt"))
        self.proofs_only = not re.search(r"\bfn ", code)
        self.program = bool(glob.glob(folder + "/src/main.rt"))
        self.exports = bool(re.search(r"\bextern\s+fn ", code))
        cited = re.findall(r"\bRattle\.(\w+)", laws) if self.proofs_only else re.findall(r"\b(\w+)::", code)
        self.uses = set(cited) - {name}


def house(root):
    crates = [Crate(root + "/crates", name, comment) for name, comment in listed(root + "/crates.txt").items()]
    names = {crate.name for crate in crates}
    for crate in crates:
        crate.uses &= names
    return crates


def from_below(uses, step):
    """For each crate what step makes of it and of what it made of the crates that it uses."""
    made = {}

    def of(name):
        if name not in made:
            made[name] = step(name, [of(used) for used in uses[name]])
        return made[name]

    return {name: of(name) for name in uses}


def reduced(uses):
    """The uses without those that a longer way implies."""
    below = from_below(uses, lambda name, found: set(uses[name]).union(*found))
    return {name: [u for u in sorted(uses[name]) if not any(u in below[v] for v in uses[name])] for name in uses}


def floors(uses):
    return from_below(uses, lambda name, found: 1 + max(found, default=-1))


# ---- the graph

STYLES = {
    "exports": 'fillcolor="#f7d9c9", penwidth=2',
    "program": 'style="filled,rounded", fillcolor="#dcefdc"',
    "proofs": 'style="filled,dashed", fillcolor="#f4f0fa"',
    "library": 'fillcolor="#e8eef7"',
}
FONT = "Helvetica, Arial, sans-serif"
LEGEND = "Orange: called from C.   Green: programs.   Dashed: theorems, no code.   Arrows that a longer way implies are left out."


def kind(crate):
    if crate.proofs_only:
        return "proofs"
    if crate.program:
        return "program"
    return "exports" if crate.exports else "library"


def even_lines(words, widest):
    """As few lines as the widest line allows, and these of about one length."""
    lines = textwrap.wrap(words, widest)
    while widest > 1 and len(textwrap.wrap(words, widest - 1)) == len(lines):
        widest -= 1
        lines = textwrap.wrap(words, widest)
    return lines


def label(crate):
    lines = even_lines(crate.comment, 27)
    small = "<br/>".join(escape(line) for line in lines)
    return '<<b>%s</b><br/><font point-size="9">%s</font>>' % (crate.name, small), 0.38 + 0.16 * len(lines)


def node(crate):
    words, height = label(crate)
    return '  "%s" [label=%s, height=%.2f, %s];' % (crate.name, words, height, STYLES[kind(crate)])


def graph(crates):
    """The graph for dot. Boxes have fixed sizes, so that fonts don't move them."""
    uses = {crate.name: crate.uses for crate in crates}
    floor, drawn = floors(uses), reduced(uses)
    lines = [
        "digraph house {",
        '  graph [ranksep=0.38, nodesep=0.22, bgcolor=white, fontname="%s", fontsize=10, labelloc=b, label="%s"];' % (FONT, LEGEND),
        '  node [shape=box, style=filled, fixedsize=true, width=1.95, fontname="%s", fontsize=13];' % FONT,
        '  edge [color="#555555", arrowsize=0.7];',
    ]
    lines += [node(crate) for crate in crates]
    for level in sorted(set(floor.values())):
        lines.append("  { rank=same; %s }" % " ".join('"%s";' % name for name in floor if floor[name] == level))
    for crate in crates:
        style = " [style=dashed]" if crate.proofs_only else ""
        lines += ['  "%s" -> "%s"%s;' % (crate.name, used, style) for used in drawn[crate.name]]
    return "\n".join(lines + ["}", ""])


# ---- the picture

def centred(group):
    """A crate's box with its words held in the middle: dot sets where each line starts, which is right for one font only."""
    outline = re.search(r' (?:points|d)="([^"]*)"', group.group()).group(1)
    across = [float(x) for x in re.findall(r"(-?[\d.]+),", outline)]
    middle = 'text-anchor="middle" x="%g"' % ((min(across) + max(across)) / 2)
    return re.sub(r'text-anchor="start" x="[^"]*"', middle, group.group())


def drawing(root):
    """What dot makes of the graph, with the graph itself as its description, and without dot's version."""
    source = graph(house(root))
    svg = subprocess.run(["dot", "-Tsvg"], input=source, capture_output=True, text=True, check=True).stdout
    svg = re.sub(r"<!--.*?-->\n?", "", svg, flags=re.S)
    svg = re.sub(r'<g id="node\d+" class="node">.*?</g>', centred, svg, flags=re.S)
    return re.sub(r"(<svg[^>]*>\n)", lambda head: head.group(1) + "<desc>\n" + escape(source) + "</desc>\n", svg, count=1)


def canonical(svg):
    """What of the picture doesn't depend on the build of graphviz or on the fonts of a machine: the graph it was drawn from, and that each
    crate and each arrow of it is there, with its words. Where lines and letters stand may differ."""
    top = xml.fromstring(svg)
    there = []
    for group in top.iter(SVG + "g"):
        if group.get("class") in ("node", "edge"):
            words = " ".join("".join(t.itertext()) for t in group.iter(SVG + "text"))
            there.append((group.get("class"), group.find(SVG + "title").text, " ".join(words.split())))
    return top.find(SVG + "desc").text, sorted(there)
