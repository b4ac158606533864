"""Runs for tests/fuzz: a script and the files that it may read, from a random number.

A run begins as one of tests/scripts, of examples or a row of tests/streams.rows, or as a history and commands that are made here; then
lines and bytes of it are changed. What is made here is mostly right, so that edits are carried out, and then read on from."""

import os
import re

from running import TESTS, module_of

LONGEST = 20_000  # bytes of a session's files that is taken for a run
MOST_LINES = 30  # lines of a script
NUMBERS = [0, 1, 2, 3, 9, 16, 17, 63, 64, 65, 100, 255, 256, 1024, 4096, 65535, 4294967295, 4294967296, 250000000000, 250000000001,
           2**63, 2**64 - 1, 2**64]
BRANCHES = [b"refs/heads/master", b"refs/heads/master", b"refs/heads/side", b"refs/tags/light", b"main", b"refs/heads/lib/master"]
PEOPLE = [b"A <a@x>", b"Ann <ann@example.com>", b"<>", b"B  C <b@x>", b"\xe9 <a@x>"]
ZONES = [b"+0000", b"-0330", b"+9999"]
COMMENTS = [b"", b"same", b"same", b"a fix\n", b"two\nlines\n", b"-" * 78 + b"\n", b">" + b"-" * 78, b"x" * 70, b"\xff\x00", b"\n"]
PATHS = [b"f", b"g", b"d", b"d/f", b"d/g", b"d/e/f", b"secret", b"a b", b'"q', b"\xff"]
TAGS = [b"v1", b"v2", b"v1", b"refs/tags/v3", b"emptycommit-3"]
PATTERNS = [b"a", b"f", b"^d", b"c1|same", b"(a*)*b", b".", b"secret", b"/", b"(", b"a{2}", b"x+$", b"\\/", b"@x", b"(?-u)\\xff"]
TEXTS = [b"1970-01-01", b"1970-01-01T00:01:40Z", b"1970-01-01T00:01:40Z!a@x", b"1970-01-01T00:01:40Z!a@x#1", b"2011-02-29", b"#1",
         b"few", b"none", b"v1", b"main", b"refs/heads/side", b"master"]
AUTHORS = [b"a@x = Ann <ann@x>\n", b"# none\n\n = N <e>\n", b"ann@example.com = B <>\na@x = C <c@x>\nx\n"]
SIGNS = [b"<", b">", b'"', b"/", b"(", b")", b"~", b"?", b",", b"..", b"|", b"&", b"$", b"@", b"=", b"[", b"]", b":", b"\\", b" ", b"\t",
         b"\r", b"\x00", b"\x7f", b"\xff", b"\xc3\xa9", b"#", b"{", b"}", b"{0}", b"-", b"+", b"*", b"0", b"9", b"a"]

# Lines of scripts: of words with a bar between one is taken, and a word in capitals stands for one of its kind.
FORMS = b"""
SEL list|index|resolve|stamp|manifest|msgout
SEL list|index|resolve|stamp|manifest|msgout >out
list|index|names|summary|choose|write|manifest|msgout|stamp
drop|renumber|coalesce|simplify|tagify
SEL squash
SEL squash --pushforward|--pushback|--delete|--tagback
SEL squash --pushback --tagforward|--tagback
SEL delete
SEL split at NUMBER
SEL split by PATH
SEL reorder
SEL reparent
SEL reparent --rebase|--use-order
SEL reparent --use-order --rebase
SEL merge|unmerge
SEL add OPERATION
SEL remove NUMBER|PATH
expunge PATH|PATTERN
expunge PATH PATTERN
path rename PATH d/new|PATH
paths sub|sup top|d|PATH
SEL coalesce 0|100|999999999
SEL simplify
SEL assign few|more
SEL graft REPO
SEL graft REPO --prune
unite REPO REPO
unite REPO REPO --prune
SEL divide
SEL msgout >box
msgin <box
authors read <au
SEL timeoffset +60|-100|+250000000000
SEL timeoffset +60|-100 -0330
SEL setfield comment "two words"|same|""
SEL setfield branch refs/heads/side|main
SEL setfield name v1|v2
SEL tagify
choose|drop REPO
read <FILE
write >w.fi|>a.fi
sample NUMBER NUMBER
SEL do m SPOT
do m :1
define m {0} list|delete
define m {; SEL squash|delete; {0} resolve; }
define m {; do m {0}; }
""".strip().split(b"\n")


class Words:
    """What a script may speak of: marks, numbers of events, files and repositories."""

    def __init__(self, files):
        text = b"\n".join(data for name, data in files.items() if name.endswith(".fi"))
        self.marks = sorted({int(it) for it in re.findall(rb"^mark :(\d+)$", text, re.M)})[:40] or [1]
        self.blobs = sorted({int(it) for it in re.findall(rb"^blob\nmark :(\d+)$", text, re.M)})[:40] or [1]
        self.files = [name for name in files if name.endswith(".fi")] or ["a.fi"]
        self.repos = [name.removesuffix(".fi").encode() for name in self.files]


# ---- histories

def changed(tree, line):
    """The paths of a tree after an operation."""
    word, *fields = line
    below = lambda path, top: path == top or path.startswith(top + b"/")
    if word == b"deleteall":
        return set()
    if word in (b"M", b"D"):
        path = fields[-1]
        kept = {it for it in tree if not below(it, path) and not (word == b"M" and below(path, it))}
        return kept | {path} if word == b"M" else kept
    source, target = fields
    taken = {it for it in tree if below(it, source)}
    kept = tree - taken if word == b"R" else tree
    kept = {it for it in kept if not below(it, target) and not below(target, it)}
    return kept | {target + it[len(source):] for it in taken}


def shown(path, is_source=False):
    quoted = path.startswith(b'"') or (is_source and b" " in path)
    return b'"' + path.replace(b"\\", b"\\\\").replace(b'"', b'\\"') + b'"' if quoted else path


class History:
    """A stream that is made event by event."""

    def __init__(self, rng):
        self.rng, self.lines, self.tips, self.blobs, self.commits = rng, [], {}, [], []
        self.mark = rng.choice([0, 0, 0, 10, 4294967200])
        self.trees, self.seconds = {}, rng.choice([0, 100, 1306281600])
        done = rng.random() < 0.1
        if done:
            self.lines.append(b"feature done")
        for _ in range(rng.randint(1, 16)):
            made = [self.blob] * 2 + [self.commit] * 4
            rng.choice(made + [self.tag, self.reset, self.alias, self.other] if self.commits else made)()
        if done:
            self.lines.append(b"done")

    def bytes(self):
        return b"".join(line + b"\n" for line in self.lines)

    def next_mark(self):
        self.mark += self.rng.choice([1, 1, 1, 2, 7])
        return self.mark

    def data(self, text):
        self.lines += [b"data %d" % len(text), text]

    def person(self):
        self.seconds += self.rng.choice([0, 0, 1, 60, 100])
        seconds = self.rng.choice([self.seconds, self.seconds, self.seconds, 100, 250000000000])
        return b"%s %d %s" % (self.rng.choice(PEOPLE), seconds, self.rng.choice(ZONES))

    def blob(self):
        self.blobs.append(self.next_mark())
        self.lines += [b"blob", b"mark :%d" % self.blobs[-1]]
        self.data(self.rng.choice([b"", b"%d" % self.mark, b"x\n", b"\x00\n\n"]))

    def parents(self, branch):
        """The mark of the first parent or None, and the lines for all of them."""
        rng, tip, lines = self.rng, self.tips.get(branch), []
        if self.commits and rng.random() < 0.4:
            tip = rng.choice(self.commits)
            lines.append(b"from :%d" % tip)
        elif self.tips and rng.random() < 0.1:
            other = rng.choice(sorted(self.tips))
            tip = self.tips[other]
            lines.append(b"from " + other)
        merged = rng.sample(self.commits, min(len(self.commits), rng.choice([0, 0, 0, 0, 1, 1, 2])))
        return tip, lines + [b"merge :%d" % it for it in merged]

    def operation(self, tree):
        """An operation that can be done, as its fields."""
        rng = self.rng
        roll = rng.random()
        if roll < 0.55 or not tree:
            return b"M", rng.choice([b"100644", b"100644", b"755", b"120000"]), rng.choice(PATHS)
        if roll < 0.65:
            return b"D", rng.choice(sorted(tree) + PATHS)
        if roll < 0.95:
            source = rng.choice(sorted(tree))
            return rng.choice([b"C", b"R"]), rng.choice([source, source.split(b"/")[0]]), rng.choice(PATHS)
        return (b"deleteall",)

    def commit(self):
        rng, branch = self.rng, self.rng.choice(BRANCHES)
        if rng.random() < 0.1:
            self.lines.append(b"reset " + branch)
            self.tips.pop(branch, None)
        first, parents = self.parents(branch)
        mark = self.next_mark()
        self.lines += [b"commit " + branch, b"mark :%d" % mark]
        if rng.random() < 0.5:
            self.lines.append(b"author " + self.person())
        self.lines.append(b"committer " + self.person())
        if rng.random() < 0.1:
            self.lines.append(b"encoding latin1")
        self.data(rng.choice([b"c%d" % mark, *COMMENTS]))
        self.lines += parents
        tree = set(self.trees.get(first, ()))
        for _ in range(rng.choice([0, 1, 1, 2, 3])):
            fields = self.operation(tree)
            self.write(fields)
            tree = changed(tree, fields)
        if rng.random() < 0.7:
            self.lines.append(b"")
        self.commits.append(mark)
        self.trees[mark], self.tips[branch] = tree, mark

    def write(self, fields):
        """The line of an operation, with the bytes of an inline one."""
        rng, (word, *rest) = self.rng, fields
        if word == b"M":
            link = rng.random() < 0.05
            inline = not link and (not self.blobs or rng.random() < 0.1)
            content = b"0123456789abcdef" * 2 + b"01234567" if link else b"inline" if inline else b":%d" % rng.choice(self.blobs)
            self.lines.append(b" ".join([b"M", b"160000" if link else rest[0], content, shown(rest[1])]))
            if inline:
                self.data(b"inline")
        elif word in (b"C", b"R"):
            self.lines.append(b" ".join([word, shown(rest[0], True), shown(rest[1])]))
        else:
            self.lines.append(b" ".join([word, *map(shown, rest)]))

    def tag(self):
        self.lines.append(b"tag " + self.rng.choice(TAGS))
        if self.rng.random() < 0.3:
            self.lines.append(b"mark :%d" % self.next_mark())
        self.lines.append(b"from :%d" % self.rng.choice(self.commits))
        if self.rng.random() < 0.7:
            self.lines.append(b"tagger " + self.person())
        self.data(self.rng.choice(COMMENTS))

    def reset(self):
        branch = self.rng.choice(BRANCHES)
        self.lines.append(b"reset " + branch)
        self.tips.pop(branch, None)
        if self.rng.random() < 0.7:
            self.tips[branch] = self.rng.choice(self.commits)
            self.lines.append(b"from :%d" % self.tips[branch])

    def alias(self):
        self.lines += [b"alias", b"mark :%d" % self.next_mark(), b"to :%d" % self.rng.choice(self.commits)]

    def other(self):
        self.lines.append(self.rng.choice([b"checkpoint", b"progress half  way", b"option quiet", b"feature notes"]))


# ---- commands

def spot(rng, words):
    return rng.choice([b":%d" % rng.choice(words.marks)] * 4 + [b"%d" % rng.randint(1, 12)] * 2 + [b"$", b"<%s>" % rng.choice(TEXTS)])


def selection(rng, words, depth=0):
    """A selection, mostly one that stands for something."""
    roll = rng.random()
    again = lambda: selection(rng, words, depth + 1)
    if roll < 0.45 or depth > 4:
        item = lambda: spot(rng, words) + (b".." + spot(rng, words) if rng.random() < 0.2 else b"")
        return b",".join(item() for _ in range(rng.choice([1, 1, 1, 2, 2, 3])))
    if roll < 0.6:
        return b"=" + bytes(rng.sample(b"BCTRPHOMFZ", rng.choice([1, 1, 2])))
    if roll < 0.7:
        return b"@%s(%s)" % (rng.choice(b"min max amp par chn dsc anc pre suc srt".split()), again())
    if roll < 0.76:
        return b"/%s/%s" % (rng.choice(PATTERNS), rng.choice([b"", b"c", b"a", b"ntb"]))
    if roll < 0.82:
        return rng.choice([b"[%s]", b"[/%s/]", b"[/%s/c]"]) % rng.choice(PATHS + PATTERNS)
    return rng.choice([b"~%s", b"(%s)", b"%s?", b"(%s)?"]) % again() if roll < 0.9 else again() + rng.choice([b"&", b"|"]) + again()


def command(rng, words):
    """Lines of a script: one of the forms."""
    path = lambda: b'"%s"' % it if b" " in (it := rng.choice(PATHS)) else it
    makers = {
        b"SEL": lambda: selection(rng, words),
        b"SPOT": lambda: spot(rng, words),
        b"PATH": path,
        b"PATTERN": lambda: b"/%s/" % rng.choice(PATTERNS),
        b"NUMBER": lambda: b"%d" % rng.choice([1, 1, 2, 2, 3, 9]),
        b"REPO": lambda: rng.choice(words.repos),
        b"FILE": lambda: rng.choice(words.files).encode(),
        b"OPERATION": lambda: rng.choice([
            b"M 100644 :%d %s" % (rng.choice(words.blobs), path()), b"M 160000 %s %s" % (b"01" * 20, path()), b"D " + path(),
            b"C %s %s" % (path(), path()), b"R %s %s" % (path(), path()), b"deleteall"]),
    }
    form = re.sub(rb'(?:"[^"]*"|[^\s";])+', lambda it: rng.choice(it[0].split(b"|")), rng.choice(FORMS))
    return re.sub(rb"[A-Z]{3,}", lambda it: makers[it[0]](), form).replace(b"; ", b"\n")


# ---- changes

def changed_bytes(rng, text, more):
    """A line with a small change."""
    at = rng.randint(0, len(text))
    numbers = [*re.finditer(rb"\d+", text)]
    roll = rng.random()
    if roll < 0.3 and numbers:
        it = rng.choice(numbers)
        number = b"%d" % rng.choice([*NUMBERS, int(it[0]) + 1, max(0, int(it[0]) - 1), rng.randint(0, 20)])
        return text[:it.start()] + number + text[it.end():]
    if roll < 0.5:
        return text[:at] + rng.choice(SIGNS) + text[at:]
    if roll < 0.65:
        return text[:at] + text[at + rng.choice([1, 1, 2, 5]):]
    if roll < 0.75:
        words = text.split(b" ")
        words.insert(rng.randint(0, len(words)), rng.choice(words))
        return b" ".join(words)
    if roll < 0.85:
        words = text.split(b" ")
        del words[rng.randrange(len(words))]
        return b" ".join(words)
    other = rng.choice(more) if more else text
    return text[:at] + other[rng.randint(0, len(other)):]


def changed_lines(rng, lines, more):
    """Lines of a text with a change; `more` are lines that may come in."""
    lines = list(lines) or [b""]
    at, other = rng.randrange(len(lines)), rng.randrange(len(lines))
    roll = rng.random()
    if roll < 0.4:
        lines[at] = changed_bytes(rng, lines[at], more)
    elif roll < 0.55:
        del lines[at:at + rng.choice([1, 1, 2, 4])]
    elif roll < 0.65:
        lines[other:other] = lines[at:at + rng.choice([1, 1, 3, 6])]
    elif roll < 0.75:
        lines[at], lines[other] = lines[other], lines[at]
    elif roll < 0.9 and more:
        lines.insert(at, rng.choice(more))
    elif lines[at:]:
        del lines[at + 1:]
        lines[at] = lines[at][:rng.randint(0, len(lines[at]))]
    return lines


def is_body(line):
    """Whether a line of a script opens a body."""
    return re.fullmatch(rb"define[ \t]+[A-Za-z][A-Za-z0-9_-]*[ \t]+\{", line.strip(b" \t\r"))


def harmless(lines):
    """The same lines, but that no file elsewhere is named, and no sample is large."""
    text = b"\n".join(lines)
    text = re.sub(rb"(?:^|(?<=[\s\"}]))>[^\s]*", lambda it: re.sub(rb"[/{]", b"_", it[0]), text, flags=re.M)
    text = re.sub(rb">(?=[\s\"]|$)", b">o", text) if b"define" in text else text
    text = re.sub(rb"(?<=[\s\"}])<[^\s>]*(?=\s|$)", lambda it: re.sub(rb"[/{]", b"_", it[0]), text)
    text = re.sub(rb"(?<=sample)([\s\"]+)(\d{3,})", lambda it: it[1] + it[2][:2], text)
    return text.split(b"\n")


# ---- runs

def rows():
    """A script that reads the stream of a row of tests/streams.rows, and the stream."""
    front = b"blob\nmark :1\ndata 0\ncommit b\nmark :2\ncommitter <> 0 +0000\ndata 0\nM 100644 :1 d/f\n\n"
    commit = b"commit b\nmark :3\ncommitter <> 0 +0000\ndata 0\n"
    begun = {"nothing": b"", "front": front, "commit": front + commit}
    with open(os.path.join(TESTS, "streams.rows"), encoding="utf-8") as it:
        for before, _, lines, *_ in (row.split("\t") for row in it if row.split("\t")[0] in begun):
            yield [b"read <a.fi", b"index"], {"a.fi": begun[before] + lines.encode().decode("unicode_escape").encode("latin1")}


def sessions():
    """What sessions and examples are: a script, as lines, and files, each with its name."""
    sessions, found = module_of("sessions"), []
    scripts = os.path.join(TESTS, "scripts")
    for page in sorted(os.listdir(scripts)):
        for it in sessions.sessions_of(os.path.join(scripts, page)):
            files = {name: it.files[data[1]] if isinstance(data, tuple) else data for name, data in it.files.items()}
            found.append((it.script, files))
    examples = os.path.join(os.path.dirname(TESTS), "examples")
    for name in sorted(os.listdir(examples)):
        folder = os.path.join(examples, name)
        if os.path.exists(os.path.join(folder, "script")) and name != "runaway-macro":  # that one takes its time
            files = sessions.read_files(folder)
            script = files.pop("script")
            found.append((script, {it: data for it, data in files.items() if it not in ("README.md", "printed", "status", "words")}))
    small = [it for it in found if len(it[0]) + sum(map(len, it[1].values())) <= LONGEST]
    return [(script.split(b"\n")[:MOST_LINES], files) for script, files in small]


class Maker:
    """Makes the run of a number."""

    def __init__(self, random):
        self.random, self.sessions, self.rows = random, sessions(), [*rows()]
        every = self.sessions + self.rows
        self.script_lines = sorted({line for script, _ in every for line in script})
        streams = {line for _, files in every for name, data in files.items() if name.endswith(".fi") for line in data.split(b"\n")}
        self.stream_lines = sorted(line for line in streams if len(line) < 200)
        self.boxes = [data for _, files in every for name, data in files.items() if data.startswith(b"-" * 78)]

    def run(self, number):
        """The lines of a script, and files."""
        rng = self.random.Random(number)
        if rng.random() < 0.45:
            files = {"a.fi": History(rng).bytes()}
            if rng.random() < 0.4:
                files["b.fi"] = History(rng).bytes()
            script = [b"read <" + name.encode() for name in files]
        else:
            script, files = rng.choice(self.rows if rng.random() < 0.2 else self.sessions)
            script, files = list(script), dict(files)
        files.setdefault("au", rng.choice(AUTHORS))
        if self.boxes:
            files.setdefault("box", rng.choice(self.boxes))
        words = Words(files)
        for _ in range(rng.choice([0, 1, 2, 4, 8])):
            at = rng.randint(min(len(script), 1), len(script))
            script[at:at] = command(rng, words).split(b"\n")
        for _ in range(rng.choice([0, 0, 0, 1, 2, 3])):
            script = changed_lines(rng, script, self.script_lines)
        for _ in range(rng.choice([0, 0, 0, 1, 1, 3])):
            name = rng.choice(sorted(files))
            data = changed_lines(rng, files[name].split(b"\n"), self.stream_lines)
            files[name] = b"\n".join(data)
        return harmless(script[:MOST_LINES]), files
