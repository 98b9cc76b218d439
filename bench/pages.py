#!/usr/bin/env python3
"""Tests lsrace-pages: that its pages and SARIF logs are whole, and say what the reports say. It needs neither lsrace nor a compiler.

usage: bench/pages.py

Reports and preprocessed sources are those of the examples in crates/conformance/data/examples, and some written here: names and
texts that a page must escape, words that macros changed, files that can't be read, 64 sources. A page has balanced tags, names that
stand once, links that lead to names of the page, and nothing that asks a network or runs. A log has the fields that the schema of
SARIF 2.1.0 requires, no others than it knows, and regions that hold the words of the accesses.
"""
import collections
import html.parser
import json
import os
import re
import subprocess
import sys
import tempfile
import unittest

ROOT = os.path.dirname(os.path.dirname(os.path.abspath(__file__)))
EXAMPLES = os.path.join(ROOT, "crates", "conformance", "data", "examples")
ALONE = {"meta", "br", "wbr", "link", "img", "input", "hr"}


class Elements(html.parser.HTMLParser):
    """The elements of a page, which must be closed in the order in which they were opened."""

    def __init__(self, text):
        super().__init__()
        self.open, self.ids, self.links, self.tags, self.faults = [], [], [], collections.Counter(), []
        self.text_of = collections.defaultdict(str)  # of each element with a name, what is written in it
        self.feed(text)
        self.close()
        self.faults += ["%s is left open" % tag for tag, _ in self.open]

    def handle_starttag(self, tag, attrs):
        given = dict(attrs)
        self.tags[tag] += 1
        self.faults += ["%s has %s" % (tag, name) for name in given if name.startswith("on") or name in ("src", "action")]
        if given.get("id"):
            self.ids.append(given["id"])
        if "href" in given:
            self.links.append(given["href"])
        if tag not in ALONE:
            self.open.append((tag, given.get("id")))

    def handle_endtag(self, tag):
        if tag in ALONE or not self.open or self.open.pop()[0] != tag:
            self.faults.append("%s is closed and isn't open" % tag)

    def handle_data(self, data):
        for _, name in self.open:
            if name:
                self.text_of[name] += data


# What the schema of SARIF 2.1.0 says of the objects that logs here may have: the fields that it requires, and others that it knows.
SCHEMA = {
    "sarifLog": ("version runs", "$schema inlineExternalProperties properties"),
    "run": ("tool", "invocations conversion originalUriBaseIds artifacts logicalLocations graphs results automationDetails columnKind "
            "newlineSequences defaultEncoding defaultSourceLanguage versionControlProvenance properties language redactionTokens"),
    "tool": ("driver", "extensions properties"),
    "toolComponent": ("name", "fullName version semanticVersion informationUri rules notifications organization product guid properties "
                      "shortDescription fullDescription language contents"),
    "reportingDescriptor": ("id", "name shortDescription fullDescription help helpUri defaultConfiguration properties guid messageStrings"),
    "reportingConfiguration": ("", "enabled level rank parameters properties"),
    "multiformatMessageString": ("text", "markdown properties"),
    "message": ("text", "markdown id arguments properties"),
    "invocation": ("executionSuccessful", "commandLine arguments startTimeUtc endTimeUtc exitCode workingDirectory properties"),
    "artifact": ("", "location description parentIndex offset length roles mimeType contents encoding sourceLanguage hashes properties"),
    "artifactLocation": ("", "uri uriBaseId index description properties"),
    "result": ("message", "ruleId ruleIndex rule kind level locations analysisTarget guid correlationGuid occurrenceCount "
               "partialFingerprints fingerprints stacks codeFlows graphs relatedLocations suppressions baselineState rank properties"),
    "location": ("", "id physicalLocation logicalLocations message annotations relationships properties"),
    "physicalLocation": ("artifactLocation", "region contextRegion address properties"),
    "region": ("startLine", "startColumn endLine endColumn charOffset charLength byteOffset byteLength snippet message sourceLanguage"),
    "logicalLocation": ("", "name fullyQualifiedName decoratedName kind parentIndex index properties"),
    "codeFlow": ("threadFlows", "message properties"),
    "threadFlow": ("locations", "id message initialState immutableState properties"),
    "threadFlowLocation": ("", "index location stack kinds taxa module state nestingLevel executionOrder executionTimeUtc importance "
                           "webRequest webResponse properties"),
}
INSIDE = {  # the object that stands in a field, or in each element of its list
    ("sarifLog", "runs"): "run", ("run", "tool"): "tool", ("tool", "driver"): "toolComponent",
    ("toolComponent", "rules"): "reportingDescriptor", ("reportingDescriptor", "shortDescription"): "multiformatMessageString",
    ("reportingDescriptor", "fullDescription"): "multiformatMessageString", ("reportingDescriptor", "help"): "multiformatMessageString",
    ("reportingDescriptor", "defaultConfiguration"): "reportingConfiguration", ("run", "invocations"): "invocation",
    ("run", "artifacts"): "artifact", ("artifact", "location"): "artifactLocation", ("run", "results"): "result",
    ("result", "message"): "message", ("result", "locations"): "location", ("result", "relatedLocations"): "location",
    ("result", "codeFlows"): "codeFlow", ("codeFlow", "threadFlows"): "threadFlow", ("codeFlow", "message"): "message",
    ("threadFlow", "locations"): "threadFlowLocation", ("threadFlowLocation", "location"): "location",
    ("location", "physicalLocation"): "physicalLocation", ("location", "logicalLocations"): "logicalLocation",
    ("location", "message"): "message", ("physicalLocation", "artifactLocation"): "artifactLocation", ("physicalLocation", "region"): "region",
}
LISTS = {"runs", "rules", "invocations", "artifacts", "results", "locations", "relatedLocations", "logicalLocations", "roles",
         "codeFlows", "threadFlows"}
VALUES = {"version": {"2.1.0"}, "level": {"none", "note", "warning", "error"}, "columnKind": {"utf16CodeUnits", "unicodeCodePoints"},
          "importance": {"important", "essential", "unimportant"}}
LEAST = {"executionOrder": -1, "startLine": 1, "startColumn": 1, "endColumn": 1, "ruleIndex": -1, "index": -1, "id": -1}


def faults_of(kind, value, at="log"):
    """What breaks the schema in an object of a log."""
    required, known = (set(words.split()) for words in SCHEMA[kind])
    found = ["%s has no %s" % (at, name) for name in required - set(value)]
    found += ["%s has %s" % (at, name) for name in set(value) - required - known]
    for name, inner in value.items():
        where = "%s.%s" % (at, name)
        if (name in LISTS) != isinstance(inner, list):
            found.append("%s is a list and should not be, or isn't and should" % where)
        elif name in VALUES and inner not in VALUES[name]:
            found.append("%s is %r" % (where, inner))
        elif isinstance(inner, int) and inner < LEAST.get(name, inner):
            found.append("%s is %d" % (where, inner))
        elif (kind, name) in INSIDE:
            for nth, one in enumerate(inner if isinstance(inner, list) else [inner]):
                found += faults_of(INSIDE[kind, name], one, "%s[%d]" % (where, nth))
        if name in ("artifacts", "rules", "relatedLocations", "logicalLocations") and isinstance(inner, list):
            texts = [json.dumps(one, sort_keys=True) for one in inner]
            found += ["%s has one twice" % where] * (len(set(texts)) != len(texts))
    return found


class Pages(unittest.TestCase):
    """Runs lsrace-pages in a folder of its own."""

    def setUp(self):
        self.room = tempfile.TemporaryDirectory()
        self.addCleanup(self.room.cleanup)

    def put(self, name, data):
        """Writes a file into the folder."""
        with open(os.path.join(os.fsencode(self.room.name), os.fsencode(name)), "wb") as file:
            file.write(data if isinstance(data, bytes) else data.encode())
        return name

    def run_on(self, report, sources, *more):
        """What lsrace-pages says of a report and its sources."""
        words = [sys.executable, os.path.join(ROOT, "lsrace-pages"), "--html", "page.html", "--sarif=log.sarif", *more, report, *sources]
        return subprocess.run(words, cwd=self.room.name, capture_output=True, check=False)

    def made(self, report, sources, *more):
        """The page and the log, which must be whole."""
        ran = self.run_on(self.put("report", report), sources, *more)
        self.assertEqual((ran.returncode, ran.stdout, ran.stderr), (0, b"", b""))
        with open(os.path.join(self.room.name, "page.html"), encoding="utf-8") as file:
            text = file.read()
        with open(os.path.join(self.room.name, "log.sarif"), encoding="utf-8") as file:
            log = json.load(file)
        page = Elements(text)
        self.assertEqual(page.faults, [])
        self.assertEqual([name for name, times in collections.Counter(page.ids).items() if times > 1], [])
        self.assertEqual([link for link in page.links if link[:1] != "#" or link[1:] not in page.ids], [])
        self.assertEqual(page.tags["script"] + page.tags["link"] + page.tags["img"] + page.tags["iframe"], 0)
        self.assertNotRegex(text, r"https?:|url\(|@import|javascript:")
        self.assertEqual(faults_of("sarifLog", log), [])
        return text, page, log

    def read(self, example):
        """A report of the examples, with the name of its preprocessed source; the original stands beside it."""
        with open(os.path.join(EXAMPLES, example + ".c"), "rb") as file:
            self.put(example + ".i", file.read())
        with open(os.path.join(ROOT, "examples", example + ".c"), "rb") as file:
            self.put(example + ".c", file.read())
        with open(os.path.join(EXAMPLES, example + ".out"), encoding="utf-8") as file:
            return file.read(), [example + ".i"]

    def test_examples(self):
        """Each line of a report is told where it belongs."""
        for example in ("bank", "cache", "counter", "queue", "server"):
            report, sources = self.read(example)
            _, page, log = self.made(report, sources)
            number = suspects = 0
            for line in report.splitlines()[:-1]:
                if not line.startswith("  "):
                    number += 1
                    suspects += line.endswith(" suspect")
                    self.assertIn(line.split()[0], page.text_of["location-%d" % number])
                    continue
                found = re.match(r"  (\w+) (\S+:(\d+):\d+) in (\w+) (holding .*)$", line)
                kind, place, at, function, holding = found.groups()
                self.assertIn("%s%s in %s %s" % (kind, place, function, holding), page.text_of["location-%d" % number])
                self.assertRegex(page.text_of["f1-" + at], "%s.* in %s %s" % (kind, function, re.escape(holding)))
            self.assertEqual(len(log["runs"][0]["results"]), suspects)
            self.check_regions(report, log)

    def check_regions(self, report, log):
        """The regions of a log are the words at which the accesses of the report stand, in the same order."""
        places = re.findall(r"^  (\w+) \S+:(\d+):(\d+) ", report, re.M)
        told = []
        for result in log["runs"][0]["results"]:
            for spot in result["locations"] + result["relatedLocations"][:-1]:
                region = spot["physicalLocation"]["region"]
                told.append((spot["message"]["text"].split()[0], str(region["startLine"]), str(region["startColumn"])))
        self.assertEqual(told, places)

    def test_first_location_and_the_others(self):
        """A result stands at the first access; the others and the declaration are related, with the locks that are held."""
        report, sources = self.read("counter")
        run = self.made(report, sources)[2]["runs"][0]
        first, started = run["results"]
        self.assertEqual([spot["message"]["text"] for spot in first["locations"]], ["read in work holding lock"])
        self.assertEqual([spot["message"]["text"] for spot in first["relatedLocations"]],
                         ["write in work holding lock", "read in main holding nothing", "count, declared here"])
        self.assertEqual([spot["id"] for spot in first["relatedLocations"]], [1, 2, 3])
        self.assertEqual((started["level"], started["ruleId"]), ("warning", run["tool"]["driver"]["rules"][started["ruleIndex"]]["id"]))
        self.assertIn("[read at counter.c:26](2) in main holding nothing", first["message"]["text"])
        self.assertEqual(run["artifacts"][0]["location"]["uri"], "counter.c")

    def test_plays(self):
        """A play has a row an access in the column of its thread, and last a row of those that meet; in a log it is a code flow."""
        report, sources = self.read("counter")
        os.mkdir(os.path.join(self.room.name, "plays"))
        self.put("plays/2.name", "lsrace-schedules/started.txt\n")
        self.put("plays/2.play", "0 writes main.a counter.c:22:20\n0 writes main.b counter.c:23:20\nrace started\nend schedule\n")
        self.put("plays/2.meets", "1 write counter.c:11:5\n2 write counter.c:11:5\n")
        text, page, log = self.made(report, sources, "--plays", "plays")
        self.assertIn("lsrace-schedules/started.txt", page.text_of["play-2"])
        rows = [re.findall(r"<td.*?</td>", row, re.S) for row in re.findall(r"<tr.*?</tr>", text.split('id="play-2"')[1], re.S)[1:4]]
        plain = [[re.sub(r"<[^>]*>", "", cell) for cell in row] for row in rows]
        self.assertEqual([[cell.split(" ")[0] for cell in row] for row in plain], [["writes", "", ""], ["writes", "", ""], ["", "is", "is"]])
        self.assertIn("started = 1;", plain[2][1])
        first, second = log["runs"][0]["results"]
        self.assertEqual((first["level"], "codeFlows" in first, second["level"]), ("warning", False, "error"))
        flows = second["codeFlows"][0]["threadFlows"]
        self.assertEqual([(flow["id"], [step["executionOrder"] for step in flow["locations"]]) for flow in flows],
                         [("thread 0", [1, 2]), ("thread 1", [3]), ("thread 2", [3])])
        self.assertEqual([step["importance"] for flow in flows for step in flow["locations"]], ["important"] * 2 + ["essential"] * 2)
        self.assertTrue(second["message"]["text"].startswith("started has a data race"))

    def test_escapes(self):
        """Names and texts of a program are text in the page, whatever is in them."""
        name = 'a "b" <script>&é‮.c'
        self.put(name, b'int n; // </code><script>alert(1)</script> \xff \xe2\x80\xae\x01\nint m;\n')
        mark = name.replace('"', '\\"').encode()
        self.put("x.i", b'# 1 "' + mark + b'"\nint n;\nint m;\n')
        report = ("n %s:1:5 suspect\n  write %s:1:5 in f holding nothing\n  write %s:2:5 in <g> holding m\n"
                  "total 1, guarded 0, unshared 0, suspect 1\n")
        text, page, log = self.made(report.replace("%s", name), ["x.i"])
        self.assertNotIn("<script", text)
        self.assertNotIn("\u202e", text)
        self.assertIn("</code><script>alert(1)</script> \ufffd <U+202E>\u2401", page.text_of["f1-1"])
        uri = log["runs"][0]["artifacts"][0]["location"]["uri"]
        self.assertEqual(uri, "a%20%22b%22%20%3Cscript%3E%26%C3%A9%E2%80%AE.c")

    def test_bytes_that_are_no_text(self):
        """A file's name need not be text."""
        self.put(b"\xffe.c", "int n;\n")
        self.put("x.i", b'# 1 "\\377e.c"\nint n;\n')
        report = b"n \xffe.c:1:5 suspect\n  write \xffe.c:1:5 in f holding nothing\ntotal 1, guarded 0, unshared 0, suspect 1\n"
        _, page, log = self.made(report, ["x.i"])
        self.assertIn("int n;", page.text_of["f1-1"])
        self.assertEqual(log["runs"][0]["artifacts"][0]["location"]["uri"], "%FFe.c")

    def test_macros(self):
        """A word is found in the original line, though the preprocessor moved it; what a macro made is at the macro's name."""
        self.put("m.c", "#define ADD(x) (*(x) += 1)\nint  n,   /* two\nlines */ m;\nvoid f(void) {  ADD( &n );   m   = n; }\n")
        self.put("m.i", '# 0 "m.c"\n# 1 "m.c"\n\nint n,\n  m;\nvoid f(void) { (*(&n) += 1); m = n; }\n')
        report = ("n m.c:2:5 suspect\n  write m.c:4:16 in f holding nothing\n  read m.c:4:34 in f holding nothing\n"
                  "m m.c:3:3 suspect\n  write m.c:4:30 in f holding a, b\ntotal 2, guarded 0, unshared 0, suspect 2\n")
        text, _, log = self.made(report, ["m.i"])
        self.assertEqual(re.findall(r"<mark[^>]*>([^<]*)</mark>", text), ["ADD", "m", "n"])
        first, second = log["runs"][0]["results"]
        spots = first["locations"] + first["relatedLocations"] + second["locations"]
        self.assertEqual([spot["physicalLocation"]["region"].get("startColumn") for spot in spots], [17, 36, 6, 30])

    def test_a_file_that_is_not_there(self):
        """Of a file that can't be read the preprocessed lines are shown."""
        self.put("x.i", '# 1 "gone.c"\nint n;\n# 5 "gone.c"\nvoid f(void) { n = 1; }\n')
        report = "n gone.c:1:5 suspect\n  write gone.c:5:16 in f holding nothing\ntotal 1, guarded 0, unshared 0, suspect 1\n"
        text, page, _ = self.made(report, ["x.i"])
        self.assertIn("As the preprocessor left it", page.text_of["f1"])
        self.assertIn("n = 1", page.text_of["f1-5"])
        self.assertRegex(text, r"<mark[^>]*>n</mark>")

    def test_allocations_and_headers(self):
        """Blanks in names of files are part of them, and of lsrace's own headers the lines near what is said are shown."""
        os.mkdir(os.path.join(self.room.name, "include"))
        own = os.path.join(self.room.name, "include", "own.h")
        self.put(own, "".join("int x%d;\n" % number for number in range(1, 30)))
        self.put("my file.c", "void *p;\n")
        self.put("x.i", '# 1 "my file.c"\nvoid *p;\n# 1 "%s"\n%s' % (own, "".join("int x%d;\n" % number for number in range(1, 30))))
        report = ("heap@my file.c:1:7.next[] my file.c:1:7 guarded by heap@my file.c:1:7.lock, m\nx9 %s:9:5 suspect\n"
                  "  write %s:9:5 in f holding nothing\ntotal 2, guarded 1, unshared 0, suspect 1\n" % (own, own))
        _, page, _ = self.made(report, ["x.i"], "--headers", os.path.join(self.room.name, "include"))
        self.assertIn("heap@my file.c:1:7.next[]", page.text_of["location-1"])
        self.assertIn("own.h:9:5", page.text_of["location-2"])
        self.assertTrue(page.text_of["f2"].startswith("include/own.h"))
        self.assertIn("f2-9", page.ids)
        self.assertNotIn("f2-20", page.ids)
        self.assertNotIn(self.room.name, "".join(page.text_of.values()))

    def test_many_sources(self):
        """Sixty-four sources have 64 places in the page, and a line of one leads to the next of another."""
        names, report = [], "n s00.c:1:5 suspect\n"
        for number in range(64):
            self.put("s%02d.c" % number, "int n;\nvoid f%d(void) { n = 1; }\n" % number)
            names.append(self.put("s%02d.i" % number, '# 1 "s%02d.c"\nint n;\nvoid f%d(void) { n = 1; }\n' % (number, number)))
            report += "  write s%02d.c:2:%d in f%d holding nothing\n" % (number, 17 + len(str(number)), number)
        _, page, log = self.made(report + "total 1, guarded 0, unshared 0, suspect 1\n", names)
        self.assertEqual(len([name for name in page.ids if re.fullmatch(r"f\d+", name)]), 64)
        self.assertIn("next access: s01.c:2", page.text_of["f1-2"])
        self.assertEqual(len(log["runs"][0]["artifacts"]), 64)
        self.assertIn("and 51 more", log["runs"][0]["results"][0]["message"]["text"])

    def test_nothing_suspect(self):
        """A report of nothing suspect is told as that, and an empty program's too."""
        self.put("x.i", "int main(void) { return 0; }\n")
        text, _, log = self.made("total 0, guarded 0, unshared 0, suspect 0\n", ["x.i"])
        self.assertIn("No location is suspect.", text)
        self.assertEqual(log["runs"][0]["results"], [])

    def test_refusals(self):
        """What is no whole report, or can't be read or written, is said in one line."""
        self.put("x.i", "int n;\n")
        total = "total 0, guarded 0, unshared 0, suspect 0\n"
        for report in ("", total[:-1], "n x.i:1:5 suspect\n", "a b\n" + total):
            ran = self.run_on(self.put("report", report), ["x.i"])
            self.assertEqual(ran.returncode, 2)
            self.assertRegex(ran.stderr.decode(), r"\Alsrace-pages: this is no .*\n\Z")
        self.put("report", total)
        for source, page, said in (("none.i", "page", "read none.i"), ("x.i", "no/page", "write no/page")):
            ran = self.run_on("report", [source], "--html", page)
            self.assertEqual(ran.returncode, 2)
            self.assertRegex(ran.stderr.decode(), r"\Alsrace-pages: cannot %s: .*\n\Z" % said)


if __name__ == "__main__":
    unittest.main()
