"""The worked sessions, with their scripts, files and logs, as the tests in crates/test_sessions/src/tests have them."""
import glob
import os
import re
from dataclasses import dataclass

TOP = os.path.dirname(os.path.dirname(os.path.abspath(__file__)))
CONSTANT = re.compile(r"\bconst (\w+): [^=]+= ([^;\"]*(?:\"(?:[^\"\\]|\\.)*\"[^;\"]*)*);", re.DOTALL)
SESSION = re.compile(r"\b(?:const (\w+): Session|let (\w+)) = (Session \{.*?\n *\});", re.DOTALL)
TOKEN = re.compile(r'"(?:[^"\\]|\\.)*"|\w+|[{}\[\]:&(),]', re.DOTALL)
ESCAPE = re.compile(r"\\(\n\s*|.)", re.DOTALL)


@dataclass
class Row:
    """What each client says, by client, the files by name, and the logs and the listing that come of it."""
    name: str
    until: int
    scripts: dict
    logs: dict
    listing: str | None
    files: dict

    def put(self, folder):
        """Writes the scripts and the files to a folder, and gives the words that name the scripts."""
        os.makedirs(folder)
        scripts = {f"{client}.txt": script.encode() for client, script in self.scripts.items()}
        for name, content in {**scripts, **self.files}.items():
            with open(os.path.join(folder, name), "wb") as f:
                f.write(content)
        return [f"{client}={client}.txt" for client in self.scripts]


class Values:
    """Reads a value: a text, a number, a list, a struct as its fields, or what a constant names."""

    def __init__(self, text, constants):
        self.tokens, self.at, self.constants = TOKEN.findall(text), 0, constants

    def next(self):
        self.at += 1
        return self.tokens[self.at - 1]

    def took(self, token):
        found = self.at < len(self.tokens) and self.tokens[self.at] == token
        self.at += found
        return found

    def until(self, closing, one):
        found = []
        while not self.took(closing):
            found.append(one())
            self.took(",")
        return found

    def named(self):
        name = self.next()
        if not self.took(":"):
            raise ValueError(f"a field {name} without a value")
        return name, self.value()

    def value(self):
        token = self.next()
        if token == "&":
            return self.value()
        if token == "[":
            return self.until("]", self.value)
        if token[0] == '"':
            return ESCAPE.sub(lambda it: {"n": "\n", "\n": ""}.get(it[1][0], it[1]), token[1:-1])
        if token[0].isdigit():
            return int(token, 0)
        if token == "None":
            return None
        if token == "Some":
            return self.until(")", self.value)[0] if self.took("(") else None
        if self.took("{"):
            return dict(self.until("}", self.named))
        return Values(self.constants[token], self.constants).value()


def long_play():
    """The file that the test of that session makes: 5,000 notes, one at each tick from 0 on."""
    content = bytes.fromhex("00FF510307A120" "00900140") + bytes.fromhex("010140") * 4999 + bytes.fromhex("00FF2F00")
    header = bytes.fromhex("4D546864000000060000000101E0")
    return header + b"MTrk" + len(content).to_bytes(4, "big") + content


def rows():
    """The sessions, in the order in which the tests have them."""
    texts = []
    for path in sorted(glob.glob(os.path.join(TOP, "crates", "test_sessions", "src", "tests", "*.rt"))):
        with open(path, encoding="utf-8") as f:
            texts.append(re.sub(r"^ *//.*\n", "", f.read(), flags=re.MULTILINE))
    constants = {name: value for text in texts for name, value in CONSTANT.findall(text)}
    found = []
    for constant, local, value in (it for text in texts for it in SESSION.findall(text)):
        session = Values(value, constants).value()
        files = {song["name"]: bytes(song["bytes"]) for song in session["songs"]}
        if constant == "LONG_PLAY":
            files["l.mid"] = long_play()
        parts = {part["client"]: part for part in session["parts"]}
        found.append(Row(
            (constant or local).lower().replace("_", " "), session["until"],
            {client: part["script"] for client, part in parts.items()}, {client: part["log"] for client, part in parts.items()},
            session["listing"], files))
    if len(found) != sum(text.count("= Session {") for text in texts):
        raise ValueError("a session of the tests has another form")
    return found


SENDS = "0 open a 2000 2000\n0 port 0 out 33\n"
HEARS = "0 open b 2000 2000\n0 port 0 in 66\n0 connect 128:p0 129:p0\n"
HEARS_LOG = "".join(f"0 line {line} ok\n" for line in range(1, 4))


def longest_script():
    lines = range(1, 131_073)
    return Row("longest script", 10, {128: "0 pools\n" * len(lines)},
               {128: "".join(f"0 line {line} refused 1 NotOpen\n" for line in lines)}, "", {})


def full_pools():
    """A client has all pending that it may, and another takes all out that can wait."""
    pending = 2000
    sends = SENDS + "0 queue 0 480 500000\n0 start 128:q0\n" + "0 schedule 128:q0 0 n100 90 3C 40\n" * pending + "0 pools\n"
    sends_log = "".join(f"0 line {line} ok\n" for line in range(1, pending + 5)) \
        + f"0 line {pending + 5} ok waiting 0 lost 0 used {pending}\n"
    hears_log = HEARS_LOG + "100 port 0 90 3C 40\n" * pending + f"200 line 4 ok waiting {pending} lost 0 used 0\n" \
        + f"200 line 5 ok {pending}\n" + "got 100 port 0 90 3C 40\n" * pending
    return Row("full pools", 300, {128: sends, 129: HEARS + "200 pools\n200 receive 2000\n"},
               {128: sends_log, 129: hears_log}, None, {})


def longest_exclusive():
    message = "F0" + " 01" * 65_536 + " F7"
    return Row("longest exclusive", 10, {128: f"{SENDS}1 send 0 {message}\n", 129: HEARS},
               {128: "0 line 1 ok\n0 line 2 ok\n1 line 3 ok\n", 129: f"{HEARS_LOG}1 port 0 {message}\n"}, None, {})


def long_rows():
    """Sessions as long as they may be."""
    return [longest_script(), full_pools(), longest_exclusive()]
