"""What `oracle/storms` asks for and holds the answers against: document 01's writer and demand 3, read independently of our definitions.

requests SEED COUNT                          commands for the writer
lines REQUESTS WRITTEN                       the writer's answers are those of document 01
reads SEED COUNT REQUESTS WRITTEN            the lines as commands for a reader: each message in order, with each line end, then storms
back SEED COUNT REQUESTS WRITTEN ANSWERS     the answers give back what was sent, and deliver what has to be delivered
"""
import random
import sys

# a line's own end, and those that a receiver may hand on in its place
ENDS = [b"\r\n", b"\n", b""]

TALKERS = ["AB", "AD", "AI", "AN", "AR", "AS", "AT", "AX", "BS", "SA"]


def requests(seed, count):
    """Random requests, one in eight of them with something outside the limits or with too little room."""
    r = random.Random(f"requests {seed}")
    for _ in range(count):
        bits = r.choice([r.randint(1, 2304), r.randint(1, 30), r.choice([1, 6, 8, 168, 360, 361, 720, 2303, 2304])])
        size = (bits + 7) // 8 + r.choice([0, 0, 0, 1, 9])
        talker, report = r.choice(TALKERS), r.choice(["VDM", "VDO"])
        channel, number, room = r.choice(["A", "B", "-"]), r.randint(0, 9), 1024
        odd = r.randrange(64)
        if odd == 0:
            bits = r.choice([0, 2305, 2**64 - 1])
        elif odd == 1:
            size = (bits + 7) // 8 - 1
        elif odd == 2:
            talker = "Unknown"
        elif odd == 3:
            report = "Unknown"
        elif odd == 4:
            channel = str(r.choice([0, 64, 67, 97, 255]))
        elif odd == 5:
            number = r.choice([10, 255])
        elif odd < 9:
            room = r.randint(0, 700)
        data = bytes(r.randrange(256) for _ in range(size)).hex() or "-"
        print("write", bits, talker, report, channel, number, room, data)


class Request:
    def __init__(self, command):
        _, count, self.talker, self.report, channel, number, room, data = command.split()
        self.count, self.number, self.room = int(count), int(number), int(room)
        self.data = b"" if data == "-" else bytes.fromhex(data)
        self.channel = {"-": "", "A": "A", "B": "B"}.get(channel)

    def outside(self):
        return (not 1 <= self.count <= 2304 or len(self.data) * 8 < self.count or self.talker not in TALKERS
                or self.report == "Unknown" or self.channel is None or self.number > 9)

    def bits(self):
        return "".join(f"{b:08b}" for b in self.data)[: self.count]

    def payload(self):
        """The characters, six bits each, the last ones completed with zeros; and how many zeros that are."""
        bits = self.bits()
        fill = -len(bits) % 6
        bits += "0" * fill
        values = [int(bits[i : i + 6], 2) for i in range(0, len(bits), 6)]
        return "".join(chr(v + 48 if v < 40 else v + 56) for v in values), fill

    def lines(self):
        text, fill = self.payload()
        parts = [text[i : i + 60] for i in range(0, len(text), 60)]
        for i, part in enumerate(parts, 1):
            number = "" if len(parts) == 1 else self.number
            body = f"{self.talker}{self.report},{len(parts)},{i},{number},{self.channel},{part},{fill if i == len(parts) else 0}"
            found = 0
            for c in body:
                found ^= ord(c)
            yield f"!{body}*{found:02X}\r\n"

    def answer(self):
        if self.outside():
            return "refused 13 ; kept"
        text = "".join(self.lines())
        return "refused 12 ; kept" if len(text) > self.room else f"lines {text.encode().hex()} ; kept"


def fail(*words):
    sys.exit("storms: " + " ".join(str(w) for w in words))


def taken(commands, answers):
    """The requests whose lines were written, with the lines as the writer gave them but for their ends."""
    for command, answer in zip(commands, answers):
        if answer.startswith("lines "):
            text = bytes.fromhex(answer.split()[1])
            yield Request(command), text.split(b"\r\n")[:-1]


def lines(commands, answers):
    if len(commands) != len(answers):
        fail("answers are missing")
    for command, answer in zip(commands, answers):
        if Request(command).answer() != answer:
            fail("not document 01's lines:", command, "was answered", answer)
    print(f"storms: {len(commands)} requests, {sum(a.startswith('lines') for a in answers)} written", file=sys.stderr)


def storm(r, sent):
    """Arrivals (message, line from 1): lines of some messages lost, repeated and swapped; those that would break the premise are left out."""
    some = [r.randrange(len(sent)) for _ in range(r.randint(1, 4))]
    arrivals = [(m, i) for m in some for i in range(1, len(sent[m][1]) + 1)]
    arrivals = [a for a in arrivals for _ in range(r.choice([0, 1, 1, 1, 1, 1, 1, 2]))]
    for _ in range(r.choice([0, 0, 1, 3, len(arrivals)])):
        if arrivals:
            i, j = r.randrange(len(arrivals)), r.randrange(len(arrivals))
            arrivals[i], arrivals[j] = arrivals[j], arrivals[i]
    kept, newest = [], None
    for m, i in arrivals:
        several = len(sent[m][1]) > 1
        if i != 1 and newest is not None and m != newest and sent[m][0].number == sent[newest][0].number:
            continue
        if i == 1 and several:
            newest = m
        kept.append((m, i))
    return kept


def runs(seed, count, sent):
    """What is read, each run into a fresh record, as (message, line, line end): every message in order with each end, then the storms."""
    r = random.Random(f"storms {seed}")
    for end in ENDS:
        for m, (_, text) in enumerate(sent):
            yield [(m, i, end) for i in range(1, len(text) + 1)]
    for _ in range(count):
        yield [(m, i, r.choice(ENDS)) for m, i in storm(r, sent)]


def reads(seed, count, sent):
    for arrivals in runs(seed, count, sent):
        print("fresh")
        for m, i, end in arrivals:
            print("read 0 384 288", (sent[m][1][i - 1] + end).hex())
    for request, _ in sent:
        text, fill = request.payload()
        print("unarmor", fill, 288, text.encode().hex())


def in_order(sent, arrivals, m):
    """Whether the lines of m come in order with no first line of several between its first and its last."""
    wanted = 0
    for k, i, _ in arrivals:
        if i == 1 and len(sent[k][1]) > 1:
            wanted = 2 if k == m else 0
        elif k == m and i == wanted:
            if i == len(sent[m][1]):
                return True
            wanted += 1
    return False


def back(seed, count, sent, answers):
    rest = iter(answers)
    handed = delivered = 0
    following = lambda: next(rest, None) or fail("answers are missing")
    for n, arrivals in enumerate(runs(seed, count, sent)):
        if following() != "fresh":
            fail("no fresh record")
        ours = {(sent[m][0].payload()[0].encode().hex(), sent[m][0].payload()[1]) for m, _, _ in arrivals}
        out = []
        for _ in arrivals:
            words = following().split()
            if n < len(ENDS) * len(sent) and words[0] == "refused":
                fail("a line of ours, in order, was refused", words)
            if words[0] == "complete":
                out.append((words[11], int(words[7])))
        if not set(out) <= ours:
            fail("a payload was handed out that was not sent", arrivals)
        handed += len(out)
        for m in {m for m, _, _ in arrivals}:
            request, text = sent[m]
            whole = (request.payload()[0].encode().hex(), request.payload()[1])
            if in_order(sent, arrivals, m) if len(text) > 1 else True:
                delivered += 1
                if whole not in out:
                    fail("a message that came in order was not handed out", arrivals)
    for request, _ in sent:
        bits = request.bits()
        size = ((len(bits) + 5) // 6 * 6 + 7) // 8
        data = int(bits.ljust(size * 8, "0"), 2).to_bytes(size, "big").hex()
        if following() != f"bytes {data} ; kept":
            fail("other bits came back", request.count, request.data.hex())
    print(f"storms: {len(sent)} messages read back with CR LF, with LF and bare, {count} storms, {handed} payloads handed out, {delivered} had to be", file=sys.stderr)


def main():
    read = lambda name: open(name, encoding="ascii").read().split("\n")[:-1]
    written = lambda requests, answers: list(taken(read(requests), read(answers))) or fail("none of the requests was written: a larger COUNT has some")
    match sys.argv[1:]:
        case ["requests", seed, count]:
            requests(seed, int(count))
        case ["lines", asked, answers]:
            lines(read(asked), read(answers))
        case ["reads", seed, count, asked, answers]:
            reads(seed, int(count), written(asked, answers))
        case ["back", seed, count, asked, answers, heard]:
            back(seed, int(count), written(asked, answers), read(heard))
        case _:
            print(f"storms.py: what it is asked for is one of these:\n{__doc__}", file=sys.stderr)
            sys.exit(2)


main()
