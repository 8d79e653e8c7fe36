#!/usr/bin/env python3
"""Prints the figures of docs/MEASURED.md anew: what the program takes for scripts that are made here.

    measure.py times PROGRAM [CASE ..]          seconds by the clock (least of three runs) and memory at its peak
    measure.py instructions PROGRAM [CASE ..]   instructions, by valgrind's callgrind, of the same scripts made smaller
    measure.py series PROGRAM                   bytes of memory that one more series takes
    measure.py costly PROGRAM                   the inputs that cost most
    measure.py receive PROGRAM                  the page of streams of DogStatsD lines
    measure.py rules PROGRAM                    rules over streams of pages
    measure.py threads PROGRAM                  threads that register beside pages; PROGRAM is crates/turns_bench/out/turns_bench
    measure.py scrapes PROGRAM                  a page scraped beside counting threads; PROGRAM is crates/scrape_bench/out/scrape_bench. The
                                                Python that runs this has to have prometheus_client, for the second half

PROGRAM is else crates/metrics_drive/out/metrics_drive, as `rt run` or `rt ci` builds it. Payloads go over UDP to a socket of this script.
"""
import multiprocessing, os, random, re, socket, subprocess, sys, tempfile, time

AGENT = socket.socket(socket.AF_INET, socket.SOCK_DGRAM)
AGENT.bind(("127.0.0.1", 0))
ADDRESS = "127.0.0.1:%d" % AGENT.getsockname()[1]
CALLS = {"counter": "inc", "gauge": "add", "histogram": "rec"}


def pages(rounds, series):
    """One call a round on one of many counters."""
    for k in range(rounds):
        yield "round %d" % (k * 10**9)
        for i in range(series if k == 0 else 0):
            yield 'register counter "requests" "id"="%d"' % i
        yield "0 inc %d 1" % (k % series)


def lanes(rounds, count, each, series, kinds=("counter", "gauge")):
    """Rounds of so many lanes, of so many calls each, on series of the kinds in turn."""
    chance = random.Random(1)
    for k in range(rounds):
        yield "round %d" % (k * 10**9)
        for i in range(series if k == 0 else 0):
            yield 'register %s "work_%s" "id"="%d" "zone"="eu"' % (kinds[i % len(kinds)], kinds[i % len(kinds)], i)
        for lane in range(count):
            for _ in range(each):
                i = chance.randrange(series)
                kind = kinds[i % len(kinds)]
                yield "%d %s %d 0.%03d" % (lane, CALLS[kind], i, chance.randrange(1000)) if kind != "counter" else "%d inc %d 3" % (lane, i)


def registered(count, line, more=()):
    yield "round 0"
    yield from (line % i for i in range(count))
    yield from more


def past_a_limit(count):
    yield "series-limit 100"
    yield from registered(100 + count, 'register counter "requests" "id"="%d"')


def all_kinds(*given):
    return lanes(*given, kinds=("counter", "gauge", "histogram"))


# a case: its title with the size left open, its script, its size for times and for instructions
CASES = {
    "pages": ("%d pages of %d counters", pages, (20, 100_000), (20, 10_000)),
    "small": ("%d pages of %d counters", pages, (2_000, 1_000), (200, 1_000)),
    "rounds": ("%d rounds of %d lanes of %d calls on %d series", lanes, (2_000, 8, 2, 40), (200, 8, 2, 40)),
    "names": ("%d families of one counter", lambda n: registered(n, 'register counter "requests_%d" "code"="200"'), (200_000,), (20_000,)),
    "series": ("%d counters of one family", lambda n: registered(n, 'register counter "requests" "id"="%d"'), (900_000,), (20_000,)),
    "calls": ("%d rounds of %d lanes of %d calls on %d series", lanes, (10, 4, 50_000, 40), (5, 4, 5_000, 40)),
    "mixed": ("%d rounds of %d lanes of %d calls on %d series", lanes, (100, 8, 500, 100_000), (10, 8, 500, 10_000)),
    "histograms": ("%d rounds of %d lanes of %d calls on %d series of all kinds", all_kinds, (20, 4, 10_000, 400), (5, 4, 2_000, 400)),
}


def matchers(count, length=None):
    """So many matchers, and as many histograms, each of a name of its own; of one length, or of all lengths up to count."""
    text = lambda i: "m%07d" % i if length else "m" * (i + 1)
    for i in range(count):
        yield 'buckets-for full "%s" 1' % text(i)
    yield "round 0"
    for i in range(count):
        yield 'register histogram "%s"' % (text(i) if length else "n" * (count + 1) + str(i))


def one_key(count):
    labels = ['"k%d"="v"' % i for i in range(count)]
    yield "round 0"
    yield 'register counter "c" ' + " ".join(labels)
    yield 'register counter "c" ' + " ".join(reversed(labels))


def samples(count, head=()):
    yield from head
    yield "round 0"
    yield 'register histogram "h"'
    yield from ("0 rec 0 0.%06d" % i for i in range(count))


def summary_pages(count):
    yield "summary 1 %d" % (count * 10**9)
    for k in range(count):
        yield "round %d" % (k * 10**9)
        if k == 0:
            yield 'register histogram "h"'
        yield "0 rec 0 %d" % k


def of_one_hash(*variables):
    """Keys of one FNV-1a hash, as the script beside this one makes them."""
    words = ["awk", *(it for name in variables for it in ("-v", name)), "-v", "count=100000", "-f", os.path.dirname(os.path.abspath(__file__)) + "/keys_of_one_hash.awk"]
    return subprocess.run(words, stdout=subprocess.PIPE, text=True, check=True).stdout.splitlines()


COSTLY = [
    ("100,000 counters of as many names", lambda: registered(100_000, 'register counter "c%d"')),
    ("one key of 100,000 labels, registered in two orders", lambda: one_key(100_000)),
    ("16,000,000 samples by 16 `recn` lines", lambda: registered(1, 'register histogram "h%d"', ("0 recn 0 1 1000000",) * 16)),
    ("1,000,000 samples with a payload limit of 6", lambda: samples(1_000_000, ("dsd-limit 6",))),
    ("100,000 matchers of one length, and as many histograms", lambda: matchers(100_000, 8)),
    ("100,000 descriptions", lambda: registered(100_000, 'describe counter "c%d" - "x"')),
    ("100,000 counters whose names have one FNV-1a hash", lambda: of_one_hash()),
    ("100,000 counters of one name whose labels have one FNV-1a hash", lambda: of_one_hash("labels=1")),
    ("1,000 matchers of 1,000 lengths, and 1,000 longer names", lambda: matchers(1_000)),
    ("2,000 matchers of 2,000 lengths, and 2,000 longer names", lambda: matchers(2_000)),
    ("1,000,000 samples in a histogram of 100 bounds", lambda: samples(1_000_000, ("buckets " + " ".join(map(str, range(1, 101))),))),
    ("1,000,000 samples in a histogram of 1,000 bounds", lambda: samples(1_000_000, ("buckets " + " ".join(map(str, range(1, 1_001))),))),
    ("2,000 pages of a summary with a new value for each", lambda: summary_pages(2_000)),
    ("4,000 pages of a summary with a new value for each", lambda: summary_pages(4_000)),
    ("100,000 registrations past a limit of 100", lambda: past_a_limit(100_000)),
    ("200,000 registrations past a limit of 100", lambda: past_a_limit(200_000)),
]


def written(lines):
    file = tempfile.NamedTemporaryFile("w", suffix=".script")
    file.writelines(line + "\n" for line in lines)
    file.flush()
    return file


def payloads(lines, series):
    """A stream of payloads of so many lines in all, of counters, gauges and samples on so many series, each led by its length."""
    file = tempfile.NamedTemporaryFile(suffix=".payloads")
    kinds = ("hits_%d:1|c|#path:/", "load_%d:0.5|g|#host:a1", "took_%d:0.012|d|#path:/")
    text = [kinds[i % series % 3] % (i % series) for i in range(lines)]
    for begin in range(0, lines, 20):
        payload = "".join(line + "\n" for line in text[begin : begin + 20]).encode()
        file.write(len(payload).to_bytes(4, "little") + payload)
    file.flush()
    return file


def ruled_pages(pages, rows, rules):
    """So many rules, each over one of ten families, and so many pages of so many rows in ten families."""
    for i in range(rules):
        yield 'rule "r%d" sum f%d by "zone" over %d for 3' % (i, i % 10, i * 10)
    yield "pages"
    for page in range(pages):
        for family in range(10):
            yield "# TYPE f%d gauge" % family
            yield from ('f%d{id="%d",zone="%d"} %d' % (family, row, row % 5, page % 50 + row) for row in range(rows // 10))
            yield ""
        yield "# EOF"


def run(words, script):
    """Runs words over a script, and returns the seconds, the bytes of memory at the peak, and what came on standard error."""
    with open(script.name, "rb") as source, tempfile.NamedTemporaryFile("r") as note:
        begun = time.perf_counter()
        ended = subprocess.run(["/usr/bin/time", "-f", "%M", "-o", note.name, *words], stdin=source, stdout=subprocess.DEVNULL, stderr=subprocess.PIPE, text=True)
        seconds, size = time.perf_counter() - begun, int(note.read().split()[-1]) * 1024
    if ended.returncode:
        sys.exit("%s: status %d: %s" % (words, ended.returncode, ended.stderr))
    return seconds, size, ended.stderr


def least(words, script):
    """Returns the least seconds and bytes of three runs."""
    runs = [run(words, script) for _ in range(3)]
    return min(it[0] for it in runs), min(it[1] for it in runs)


def titled(title, sizes):
    return title % tuple(sizes) if title.count("%") else title


def times(program, names):
    print("| Case | Script | Seconds | MB |\n|---|---|---|---|")
    for name in names or CASES:
        title, script, sizes, _ = CASES[name]
        with written(script(*sizes)) as file:
            seconds, size = least([program, "drive", ADDRESS], file)
        print("| `%s` | %s | %.3f | %.0f |" % (name, titled(title, sizes), seconds, size / 1e6), flush=True)
    if not names:
        with written(()) as file:
            seconds, size = least([program, "bench", "10000"], file)
        print("| `bench` | `bench 10000` | %.3f | %.0f |" % (seconds, size / 1e6))


def instructions(program, names):
    print("| Case | Script | Million instructions |\n|---|---|---|")
    for name in names or CASES:
        title, script, _, sizes = CASES[name]
        with written(script(*sizes)) as file:
            _, _, said = run(["valgrind", "--tool=callgrind", "--callgrind-out-file=/dev/null", program, "drive", ADDRESS], file)
        print("| `%s` | %s | %.1f |" % (name, titled(title, sizes), int(re.search(r"Collected : (\d+)", said)[1]) / 1e6), flush=True)


def series(program, _names):
    print("| Kind | Bytes without a call | with a call |\n|---|---|---|")
    for kind, call in CALLS.items():
        told = []
        for called in (False, True):
            sizes = []
            for count in (100_000, 200_000):
                calls = ("0 %s %d 1" % (call, i) for i in range(count if called else 0))
                with written(registered(count, 'register %s "s" "id"="%%d"' % kind, calls)) as file:
                    sizes.append(least([program, "drive", ADDRESS], file)[1])
            told.append((sizes[1] - sizes[0]) / 100_000)
        print("| %s | %.0f | %.0f |" % (kind, *told), flush=True)


def costly(program, _names):
    print("| Script | Seconds | MB |\n|---|---|---|")
    for title, script in COSTLY:
        with written(script()) as file:
            seconds, size = least([program, "drive", ADDRESS], file)
        print("| %s | %.2f | %.0f |" % (title, seconds, size / 1e6), flush=True)


def receive(program, _names):
    print("| Lines | Series | MB of payloads | Seconds | MB |\n|---|---|---|---|---|")
    for lines, count in ((1_000_000, 1_000), (1_000_000, 100_000)):
        with payloads(lines, count) as file:
            seconds, size = least([program, "receive"], file)
            print("| %d | %d | %.1f | %.2f | %.0f |" % (lines, count, os.path.getsize(file.name) / 1e6, seconds, size / 1e6), flush=True)


def rules(program, _names):
    print("| Pages | Rows of each | Rules | MB of input | Seconds | MB |\n|---|---|---|---|---|---|")
    for pages_, rows, count in ((1_000, 1_000, 100), (1_000, 1_000, 10)):
        with written(ruled_pages(pages_, rows, count)) as file:
            seconds, size = least([program, "rules"], file)
            print("| %d | %d | %d | %.1f | %.2f | %.0f |" % (pages_, rows, count, os.path.getsize(file.name) / 1e6, seconds, size / 1e6), flush=True)


def threads(program, _names):
    print("| Counters before | In each of 8 threads | Pages beside | Seconds |\n|---|---|---|---|")
    for before, each, pages_ in ((0, 25_000, 0), (100_000, 25_000, 20)):
        with written(()) as file:
            seconds, _size = least([program, *map(str, (before, each, pages_))], file)
        print("| %d | %d | %d | %.2f |" % (before, each, pages_, seconds), flush=True)


PEER = """
import sys, threading, time
from prometheus_client import Counter, start_http_server
seconds, port, each = float(sys.argv[1]), int(sys.argv[2].split(":")[1]), int(sys.argv[3])
counter = Counter("counted", "calls", ["path"])
own = [[counter.labels("/%d/%d" % (thread, number)) for number in range(each)] for thread in range(8)]
start_http_server(port, "127.0.0.1")
counted = [0] * 8
def work(thread):
    end = time.time() + seconds
    while time.time() < end:
        for child in own[thread]:
            child.inc()
        counted[thread] += 1
threads = [threading.Thread(target=work, args=(thread,)) for thread in range(8)]
[it.start() for it in threads], [it.join() for it in threads]
[print("counted %d times" % it) for it in counted]
"""


def scraper(port, end, told):
    """Fetches the page over and over, and tells how often, how long the slowest took, and the bytes of the last."""
    times, slowest, size = 0, 0, 0
    while time.time() < end:
        began, size = time.time(), 0
        try:
            with socket.create_connection(("127.0.0.1", port)) as peer:
                peer.sendall(b"GET /metrics HTTP/1.1\r\nHost: here\r\nConnection: close\r\n\r\n")
                while piece := peer.recv(1 << 20):
                    size += len(piece)
        except OSError:
            # (the program has ended)
            break
        times, slowest = times + 1, max(slowest, time.time() - began)
    told.put((times, slowest, size))


def scrapes(program, _names):
    print("| Program | Clients | Million calls a second | Scrapes a second | Slowest, seconds | Bytes of a page |\n|---|---|---|---|---|---|")
    seconds, each = 10, 1250
    for name, command in (("this", [program]), ("`prometheus_client`", [sys.executable, "-c", PEER])):
        for clients, port in ((0, 9186), (4, 9187)):
            run = subprocess.Popen([*command, str(seconds), "127.0.0.1:%d" % port, str(each)], stdout=subprocess.PIPE, text=True)
            time.sleep(1)
            told = multiprocessing.Queue()
            peers = [multiprocessing.Process(target=scraper, args=(port, time.time() + seconds - 1.5, told)) for _ in range(clients)]
            [it.start() for it in peers]
            got = [told.get() for _ in peers]
            calls = sum(int(line.split()[1]) for line in run.communicate()[0].splitlines()) * each / seconds / 1e6
            rate = sum(it[0] for it in got) / (seconds - 1.5)
            scraped = "%.1f | %.3f | %d" % (rate, max(it[1] for it in got), got[0][2]) if got else " |  | "
            print("| %s | %d | %.1f | %s |" % (name, clients, calls, scraped), flush=True)


MODES = {it.__name__: it for it in (times, instructions, series, costly, receive, rules, threads, scrapes)}

if __name__ == "__main__":
    if len(sys.argv) < 3 or sys.argv[1] not in MODES:
        sys.exit(__doc__)
    MODES[sys.argv[1]](sys.argv[2], sys.argv[3:])
