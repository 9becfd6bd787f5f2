#!/bin/sh
# Runs proved programs with requests for memory refused: vx_table_tests and vx_data_rows over each line of
# their tables `refused`, and vx_show of each row, with the first, second, .. request refused, and with
# all from the first, second, .. on. Then vx over files of which one is ten times the other, whose
# records it has to read in the same memory. `rt ci` has built the programs. What it shows, and how, is
# said in docs/audit/REFUSALS.md. The status is 1 where a run ends otherwise than it may.
set -eu
cd "$(dirname "$0")/.."
room=$(mktemp -d)
trap 'rm -r "$room"' EXIT
rustc --edition 2024 -O -C panic=abort --crate-type cdylib tools/refuse_alloc.rs \
    -o "$room/librefuse.so"
# (so many that what a batch takes has its full size in the shorter file, too)
tools/records.sh 50000 csv >"$room/some.csv"
tools/records.sh 50000 jsonl >"$room/some.jsonl"
PYTHONUTF8=1 python3 - "$room" <<'PYTHON'
import multiprocessing, os, pathlib, re, subprocess, sys, tempfile

ROOM = pathlib.Path(sys.argv[1])
LIBRARY = ROOM / "librefuse.so"
COUNTED = re.compile(r"requests: (\d+)\nbytes held at most: (-?\d+)\n\Z")
NO_MEMORY = re.compile(r"out of memory|OutOfMemory|AllocError|AllocFailed|memory allocation failed")


class Failed(Exception):
    """A run that ends otherwise than it may, or a line that shows nothing."""


class Run:
    """What comes of a command: its status, what it writes, and what the library counts."""

    def __init__(self, command, folder, variable="REFUSE", number=0):
        self.how = f"{variable}={number}"
        env = os.environ | {"LD_PRELOAD": str(LIBRARY), variable: str(number)}
        try:
            done = subprocess.run(
                command, cwd=folder, env=env, stdin=subprocess.DEVNULL, capture_output=True, timeout=60
            )
        except subprocess.TimeoutExpired:
            raise Failed(f"{self.how}: no end within 60 seconds")
        self.status = done.returncode
        self.out = done.stdout.decode(errors="replace")
        self.err = done.stderr.decode(errors="replace")
        counted = COUNTED.search(self.err)
        if not counted or int(counted[1]) < number:
            raise self.failed("it was cut off, or its requests weren't counted")
        self.err = self.err[: counted.start()]
        self.requests, self.held = int(counted[1]), int(counted[2])

    def failed(self, why):
        said = (self.out + self.err).rstrip("\n").replace("\n", "\n    ")
        return Failed(f"{self.how}: {why}, with status {self.status}\n    {said}")

    def ends_as(self, other):
        return (self.status, self.out, self.err) == (other.status, other.out, other.err)


# Lines that set the scene for those behind them.
SCENE = {"scope", "batch", "no batch", "statistics", "read statistics", "tree"}

# How many columns stand before the answer, where it isn't one.
COLUMNS = {
    "passes": 2, "query": 2, "query type": 2, "scan over": 2, "partition": 2, "replaced by": 2,
    "equal": 2, "fused as": 2, "like": 2, "node type": 2, "kept": 2, "union": 2, "column": 2,
    "collected": 2, "collected bound": 2, "collected depth": 2, "joined": 3, "first match": 4,
    "peeled text": 4, "json rows": 2, "csv rows": 2, "json cut rows": 2, "csv cut rows": 2,
    "json written": 2, "csv written": 2, "json twice": 2, "csv twice": 2,
}

# Kinds whose answers have no refusals, so that the whole line is told as one that can't be read.
UNREAD = {
    "text", "text length", "tree text", "tree text length", "built", "depth", "peeled text", "collected", "collected depth",
    "like", "error", "function", "child names", "swapped", "type text", "parse", "parsed type",
    "parsed scalar", "places", "union", "path set",
}

SUMS = {
    "vx_table_tests": "0 wrong lines, 0 not told\n0 lines that can't be read, 0 not refused\n{} rows, {} failed\n",
    "vx_data_rows": "line.table: {} lines, {} failed\n",
}


class Line:
    """A line of a table, which is run alone over its scene."""

    def __init__(self, crate, name, text, scene, before, is_never, is_first):
        self.crate, self.name, self.text, self.scene = crate, name, text, scene
        self.is_never, self.is_first = is_never, is_first
        self.command = [pathlib.Path(f"crates/{crate}/out/{crate}").resolve(), "line.table"]
        self.kind, columns = (it.strip() for it in text.split("|", 1))
        # (a form may have options, as in `json:any rows`)
        count = COLUMNS.get(re.sub(r":\S+", "", self.kind), 1)
        self.wanted = columns.split("|", count)[count].strip()
        self.refusal = self.of_files() if crate == "vx_data_rows" else self.of_trees(before)

    def of_trees(self, before):
        """The refusal, of `replaced by` with what is there as before; or the wanted answer in which
        some batches, or some of several ways to it, give the refusal."""
        if self.kind == "replaced by":
            return re.compile(f"! OutOfMemory(?P<kept>, {re.escape(before)})?")
        batches = self.wanted.split(" / ")
        once = " / ".join(f"(?:{re.escape(rows)}|! OutOfMemory)" for rows in batches)
        also = f"another way {once}|split {once}|{once}(?:, and split {once})? by \\[[A-Za-z, ]+\\]"
        return re.compile(f"(?=.*! OutOfMemory){once}(?:, and (?:{also}))*")

    def of_files(self):
        """The refusal, alone or of the second step of a call that is followed by another."""
        wanted = self.wanted.replace("¶", "\n")
        steps = {
            "rows": f"{wanted}, which becomes another", "type": f"{wanted}, and then out of memory",
            "decimal type": f"{wanted}, and then out of memory",
            "written": "no rows: out of memory", "twice": "no rows: out of memory",
        }
        step = steps.get(self.kind.split(" ", 1)[1], "out of memory")
        return re.compile(f"out of memory|{re.escape(step)}")

    def sum(self, lines, failed):
        return SUMS[self.crate].format(lines, failed)

    def write(self, folder, call):
        (folder / "line.table").write_text("\n".join([*self.scene, call, ""]))

    def prepare(self, folder):
        """Writes the table, and tells the first request that is refused: of the first line of a table
        the first of all, of another one the first that isn't made over the scene alone."""
        start = 1
        if not self.is_first:
            self.write(folder, "#" * len(self.text.encode()))
            start += Run(self.command, folder).requests
        self.write(folder, self.text)
        return start

    def is_right(self, run):
        return (run.status, run.out, run.err) == (0, self.sum(1, 0), "")

    def is_refused(self, run):
        """Whether the call is refused, and not what stands before it: without the whole scene the lines
        behind may be told as anything. Fails where the run ends neither with a refusal of a line, nor
        with one of the program."""
        if run.status > 0 and run.out == "" and NO_MEMORY.search(run.err):
            return False
        if run.status != 1 or run.err != "":
            raise run.failed("it ends otherwise than it may")
        for i, line in enumerate(self.scene):
            if run.out.startswith(f"line.table:{i + 1}: {line}\n    can't be read: out of memory\n"):
                return False
        told = run.out.removeprefix(f"line.table:{1 + len(self.scene)}: {self.text}\n    ")
        told = told.removesuffix(f"\n{self.sum(1, 1)}")
        if told == "can't be read: out of memory":
            return self.kind in UNREAD
        answer = self.refusal.fullmatch(told.removeprefix("is answered "))
        if not answer:
            raise run.failed("it is answered otherwise than it may be")
        return self.kind != "replaced by" or answer["kept"] is not None


def lines_of(crate, table):
    """The lines of the table that are calls, each over the scene that was last set; statistics are set
    behind their scope."""
    path = pathlib.Path(f"crates/{crate}/data/{table}.table")
    scope, batches, known, tree, splits, note = [], [], [], [], {}, ""
    is_first = True
    for number, text in enumerate(path.read_text().split("\n"), 1):
        if text == "" or text.startswith("#"):
            note = text
            continue
        kind = text.split("|", 1)[0].strip()
        if kind == "scope":
            scope, batches, known = [text], [], []
        elif kind == "batch":
            batches.append(text)
        elif kind == "no batch":
            batches = []
        elif kind in ("statistics", "read statistics"):
            known = [text]
        elif kind == "tree":
            tree = [text]
        else:
            scene = [*scope, *batches, *known, *tree]
            line = Line(crate, f"{path}:{number}", text, scene, splits.get((*scope, *tree), ""),
                        note.startswith("# Never refused:"), is_first)
            if kind == "split":
                splits[(*scope, *tree)] = line.wanted
            is_first = False
            yield line


class Row:
    """A row that vx_show prints: the page, or not a byte of it."""

    is_never = False

    def __init__(self, word):
        self.name = f"vx_show {word}"
        self.command = [pathlib.Path("crates/vx_show/out/vx_show").resolve(), word]

    def prepare(self, folder):
        return 1

    def is_right(self, run):
        return run.status == 0 and run.out.startswith("text: ") and run.err == ""

    def is_refused(self, run):
        if (run.status, run.out, run.err) != (1, "", "out of memory\n"):
            raise run.failed("it ends neither with the page nor without a byte of it")
        return True


def tried(case):
    """How many runs there are of it, how many of them are refused within the call, and what is wrong."""
    runs, refused = 1, 0
    with tempfile.TemporaryDirectory(dir=ROOM) as folder:
        folder = pathlib.Path(folder)
        try:
            start = case.prepare(folder)
            ample = Run(case.command, folder)
            if not case.is_right(ample):
                raise ample.failed("it ends otherwise where nothing is refused")
            for variable in ("REFUSE", "REFUSE_FROM"):
                for number in range(start, ample.requests + 1):
                    runs += 1
                    run = Run(case.command, folder, variable, number)
                    refused += not run.ends_as(ample) and case.is_refused(run)
            if (refused == 0) != case.is_never:
                raise Failed("no run is refused within the call" if refused == 0 else "a run is refused")
        except (Failed, OSError) as failure:
            return runs, refused, f"{case.name}: FAILED with {failure}"
    return runs, refused, None


def held(name, times):
    """The most bytes that vx holds, and what it writes, where it filters the records so many times."""
    path = ROOM / name
    head, records = b"", path.read_bytes()
    if path.suffix == ".csv":
        head, records = re.split(rb"(?<=\n)", records, maxsplit=1)
    path = path.with_stem(f"times_{times}")
    path.write_bytes(head + records * times)
    vx = pathlib.Path("crates/vx/out/vx").resolve()
    run = Run([vx, "filter", "quantity <= 6", "--data", path.name, "--schema", SCHEMA], ROOM)
    if run.status != 0 or run.err != "":
        raise run.failed("it ends otherwise where nothing is refused")
    return run.held, run.out.removeprefix(head.decode())


def grown(name):
    """What is wrong where ten times the records take more memory than once, but for a hundredth (blocks
    may be somewhat larger than they were asked for), or are others."""
    try:
        some, many = held(name, 1), held(name, 10)
    except (Failed, OSError) as failure:
        return f"vx filter of {name}: FAILED with {failure}"
    print(f"vx filter of {name}: {some[0]} bytes held at most, and of ten times the records {many[0]}")
    if many[0] > some[0] * 1.01:
        return f"vx filter of {name}: FAILED with more memory for more records"
    if many[1] != some[1] * 10 or some[1] == "":
        return f"vx filter of {name}: FAILED with other records"
    return None


SCHEMA = "@" + str(pathlib.Path("runs/data/orders.schema").resolve())
WORDS = ["kleene", "coalesce", "cases", "fused", "branches", "scan"]
tables = {crate: list(lines_of(crate, "refused")) for crate in ("vx_table_tests", "vx_data_rows")}
tables["vx_show"] = [Row(word) for word in WORDS]
lines = runs = 0
failures = []
with multiprocessing.get_context("fork").Pool(len(os.sched_getaffinity(0))) as pool:
    for name, cases in tables.items():
        results = pool.map(tried, cases, chunksize=1)
        lines += len(cases)
        runs += sum(it[0] for it in results)
        failures += [it[2] for it in results if it[2]]
        refused = sum(it[1] for it in results)
        print(f"{name}: {len(cases)} lines, {sum(it[0] for it in results)} runs, {refused} refused within a call")
for name in ("some.csv", "some.jsonl"):
    runs += 2
    failures += filter(None, [grown(name)])
print(*failures, sep="\n", end="\n" if failures else "")
print(f"refusals: {lines} lines, {runs} runs, {len(failures)} failed")
sys.exit(len(failures) > 0 or lines == 0)
PYTHON
