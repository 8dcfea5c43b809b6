"""What `./dev pages` writes of speed/figures.json, the last run of each program of speed/: docs/FIGURES.md, docs/figures.svg and
README's tables."""
import datetime
import json
from xml.sax.saxutils import escape

FIDO2, LIBFIDO2 = "python-fido2 0.9.1", "libfido2 1.12"
PORTABLE, INSTRUCTIONS = "portable SHA-256, as ours", "the processor's SHA-256"
OURS, SHARP, PLAIN = "Garvoeng, packets to verdict", "Rust without copies", "Rust with the usual crates"
JAVASCRIPT = ("a verdict, its memory overwritten", "JSON's text to `SignedIn`, without the mathematics", "the same with `node:crypto`")
WIDTH, LEFT, ROW = 760, 330, 26


def figures(top):
    return json.loads((top / "speed" / "figures.json").read_text())


def table(head, rows):
    return "\n".join(["| " + " | ".join(head) + " |", "|" + "---|" * len(head), *("| " + " | ".join(row) + " |" for row in rows)])


def micro(value):
    """Microseconds, with three digits."""
    return f"{value:.0f} µs" if value >= 100 else f"{value:.1f} µs" if value >= 10 else f"{value:.2f} µs"


def taken(part):
    """When a part was measured, and beside what: one part after another keeps one or two cores at work by itself."""
    day, load = datetime.date.fromisoformat(part["taken"]["day"]), part["taken"]["load"]
    own = f"load {load}, the measures' own counted in"
    beside = "nothing else running" if load < 0.5 else own if load < 2 else f"others at work on the machine (load {load})"
    return f"{day.day} {day:%B %Y}, {beside}"


def machines(found):
    """What the figures were taken on."""
    kinds = {f"{part['taken']['cores']} cores of {part['taken']['processor']}" for part in found.values()}
    return "; ".join(sorted(kinds))


def counted(count):
    return f"{count:g} allocations" if count else "no allocations"


def least(found, name):
    return micro(found["hosts"]["calls"][name]["least"])


def malformed_table(found):
    part = found["malformed"]
    return table([f"Accepted of {part['judged']:,} malformed responses", "Garvoeng", FIDO2],
                 [[what, *(f"{part['accepted'][who][setting]:,}" for who in ("ours", "theirs"))]
                  for what, setting in (("as each begins: no attestation asked for", "as each begins"),
                                        ("attestation asked for", "attestation asked for"))])


def speed_table(found):
    rust = found["peers"][PORTABLE]
    ours, sharp, plain = (f"{rust[name]['microseconds']:g} µs, {counted(rust[name]['allocations'])}" for name in (OURS, SHARP, PLAIN))
    return table(["What", "Garvoeng", "Beside it"], [
        ["a sign-in in Rattle, packets to verdict, without the mathematics", ours,
         f"Rust by hand, without copies: {sharp}; with the usual crates: {plain}"],
        ["a sign-in from C, with the mathematics", least(found, "C, a sign-in"),
         f"{LIBFIDO2}, rp id, flags and signature alone: {least(found, 'libfido2, an assertion')}"],
        ["a sign-in from Python, with the mathematics", least(found, "Python, a sign-in"),
         f"{FIDO2}: {least(found, 'python-fido2, a sign-in, its key read from its row')}"]])


def hosts_table(found):
    return table(["A sign-in, ES256", "With the mathematics", "Without"], [
        [what, least(found, name), least(found, plain) if plain else "not measured"] for what, name, plain in (
            ("C", "C, a sign-in", "C, a verdict"),
            (f"{LIBFIDO2} from C, rp id, flags and signature alone", "libfido2, an assertion", None),
            *((what, name, f"{name}, no mathematics") for what, name in (
                ("Python, from JSON", "Python, a sign-in"), ("Python, from bytes", "Python, a sign-in from bytes"),
                (f"{FIDO2}'s server, its key kept", "python-fido2, a sign-in, its key kept"),
                (f"{FIDO2}'s server, its key read from its row", "python-fido2, a sign-in, its key read from its row"))))])


def peers_table(found):
    rows = []
    for which, how, names in ((PORTABLE, "SHA-256 in portable code", (OURS, SHARP, PLAIN)),
                              (INSTRUCTIONS, "the processor's SHA instructions", (SHARP, PLAIN))):
        for name in names:
            row = found["peers"][which][name]
            rows.append([f"{name}, {how}", f"{row['microseconds']:.2f} µs", f"{row['allocations']:g}"])
    return table(["Packets to verdict, EdDSA", "Time", "Allocations"], rows)


def rattle_table(found):
    acts = found["rattle"]
    return table(["Act", "Time", "Allocations"], [
        [what, f"{acts[act]['nanoseconds'] / 1e6:,.0f} ms" if act == "loads" else f"{acts[act]['nanoseconds']:,.0f} ns", f"{acts[act]['allocations']:g}"
         if "allocations" in acts[act] else "not counted"] for what, act in (
            ("`Site::load`, 65,536 rows", "loads"),
            ("`Authenticator::handle`, a getAssertion without a list, signed by two hashes", "assertion"),
            ("the same with a list of one credential", "listed"))])


def javascript_table(found):
    calls = found["javascript"]["calls"]
    return table(["Call", "Least of 60 rounds", "Median"], [[what, micro(calls[what]["least"]), micro(calls[what]["median"])] for what in JAVASCRIPT])


def sizes_table(found):
    rows = found["sizes"]["by_count"]
    return table(["Credentials in the file", "An open", "Memory", "A begin", "Which signature", "Accepted", "Refused, no such id",
                  "Rows of a user", "Rows of nobody", "A backup"], [
        [f"{int(count):,} ({row['bytes'] / 1e6:.1f} MB)", f"{row['open']:.2f} s", f"{row['memory']:.0f} MB",
         *(micro(row[what]) for what in ("begin", "question", "accepted", "refused", "rows", "no_rows")), f"{row['backup']:.2f} s"]
        for count, row in rows.items()])


def growth(found):
    """How many times as much a look-up costs with a million credentials as with a thousand: the least and the most."""
    rows = found["sizes"]["by_count"]
    times = [rows["1000000"][what] / rows["1000"][what] for what in ("question", "refused", "rows", "no_rows")]
    return f"{min(times):.1f} to {max(times):.1f}"


def flush_table(found):
    return table(["Clients in flight, a flush of 2 ms", "Sign-ins a second", "p50", "p99"],
                 [[row["clients"], f"{row['a_second']:,}", row["p50"], row["p99"]] for row in found["flush"]["rows"]])


def client_table(found):
    return table(["Client", "By PIN, protocol two", "By presence alone"],
                 [[row["client"], row["pin"], row["presence"]] for row in found["client"]["rows"]])


def page(found, head):
    """docs/FIGURES.md."""
    told = found["flood"], found["verdicts"], found["javascript"]
    return f"""{head}# Figures

The last run of each program of [`speed`](../speed/README.md), which [`figures.json`](../speed/figures.json) keeps; `./dev figures` takes them anew. Processor time on one core, if nothing else is said; {machines(found)}.

![Times beside python-fido2, libfido2 and Rust, and malformed responses accepted](figures.svg)

## From C and Python

By `speed/hosts`, the least of its rounds, by turns: {taken(found['hosts'])}.

{hosts_table(found)}

{told[1]['count']:,} verdicts by 8 threads (`speed/verdicts`): {told[1]['wrong'] or 'none'} wrong; memory was at {told[1]['early']} MB after a tenth and at {told[1]['late']} MB at the end.

## Malformed responses

{malformed_table(found)}

By `speed/malformed`. The set is made by rule, whatever either library refuses: of a sign-in, a registration without attestation and one with self attestation, each byte of each part has its lowest bit turned over, then its highest, and each part is cut at each byte. Left out are the ids and the user that a site looks up by itself. All that is accepted are registrations: neither accepts a changed sign-in. Of the {found['malformed']['accepted']['ours']['attestation asked for']} that Garvoeng accepts with an attestation asked for, each changes the counter, the aaguid or the key of a registration without attestation, which nothing signs. Of what python-fido2 alone accepts then, {found['malformed']['theirs_alone']['cut']} are objects cut within the key, and {found['malformed']['theirs_alone']['changed']} have a length or a member of the key that does not fit. If no attestation is asked for, Level 3 takes any statement as none.

## In Rattle

No mathematics of signatures; allocations by `valgrind`. By `speed/peers`, by turns: {taken(found['peers'])}.

{peers_table(found)}

By `speed/run`, the median of 31 pairs of runs: {taken(found['rattle'])}.

{rattle_table(found)}

## From JavaScript

By `speed/javascript`, ES256: {taken(told[2])}.

{javascript_table(found)}

{told[2]['sign_ins']} sign-ins kept the process between {told[2]['memory']} MB, and the module at its first {told[2]['module']} bytes. The site over Express, four workers, answered 300 requests a second for a minute: p50 {told[2]['p50']}, p99 {told[2]['p99']}, none failed.

## A site over lines

By `speed/site sizes`: the program's own time (`/proc/PID/schedstat`), the least of 40 rounds by turns, over 400 ids spread over the file; an open and a backup are wall time. {taken(found['sizes'])}.

{sizes_table(found)}

What looks up an id or a user costs {growth(found)} times as much with 1,000,000 credentials as with 1,000. Most of an acceptance is its commit, whose flushes are counted in.

By `speed/site flush`, signatures made and verified in the clients' Python process: {taken(found['flush'])}.

{flush_table(found)}

By `speed/site flood`: a million begins by one visitor took {told[0]['seconds']} s at most. A client beside it that answered after 4.9 s was not refused. The program had {told[0]['memory']} MB. {taken(told[0])}.

`tests/programs/site-kills 1000` killed the program while 16 clients were at work: of 159,204 acceptances none was lost, no session was accepted twice and no number given twice. `tests/programs/site-images` opened 5,000 images that crashes may leave, and `tests/programs/site-faults` refused each system call: nothing that was told was lost.

## A client of keys

By `speed/client`, over the same key in one process, its own time taken off; wall time, the least of 200 registrations and sign-ins. {taken(found['client'])}.

{client_table(found)}
"""


def bars(title, rows, unit, top):
    """A title and a bar for each row, from this height on; and the height after them."""
    most = max(value for _, value in rows)
    lines = [f'<text x="10" y="{top + 16}" class="title">{escape(title)}</text>']
    for index, (name, value) in enumerate(rows):
        y = top + 28 + index * ROW
        kind = "peer" if "fido2" in name or "Rust" in name else "ours"
        long = (WIDTH - LEFT - 110) * value / most
        lines.append(f'<text x="{LEFT - 8}" y="{y + 14}" text-anchor="end">{escape(name)}</text>')
        lines.append(f'<rect class="{kind}" x="{LEFT}" y="{y}" width="{max(long, 1):.1f}" height="18"/>')
        lines.append(f'<text x="{LEFT + long + 6:.1f}" y="{y + 14}">{value:,.4g} {unit}</text>')
    return lines, top + 40 + len(rows) * ROW


def chart(found):
    """docs/figures.svg."""
    calls = {name: found["hosts"]["calls"][name]["least"] for name in sorted(found["hosts"]["calls"]) if "registration" not in name}
    plain = [(name.replace(", no mathematics", ""), value) for name, value in calls.items() if "no mathematics" in name or name == "C, a verdict"]
    whole = [(name, value) for name, value in calls.items() if "no mathematics" not in name and name != "C, a verdict"]
    rust, part = found["peers"], found["malformed"]
    packets = [(name, rust[PORTABLE][name]["microseconds"]) for name in (OURS, SHARP, PLAIN)]
    packets += [(f"{name}, SHA instructions", rust[INSTRUCTIONS][name]["microseconds"]) for name in (SHARP, PLAIN)]
    drawn, height = [], 0
    for title, rows, unit in (
            ("A sign-in with the mathematics of its signature", whole, "µs"), ("The same without the mathematics", plain, "µs"),
            ("Packets to verdict, without the mathematics (SHA-256 in portable code)", packets, "µs"),
            ("Its allocations", [(name, rust[PORTABLE][name]["allocations"]) for name in (OURS, SHARP, PLAIN)], ""),
            (f"Accepted of {part['judged']:,} malformed responses",
             [(f"{who}, {setting}", part["accepted"][key][setting]) for setting in ("as each begins", "attestation asked for")
              for who, key in (("Garvoeng", "ours"), ("python-fido2", "theirs"))], "")):
        more, height = bars(title, rows, unit, height)
        drawn += more
    style = "text { font: 13px sans-serif; fill: #222 } .title { font-weight: bold } .ours { fill: #33507a } .peer { fill: #c39a4a }"
    return (f'<svg xmlns="http://www.w3.org/2000/svg" viewBox="0 0 {WIDTH} {height}" role="img" '
            f'aria-label="Times beside python-fido2, libfido2 and Rust, and malformed responses accepted"><style>{style}</style>'
            f'<rect width="{WIDTH}" height="{height}" fill="#fff"/>' + "\n".join(["", *drawn]) + "\n</svg>\n")


# The tables that stand in README, by the names in the comments above them.
TABLES = {"malformed": malformed_table, "speed": speed_table}
