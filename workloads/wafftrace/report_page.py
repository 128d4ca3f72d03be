"""The page of a report: its sections, each with its charts, its tables and the commands that print their numbers."""

import base64
import html
import importlib.resources
import re
from collections.abc import Iterable
from string import Template

from .report_answers import Answer, Ran, Report, Row, Under, messages_of
from .report_charts import (
    PARTS, RUN_WORDS, Charts, Stack, bounds_of, least_of_any_tree, map_of, most_speed, run_rows, stack_of, stacks_of,
)

# So many rows of a table are shown, with a word on those left out.
MOST_ROWS = 12
# So many messages of a picture have a row.
MOST_PICTURED = 1000
# A table of more columns is wider than a narrow window.
FEW_COLUMNS = 5

LIGHT = {
    "ground": "#ffffff", "raised": "#f3f5f7", "ink": "#1b1f24", "quiet": "#57606a", "line": "#d4d9df", "heat": "#b02a1c",
    "hue0": "#0b62a8", "hue1": "#c2571a", "hue2": "#1c7f5c", "hue3": "#a3356f", "hue4": "#7d6608", "hue5": "#5b4aa8",
    "hue6": "#3d7d8c", "hue7": "#6b7280",
}
DARK = {
    "ground": "#14171b", "raised": "#1d2227", "ink": "#e6e9ec", "quiet": "#a3acb6", "line": "#3a424b", "heat": "#ff7a66",
    "hue0": "#5fb0ee", "hue1": "#f0935a", "hue2": "#4fc99a", "hue3": "#e58abb", "hue4": "#d8bd4a", "hue5": "#a99cf0",
    "hue6": "#74bccb", "hue7": "#a2aab5",
}

NO_CHARTS = (
    "This page has its tables alone: the charts are drawn by matplotlib, which Python does not find here."
    " <code>apt-get install python3-matplotlib</code> (or <code>pip install matplotlib</code>) brings it; then make the page again."
)


def properties(colours: dict[str, str]) -> str:
    return ";".join(f"--{name}:{value}" for name, value in colours.items())


def colours() -> str:
    return (
        f":root{{color-scheme:light dark;{properties(LIGHT)}}}\n"
        f"@media (prefers-color-scheme:dark){{:root{{{properties(DARK)}}}}}"
    )


def escaped(text: str) -> str:
    """A text of a page. What UTF-8 does not have is shown as what it is."""
    return html.escape(text.encode("utf-8", "backslashreplace").decode())


def figure_text(value: str) -> str:
    """A figure with commas at its thousands, anything else as it is."""
    return f"{int(value):,}" if re.fullmatch(r"[0-9]{4,}", value) else value


def per_cent(part: int, whole: int) -> str:
    return f"{100 * part / whole:.0f} %" if whole else "0 %"


def table(rows: list[Row], columns: dict[str, str], name: str, caption: str = "", words: Iterable[str] = ()) -> str:
    """Rows with these columns under these headings; columns of words stand to the left. A row of many columns becomes lines of a heading and
    a value where the window is narrow."""
    told = {column: ' class="word"' if column in words else "" for column in columns}
    head = "".join(f'<th scope="col"{told[column]}>{heading}</th>' for column, heading in columns.items())
    many = ' class="many"' if len(columns) > FEW_COLUMNS else ""
    lines = [f'<div class="table"><table id="{name}"{many}>', f"<caption>{caption}</caption>" if caption else ""]
    lines.append(f"<thead><tr>{head}</tr></thead><tbody>")
    for row in rows:
        cells = ""
        for column, heading in columns.items():
            text = escaped(row[column] if told[column] else figure_text(row[column]))
            cells += f"<td{told[column]}" + (f' data-of="{heading}"' if many else "") + f">{text}</td>"
        lines.append(f"<tr>{cells}</tr>")
    return "\n".join(filter(None, [*lines, "</tbody></table></div>"]))


def folded(rows: list[Row], columns: dict[str, str], name: str, what: str, words: Iterable[str] = ()) -> str:
    """A table that is not seen before it is asked for; none without rows."""
    return f"<details><summary>{what}</summary>{table(rows, columns, name, '', words)}</details>" if rows else ""


def waited_for(row: Row) -> str:
    """The affinity that is waited for, where it is not a worker: messages that wait by a lock may have none."""
    return "a worker" if row["for"] == "-" and row.get("by", "-") == "-" else row["for"]


def by_lock(row: Row) -> str:
    """By the lock of which cell a message waits, where it does so."""
    return f", by {row['by']}" if row.get("by", "-") != "-" else ""


def made_by(*answers: Answer | str) -> str:
    lines = dict.fromkeys(it if isinstance(it, str) else it.command for it in answers)
    return "<pre>" + "\n".join(f"$ {escaped(it)}" for it in lines) + "</pre>"


def of_workers(count: int | str) -> str:
    return "1 worker" if str(count) == "1" else "any number of workers" if count == "-" else f"{count} workers"


def stack_table(stacks: list[Stack]) -> str:
    rows = []
    for it in stacks:
        parts = {f"of {name}": str(length) for name, length in zip(PARTS, it.parts, strict=True)}
        rows.append({"under": it.label, "for": str(it.workers), **parts, "length": str(it.length)})
    columns = {"under": "under", "for": "for", **{f"of {name}": name for name in PARTS}, "length": "length"}
    return table(rows, columns, "table-stacks", "The ticks that each limit adds to those before it", ("under",))


def whose(clients: Row, by_client: dict[str, Row]) -> str:
    """The client whose time is a limit: with its pauses, or where it has none by what it asks for alone."""
    if clients["at"] == "-":
        return "a message by itself, with its release: no tree and no worker makes it faster"
    row = by_client.get(clients["at"])
    if row is not None and row["cost"] == clients["length"]:
        return f"client {clients['at']}, which asks for one thing after another and never pauses: no tree and no worker makes it faster"
    return f"client {clients['at']}, with its releases and think times: no tree and no worker makes it faster"


def cause(part: int, limits: dict[str, Row], by_client: dict[str, Row]) -> str:
    """What a part of a stack is due to, in words."""
    data, clients, tree = (limits[it] for it in ("data", "clients", "tree"))
    after = limits.get("after", clients)
    if part == 0 and int(after["length"]) > max(int(data["length"]), int(clients["length"])):
        return f"the order between clients, as the trace has it: message {after['at']} is the last of a chain of messages that wait for each other"
    if part == 0 and int(data["length"]) >= int(clients["length"]):
        return f"the cell {data['at']}: the messages that touch it run one after another under any tree"
    if part == 0:
        return whose(clients, by_client)
    return (
        f"the tree: the messages that run in {tree['at']} or above it exclude each other",
        "the service order",
        "the workers, who are never idle",
        "the plan itself: a better one may gain this",
    )[part - 1]


def tree_costs(length: int, least: int) -> str:
    """What a tree costs beside the lower bound for all trees."""
    if length <= least:
        return "and no tree has less"
    return f"of which the tree and the service order cost at most <b>{per_cent(length - least, length)}</b> (no tree has less than {least:,})"


def blocks(*parts: str) -> str:
    """Parts beside each other, where the window is wide enough."""
    return f'<div class="blocks">{"".join(parts)}</div>' if any(parts) else ""


def percentile_rows(under: Under) -> list[Row]:
    """For each P from 1 to 100 the latency by each rule that P of 100 messages do not pass."""
    found = [it.percentiles for it in under.latencies]
    rules = [it.rule for it in under.latencies]
    return [{"of": str(of), **dict(zip(rules, map(str, row), strict=True))} for of, row in enumerate(zip(*found, strict=True), start=1)]


def pictured_rows(under: Under, span: tuple[int, int]) -> tuple[list[Row], str]:
    """The messages of a plan that run in these ticks, in the order of their starts, and what these are called."""
    rows = [row for row in messages_of(under.plan).rows() if int(row["start"]) < span[1] and int(row["finish"]) > span[0]]
    rows.sort(key=lambda row: (int(row["start"]), int(row["message"])))
    told = f"The first {MOST_PICTURED:,} of {len(rows):,} messages" if len(rows) > MOST_PICTURED else f"The {len(rows):,} messages"
    return rows[:MOST_PICTURED], f"{told} of the picture"


class Page:
    """The sections of a report. Without charts it has its tables alone."""

    def __init__(self, report: Report, charts: Charts | None) -> None:
        self.report = report
        self.charts = charts
        self.kept: dict[str, str] = {}
        self.sections: list[tuple[str, str, str]] = []

    def chart(self, name: str, kind: str, of: object, caption: str, *tables: str) -> str:
        """A chart, which stands in the page under this name, with the tables of its figures beside it; without charts these alone."""
        figures = f'<div class="tables" id="figures-{name}">{"".join(tables)}</div>'
        if self.charts is None or not of:
            return f'<div class="beside">{figures}</div>'
        self.kept[name] = getattr(self.charts, kind)(of, name)
        tells = f'id="{name}" role="img" aria-labelledby="told-{name}" aria-details="figures-{name}"'
        picture = self.kept[name].replace("<svg ", f"<svg {tells} ", 1)
        return f'<div class="beside"><figure><figcaption id="told-{name}">{caption}</figcaption>{picture}</figure>{figures}</div>'

    def section(self, name: str, heading: str, told: str, *parts: str) -> None:
        """A section, whose text stands before its charts and tables, or in a wide window at their side."""
        shown = "\n".join(filter(None, parts))
        self.sections.append((name, heading, f'<div class="told"><h2>{heading}</h2>{told}</div>\n<div class="shown">{shown}</div>'))

    def heading(self, under: Under) -> str:
        return f"<h3>{escaped(under.label)}</h3>" if len(self.report.trees) > 1 else ""

    def text(self) -> str:
        self.limits()
        self.speeds()
        self.waits()
        self.latencies()
        self.where()
        self.worst()
        self.pictures()
        if self.report.runs:
            self.run(self.report.runs)
        if self.report.log is not None:
            self.log(self.report.log)
        self.sure()
        body = [f'<section class="found">{self.found()}</section>', "" if self.charts else f'<p class="found warning">{NO_CHARTS}</p>']
        body += [f'<section class="part" id="{name}">\n{text}\n</section>' for name, _, text in self.sections]
        report = self.report
        names = ", ".join(f"<code>{escaped(it.name)}</code>" for it in report.trees)
        about = f"The trace <code>{escaped(report.trace)}</code> under {names}, by waff {escaped(report.version)}. Times are in ticks of the trace."
        template = importlib.resources.files(__package__).joinpath("report.html").read_text(encoding="utf-8")
        return Template(template).substitute(
            title=escaped(report.title), version=escaped(report.version), colours=colours(),
            paper=f":root{{color-scheme:light;{properties(LIGHT)}}}", about=about, alone=' class="alone"' if len(report.trees) == 1 else "",
            contents=" ".join(f'<a href="#{name}">{heading}</a>' for name, heading, _ in self.sections),
            body="\n".join(filter(None, body)),
        )

    def found(self) -> str:
        """A paragraph for each tree: how fast it is, and what the greatest part of the length is due to."""
        lines = []
        for under in self.report.trees:
            row, stack = under.figures(), stack_of(under, under.workers)
            rows = {it["limit"]: it for it in bounds_of(under)}
            part = max(range(len(PARTS)), key=lambda it: stack.parts[it])
            length, least = int(row["length"]), least_of_any_tree(under)
            told = (
                f"Under <b>{escaped(under.label)}</b> {of_workers(under.workers)} {'needs' if under.workers == 1 else 'need'}"
                f" <b>{length:,}</b> ticks, {tree_costs(length, least)}: <b>{row['speedup']}</b> times as fast as one message after another."
            )
            if stack.length:
                share = per_cent(stack.parts[part], stack.length)
                by_client = {it["client"]: it for it in under.clients.rows()}
                told += f" The greatest part of that, {share}, is due to {escaped(cause(part, rows, by_client))}."
            if rows["data"]["speedup"] != "-":
                told += f" The data themselves allow {rows['data']['speedup']} times."
            lines.append(f"<p>{told}</p>")
        gains = [f'<p class="gain">{escaped(it)}</p>' for it in self.report.gains]
        return "\n".join([*gains, '<div class="lists">', *lines, "</div>"])

    def limits(self) -> None:
        report, workers = self.report, max(self.report.workers)
        stacks = stacks_of(report.trees, report.workers)
        columns = {"limit": "limit", "workers": "workers", "length": "length", "speedup": "speed-up", "at": "where"}
        tables = []
        for number, under in enumerate(report.trees):
            found = table(under.limits.rows(), columns, f"table-limits-{number}", words=("limit", "at"))
            tables.append(f"<div>{self.heading(under)}{found}</div>")
        has_lists = any(row["limit"] == "after" for it in report.trees for row in it.limits.rows())
        after = " <b>after</b>: these, and what messages await of other clients, with the gaps behind it." if has_lists else ""
        self.section(
            "limits", "What limits it",
            f"<p>Each limit but the last two is a lower bound on the length (makespan) of plans in any order. <b>clients</b>: a client's"
            f" messages and think times.{after} <b>writes</b>: the messages that write one cell, with the longest that only reads it."
            " <b>data</b>: the messages that touch one cell, under every tree. <b>work</b>: all costs over the workers. <b>tree</b>: the"
            " messages at or above one affinity. <b>order</b>: the plan without a limit on workers, in the service order. <b>plan</b>: the"
            " plan for the workers.</p>",
            blocks(
                self.chart("chart-bounds", "bounds", report.trees,
                           f"How long each limit by itself makes the plan for {of_workers(workers)}; the last line is the plan.", *tables),
                self.chart("chart-limits", "stacks", stacks,
                           "What the length of the plan is made of, by tree and number of workers: what each limit adds to those before it.",
                           stack_table(stacks)),
            ),
            made_by(*(it.limits for it in report.trees)),
        )

    def speeds(self) -> None:
        trees = self.report.trees
        columns = {"workers": "workers", "length": "length", "speedup": "speed-up", "most": "at most", "busy": "busy", "least": "least",
                   "over": "over", "waits": "waits", "mean": "mean", "p50": "p50", "p99": "p99", "latency": "greatest"}
        tables = []
        for number, it in enumerate(trees):
            rows = [{**row, "most": f"{most_speed(it, row):.2f}"} for row in it.sweep.rows()]
            tables.append(f"<div>{self.heading(it)}{table(rows, columns, f'table-sweep-{number}')}</div>")
        self.section(
            "speed", "Whether more workers help",
            "<p>No plan for as many workers is shorter than <b>least</b> ticks, the lower bound, and no speed-up is above <b>at most</b>; of"
            " a trace of version 1 or 2 none that serves in the order of arrival. <b>over</b> is the length over least. mean, p50, p99 and"
            " greatest are latencies, from the issue of a message to its finish. <b>-</b>: for any number of workers.</p>",
            self.chart("chart-speeds", "speeds", trees,
                       "Speed-up against workers. No plan is above the dashed line of its colour (at most). Dotted: twice as fast with twice"
                       " the workers.", *tables),
            made_by(*(it.sweep for it in trees)),
        )

    def waits(self) -> None:
        parts = []
        words = ("affinity", "for", "by")
        for number, under in enumerate(self.report.trees):
            order, shown, left = map_of(under)
            lines = under.waits.rows()
            columns = {"affinity": "waits", "for": "for", **({"by": "by"} if any("by" in row for row in lines) else {}),
                       "messages": "messages", "ticks": "ticks", "longest": "longest"}
            more = [row for row in lines[MOST_ROWS:] if (row["affinity"], row["for"]) in shown]
            rows, rest = ([{**row, "for": waited_for(row)} for row in it] for it in (lines[:MOST_ROWS], more))
            note = f" Waits of other affinities, {left:,} ticks in all, are left out." if left else ""
            left_out = f"The longest waits, {MOST_ROWS} of {len(lines):,} pairs" if len(lines) > MOST_ROWS else "The longest waits first"
            drawn = self.chart(
                f"chart-waits-{number}", "waits", under if order else None,
                f"Messages of the row's affinity wait for those of the column's: the stronger the colour, the longer.{note}",
                table(rows, columns, f"table-waits-{number}", left_out, words),
                folded(rest, columns, f"table-waits-more-{number}", f"The other {len(rest):,} pairs of the picture", words),
            )
            parts.append(f"<div>{self.heading(under)}{drawn}</div>")
        intro = (
            f"<p>For {of_workers(max(self.report.workers))}. A cross of strong colour is an affinity that stops those below it; such a cell of the diagonal"
            " one that is hot.</p>"
        )
        self.section("waits", "Who waits for whom", intro, blocks(*parts), made_by(*(it.waits for it in self.report.trees)))

    def latencies(self) -> None:
        parts, commands = [], []
        columns = {"rule": "rule", "length": "length", "mean": "mean", "p50": "p50", "p99": "p99", "latency": "greatest", "waits": "waits"}
        for number, under in enumerate(self.report.trees):
            rows = []
            for it in under.latencies:
                rows.append({"rule": it.rule, **next(row for row in it.figures.rows() if row["workers"] == str(under.workers))})
                commands += [it.command, it.figures.command]
            is_drawn = any(it.percentiles for it in under.latencies)
            drawn = self.chart(
                f"chart-latencies-{number}", "latencies", under if is_drawn else None, "How many of 100 messages have at most this latency.",
                table(rows, columns, f"table-latencies-{number}", words=("rule",)),
                folded(percentile_rows(under), {"of": "of 100", **{it.rule: it.rule for it in under.latencies}},
                       f"table-percentiles-{number}", "Each percentile"),
            )
            parts.append(f"<div>{self.heading(under)}{drawn}</div>")
        intro = (
            f"<p>For {of_workers(max(self.report.workers))}. By <b>arrival</b> the ready message that came first starts first, by <b>longest</b>"
            " the one with the longest chain of messages behind it: mostly a shorter plan, and at times greater latencies.</p>"
        )
        self.section("latencies", "Latencies", intro, blocks(*parts), made_by(*commands))

    def where(self) -> None:
        parts, commands = [], []
        figures = {"messages": "messages", "cost": "cost", "chain": "chain", "running": "running", "waits": "waits", "mean": "mean",
                   "p99": "p99", "latency": "greatest"}
        for number, under in enumerate(self.report.trees):
            tables = []
            kinds = [("affinity", under.where), ("name", under.names), ("client", under.clients)]
            for kind, answer in kinds:
                rows = sorted((row for row in answer.rows() if row["messages"] != "0"), key=lambda row: -int(row["cost"]))
                if kind == "client" and all(row["client"] == "-" for row in rows):
                    continue
                more = len(rows) - MOST_ROWS
                cost = sum(int(row["cost"]) for row in rows[MOST_ROWS:])
                caption = f"By {kind}, the most cost first" + (f"; {more:,} more with {cost:,} ticks in all" if more > 0 else "")
                tables.append(table(rows[:MOST_ROWS], {kind: kind, **figures}, f"table-{kind}-{number}", caption, (kind,)))
                commands.append(answer)
            parts.append(f'{self.heading(under)}<div class="tables">{"".join(tables)}</div>')
        intro = (
            f"<p>For {of_workers(max(self.report.workers))}. <b>chain</b>: the cost of those on the chain that makes the plan this long."
            " <b>running</b>: how many of them run at once in the mean. <b>waits</b>: the ticks from their issues to their starts.</p>"
        )
        self.section("where", "Where the time goes", intro, *parts, made_by(*commands))

    def worst(self) -> None:
        parts = []
        columns = {"message": "message", "name": "name", "affinity": "affinity", "client": "client", "issue": "issue", "ready": "ready",
                   "start": "start", "finish": "finish", "latency": "latency", "waited": "waited for"}
        for number, under in enumerate(self.report.trees):
            rows = [
                {**row, "waited": f"{row['for']} ({row['forname']} in {row['foraffinity']}{by_lock(row)})" if row["for"] != "-" else "-"}
                for row in under.worst.rows()
            ]
            words = ("name", "affinity", "client", "waited")
            parts.append(f"<div>{self.heading(under)}{table(rows, columns, f'table-worst-{number}', words=words)}</div>")
        intro = (
            f"<p>The messages of the greatest latency, for {of_workers(max(self.report.workers))}. From <b>ready</b> on a message waits for a"
            " worker alone.</p>"
        )
        made = made_by(*(it.worst for it in self.report.trees))
        self.section("worst", "The worst messages", intro, f'<div class="tables">{"".join(parts)}</div>', made)

    def pictures(self) -> None:
        parts, commands = [], []
        for number, under in enumerate(self.report.trees):
            if under.picture is None:
                continue
            told = f"The plan under {escaped(under.label)} for {of_workers(under.workers)}"
            data = base64.b64encode(under.picture.text.encode()).decode()
            image = f'<img id="picture-{number}" alt="{told}" src="data:image/svg+xml;base64,{data}">'
            # Who has no pointer moves it by the keys with arrows.
            panned = f'<div class="panned" tabindex="0" role="region" aria-label="{told}">{image}</div>'
            rows, caption = pictured_rows(under, self.report.span)
            columns = {it: it for it in ("message", "affinity", "start", "finish", "worker")}
            figures = folded(rows, columns, f"table-picture-{number}", caption, ("affinity",))
            parts.append(f"<div>{self.heading(under)}<figure>{panned}</figure>{figures}</div>")
            commands.append(under.picture)
        intro = (
            "<p>A lane is an affinity, and below these a worker. A bar is a message from its start to its finish. The thick outline is the chain: each"
            " of its bars waits for the one before, which makes the plan as long as it is."
            + (" All pictures show the same ticks.</p>" if len(parts) > 1 else "</p>")
            + '<p class="narrow">In a narrow window the picture moves sideways.</p>'
        )
        self.section("picture", "A part of the plan", intro, blocks(*parts), made_by(*commands))

    def run(self, ran: Ran) -> None:
        rows = [{"what": what, **row} for what, row in zip(RUN_WORDS, run_rows(ran), strict=True)]
        columns = {"what": "", "length": "length", "speedup": "speed-up", "busy": "busy", "waits": "waits", "mean": "mean", "p50": "p50",
                   "p99": "p99", "latency": "greatest"}
        length, again = int(rows[1]["length"]), int(rows[2]["length"])
        share = f"{again / length:.2f}" if length else "-"
        verdict = ran.ran.values()["verdict"]
        self.section(
            "run", "Predicted and measured",
            f"<p>For {of_workers(ran.workers)}, under {escaped(self.report.trees[0].label)}. The third line is planned of the costs that were"
            " measured: what it is shorter than the run was spent between the messages.</p>"
            f"<p>The plan of the measured costs is <b>{share}</b> of the run. Above 0.95 the run was mostly of the messages themselves; far"
            f" below, of what ran them. The run, as <code>waff check</code> sees it: {escaped(verdict)}.</p>",
            self.chart("chart-run", "run", ran, "The lengths of the plan, of the run, and of the plan for the measured costs.",
                       table(rows, columns, "table-run", words=("what",))),
            made_by(ran.planned, ran.ran, ran.again),
        )

    def log(self, log: str) -> None:
        """What an import said: first what it warns of, then what it kept, what it left out, and the rest, each in its own words."""
        lines = [re.sub(r"^waff-trace: ", "", it) for it in log.splitlines() if it.strip()]
        kinds = {"warning": r"WARNING: |.*: WARNING: ", "kept": r".*\bkept [0-9]", "left": r".*: left out: "}
        sorts: dict[str, list[str]] = {it: [] for it in [*kinds, "rest"]}
        for line in lines:
            sorts[next((kind for kind, form in kinds.items() if re.match(form, line)), "rest")].append(line)
        warned = "</p><p>".join(map(escaped, sorts["warning"]))
        warning = f'<div class="found warning"><p>{warned}</p></div>' if warned else ""
        parts = []
        for kind, heading in (("kept", "Kept"), ("left", "Left out"), ("rest", "Said besides")):
            if sorts[kind]:
                told = [it.replace("left out: ", "", 1) for it in sorts[kind]]
                parts.append(f"<div><h3>{heading}</h3><ul id=\"log-{kind}\">{''.join(f'<li>{escaped(it)}</li>' for it in told)}</ul></div>")
        empty = "" if lines else "<p>The import said nothing.</p>"
        source = f'<p class="quiet">From <code>{escaped(self.report.log_name)}</code>.</p>'
        self.section("log", "What the import left out", source, warning, f'<div class="lists">{"".join(parts)}</div>', empty)

    def sure(self) -> None:
        self.section(
            "sure", "How sure the numbers are", "",
            "<p>The numbers are those of the program <code>waff</code>, and each section ends with the commands that print them. That they"
            " are right is proved, for the model: messages with fixed costs, a tree of affinities, workers that are all alike. They measure"
            " no system: on a machine costs change with what else runs, and caches, locks and devices are not in the trace. The charts,"
            " what a limit adds to those before it, the greatest speed-ups, the percentiles and the page itself are made by a script, which"
            " is tested and not proved.</p>",
            made_by(self.report.made),
        )


# A style of a chart with colours of the page, and such a colour.
PAINTED = re.compile(r'style="([^"]*\bvar\(--[^"]*)"')
PAINT = re.compile(r"\b(fill|stroke): var\(--(\w+)\);? ?")


def painted(found: re.Match[str]) -> str:
    """A style with its colours as attributes, which any viewer knows, and as classes, which have those of light and dark."""
    paints = PAINT.findall(found[1])
    style = PAINT.sub("", found[1]).rstrip("; ")
    attributes = [f'{what}="{LIGHT[name]}"' for what, name in paints]
    classes = " ".join(f"{what}-{name}" for what, name in paints)
    return " ".join([*attributes, f'class="{classes}"', *([f'style="{style}"'] if style else [])])


def standing_alone(picture: str) -> str:
    """A chart as a file of its own: with plain colours, and where a viewer knows variables with those of light and dark."""
    used = sorted({("fill", "ground"), *(pair for it in PAINTED.findall(picture) for pair in PAINT.findall(it))})
    rules = "".join(f".{what}-{name}{{{what}:var(--{name})}}" for what, name in used)
    style = f"<style>text{{font-family:sans-serif}}\n@supports (fill:var(--ink)){{{colours()}\n{rules}}}</style>"
    ground = f'<rect width="100%" height="100%" fill="{LIGHT["ground"]}" class="fill-ground"/>'
    plain = PAINTED.sub(painted, picture)
    return re.sub(r"^(<svg [^>]*>)", lambda it: it[1] + style + ground, plain, count=1) + "\n"
