"""One page with charts of what the proved program says of a trace under one or several trees."""

import dataclasses
import os
import shlex
from argparse import ArgumentParser, Namespace

from . import VERSION
from .calls import program_word
from .logs import Refusal, read_text, shown, tell
from .report_answers import Program, Report, Under, ask_all, compare_run, file_word, labels, part_of
from .report_charts import Charts
from .hierarchy import read_tree
from .pricing import verdict
from .ranking import Source, order
from .report_page import Page, standing_alone
from .traces import write_file
from .tuning import workers_of
from .words import Words, number, run_words

# So many messages the picture of a part has about.
PICTURED = 300
MOST_TREES = 8


def words() -> ArgumentParser:
    top = Words(
        prog="waff-report",
        description="Makes one page with charts: what limits a trace under a tree, or under each of several, how much more workers bring,"
        " who waits for whom, latencies, where the time goes, the worst messages, and a picture of a part of the plan. Each number is the"
        " proved program's, and the page has the commands that print it. Tested, not proved.",
    ).version()
    top.add_argument("hier", metavar="HIER", help="the hierarchy, a TOML file")
    top.add_argument("trace", metavar="TRACE", help="the trace, a CSV file")
    top.add_argument("others", metavar="HIER", nargs="*", help="more hierarchies, shown beside the first")
    top.add_argument(
        "--workers", type=workers_of, metavar="K,K..", required=True,
        help="how many messages may run at once, from 1 to 64; with several numbers all but the curves are of the greatest",
    )
    top.add_argument("--out", metavar="FILE", required=True, help="write the page to this file; it needs no other one")
    top.add_argument("--rule", choices=["arrival", "longest"], default="arrival", help="the rule of the plans (arrival)")
    top.add_argument(
        "--run", nargs=2, metavar=("PLAN", "MEASURED"),
        help="show what ran on a machine under the first hierarchy beside what is predicted: the plan of what ran, and the trace with the"
        " costs that were measured",
    )
    top.add_argument("--log", metavar="FILE", help="show what the import of the trace said, its kept standard error")
    top.add_argument("--title", metavar="TEXT", help="the title of the page (the names of its files)")
    top.add_argument("--worst", type=number(1, 100, "number"), metavar="N", default=10, help="show N of the worst messages (10)")
    top.add_argument("--from", type=tick_of, metavar="T", dest="begin", default=0, help="the tick at which the picture begins (0)")
    top.add_argument(
        "--to", type=tick_of, metavar="T", dest="end", help=f"the tick at which it ends (so that it shows about {PICTURED} messages)"
    )
    top.add_argument(
        "--pricings", choices=["ten", "none"], default="ten",
        help="of several hierarchies say first what each gains over the first one, also at ten other pricings (ten, the default)",
    )
    top.add_argument("--charts", metavar="DIR", help="write each chart to a file in this folder too, as SVG")
    program_word(top)
    return top


def tick_of(word: str) -> int:
    return number(0, 10**15, "tick")(word)


def pictured(program: Program, trees: list[Under], trace: str, begin: int, to: int) -> list[Under]:
    """The trees with the same part of their plans drawn."""
    found = []
    for it in trees:
        files = [file_word(it.name), file_word(trace), "-"]
        words = ["draw", *files, *(["--from", str(begin)] if begin else []), "--to", str(to)]
        found.append(dataclasses.replace(it, picture=program.ask_of(it.plan, words)))
    return found


def command_of(asked: Namespace, names: list[str]) -> str:
    """The line of shell that makes the page again."""
    line = ["waff-report", names[0], asked.trace, *names[1:], "--workers", ",".join(map(str, asked.workers)), "--out", asked.out]
    for word, value, usual in (
        ("--rule", asked.rule, "arrival"), ("--log", asked.log, None), ("--title", asked.title, None), ("--worst", asked.worst, 10),
        ("--from", asked.begin, 0), ("--to", asked.end, None), ("--charts", asked.charts, None), ("--pricings", asked.pricings, "ten"),
    ):
        line += [word, str(value)] if value != usual else []
    return shlex.join([*line, *(["--run", *asked.run] if asked.run else [])])


def charts_or_none() -> Charts | None:
    try:
        return Charts()
    except ImportError:
        tell("no matplotlib, so the page has tables and no charts (apt-get install python3-matplotlib)")
        return None


def report(asked: Namespace) -> str:
    names = [asked.hier, *asked.others]
    if "-" in [*names, asked.trace, asked.log, *(asked.run or ())]:
        raise Refusal(2, "each file is read several times, so none is standard input")
    if len(names) > MOST_TREES:
        raise Refusal(2, f"{len(names)} hierarchies: a page has at most {MOST_TREES}")
    log = read_text(asked.log) if asked.log else None
    program = Program(os.path.abspath(asked.program) if os.sep in asked.program else asked.program)
    trees = ask_all(program, names, asked.trace, asked.workers, asked.rule, asked.worst)
    # About so many messages under the first tree.
    to = asked.end if asked.end is not None else max(asked.begin + 1, part_of(trees[0].plan, PICTURED))
    trees = pictured(program, trees, asked.trace, asked.begin, to)
    title = asked.title or f"{os.path.basename(asked.trace)} under {', '.join(labels(names))}"
    told = Report(title, asked.trace, asked.workers, asked.rule, trees, VERSION, log=log, log_name=asked.log or "", span=(asked.begin, to))
    told.made = command_of(asked, names)
    if asked.pricings == "ten":
        told.gains = gains_of(asked, names)
    if asked.run:
        told.runs = compare_run(program, names[0], asked.trace, asked.rule, *asked.run)
    page = Page(told, charts_or_none())
    write_file(asked.out, page.text())
    if asked.charts:
        write_charts(asked.charts, page.kept)
    return ""


def gains_of(asked: Namespace, names: list[str]) -> list[str]:
    """What each tree but the first gains over that one by its length, for the greatest number of workers, as priced and at other prices."""
    tried = Namespace(
        folder=None, runner=None, program=asked.program, rule=asked.rule, workers=[max(asked.workers)]
    )
    first, *others = (read_tree(it) for it in names)
    sources, key = [Source.of(asked.trace)], order("length", "sum")
    return [
        f"{label} gains {verdict(tried, sources, first, other, key).text()}." for label, other in zip(labels(names)[1:], others, strict=True)
    ]


def write_charts(folder: str, charts: dict[str, str]) -> None:
    try:
        os.makedirs(folder, exist_ok=True)
    except OSError as fault:
        raise Refusal(4, f"{shown(folder)}: {fault.strerror}") from None
    for name, picture in charts.items():
        write_file(os.path.join(folder, f"{name.removeprefix('chart-')}.svg"), standing_alone(picture))


def main(given: list[str]) -> int:
    return run_words(given, words, report)
