"""How a report looks, on a light page and on a dark one: its hues, and its style sheet."""

from __future__ import annotations

from batching.lines import Result

# Hues that also those tell apart who see few (Okabe and Ito), each for a light page and for a dark one.
HUES = [("#0072b2", "#4aa8e0"), ("#d55e00", "#f08a4b"), ("#009e73", "#3ec79a"), ("#cc79a7", "#e29cc4"),
        ("#e69f00", "#f0bb4a"), ("#56b4e9", "#9fd8f7"), ("#444444", "#cfcfcf")]
RESULTS = {
    Result.PLAN: ("#0072b2", "#3f97cf"), Result.UNSOLVABLE: ("#56b4e9", "#9fd8f7"), Result.REFUSED: ("#999999", "#8b8f94"),
    Result.TIME: ("#e69f00", "#e9b13c"), Result.MEMORY: ("#d55e00", "#e5793a"), Result.STATES: ("#cc79a7", "#dd93bd"),
    Result.INSTANCES: ("#b08ac0", "#bf9dce"), Result.ATOMS: ("#7a5195", "#a77fc2"), Result.FAILED: ("#222222", "#f2f2f2"),
}
GROUND = {"paper": ("#ffffff", "#15171a"), "ink": ("#1f2328", "#e3e6e9"), "quiet": ("#5c636b", "#9aa2ab"),
          "line": ("#e1e4e8", "#31363c"), "frame": ("#8a9199", "#79818a"), "target": ("#fff3c4", "#4a4218"),
          "alarm": ("#d55e00", "#f08a4b"), "alarm-ground": ("#fdf0e8", "#33231a"),
          "notice": ("#0072b2", "#4aa8e0"), "notice-ground": ("#eaf4fa", "#16262f")}
RULES = """
body { font: 15px/1.5 system-ui, sans-serif; color: var(--ink); background: var(--paper); max-width: 76rem; margin: 2rem auto;
  padding: 0 1.5rem; }
h1 { font-size: 1.6rem; margin-bottom: 0; } h2 { font-size: 1.15rem; margin: 2.2rem 0 .6rem; }
table { border-collapse: collapse; font-size: .86rem; font-variant-numeric: tabular-nums; }
th, td { padding: .22rem .7rem; text-align: right; border-bottom: 1px solid var(--line); white-space: nowrap; }
th { font-weight: 600; } th:first-child, td:first-child { text-align: left; }
tr.group th { border-bottom: none; text-align: left; } tr.sum td { font-weight: 600; border-top: 2px solid var(--frame); }
table.plans td:nth-child(-n+3), table.plans th:nth-child(-n+3) { text-align: left; } a { color: var(--notice); }
tr:target { background: var(--target); } .wide { overflow-x: auto; }
.runs { display: flex; flex-wrap: wrap; gap: 1rem; margin-top: 1.2rem; }
.run { border: 1px solid var(--line); border-radius: 8px; padding: .8rem 1.2rem; flex: 1 1 22rem; min-width: 0;
  overflow-wrap: anywhere; }
.run b { font-size: 1.05rem; } .large { font-size: 2rem; font-weight: 600; line-height: 1.2; }
small { color: var(--quiet); font-size: .86rem; } li { overflow-wrap: anywhere; }
code { font-size: .92em; }
.alarm { border-left: 4px solid var(--alarm); background: var(--alarm-ground); padding: .6rem 1rem .6rem 2rem; }
.notice { border-left: 4px solid var(--notice); background: var(--notice-ground); padding: .6rem 1rem; margin: 1.2rem 0 0; }
.otherwise { color: var(--alarm); margin-left: .5rem; }
.plots { display: flex; flex-wrap: wrap; gap: 1.2rem 2.4rem; align-items: flex-start; } figure { margin: 0; max-width: 100%; }
figcaption { font-weight: 600; margin: .8rem 0 .3rem; }
.plot { max-width: 100%; height: auto; display: block; } .plot text { font-size: 11.5px; fill: var(--ink); }
.plot .label { font-weight: 600; } .plot .quiet { fill: var(--quiet); } .plot path { fill: none; }
.grid { stroke: var(--line); } .frame, .diagonal { stroke: var(--frame); } .edge { stroke: var(--frame); stroke-dasharray: 1 4; }
.curve { stroke: currentColor; stroke-width: 2; stroke-linejoin: round; } .dashed { stroke-dasharray: 5 3; }
.plot .marks path { fill: currentColor; fill-opacity: .85; } .plot a:hover path { stroke: var(--ink); stroke-width: 1.5; }
.plot .marks path.hollow, .key path.hollow { fill: var(--paper); stroke: currentColor; stroke-width: 1.5; }
.bar, .key rect { fill: currentColor; } .bar { stroke: var(--paper); } .plot .late, .key .late { fill-opacity: .45; }
.key path:not(.hollow) { fill: currentColor; }
.legend { list-style: none; display: flex; flex-wrap: wrap; gap: .1rem 1.1rem; margin: .3rem 0 0; padding: 0; font-size: .8rem;
  max-width: 34rem; }
.key { vertical-align: -1px; margin-right: .3rem; }
"""


def hue_class(number: int) -> str:
    """The class of the hue of this number, which begin anew where there are no more."""
    return f"hue{number % len(HUES)}"


def result_class(result: Result) -> str:
    """The class of a result's hue."""
    return result.value.replace(" ", "-")


def style() -> str:
    """The whole style sheet."""
    classes = {hue_class(number): pair for number, pair in enumerate(HUES)}
    classes.update((result_class(result), pair) for result, pair in RESULTS.items())
    pairs = {**GROUND, **classes}
    light, dark = ("".join(f"--{name}: {pair[number]}; " for name, pair in pairs.items()) for number in (0, 1))
    hues = "".join(f".{name} {{ color: var(--{name}); }}\n" for name in classes)
    return f":root {{ color-scheme: light dark; {light}}}\n@media (prefers-color-scheme: dark) {{ :root {{ {dark}}} }}{RULES}{hues}"
