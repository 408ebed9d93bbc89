"""The rules of alerts and the dashboard name numbers, labels and words that `kdcd serve --metrics` writes."""

import json
import re

from harness.programs import TOP
from harness.tests import test

RULES, DASHBOARD = TOP / "docs/kdcd.rules.yml", TOP / "docs/kdcd.dashboard.json"
# The code that writes the numbers, and what others have of the same names.
SOURCES = ("crates/kdc_metrics/src/numbers.rt", "crates/kdc_metrics/src/count_text.rt")
DEFINITIONS = ("crates/kdc_metrics/specs/CountText.antt", "crates/kdc_metrics/specs/Numbers.antt")
OTHERS = {"instance", "file"}


def expressions():
    """The expressions of both files, by the name of the alert or of the panel."""
    found = re.findall(r"- alert: (\w+)\n\s+expr: (.*)", RULES.read_text())
    for panel in json.loads(DASHBOARD.read_text())["panels"]:
        found += [(panel["title"], target["expr"]) for target in panel["targets"]]
    return found


def text_of(paths):
    return "\n".join((TOP / path).read_text() for path in paths if (TOP / path).exists())


@test()
def names(trial):
    """Each number is written, and each label and its value is one that it has."""
    code, found = text_of(SOURCES), expressions()
    labels = set(re.findall(r'[{,]\\?"?(\w+)=\\"', text_of((*SOURCES, *DEFINITIONS)))) | OTHERS
    rules = set(re.findall(r'"([a-z]+(?:-[a-z]+)+|repeated|full)"', "\n".join(
        path.read_text() for path in TOP.glob("crates/*/src/refusal.rt")
    )))
    for title, expression in found:
        unknown = {name for name in re.findall(r"\bkdcd_\w+", expression) if f'"{name}"' not in code}
        unknown |= {label for label in re.findall(r"(\w+)(?:=|!=|=~)\"", expression) if label not in labels}
        unknown |= {rule for rule in re.findall(r'rule="([^"]+)"', expression) if rule not in rules}
        trial.note(f"{title}: {expression[:60]}", ", ".join(sorted(unknown)))
    trial.note("alerts and panels", "there are few" * (len(found) < 20))
    trial.note("an alert for lost lines", "there is none" * ("kdcd_log_lost_lines_total" not in RULES.read_text()))
