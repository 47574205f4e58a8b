"""Cases that are asked of a port: how its answers are compared, and what is counted."""
import concurrent.futures
import os
import sys

import cases as cases_module

# How many wrong answers are shown.
MOST = 20


def is_right(case, got):
    """Whether an answer is the wanted one; a part that a port cannot tell is left out of its answer."""
    wanted = case["answer"]
    if "text" in wanted or "error" not in got:
        return wanted == got
    parts = {"written": wanted["written"], **wanted["error"]}
    given = {key: part for key, part in got.items() if key == "written"} | got.get("error", {})
    return all(parts.get(key) == part for key, part in given.items())


def run(name, ask):
    """Asks each case, of which `ask` answers none to those that its port is not asked, and ends with a status."""
    cases = cases_module.read()
    with concurrent.futures.ThreadPoolExecutor(len(os.sched_getaffinity(0))) as pool:
        answers = list(pool.map(ask, cases))
    wrong = [(case, got) for case, got in zip(cases, answers) if got is not None and not is_right(case, got)]
    for case, got in wrong[:MOST]:
        print(f"{name}: {case['id']}: {case['source']!r}\n  got    {got!r}\n  wanted {case['answer']!r}", file=sys.stderr)
    unasked = answers.count(None)
    print(f"{name}: {len(cases)} cases, {unasked} not asked, {len(wrong)} wrong")
    return 1 if wrong or unasked == len(cases) else 0
