"""Lists of calls on one sheet, as text: `python3 calculator/calculator.py --sheets < cases`.

A case is these lines:

    case NAME
    site ZONE SOIL IMPORTANCE SYSTEM FORMULA PLAN D
    curve code                              or: curve UPPER:THOUSANDTHS UPPER:THOUSANDTHS ..
    rule grouping grouping srss             any number of groupings over srss or absolute
    floor HEIGHT WEIGHT                     from here on one call a line
    reweigh FLOOR WEIGHT
    mode PERIOD ORDINATE ORDINATE ..
    strike MODE
    static
    modal
    want
    refused CALL LAYER NUMBER PLACE         for each refused call, by its number from 1
    after CALL none                         from the last entry on, after each call; or, roof first:
    after CALL storey I: COMBINED DESIGN FORCE
    end

Each case is written as it was read up to `want`, and then answered. What stands between `want` and
`end` is passed over, so a file that has answers comes out unchanged if they are right.
"""
import sys

from calculator import Refusal, Sheet, Site, judge_curve, judge_site


def call(sheet, words, site, curve, rule):
    name, numbers = words[0], [int(word) for word in words[1:]]
    if name == "static":
        sheet.run_static(site, curve)
    elif name == "modal":
        sheet.run_modal(site, curve, rule)
    elif name == "mode":
        sheet.mode(numbers[0], len(numbers) - 1, numbers[1:])
    else:
        {"floor": sheet.floor, "reweigh": sheet.reweigh, "strike": sheet.strike}[name](*numbers)


def entries(calls):
    """How many calls at the beginning enter the building: floors, then modes of no longer period each."""
    count = 0
    while count < len(calls) and calls[count][0] in ("floor", "mode"):
        if count and calls[count - 1][0] == "mode":
            if calls[count][0] == "floor" or int(calls[count][1]) > int(calls[count - 1][1]):
                break
        count += 1
    return max(count, 1)


def wanted(lines):
    """The lines that answer a case, given its lines from `site` on."""
    (_, *site), (_, *steps), (_, *rule), *calls = [line.split() for line in lines]
    site = Site(*map(int, site))
    judge_site(site)
    curve = None
    if steps != ["code"]:
        curve = tuple(tuple(map(int, step.split(":"))) for step in steps)
        judge_curve(curve)
    sheet, shown_from = Sheet(), entries(calls)
    for number, words in enumerate(calls, start=1):
        try:
            call(sheet, words, site, curve, tuple(rule))
        except Refusal as refusal:
            yield f"refused {number} {refusal.layer} {refusal.number} {refusal.place}"
        if number >= shown_from:
            if sheet.stage == "draft":
                yield f"after {number} none"
            for i in range(len(sheet.storeys), 0, -1):
                yield "after %d storey %d: %d %d %d" % (number, i, *sheet.storeys[i - 1])


def work_cases(lines):
    """Each case up to `want` as it was read, then its answer. What stood between `want` and `end` is passed over."""
    case, answered = [], False
    for line in lines:
        if line == "end":
            answered = False
        elif line == "want":
            yield from (*case, line, *wanted(case[1:]), "end")
            case, answered = [], True
        elif not answered:
            case.append(line)


def main():
    for line in work_cases(sys.stdin.read().splitlines()):
        print(line)
