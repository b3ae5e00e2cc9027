#!/usr/bin/env python3
"""Writes the lines of call_cases and forecast_cases, and what the model answers; of the worksheet's crates, whose sheets are written by hand, the answers.

    model/cases.py        # stdin and stdout of these two crates, stdout of worksheet and worksheet_cases"""
import os

import commit_cases
import evaluation_cases
import forecast
import ladder_cases
import preview_cases
import session
import step_cases
import store_cases
import turning_cases
import worksheet

CRATES = os.path.join(os.path.dirname(os.path.abspath(__file__)), "..", "crates")


def write(crate, lines, answers):
    folder = os.path.join(CRATES, crate)
    for name, text in ("stdin", "".join(line + "\n" for line in lines)), ("stdout", answers(lines)):
        with open(os.path.join(folder, name), "w", encoding="ascii") as out:
            out.write(text)


CALLS = store_cases, evaluation_cases, preview_cases, ladder_cases, turning_cases, step_cases, commit_cases

write("call_cases", [line for cases in CALLS for line in cases.lines()], session.answers)
write("forecast_cases", forecast.lines(), forecast.answers)


def write_sheets(crate, answers):
    folder = os.path.join(CRATES, crate)
    with open(os.path.join(folder, "stdin"), "rb") as sheets, open(os.path.join(folder, "stdout"), "wb") as out:
        out.write(answers(sheets.read()))


write_sheets("worksheet", worksheet.Sheet("text").answer)
write_sheets("worksheet_cases", worksheet.answers)
