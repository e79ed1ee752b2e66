#!/usr/bin/env python3
"""Reads a SARIF document from standard input and compares it with what the schema of version 2.1.0 requires of its parts.

    ini_file check --format sarif FILE.. | tests/program/sarif.py NAME RESULTS

NAME is the file that each result is of, RESULTS their number. It prints what is missing or wrong, and nothing where all is well.
"""
import json
import sys

name, count = sys.argv[1], int(sys.argv[2])
log = json.load(sys.stdin)
wrong = []


def has(part, where, **kinds):
    """Notes each property that a part lacks, or that has another kind."""
    for key, kind in kinds.items():
        if not isinstance(part.get(key), kind):
            wrong.append(f"{where}.{key}")


has(log, "log", version=str, runs=list)
if log["version"] != "2.1.0":
    wrong.append("log.version")
for run in log["runs"]:
    has(run, "run", tool=dict, results=list, columnKind=str)
    driver = run["tool"]["driver"]
    has(driver, "driver", name=str, rules=list)
    for rule in driver["rules"]:
        has(rule, "rule", id=str, shortDescription=dict)
    rules = [rule["id"] for rule in driver["rules"]]
    if len(set(rules)) != len(rules):
        wrong.append("rules are there twice")
    if len(run["results"]) != count:
        wrong.append(f"{len(run['results'])} results")
    for result in run["results"]:
        has(result, "result", message=dict, ruleId=str, locations=list)
        has(result["message"], "message", text=str)
        if result["ruleId"] not in rules or result["level"] not in ("error", "warning", "note"):
            wrong.append("a result's rule or level")
        place = result["locations"][0]["physicalLocation"]
        region = place["region"]
        has(region, "region", startLine=int, startColumn=int, endLine=int, endColumn=int)
        if place["artifactLocation"]["uri"] != name:
            wrong.append(place["artifactLocation"]["uri"])
        if (region["startLine"], region["startColumn"]) >= (region["endLine"], region["endColumn"]):
            wrong.append("an empty region")
print(*wrong, sep="\n", end="")
