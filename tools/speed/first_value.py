#!/usr/bin/env python3
"""What a Python process takes for the first value of a small file: by configparser, and by this package.

    first_value.py FILE

It prints a table of milliseconds of user and system time, the shortest of 40 runs in turn, and what Python
alone takes taken off. The package is the one that Python finds; both are compiled before. Each run is without
`site`, which may import on its own what a module takes.
"""
import os
import sys
import tempfile

RUNS = 40
SCRIPTS = {
    "nothing": "import sys",
    "configparser": "import sys, configparser; it = configparser.ConfigParser(); it.read(sys.argv[1]);"
    " assert it['section1']['key2']",
    "bigrosk_ini": "import sys, bigrosk_ini; assert bigrosk_ini.load(sys.argv[1])['section1']['key2']",
}


def milliseconds(script, environment):
    command = [sys.executable, "-S", "-c", script, sys.argv[1]]
    process = os.posix_spawn(sys.executable, command, environment)
    _, status, usage = os.wait4(process, 0)
    if status != 0:
        sys.exit(f"refused: {script}")
    return (usage.ru_utime + usage.ru_stime) * 1000


best = {}
with tempfile.TemporaryDirectory() as room:
    environment = {**os.environ, "PYTHONPYCACHEPREFIX": room}
    environment.pop("PYTHONDONTWRITEBYTECODE", None)
    for _ in range(RUNS):
        for name, script in SCRIPTS.items():
            taken = milliseconds(script, environment)
            best[name] = min(taken, best.get(name, taken))
print("| | import and first value |\n|---|---|")
for name in list(SCRIPTS)[1:]:
    print(f"| {name} | {best[name] - best['nothing']:.1f} |")
