#!/usr/bin/env python3
"""Which answers of a crate's proofs the check would find alone.

    tools/answers.py NAME..

For each crate it takes the answers away in a copy of this checkout, lets `rt check` say what
is left open, and prints the goals that are answered here and are not open there. Write the
answers anew for what is open, clause by clause where the check says so, and check again:
one answer may stand for another that waits for it.
"""
import pathlib
import re
import subprocess
import sys
import tempfile

here = pathlib.Path(__file__).resolve().parent.parent
with tempfile.TemporaryDirectory() as folder:
    subprocess.run(["git", "clone", "-q", here, folder], check=True)
    for name in sys.argv[1:]:
        crate = pathlib.Path(folder) / "crates" / name
        answered = {}
        for path in crate.glob("proofs/**/Answers.antt"):
            where = "::".join(path.parent.relative_to(crate / "proofs").parts)
            answered[where] = re.findall(r"^pub (\S+) : goal\.\1$", path.read_text(), re.M)
            path.unlink()
        run = subprocess.run(["rt", "check", "--allow-holes"], cwd=crate, capture_output=True, text=True)
        said = run.stdout + run.stderr
        if not re.search(r"^logic=|no holes$", said, re.M):
            sys.exit(f"{name}: the check did not come to an end:\n{said[-2000:]}")
        left = dict(re.findall(rf"fn {name}::(\S+): no proof: .*?did not prove (.*)", said))
        for where, goals in sorted(answered.items()):
            open_here = re.findall(r"`([^`]+)`", left.get(where, "").split("; it calls")[0])
            print(f"{name} {where}: {len(goals)} answered; open without: {', '.join(open_here) or 'none'}", flush=True)
