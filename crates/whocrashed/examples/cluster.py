#!/usr/bin/env python3
"""Reads many minidumps on a Dask cluster, and counts their crashes.

    cluster.py SCHEDULER WHOCRASHED PATHS OUT

SCHEDULER is the address of a Dask scheduler, or the file that it wrote its address to. PATHS is a file with a path a line.
OUT gets a line of JSON for each path, in files `part-*.jsonl`, and `crashes.tsv`: how often each crash occurs, what it is, and
a dump of it. Every worker has to see WHOCRASHED, the dumps and OUT.

A part is the lines of a batch of paths. It is there whole or not at all, so a second run does what is left. A dump that takes
more time or memory than is allowed costs its own line alone: its status is `Timeout`, `OutOfMemory` or `Failed`.
"""
import argparse
import collections
import hashlib
import json
import os
import resource
import subprocess
import sys
import uuid

from dask.distributed import Client, as_completed


def run(program, paths, seconds, limit):
    """Returns the lines that the program prints of some paths, or why there are none."""
    memory = (lambda: resource.setrlimit(resource.RLIMIT_AS, (limit, limit))) if limit else None
    try:
        done = subprocess.run([program, "--json", *paths], capture_output=True, timeout=seconds * len(paths), preexec_fn=memory)
    except subprocess.TimeoutExpired:
        return None, "Timeout"
    lines = done.stdout.splitlines()
    return (lines, None) if done.returncode in (0, 1) and len(lines) == len(paths) else (None, "Failed")


def lines_of(program, paths, seconds, limit):
    """Returns a line for each path. Where a batch fails, each of its dumps is read alone."""
    lines, why = run(program, paths, seconds, limit)
    if lines is not None:
        return lines
    if len(paths) == 1:
        return [json.dumps({"path": paths[0], "status": why}).encode()]
    return [line for path in paths for line in lines_of(program, [path], seconds, limit)]


def crash_of(report):
    """Returns what crashes are counted by: the signature, or the reason and the first three frames."""
    if report["status"] != "OK":
        return report["status"]
    signature = report.get("signature") or (report.get("minidump") or {}).get("signature")
    if signature:
        return signature
    reason, thread = (report.get("crash_info") or {}).get("type"), report.get("crashing_thread") or {}
    frames = [f.get("function") or f'{f["module"]}+{f["module_offset"]}' for f in thread.get("frames", []) if f.get("module")]
    return " | ".join([reason or "no exception", *frames[:3]])


def counted(part):
    """Returns how often each crash is in a part, and the path of one such dump."""
    counts = {}
    with open(part, encoding="utf-8", errors="replace") as file:
        for line in file:
            report = json.loads(line)
            crash = crash_of(report)
            count, path = counts.get(crash, (0, report["path"]))
            counts[crash] = count + 1, path
    return counts


def batch(program, paths, part, seconds, limit):
    """Writes a part, if it isn't there, and counts the crashes in it."""
    if not os.path.exists(part):
        new = f"{part}.{uuid.uuid4()}"
        with open(new, "wb") as file:
            file.writelines(line + b"\n" for line in lines_of(program, paths, seconds, limit))
            file.flush()
            os.fsync(file.fileno())
        os.replace(new, part)
    return counted(part)


def part_of(out, paths):
    """Returns the file of a batch. Its name is that of its paths, so another list or size of batches takes no wrong part."""
    digest = hashlib.sha256("\n".join(paths).encode(errors="surrogateescape")).hexdigest()
    return f"{out}/part-{digest[:24]}.jsonl"


def printable(text):
    return "".join(c if c.isprintable() else c.encode("unicode_escape", "replace").decode() for c in str(text))


def write_table(path, total, examples):
    """Writes the table of crashes, the most frequent first."""
    with open(path + ".new", "w", encoding="utf-8", errors="backslashreplace") as file:
        for crash, count in total.most_common():
            file.write(f"{count}\t{printable(crash)}\t{printable(examples[crash])}\n")
    os.replace(path + ".new", path)


def collect(client, given, batches):
    """Runs the batches on the workers, and returns how often each crash occurs, with a dump of each."""
    total, examples = collections.Counter(), {}
    jobs = [client.submit(batch, given.program, paths, part_of(given.out, paths), given.seconds, given.bytes, pure=False, retries=3)
            for paths in batches]
    for done, (job, counts) in enumerate(as_completed(jobs, with_results=True), 1):
        for crash, (count, path) in counts.items():
            total[crash] += count
            examples.setdefault(crash, path)
        job.release()
        print(f"\r{done} of {len(jobs)} batches", end="", file=sys.stderr, flush=True)
    print(file=sys.stderr)
    return total, examples


def arguments():
    parser = argparse.ArgumentParser(description="Reads many minidumps on a Dask cluster, and counts their crashes.")
    for name in ("scheduler", "program", "paths", "out"):
        parser.add_argument(name)
    parser.add_argument("--batch", type=int, default=64, help="dumps of a run of the program")
    parser.add_argument("--seconds", type=float, default=10, help="for a dump")
    parser.add_argument("--bytes", type=int, default=1 << 30, help="of address space for a run; 0 for no limit")
    return parser.parse_args()


def main():
    given = arguments()
    given.program, given.out = os.path.abspath(given.program), os.path.abspath(given.out)
    os.makedirs(given.out, exist_ok=True)
    with open(given.paths, encoding="utf-8", errors="surrogateescape") as file:
        paths = file.read().splitlines()
    batches = [paths[i:i + given.batch] for i in range(0, len(paths), given.batch)]
    place = {"scheduler_file": given.scheduler} if os.path.exists(given.scheduler) else {"address": given.scheduler}
    with Client(**place) as client:
        total, examples = collect(client, given, batches)
    write_table(f"{given.out}/crashes.tsv", total, examples)


if __name__ == "__main__":
    main()
