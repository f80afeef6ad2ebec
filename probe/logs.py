# SPDX-License-Identifier: MIT OR Apache-2.0
"""Logs of single processors (docs/FORMAT.md): found in an output, cut where a run hung, kept."""
import os
import subprocess
import sys
import tempfile

from probe import auditor, image
from records.events import CHANGES
from records.logs import MAGIC, log_bytes, read_log
from records.reading import Cut

RECORD = "run.record"  # what the auditor made of the logs beside it


def split(output):
    """The logs of each run of an output: lists of as many as its processors, in their order. Of a
    run that lacks some, none."""
    starts, runs, at = [], [], output.find(MAGIC)
    while at >= 0:
        starts.append(at)
        at = output.find(MAGIC, at + 1)
    for start, after in zip(starts, [*starts[1:], len(output)]):
        try:
            log = read_log(output[start:after])
        except Cut:
            continue
        if log.processor == 0:
            runs.append([])
        if runs and log.processor == len(runs[-1]):
            runs[-1].append(log)
    return [run for run in runs if len(run) == run[0].processors]


def cut_to_least(run):
    """Of a run that did not come to its end what all its processors came to: the events that ended
    by the least last stamp, and those that began before it and change a word, which others may have
    seen. A later one may rest on events that were not logged."""
    least = min(max([0, *(end for _, end, _ in log.events)]) for log in run)
    for log in run:
        log.events = [(begin, end, event) for begin, end, event in log.events
                      if end <= least or (isinstance(event, CHANGES) and begin < least)]


def keep(run, folder):
    """The logs in a folder, a file for each processor; their names."""
    os.makedirs(folder, exist_ok=True)
    paths = [os.path.join(folder, f"{log.processor}.log") for log in run]
    for path, log in zip(paths, run):
        with open(path, "wb") as file:
            file.write(log_bytes(log))
    return paths


def cut(run):
    """Cuts the logs of a run that did not come to its end, and says so."""
    if all(log.is_whole for log in run):
        return ""
    before = sum(len(log.events) for log in run)
    cut_to_least(run)
    return f"of {before} logged events {sum(len(log.events) for log in run)} are kept"


def can_merge():
    """Whether the auditor makes records of logs."""
    return subprocess.run([auditor.program(), "help", "merge"], stdin=subprocess.DEVNULL,
                          capture_output=True, check=False).returncode == 0


def need_merge():
    """Stops where the auditor makes no records of logs."""
    if not can_merge():
        raise image.Stop("the auditor has no `merge`, which makes a record of logs: keep them "
                         "by --record-only --keep FOLDER")


def merged(paths):
    """The record that the auditor makes of logs."""
    done = subprocess.run([auditor.program(), "merge", *paths], stdin=subprocess.DEVNULL,
                          capture_output=True, check=False)
    if done.returncode != 0:
        raise image.Stop(f"merge ends with status {done.returncode}: "
                         f"{done.stderr.decode(errors='replace').strip()}")
    return done.stdout


def record_of(run, folder=None):
    """The record of a run's logs. They stay in a folder with it, where one is named."""
    with tempfile.TemporaryDirectory() as other:
        paths = keep(run, folder or other)
        data = merged(paths)
    if folder:
        with open(os.path.join(folder, RECORD), "wb") as file:
            file.write(data)
    return data


def judge(run, folder, record_only):
    """Writes what certify says of the record of a run's logs to standard output; its status. Logs
    and record stay in the folder, where one is named. Where nothing is judged the logs alone do."""
    if record_only:
        keep(run, folder)
        return 0
    status, report, said = auditor.certify(record_of(run, folder))
    sys.stderr.buffer.write(said)
    sys.stdout.buffer.write(report)
    sys.stdout.buffer.flush()
    return status
