"""Runs the program on a case, and compares what comes with what is wanted."""
import json
import os
import signal
import subprocess
import tempfile
from dataclasses import dataclass
from pathlib import Path

from case_file import Wanted
from certificate import fault_of_certificate, is_flow
from hints import split_hint

SHOWN = 72
REFUSED = 1


@dataclass
class Ran:
    status: int
    output: bytes
    errors: bytes


def faults_of_run(program, case):
    """What differs, a line each; no line if the case passes."""
    if not program.is_file():
        return [f"there is no program {program}"]
    ran = run(program, case.words, case, case.input)
    if ran is None:
        return [f"it ran for more than {case.seconds:g} seconds"]
    faults = []
    if ran.status != case.status:
        faults.append(f"status: wanted {case.status}, came {ran.status}")
    faults += faults_of_stream("output", case.output, ran.output)
    faults += faults_of_errors(case, ran)
    if case.output.comparison == "certified" and not faults:
        faults += faults_of_certified(program, case, ran.output.removeprefix(case.output.text))
    return faults


def run(program, words, case, text):
    """The program's run on this input, in a folder with the case's files; `None` if it took too long."""
    with tempfile.TemporaryDirectory(prefix="grove-case-") as folder:
        lay_out(case, folder)
        pipe = subprocess.PIPE
        process = subprocess.Popen(
            [program, *words], stdin=pipe, stdout=pipe, stderr=pipe, cwd=folder, start_new_session=True
        )
        try:
            output, errors = process.communicate(text, case.seconds)
            return Ran(process.returncode, output, errors)
        except subprocess.TimeoutExpired:
            os.killpg(process.pid, signal.SIGKILL)
            process.communicate()
            return None


def lay_out(case, folder):
    """Puts the case's files and folders into the folder."""
    for name in case.folders:
        (Path(folder) / name).mkdir(parents=True)
    for name, content in case.files.items():
        (Path(folder) / name).parent.mkdir(parents=True, exist_ok=True)
        (Path(folder) / name).write_bytes(content)


def faults_of_errors(case, ran):
    """If a case doesn't say what comes on standard error, a refusal may have a hint there."""
    if case.errors:
        return faults_of_stream("errors", case.errors, ran.errors)
    return faults_of_stream("errors", Wanted(), split_hint(ran.errors)[1] if ran.status == REFUSED else ran.errors)


def faults_of_stream(name, wanted, came):
    if is_as_wanted(wanted, came):
        return []
    if wanted.comparison == "has":
        return [f"{name}: wanted the lines {shown(wanted.text)}", f"{name}: came {shown(came)}"]
    if wanted.comparison == "either":
        return [f"{name}: wanted one of {len(texts_of(wanted))} texts", f"{name}: came {shown(came)}"]
    at = next((i for i, (a, b) in enumerate(zip(wanted.text, came)) if a != b), min(len(wanted.text), len(came)))
    start = max(0, at - SHOWN // 3)
    return [
        f"{name}: differs from byte {at} on",
        f"{name}: wanted {'.. ' if start else ''}{shown(wanted.text[start:])}",
        f"{name}: came   {'.. ' if start else ''}{shown(came[start:])}",
    ]


def is_as_wanted(wanted, came):
    if wanted.comparison == "exact":
        return came == wanted.text
    if wanted.comparison == "has":
        return set(wanted.text.splitlines()) <= set(came.splitlines())
    if wanted.comparison == "either":
        return came in texts_of(wanted)
    return came.startswith(wanted.text) and came != wanted.text


def texts_of(wanted):
    """The texts of which one has to come, which empty lines part."""
    return [text.rstrip(b"\n") + b"\n" for text in wanted.text.split(b"\n\n")]


def shown(text):
    return repr(text[:SHOWN])[1:] + (" .." if len(text) > SHOWN else "")


def faults_of_certified(program, case, line):
    """The rest of what `plan` printed has to be a flow, written as flows are, that certifies the cost printed; and
    `check` has to accept plan and flow at that cost."""
    text = line.removeprefix(b"flow ").removesuffix(b"\n")
    try:
        flow = json.loads(text)
    except ValueError:
        return [f"output: wanted a flow, came {shown(line)}"]
    if line != b"flow %s\n" % json.dumps(flow, separators=(",", ":"), sort_keys=True).encode():
        return [f"output: wanted a compact flow, came {shown(line)}"]
    cost, plan = [part.split(b" ", 1)[1] for part in case.output.text.splitlines()]
    document = json.loads(case.input or next(iter(case.files.values())))
    document |= {"plan": json.loads(plan), "flow": flow}
    fault = fault_of_certificate(document, int(cost)) if is_flow(flow) else "it hasn't the form of one"
    if fault:
        return [f"the flow is no certificate: {fault}"]
    hinted = case.errors.text if case.errors else b""
    checked = run(program, [b"check"], case, json.dumps(document).encode())
    if not checked or (checked.status, checked.output, checked.errors) != (0, b"cost %s\n" % cost, hinted):
        return [f"check of the plan and the flow: wanted cost {int(cost)}, came {checked and shown(checked.output)}"]
    return []
