"""The text of a replay: lines of a form, of which the last one is `end T`."""
import re

from .wrong import Wrong

NUMBER = r"(?:0|[1-9][0-9]{0,19})"
STEP = re.compile(rf"(?P<step>{NUMBER}) (?P<seat>{NUMBER}) (?P<access>load|store|swap|max) (?P<place>{NUMBER}) (?P<words>.+)")
FORMS = {  # what stands behind the place of a step
    "load": re.compile(rf"(?P<found>{NUMBER})"),
    "store": re.compile(rf"(?P<offered>{NUMBER})"),
    "swap": re.compile(rf"(?P<found>{NUMBER}) (?P<offered>{NUMBER}) (?P<won>won|lost)"),
    "max": re.compile(rf"(?P<found>{NUMBER}) (?P<offered>{NUMBER})"),
}
N = f" {NUMBER}"
ANSWERS = {
    "enter": N, "read": N * 6, "lock": f" held| busy{N}| stale{N}| setfull| logfull", "write": "", "abort": "", "leave": "",
    "commit": f" done{N}| again{N}{N}| end", "tidy": f"{N}{N}(?: mark{N}{N}| above{N}{N}| fresh{N}| end)?",
}
ANSWER = re.compile(rf"{NUMBER} (?:{'|'.join(f'{call}(?:{form})' for call, form in ANSWERS.items())})")
OTHER = re.compile(rf"{NUMBER} (?:idle|skip (?:{'|'.join(ANSWERS)}))")
END = re.compile(f"end{N}")


def step_of(line):
    """What the line of a step says, by name, or None where it is another line."""
    said = STEP.fullmatch(line)
    words = said and FORMS[said["access"]].fullmatch(said["words"])
    return {**said.groupdict(), **words.groupdict()} if words else None


def is_line(line):
    return bool(ANSWER.fullmatch(line) or OTHER.fullmatch(line) or END.fullmatch(line) or step_of(line))


def read_text(name, source):
    """The lines of a text. One that no replay prints is told, and so is a text that was cut."""
    lines = source.split("\n")
    last = lines.pop()
    for number, line in enumerate(lines, 1):
        if not is_line(line):
            raise Wrong(f"{name}:{number}: no line of a replay: {line[:60]}")
        if END.fullmatch(line) and (number < len(lines) or last):
            raise Wrong(f"{name}:{number + 1}: behind the line `end` nothing stands in the text of a replay")
    if last or not lines or not END.fullmatch(lines[-1]):
        raise Wrong(f"{name}:{len(lines) + bool(last) or 1}: the text was cut: its last line is `end` and a time")
    return lines
