"""Wrong input: one line with file and line on standard error, status 3, and no page. And what a fault says of a text."""
import pathlib
import sys

from given import finish, view

top, scratch = (pathlib.Path(word) for word in sys.argv[1:3])
plan, text = top / "samples/replay/lost-lock.plan", top / "samples/replay/lost-lock.text"
wrong = []


def given(name, held):
    path = scratch / name
    path.write_bytes(held if isinstance(held, bytes) else held.encode())
    return path


def refused(status, said, *words):
    ran = view(*words)
    if (ran.status, ran.out, ran.err) != (status, "", f"view: {said}\n"):
        wrong.append(f"{[str(word) for word in words]}: status {ran.status}, {len(ran.out)} bytes, {ran.err}")


lines = text.read_text().splitlines(keepends=True)
cut, other = given("cut", "".join(lines[:40])), given("other", "domain seats 2\n" + "".join(lines))
part, long = given("part", "".join(lines)[:-3]), given("long", "".join(lines) + "1 idle\n")
prose, empty, binary = given("prose", "Dear reader,\n"), given("empty", ""), given("binary", b"1 1 load 0 8191\n\xff\n")
refused(3, f"{cut}:40: the text was cut: its last line is `end` and a time", "replay", plan, cut)
refused(3, f"{part}:{len(lines)}: the text was cut: its last line is `end` and a time", "replay", plan, part)
refused(3, f"{other}:1: no line of a replay: domain seats 2", "replay", plan, other)
refused(3, f"{long}:{len(lines) + 1}: behind the line `end` nothing stands in the text of a replay", "replay", plan, long)
refused(3, f"{prose}:1: no line of a replay: Dear reader,", "--check", "replay", plan, prose)
refused(3, f"{empty}:1: the text was cut: its last line is `end` and a time", "replay", plan, empty)
refused(3, f"{binary}:2: a byte is no ASCII", "replay", plan, binary)
refused(3, f"{prose}:1: not the line `seats N` of a plan", "replay", prose, text)
few = given("few", "seats 2\n")
refused(3, f"{few}:1: a plan without its line `objects N`", "replay", few, text)
refused(5, f"{scratch / 'nothing'}: No such file or directory", "replay", plan, scratch / "nothing")
refused(5, f"{scratch}: Is a directory", "replay", scratch, text)
refused(3, f"{plan}: it has 82 steps, and no step 83", "--svg", "83", "replay", plan, text)
refused(3, f"{prose}:1: no line of a run: Dear reader,", "--text", prose, "run", given("script", "add l0 5\n"))
refused(3, f"{cut}:1: no line of a run: 1 1 load 0 8191", "--text", cut, "run", scratch / "script")

# Out of form: the page of the words.
for words in ([], ["replay"], ["replay", "--check", plan], ["look", plan], ["--svg", "replay", plan], ["--check", "--model", "replay", plan]):
    ran = view(*words)
    if ran.status != 2 or ran.out or not ran.err.startswith("./mvrlu view"):
        wrong.append(f"{words}: status {ran.status}")

# A fault names the line, and what should stand there.
for old, new, says in [
        ("52 1 swap 4 144115188075855872 288230376151711744 lost", "52 1 swap 4 0 288230376151711744 lost",
         "step 52 finds 144115188075855872 in HEAD of object 0, and not 0: step 41 stored that"),
        ("2 1 store 3 1", "2 1 store 3 2", "step 2 offers 1, and not 2: MARK of seat 1 is to say: in a section at time 0 or later"),
        ("1 lock stale 1", "1 lock busy 0", "here stands `1 lock stale 1` in a text of this plan: with this the call `lock 0` of seat 1 has ended"),
        ("53 1 load 11 0\n", "", "before this line `53 1 load 11 0` is missing: seat 1 is in `lock 0`, and its next step is load FIRST"),
        ("2 1 store 3 1\n", "2 1 store 3 1\n2 1 store 3 1\n", "no line should be here: 2 1 store 3 1"),
        ("80 1 store 4", "80 1 load 4", "not the step of this call: seat 1 is in `abort`, and its next step is store HEAD (abort)")]:
    faulty = given("faulty", text.read_text().replace(old, new, 1))
    ran, page = view("--check", "replay", plan, faulty), view("replay", plan, faulty)
    told = ran.err.splitlines()
    if ran.status != 1 or ran.out or len(told) != 1 or not told[0].startswith(f"view: {faulty}:") or not told[0].endswith(says):
        wrong.append(f"{new}: status {ran.status}: {ran.err}")
    if page.status or "</html>" not in page.out:
        wrong.append(f"{new}: no page, status {page.status}")
if view("--check", "replay", plan, text).status or view("replay", plan, text).err:
    wrong.append("the stored text is refused")
finish(wrong, "wrong input is told with its file and line")
