"""A page, a picture or a check of what the program prints: `./mvrlu view`.

    plan.py, replay_text.py     read a plan and the text of its replay
    words.py                    the shared words of a domain: their places, how they are packed, and what they say
    kinds.py                    the kinds of atomic step, each with a sentence
    notes.py, calls.py, tidy.py what a seat notes, and the steps of each call
    machine.py                  runs a plan: its turns, its events and the history
    checks.py, facts.py         a text against its plan's run; facts of docs/RULE.md behind each step
    chains.py, scene.py         what a reader sees behind a step, in words
    sentences.py                what steps and answers say
    replay_model.py, runs.py    all that a page shows, as JSON
    page.py, page/              the page: one file, of this JSON, the styles and the scripts
    svg.py, picture.py          the picture of one step
    colours.py                  the colours of both

No line of it is shared with the program: it runs a plan by docs/RULE.md and docs/PROGRAM.md alone.
"""
