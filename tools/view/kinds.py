"""The kinds of atomic step that a replay makes, as docs/RULE.md names them, each with what it is for.

The core has three more: making a seat, joining one, and the load of CLOCK behind a joining. No line of a text is of these."""
from collections import namedtuple

Kind = namedtuple("Kind", "name why")

KINDS = {
    "load_low": Kind(
        "load CLOCK (low time)",
        "Takes a low time: the section to come won't be below it. It is taken before the mark is stored, so the mark may "
        "promise it.",
    ),
    "store_mark": Kind(
        "store MARK",
        "Tells all scans that this seat is, or will soon be, in a section at this time or later. From now on nothing that such "
        "a section may reach is freed.",
    ),
    "load_time": Kind(
        "load CLOCK (take time)",
        "Takes the snapshot: the section's time is that of CLOCK at this very step. What is committed later is never seen in "
        "it.",
    ),
    "load_named": Kind(
        "load STAMP (named)",
        "Looks whether the commit that CLOCK names is stamped. If it is, all its versions are visible already.",
    ),
    "load_check": Kind(
        "load CLOCK (check)",
        "Loads CLOCK for an exchange. Before a help only a CLOCK that still names the same commit lets the unset stamp be "
        "exchanged, for a slot may have been built anew; before an exchange of CLOCK this is the word to expect.",
    ),
    "stamp": Kind(
        "compare_exchange STAMP",
        "Exchanges the unset stamp of the commit that CLOCK names for its time, and all versions of the commit become visible "
        "at once. Whoever does it stores the same time, so losing it does no harm.",
    ),
    "clear_mark": Kind(
        "store MARK 0",
        "Leaves the section. Scans no longer wait for this seat.",
    ),
    "load_head": Kind(
        "load HEAD",
        "Begins a walk at the newest version of the object, or at the master where HEAD is 0.",
    ),
    "load_first": Kind(
        "load FIRST",
        "Finds where the version's write set begins: the STAMP of that slot is that of the whole set.",
    ),
    "load_stamp": Kind(
        "load STAMP",
        "Finds whether and when the version was committed. A time that isn't above the section's: this version is read. Unset, "
        "or a later time: a read goes on to the older one, and a lock is refused.",
    ),
    "load_prev": Kind(
        "load PREV",
        "Goes on to the next older version, or to the master.",
    ),
    "load_data": Kind(
        "load DATA",
        "Reads one of the six words of the version at which the walk has ended.",
    ),
    "load_master": Kind(
        "load MASTER",
        "Reads one of the six words of the master, which all sections see that no version serves.",
    ),
    "store_built": Kind(
        "store into a built slot",
        "Builds a version in a free slot of the own log. No chain leads to it, so nobody else reads these words yet.",
    ),
    "store_data": Kind(
        "store DATA of a held slot",
        "Writes the held version. It is in the chain, but its stamp is unset, so everybody walks past it.",
    ),
    "load_death": Kind(
        "load CLOCK (death)",
        "Notes the death of a version that has left its chain: no section of this time or later begins a walk to it.",
    ),
    "lock_head": Kind(
        "compare_exchange HEAD (lock)",
        "Hangs the built version above the one that was read. Won: the object is held. Lost: HEAD was written since it was "
        "loaded.",
    ),
    "unlock_head": Kind(
        "store HEAD (abort)",
        "Gives a held object up: HEAD names again what it named before. A walk under way may still stand at the version.",
    ),
    "name_commit": Kind(
        "compare_exchange CLOCK (commit)",
        "Makes the commit. Won: CLOCK names the next time, this seat and this write set, and the commit stands in the one "
        "history, whole. Lost: another entry came first.",
    ),
    "store_super": Kind(
        "store SUPER",
        "Tells the owner of the version below when its object was written next: from that time on no new section needs it.",
    ),
    "name_rest": Kind(
        "compare_exchange CLOCK (rest)",
        "Makes an entry that changes nothing, so that a later time begins, at which what left its chain is no longer reached.",
    ),
    "load_scan": Kind(
        "load CLOCK (scan)",
        "Begins a scan: the watermark to come isn't above this time.",
    ),
    "load_mark": Kind(
        "load MARK",
        "Looks at another seat's mark. The least of CLOCK's time and the marks' low times is a time that no section is below.",
    ),
    "load_super": Kind(
        "load SUPER",
        "Looks whether the object was written since: 0 is no, and else it is the version's death.",
    ),
    "store_master": Kind(
        "store MASTER",
        "Writes one word back to the master. No section is below the version's time, and each finds the version first, so "
        "nobody reads the master meanwhile.",
    ),
    "cut_head": Kind(
        "compare_exchange HEAD (cut)",
        "Cuts the chain behind a whole write-back: HEAD 0 sends walks to the master. Lost where a newer version hangs there by "
        "now.",
    ),
    "store_free": Kind(
        "store STAMP 0 (free)",
        "Frees the slot. The version is dead at the watermark, so no section reaches it or stands at it.",
    ),
    "load_grace": Kind(
        "load GRACE",
        "Takes the watermark that all seats share: what is dead by it may be freed without a scan.",
    ),
    "raise_grace": Kind(
        "fetch_max GRACE",
        "Shares the scan's watermark. The greater one stands there afterwards.",
    ),
}
INDEX = {name: at for at, name in enumerate(KINDS)}
