#!/usr/bin/env python3
"""Brings this repository's own definitions, lemmas, fields and constructors to snake case, where they were in camel case or had dashes.

usage: tools/spell.py [--list]      at the top of the repository, once, after the spelling of paths and clauses was turned

A name is one of ours if an .antt file below crates/ declares it. Types, modules, variants and whatever else begins with a capital keep their spelling, and so do the
functions of src/, names that a file imports from the library, and strings. In comments and in the papers only what stands between back quotes is turned.
Two names that would fall together in one file stop the run: SPELLED says what one of them is called instead. --list prints old and new.
"""

import os
import re
import sys

NAME = r"[A-Za-z_ℕ][\w'’-]*"
TOKEN = re.compile(r"(?<![\w'◌<>=?≤+*/≡-])" + r"[a-z][\w'-]*" + r"(?![\w'◌-])")
DECLARED = [
    re.compile(r"^\s*(?:(?:abbrev|unfoldable|opaque|pub|data|record|mod|inductive|ruleset|instance)\s+)*((?:" + NAME + r"\s+)*" + NAME + r")\s*(?:\(.*|\{.*)?:(?!=)", re.M),
    re.compile(r"^\s*(?:(?:abbrev|unfoldable|opaque)\s+)*pub\s+(?:(?:abbrev|unfoldable|data|record|ruleset)\s+)*(" + NAME + r")", re.M),
    re.compile(r"^\s*(?:pub\s+)?ruleset\s+(" + NAME + r")", re.M),
]
OURS = re.compile(r"^\s*(?:pub )?(?:ghost )?use Rattle\.(\w+)\.(?:specs|proofs)(?:\.[\w.'-]+)?(?:\.\{([^}]*)\})?", re.M)
THEIRS = re.compile(r"^\s*(?:pub )?(?:ghost )?use ([\w.'-]+)\.\{([^}]*)\}", re.M)

# Names that would fall together with another in one file.
SPELLED = {
    "at-check-place": "at_check_place_lem",
    "after-break": "after_break_lem",
    "answer-by": "answer_by_lem",
    "answer-called": "answer_called_lem",
    "ask-data": "ask_data_question",
    "ask-polling": "ask_polling_question",
    "asked-after": "asked_after_lem",
    "at-check": "at_check_place",
    "at-command": "at_command_place",
    "at-data": "at_data_place",
    "at-expansion": "at_expansion_place",
    "behind-ack": "behind_ack_lem",
    "bytes-of": "bytes_of_lem",
    "call-bytes": "call_bytes_lem",
    "content-called": "content_called_lem",
    "data-written": "data_written_lem",
    "device-bytes": "device_bytes_lem",
    "device-calls": "device_calls_lem",
    "device-counts": "device_counts_lem",
    "device-hears": "device_hears_lem",
    "device-rested": "device_rested_lem",
    "device-senders": "device_senders_lem",
    "device-starts": "device_starts_lem",
    "device-takes": "device_takes_lem",
    "device-tick": "device_tick_lem",
    "device-ticks": "device_ticks_lem",
    "device-told": "device_told_lem",
    "devices-did": "devices_did_lem",
    "devices-do": "devices_do_lem",
    "error-data": "error_data_lem",
    "free-cut": "free_cut_lem",
    "free-master": "free_master_lem",
    "fresh-device": "fresh_device_lem",
    "fresh-master": "fresh_master_lem",
    "has-key": "has_key_lem",
    "heard-as": "heard_as_lem",
    "hearing-device": "hearing_device_lem",
    "hearing-master": "hearing_master_lem",
    "if-awaiting": "if_awaiting_lem",
    "in-slot": "in_slot_lem",
    "inHand": "ticks_in_hand",
    "is-call": "is_call_lem",
    "is-damaged": "is_with_damage",
    "is-not": "is_not_lem",
    "largest-with": "largest_with_lem",
    "link-after": "link_after_lem",
    "link-rests": "link_rests_lem",
    "link-tick": "link_tick_lem",
    "list-entries": "list_entries_lem",
    "listening-device": "listening_device_lem",
    "listens-on": "listens_on_lem",
    "master-bytes": "master_bytes_lem",
    "master-calls": "master_calls_lem",
    "master-character": "master_character_lem",
    "master-counts": "master_counts_lem",
    "master-hears": "master_hears_lem",
    "master-rested": "master_rested_lem",
    "master-starts": "master_starts_lem",
    "master-takes": "master_takes_lem",
    "master-tick": "master_tick_lem",
    "masters-did": "masters_did_lem",
    "masters-do": "masters_do_lem",
    "masters-start": "masters_start_lem",
    "most-records": "most_records_lem",
    "most-sent": "most_sent_lem",
    "new-message": "new_message_lem",
    "no-type": "no_type_lem",
    "number-at": "number_at_lem",
    "on-character": "on_character_lem",
    "on-heard": "on_heard_lem",
    "on-here": "on_here_lem",
    "on-silence": "on_silence_lem",
    "past-sto": "past_sto_lem",
    "primary-told": "primary_told_lem",
    "reads-by": "reads_by_lem",
    "ready-start": "ready_start_lem",
    "refused-link": "refused_link_lem",
    "secondary-told": "secondary_told_lem",
    "senders-told": "senders_told_lem",
    "sends-by": "sends_by_lem",
    "side-in": "side_in_lem",
    "slot-rested": "slot_rested_lem",
    "slots-bytes": "slots_bytes_lem",
    "slots-rest": "slots_rest_lem",
    "ticks-bytes": "ticks_bytes_lem",
    "unless-quiet": "unless_quiet_lem",
    "upper-party": "upper_party_lem",
    "with-command": "with_command_lem",
    "with-count": "with_count_lem",
    "with-gaps": "with_gaps_lem",
    "with-message": "with_message_lem",
    "with-record": "with_record_lem",
    "xor-onto": "xor_onto_lem",
}

# The same, in one crate alone.
IN_CRATE = {
    "line": {"at_count": "at_count_lem"},
    "turns": {"answer_at": "answer_at_question"},
    "recording_list": {"at_first": "at_first_place", "at_address": "at_address_place", "at_count": "at_count_place"},
    "recording_c": {"at_first": "at_first_place", "at_address": "at_address_place", "at_count": "at_count_place"},
    "runs": {"told_in": "told_in_lem", "asked_by": "asked_by_lem"},
    "recording_join": {"by_difference": "by_difference_lem"},
    "readings": {"key_in": "key_in_lem", "is-empty": "is_first_empty"},
    "player_listing": {"goes_on": "goes_on_later", "one_more": "one_more_tick"},
    "load_plays": {"is-taken": "was_taken"},
    "link_list": {"at-most": "at_most_lem"},
    "modem": {"status-read": "own_status_read", "kind-read": "own_kind_read", "data-read": "own_data_read", "control-read": "own_control_read", "control-write": "own_control_write", "data-write": "own_data_write"},
    "modem_party": {"status-read": "own_status_read", "kind-read": "own_kind_read", "data-read": "own_data_read", "control-read": "own_control_read", "control-write": "own_control_write", "data-write": "own_data_write"},
    "modem_c": {"status-read": "own_status_read", "kind-read": "own_kind_read", "data-read": "own_data_read", "control-read": "own_control_read", "control-write": "own_control_write", "data-write": "own_data_write"},
    "modem_examples": {"status-read": "own_status_read", "kind-read": "own_kind_read", "data-read": "own_data_read", "control-read": "own_control_read", "control-write": "own_control_write", "data-write": "own_data_write"},
}


def snake(name, crate=None):
    if name in IN_CRATE.get(crate, {}):
        return IN_CRATE[crate][name]
    if name in SPELLED:
        return SPELLED[name]
    name = re.sub(r"([a-z0-9'])([A-Z])", r"\1_\2", name)
    name = re.sub(r"([A-Z]+)([A-Z][a-z])", r"\1_\2", name)
    return name.replace("-", "_").lower()


def files(top, ends):
    for folder, dirs, names in os.walk(top):
        dirs[:] = sorted(d for d in dirs if d not in ("out", ".git", "target"))
        for n in sorted(names):
            if n.endswith(ends):
                yield os.path.join(folder, n)


def read(path):
    with open(path, encoding="utf-8") as f:
        return f.read()


def crates():
    return {c for c in os.listdir("crates") if os.path.isdir(os.path.join("crates", c, "src"))}


def turns(name):
    if name in SPELLED:
        return True
    if re.match("(invariant|decreases|measure)-", name):
        return False
    return name[:1].islower() and bool(re.search("[A-Z]", name) or "-" in name)


def without_comments(text):
    return "\n".join(l.split("--")[0] if re.match(r"\s*--|.*\s--\s", l) else l for l in text.split("\n"))


def declared():
    found = set()
    for path in files("crates", ".antt"):
        text = without_comments(read(path))
        for form in DECLARED:
            for m in form.finditer(text):
                found |= {w for w in m[1].split() if turns(w)}
    return found


def imported(text, own):
    """What the file imports from the library: these names are not ours there."""
    theirs = set()
    for m in THEIRS.finditer(text):
        parts = m[1].split(".")
        if parts[0] == "Rattle" and parts[1] in own and len(parts) > 2 and parts[2] in ("specs", "proofs"):
            # a function's generated modules are no names of ours
            if parts[-1] not in ("Goals", "Given", "Statement", "Tie", "Names"):
                continue
        for w in m[2].split(","):
            w = w.strip()
            theirs.add(w.split(" as ")[0].strip())
            theirs.add(w.split(" as ")[-1].strip())
    return theirs


def turned(text, names, theirs, crate=None):
    here = IN_CRATE.get(crate, {})

    def one(m):
        before = text[max(0, m.start() - 4):m.start()]
        if m[0] in here and before[-1:] != ".":
            return here[m[0]]
        if m[0] not in names or m[0] in theirs or before == "tie.":
            return m[0]
        return snake(m[0], crate)
    return TOKEN.sub(one, text)


def quoted(text, names):
    return re.sub(r"`([^`\n]*)`", lambda m: "`" + turned(m[1], names, set()) + "`", text)


def by_line(text, names, theirs, mark, crate):
    """Code is turned, comments are not but for what stands between back quotes."""
    out = []
    for line in text.split("\n"):
        at = re.search(r"(?:^|\s)" + mark, line)
        cut = at.start() if at else len(line)
        if mark == "//" and at and line[:cut].count('"') % 2:
            cut = len(line)
        out.append(turned(line[:cut], names, theirs, crate) + quoted(line[cut:], names))
    return "\n".join(out)


def together(path, text, names, theirs, crate):
    was = {}
    bad = []
    here = IN_CRATE.get(crate, {})
    code = re.sub(r"\.[\w'-]+", "", without_comments(text))
    for m in set(TOKEN.findall(code)):
        new = snake(m, crate) if m in here or (m in names and m not in theirs) else m
        if was.setdefault(new, m) != m:
            bad.append((path, was[new], m))
    return bad


def main(argv):
    own = crates()
    names = declared()
    if argv == ["--list"]:
        for n in sorted(names):
            print(n, snake(n))
        return 0
    bad, new = [], {}
    for path in files("crates", (".antt", ".rt")):
        text = read(path)
        theirs = imported(text, own)
        crate = path.split(os.sep)[1] if path.endswith(".antt") else None
        if crate:
            bad += together(path, text, names, theirs, crate)
        new[path] = by_line(text, names, theirs, "--" if path.endswith(".antt") else "//", crate)
    if bad:
        for b in bad:
            print("falls together: %s: %s and %s" % b)
        if "--force" not in argv:
            return 1
    for path in list(files("docs", ".md")) + ["README.md"]:
        new[path] = quoted(read(path), names)
    for path, text in new.items():
        with open(path, "w", encoding="utf-8") as f:
            f.write(text)
    print(f"{len(names)} names, {len(new)} files")
    return 0


if __name__ == "__main__":
    raise SystemExit(main(sys.argv[1:]))
