#!/usr/bin/env python3
"""Brings a checkout of the last landed commit, after port.py and tools/port_names.py, to the names of today.

usage: python3 tools/landed_names.py [FOLDER]          in a checkout of that commit, or on the folder that holds it

What then differs between its crates and those here, comments aside, is a true change. The tables are the list of what was renamed:
`old new` for a word of definitions, theorems, modules and functions, by the crate that has it first, and the files that moved.
"""

import os
import re
import shutil
import sys

TEXTS = (".antt", ".rt", ".edit")
WORD = re.compile(r"(?<![\w'₀-₉-])[A-Za-z_][\w'₀-₉]*(?:-[\w'₀-₉]+)*")

# Words that have one meaning in all crates.
WORDS = """
octets: marks-marked bit-set-member, none-marked no_member, mark-marked with-member, marks_of bit_set_of,
  mark_words bit_set_words, Marks BitSets, marks-length bit-set-length, marks-same bit-set-same, mark-length with-length,
  mark-same with-same, mark-other with-other, mark-past with-past, Laid OverFront
line: may_stand is_allowed_setting, InZones OffsetInRange, ahead-read biased-offset-read
schedule: ahead-is biased-offset-is, ahead_small biased-offset-small, REACH CATCH_UP_LIMIT
crontab: Choices Selections, is_chosen is_selected, chosen_by selected_by,
  chosen_in selected_in, refused_choice refused_selection, mark_if add_if, EntryTold EntryBounded, LineTold LineBounded,
  NextTold NextBounded, DueTold DueBounded
fifo: stands_in is_waiting, is_line is_queue, IsLine IsQueue, is-line is-queue, Ticked CountAnswer,
  Popped FrontAnswer, paced consecutive, PacedEvery ConsecutiveTicksEvery, Paced ConsecutiveTicks, WaitingLine Queues,
  WaitingLines WaitingEntries, line_after queue_after, line_of-laid queue_of-laid, stands-append waits-append, Soon CalledWithin,
  Gathered WaitingBits, not_a_line not_a_queue, NOT_A_LINE NOT_A_QUEUE, paced-some consecutive-some, stands-pick waits-pick,
  one-paced one-consecutive, is_line-laid is_queue-laid, paced-one consecutive-one, small_line small-queue,
  front-stands front-waits, line_known queue-known, SmallSteps Inner, laid-line laid-queue, at-stands at-waits,
  announced-line announced-queue, emptied-line emptied-queue, ticked-stands ticked-waits, soon-past-hold called-past-limit,
  fresh-line fresh-queue, announced-stands announced-waits, end-stands end-waits, every-paced every-consecutive,
  behind-stands behind-waits, steady-paced steady-consecutive, without-stands without-waits, holds-line holds-queue,
  after-stands after-waits, steady-every-paced steady-every-consecutive, Outrun MarkCatchesUp, OneByOne SingleTicks,
  Looks Peek, Quiet NobodyCalled, not-paced not-consecutive, paced-every consecutive-every, not-paced-every not-consecutive-every
firings: Planted Tournament, plant build, Mending Updating
normal: laid_form form_over_front, FormTold FormBounded
records: said_from decode_from, said_of decode, items_said decoded_items, fault_said decoded_fault, refusal_said decoded_refusal,
  Said Decoded, said_at decoded_at, said-record decoded-record, SoundSaid SoundDecoded, sent-said sent-decoded,
  said-sound decoded-sound, items-said items-decoded, Saids Decoding, said-joined decoded-joined, cut-said cut-decoded,
  unseens-said unseen-decoded, table-said table-decoded, said-form decoded-form, said-starts decoded-starts, said-end decoded-end,
  ReaderSteps InnerReaders, WriterSteps InnerWriters
runqueue: ahead_of biased_offset_of, hold-reached limit-reached, hold-plainly limit-plainly,
  hold-exact limit-exact, from-720 from-max_west
reload: line_in queue_in, Duties EntryMeanings, Duty EntryMeaning, is_alike is_same_meaning, alike-owner same-meaning-owner, ahead-same biased-offset-same
eremothyn: told-apart answers-distinct, ToldApart AnswersDistinct, Apart Distinct, radio record_calls
"""

# Words that other crates, or other files, have in another meaning: a pattern of paths, and the words there.
LOCAL = [
    (r"crates/(?!schedule/(src/jump|must-fail)|fifo/specs/Examples|eremothyn/specs/(FourWays|ManyEntries))", "marked has_member"),
    (r"crates/(?!command/)", "ahead biased_offset"),
    (r"crates/(fifo|runqueue|reload|eremothyn)/", "line_of queue_of"),
    (r"crates/reload/(?!must-fail)", "alike same_meaning, alike_same same-meaning-same, alike-eq same-meaning-eq, alike_is same-meaning-is"),
    (r"crates/reload/", "alike-not same-meaning-not, alike-other same-meaning-other"),
    (r"crates/(octets|command|crontab_firings|firings|normal|records)/", "laid over_front"),
    (r"crates/eremothyn/(?!proofs/Demand)", "laid over_front"),
    (r"crates/eremothyn/proofs/Demand", "laid stored"),
    (r"crates/(fifo|reload|runqueue)/", "laid stored"),
    (r"crates/(crontab|reload|runqueue)/", "Which Selector, Chosen Selection"),
    (r"crates/(fifo|reload)/|crates/runqueue/(?!specs/Examples)", "Line Queue"),
    (r"crates/(command|crontab|field|normal|reload)/specs/Lib", "Steps Inner"),
    (r"crates/octets/(?!src)|crates/(crontab|reload)/proofs/(Choices|Reloads|peers|chosen)", "mark with_member"),
    (r"crates/(crontab|reload)/proofs", "chosen_more selected-more, chosen-refused selected-refused, chosen-off selected-off, chosen_at selected-at"),
    (r"crates/fifo/", "line-proper queue-proper, stands waits"),
    (r"crates/fifo/proofs/(SingleTicks|Steady|QueueChanges|Refusing|Filling|Growth|Extremes)", "line queue"),
    (r"crates/fifo/proofs/(WaitingBits|Gathered|queue/gather)", "mark with_member"),
    (r"crates/(crontab|reload)/|crates/runqueue/(src|proofs/(Exits|Joiners|init|tick))", "marks members"),
    (r"crates/(field|normal)/src", "written format"),
]

# Folders and files: a pattern of paths and what stands for it. Proof folders go with their functions.
MOVES = """
command/specs/Steps.antt command/specs/Inner.antt
crontab/specs/Steps.antt crontab/specs/Inner.antt
field/specs/Steps.antt field/specs/Inner.antt
normal/specs/Steps.antt normal/specs/Inner.antt
reload/specs/Steps.antt reload/specs/Inner.antt
octets/src/mark.rt octets/src/bitset.rt
octets/proofs/mark octets/proofs/bitset
crontab/src/chosen.rt crontab/src/select.rt
crontab/proofs/chosen crontab/proofs/select
eremothyn/src/radio.rt eremothyn/src/record_calls.rt
eremothyn/proofs/radio eremothyn/proofs/record_calls
field/src/written.rt field/src/format.rt
field/proofs/written field/proofs/format
fifo/proofs/is_line fifo/proofs/is_queue
firings/proofs/tree/plant firings/proofs/tree/build
reload/src/alike.rt reload/src/same_meaning.rt
reload/proofs/alike reload/proofs/same_meaning
"""

# The inner contracts of these crates are in a file of one name; fifo's and proofs' `Steps` are another thing. A module `mark` of src/.
PHRASES = [
    (r"\b(Rattle\.(?:command|crontab|field|normal|reload)\.specs)\.Steps\b", r"\1.Inner"),
    (r"\bmark::", "bitset::"),
    (r"\boctets::mark\b", "octets::bitset"),
    (r"\bpub mod mark;", "pub mod bitset;"),
    (r"\b(crontab::|crate::|mod |(?<![.:])\b(?=chosen::)|Rattle\.crontab\.(?:specs\.declared|proofs)\.)chosen\b", r"\1select"),
    (r"\bsrc/alike\.rt", "src/same_meaning.rt"),
    (r"\bfront\.laid\b", "front.over_front"),
    (r"\b(Rattle\.octets\.specs\.(?:Marks|BitSets)\.\{(?:marked, )?)mark\b", r"\1with_member"),
    (r"(?m)^(    ensures \{ (?:words|marks)\.new ≡ (?:cond chosen \()?)mark\b", r"\1with_member"),
]


def pairs(text):
    """`old new` of each, a comma between them; what is before a colon is the crate."""
    lines = re.sub(r"(?m)^\w+:", ",", text).replace("\n", " ")
    return dict(pair.split() for pair in lines.split(",") if pair.strip())


def files(top):
    for folder, folders, names in os.walk(os.path.join(top, "crates")):
        folders[:] = sorted(f for f in folders if f not in ("out", "target", ".git"))
        for name in sorted(names):
            yield os.path.join(folder, name)


def turn_words(top):
    words = pairs(WORDS)
    for path in files(top):
        if not path.endswith(TEXTS):
            continue
        here = dict(words)
        for pattern, more in LOCAL:
            if re.search(pattern, path):
                here.update(pairs(more))
        with open(path, encoding="utf-8") as file:
            landed = text = file.read()
        for pattern, new in PHRASES:
            text = re.sub(pattern, new, text)
        turned = WORD.sub(lambda m: here.get(m.group(0), m.group(0)), text)
        if turned != landed:
            with open(path, "w", encoding="utf-8") as file:
                file.write(turned)


def move(top):
    for line in MOVES.split("\n"):
        if line:
            old, new = (os.path.join(top, "crates", part) for part in line.split())
            if os.path.exists(old):
                os.makedirs(os.path.dirname(new), exist_ok=True)
                shutil.move(old, new)
    # Modules of definitions and laws, whose file has the module's name.
    words = pairs(WORDS)
    for path in list(files(top)):
        name, ending = os.path.splitext(os.path.basename(path))
        if ending == ".antt" and name[:1].isupper() and name in words:
            shutil.move(path, os.path.join(os.path.dirname(path), words[name] + ending))


def main():
    top = sys.argv[1] if len(sys.argv) > 1 else "."
    turn_words(top)
    move(top)


if __name__ == "__main__":
    main()
