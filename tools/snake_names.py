#!/usr/bin/env python3
"""Brings the names of this repository's own definitions, lemmas, fields and bound variables to snake case.

usage: python3 tools/snake_names.py      once, at the top, right after the kit's port script

It goes over the files of specs/ and proofs/ and over what the sources say in ghost items and clauses. Names that the
kit makes (of goals and steps, such as loop-i or in-Some) and names of the kit's library keep their dashes. Names of
functions, strings, inputs and outputs are not touched: none of them has a dash between letters.
"""

import os
import re

# Names whose dashes become underscores.
SNAKE = """
accepted-at accepted-calls accepts-enabled accepts-entries accepts-lawful accepts-numbers accepts-safe accepts-writes
again-done all-dead all-frames all-zero answer-words antenna-is apart-without approvals-kept asks-kept at-moment at-noted
at-older at-past awaited-anyway before-entry below-dead body-again body-by body-held body-lawful body-words both-granted
bound-is bounded-wait broken-by-write by-ask by-kind by-some by-test by-write calls-entries calls-run calm-live calm-safe
carried-no-ask children-done counted-more cover-back cover-kept covered-kept cut-is-frame cut-is-row done-carries
downlink-is drawn-grows drawn-kept each-frame each-guard-needed each-zero effect-at effected-kept effects-enabled
effects-files effects-lawful effects-left effects-live effects-numbers effects-on effects-safe effects-writes empty-row
ends-enabled ends-safe entries-done entries-kept f-is fall-within fault-at faults-are faults-in faults-push faulty-finding
fetch-between few-faults few-untuned fewer-asks fewer-carries fewer-recalls fields-answer fields-wrong file-dead file-fits
file-held file-is finding-words first-grant first-granted first-held first-link first-none first-nonzero first-over
first-sent first-stays first-steps first-told fits-kind fits-marked fits-some forgotten-child-breaks found-is frame-bytes
frame-count frame-fault framed-back frames-left frames-of frames-pop frames-push frames-stored from-fits given-came
grant-at grant-reading granted-calls granted-state grants-approvals grants-asks grants-cover grants-enabled
grants-fetches grants-idle grants-lawful grants-recalls grants-safe has-row head-back head-long hears-enabled hears-live
hears-safe held-anyway held-or-sent held-run held-state holds-one idle-numbers idle-writes in-at int-le-prop keeps-live
kept-safe kind-again kind-found kind-marked kind-of laid-back last-grows last-is-frame last-kept last-link
last-now last-waited late-grant-breaks lawful-at lawful-back lawful-body lawful-more lawful-uses layer-number
least-margin left-over-is left-without line-words live-child-breaks live-entry-breaks long-enough longest-is made-back
mark-found mark-is mark-read mark-whole marked-fault marked-part message-words moment-at moment-files narrow-margin
narrow-margin-breaks new-entries new-fetches new-files new-lawful new-numbers new-safe new-writes next-version no-accept
no-approve no-ask no-effect no-fault no-fetch no-grant no-marked-fault no-offer no-open no-path-to-primary no-then no-w
no-write-waits nodes-held none-anywhere none-held none-past-end none-wrong nonzero-stops nonzero-value not-given
not-unknown noted-at notes-more notes-none offset-bits-fit offset-fits offset-is old-approval-breaks open-ask opened-is
opened-later opens-enabled opens-fetches opens-lawful opens-safe other-fetches other-number-breaks other-told
over-is-dead over-push overwritten-entry overwritten-entry-breaks own-copy-covered own-link own-number pass-back
pass-bytes pass-call pass-fields pass-on-3 pass-on-8 pass-words pass-wrong passes-enabled passes-safe past-in posted-ask
posted-done posted-recall posted-write posts-enabled posts-safe primary-grants primary-grants-enabled
primary-grants-safe primary-within put-cases put-here put2-cases put2-here quiet-mark read-forth read-framed
read-written reads-one recalls-kept relay-child relay-grants relay-grants-enabled relay-grants-safe relay-within
report-between rest-held restarts-enabled restarts-live restarts-safe row-bytes row-fault row-fit row-held row-long
row-wrong run-numbers run-safe run-story safe-agrees same-counted same-files same-frame same-mark same-message
same-onward same-pass same-shrinks same-tuning same-waiting same-within satellite-is says-again seconds-is sent-carries
sent-other silent-idle sixteen-long started-new step-entries step-fetches step-files step-lawful step-numbers step-safe
step-story step-writes steps-entries steps-run still-held stored-or-lost submits-enabled submits-lawful submits-numbers
submits-safe submits-writes submitted-calls take-fits takes-enabled takes-fetches takes-lawful takes-safe then-three
then-two timely-kept to-fits took-below top-link top-link-within total-grows total-more total-within tunes-read
tuning-back tuning-below tuning-bytes tuning-fields tuning-more tuning-widest tuning-words tuning-wrong turn-taken
two-rows u-is unknown-frame unlawful-at untuned-are untuned-finding uses-of value-zero version-after version-is
versions-fit versions-within waiting-from waiting-grant-breaks waits-below waits-not waits-short way-words with-files
with-margin with-queue with-stations write-carries write-waits wrong-at yes-then yields-enabled yields-live yields-safe
zero-all zero-back zero-from zero-here zero-passes zeros-are
""".split()

# Names that need another word, in the .antt files of a crate (and, with a dash, in its sources): first_of is a tactic,
# kind_number and left_over are fields of structs, whose names no definition may take.
OTHERWISE = {
    "frames": {"first_of": "first_fault"},
    "messages": {"kind-number": "number_of_kind"},
    "sheets": {"left_over": "bytes_over"},
}

# a name, whole: what stands before it is no part of a name, nor what comes after
BEFORE = r"(?<![A-Za-z0-9_'′-])"
NO_FIELD = r"(?<![A-Za-z0-9_'′.-])"
AFTER = r"(?![A-Za-z0-9_'′-])"


def respelled(text, names, others):
    for name in names:
        text = re.sub(BEFORE + re.escape(name) + AFTER, name.replace("-", "_"), text)
    for name, other in others.items():
        text = re.sub(NO_FIELD + re.escape(name) + AFTER, other, text)
    return text


def main():
    changed = 0
    for folder, dirs, files in os.walk("crates"):
        dirs[:] = sorted(d for d in dirs if d != "out")
        for file in sorted(files):
            path = os.path.join(folder, file)
            if not file.endswith((".rt", ".antt")):
                continue
            with open(path, encoding="utf-8") as f:
                text = f.read()
            others = OTHERWISE.get(path.split(os.sep)[1], {})
            if file.endswith(".rt"):
                others = {name: other for name, other in others.items() if "-" in name}
            new = respelled(text, SNAKE, others)
            if new != text:
                with open(path, "w", encoding="utf-8") as f:
                    f.write(new)
                changed += 1
    print(f"snake_names: {changed} files")


if __name__ == "__main__":
    main()
