#!/usr/bin/env python3
"""Brings this repository's own definitions and lemmas to the kit's spelling: words in snake case, facts in upper camel case.

usage: tools/respell.py [TOP]

Run once, at the top, after the kit's own port script: it turns every word of the table below in the definitions, the proofs,
the code's contracts and the edits that must be refused. A word is a whole name, or a part of one between dashes.
Names of src/, strings, inputs and outputs are not among them. A second run changes nothing.
"""
import glob
import os
import re
import sys

TABLE = """
abortSeat abort_seat
abortsIn aborts_in
afterAgain after_again
afterClose after_close
afterDrop after_drop
afterField after_field
afterLine after_line
afterLoads after_loads
afterOpen after_open
afterPush after_push
afterRead after_read
afterStore after_store
afterWrite after_write
againMode again_mode
againOf again_of
amountBack amount_back
answerBy answer_by
answerNumber answer_number
answersOf answers_of
attemptsTold attempts_told
boardBack board_back
boardText board_text
boundedNow bounded_now
busyHeads busy_heads
byClosing by_closing
byHandle by_handle
byHead by_head
byNumber by_number
callBack call_back
carefulMode careful_mode
causeNumber cause_number
causeShown cause_shown
cellCount few_cells
cellsAfter cells_after
cellsAt cells_at
closeOf close_of
closesOfOthers closes_of_others
closingGiven closing_given
closingNumber closing_number
dropOf drop_of
entriesOf entries_of
explainedNow explained_now
fieldCut field_cut
fieldFault field_fault
fieldReport field_report
fieldsFrom fields_from
fieldsLeft fields_left
fitsRead fits_read
fitsWrite fits_write
grantedAgain granted_again
grantedClose granted_close
grantedDrop granted_drop
grantedJolt granted_jolt
grantedNumber granted_number
grantedOf granted_of
grantedOpen granted_open
grantedPush granted_push
grantedRead granted_read
grantedValue granted_value
grantedWrite granted_write
hardwareBelow hardware_below
hardwareClose hardware_close
hardwareRead hardware_read
hardwareWrite hardware_write
headAt head_at
headCount few_heads
headSet head_set
hearsCause hears_cause
historyOf history_of
hitByLoads hit_by_loads
hitByStore hit_by_store
holdsSame holds_same
inField in_field
inLine in_line
inOrder in_order
inRig in_rig
isAborted is_aborted
isBeyond is_beyond
isCurrent is_current
isFull is_full
isGranted is_granted
isHardware is_hardware
isIdle is_idle
isLockedOut is_locked_out
isOdd is_odd
isOther is_other
isSoftware is_software
isStale is_stale
isValid is_valid
isWritingBack is_writing_back
joltOf jolt_of
kitOf kit_of
lacksAttempt lacks_attempt
lacksSlot lacks_slot
lacksTransaction lacks_transaction
layerText layer_text
leC le_c
leS le_s
leavesNone leaves_none
leftBy left_by
letterBy letter_by
letterOf letter_of
letterText letter_text
lineCut line_cut
lineParts line_parts
lineReport line_report
lineText line_text
lineWord line_word
linesAt lines_at
linesFit lines_fit
linesLeft lines_left
linesLine lines_line
linesOfText lines_of_text
linesPlain lines_plain
listsFit lists_fit
loadedBy loaded_by
lockOut lock_out
logOf log_of
loggedOr logged_or
madeOn made_on
madeWith made_with
mapAt map_at
modeNumber mode_number
mostAttempts most_attempts
newAttempt new_attempt
newHead new_head
newSeat new_seat
newTable new_table
nextMode next_mode
nothingYet nothing_yet
openOf open_of
operandKinds operand_kinds
operandParts operand_parts
partsLetter parts_letter
plainMode plain_mode
policyBack policy_back
policyText policy_text
pushOf push_of
readMore read_more
refusalBy refusal_by
refusalNumber refusal_number
refusalValue refusal_value
reportOf report_of
reportText report_text
rigLine rig_line
rigOf rig_of
sameAmount same_amount
sameLine same_line
samePrices same_prices
sameRate same_rate
scenarioText scenario_text
seatAt seat_at
seatOf seat_of
setUp set_up
settledBy settled_by
snapshotIn snapshot_in
softwareClose software_close
softwareRead software_read
stageAfter stage_after
stageAt stage_at
startWriteBack start_write_back
startsWriteBack starts_write_back
stateIn state_in
storesAfter stores_after
storesFit stores_fit
storesLine stores_line
struckBy struck_by
tableWith table_with
textStart text_start
twoCells two_cells
upTo up_to
valueShown value_shown
whileOpen while_open
whyNot why_not
withAttempt with_attempt
withHeads with_heads
withMargin with_margin
withWord with_word
wordBy word_by
wordGiven word_given
wordText word_text
writeLog write_log
writeOf write_of
writingBack writing_back
wroteMore wrote_more
"""

# names whose spelling depends on the place: (files, pattern, new text)
PLACES = [
    # two names that would fall together
    ("crates/rules/proofs/StepPush.antt", r"(?<![\w.'-])is_odd(?![\w'-])", "odd_now"),
    # facts are spelled as types
    ("crates/fields/*/*.antt", r"(?<![\w.'-])in_row(?![\w'-])", "InRow"),
    ("crates/fields/*/*.antt", r"(?<![\w.'-])lines-in-row(?![\w'-])", "InRow-lines_from"),
    # and what is no type is not: the stage before the first line, but not the code's variant behind a dot
    ("crates/scenario/*/*.antt", r"(?<![\w.'-])Start(?![\w'-])", "start"),
]

WORDS = dict(row.split() for row in TABLE.split("\n") if row)
NAME = re.compile(r"(?<![\w'])[a-z][\w']*")


def turned(text):
    return NAME.sub(lambda m: WORDS.get(m.group(0), m.group(0)), text)


def files(top, patterns):
    return sorted(f for p in patterns for f in glob.glob(os.path.join(top, p), recursive=True) if "/out/" not in f)


def rewrite(file, turn):
    with open(file, encoding="utf-8") as f:
        old = f.read()
    new = turn(old)
    if new != old:
        with open(file, "w", encoding="utf-8") as f:
            f.write(new)


def main():
    top = sys.argv[1] if len(sys.argv) > 1 else "."
    for pattern, old, new in PLACES:
        for file in files(top, [pattern]):
            rewrite(file, lambda text: re.sub(old, new, text))
    kinds = ["crates/*/specs/**/*.antt", "crates/*/proofs/**/*.antt", "crates/*/src/**/*.rt", "crates/*/must-fail/*.edit"]
    for file in files(top, kinds):
        rewrite(file, turned)


main()
