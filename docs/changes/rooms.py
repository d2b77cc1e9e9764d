#!/usr/bin/env python3
"""rooms.py CRATE FILE..: carries the files of a crate (.antt, .rt, .edit) that was written over the crates as they were before
the rooms were put in order to the names as they are now. Every imported name goes to its new module, one `use` line for each
module; a word is renamed only in a file that imported it; paths in code follow. What it cannot do is listed in rooms.md.
rooms.py --table: the table of rooms.md."""
import re
import sys

MODULES = {}  # old module -> new module
NAMES = {}    # (old module, name) -> (new module, name)
TABLE = []


def names(old, new, words):
    for word in words.split():
        was, now = word.split('=') if '=' in word else (word, word)
        NAMES[(old, was)] = (new, now)
        TABLE.append((old, was, new, now))


def module(old, new):
    MODULES[old] = new
    TABLE.append((old, '', new, ''))


def modules(old, new, words):
    for word in words.split():
        was, now = word.split('=') if '=' in word else (word, word)
        module(old + was, new + now)


# ---- refusals and formats
R, F = 'refusals.specs.Refusals', 'formats.specs.Formats'
module('formats.specs.declared.Known.the-variants', 'formats.specs.declared.FormatAnswer.the-variants')
names('formats.specs.declared.Known', 'formats.specs.declared.FormatAnswer', 'Known=FormatAnswer')
names('sectors.specs.Asked', R, 'first kept when shortOf numberRefusal=outsideOf')
names('sectors.specs.Asked', F, 'knownNumber=formatNumber formatRefusal checkStart')
names('document.specs.Answered', R, 'answered')
names('numbers.specs.Integers', R, 'outside')
names('sectors.proofs.First', 'refusals.proofs.Words',
      'first-some first-none none-first none-second kept-some kept-none refused passed turned-away done when-true when-false '
      'none-when enough Served=Inside')
module('document.proofs.Given', 'refusals.proofs.Given')
names('numbers.proofs.Ranges', 'refusals.proofs.Words', 'or-false')
# ---- bits and bytes
names('sectors.specs.Sector', 'bits.specs.Bits', 'stretch')
names('fixed.specs.Apart', 'bits.specs.Bits', 'apart')
names('reader.specs.Lines', 'bits.specs.Bits', 'sameBits=same')
names('blocks.specs.Assembly', 'bits.specs.Bits', 'sameBytes=same')
names('reader.specs.Call', 'bits.specs.Bits', 'joined=inARow')
names('blocks.proofs.Copies', 'bits.proofs.Same', 'same-is=same-eq same-self=same-refl still still-first still-end still-differs still-again')
names('blocks.proofs.Copies', 'bits.proofs.Stretches', 'part-length=stretch-length part-at=stretch-at')
module('reader.proofs.Same', 'bits.proofs.Same')
module('numbers.proofs.Base', 'bits.proofs.Base')
names('numbers.proofs.Signs', 'bits.proofs.Whole', 'pow-bytes number-bytes bits-whole')
names('writer.proofs.Laying', 'bits.proofs.Stretches', 'put-behind')
names('writer.proofs.Laying', 'bits.proofs.Whole', 'bytes-put bits-zeros')
names('reader.proofs.Calls', 'bits.proofs.Digits', 'no-digits')
names('reader.proofs.Calls', 'bits.proofs.Bytes', 'no-bits')
names('reader.proofs.Snoc', 'bits.proofs.Digits', 'digits-snoc digits-rest one-digit')
names('sector_writer.proofs.Pieces', 'bits.proofs.Stretches', 'length-stretch=stretch-length swap piece cut')
# ---- one line
S, P = 'sectors.specs.', 'sectors.proofs.'
names(S + 'Calls', S + 'Calls', 'acceptedOf=acceptedAnswer countedOf=fillerAnswer')
names(S + 'Calls', R, 'counted=answered')
names(S + 'Calls', 'pixels.specs.Calls',
      'readRefusal=valuesRefusal dataNumber=dataAnswer dataLeft pixelsNumber=pixelsAnswer pixelsLeft')
names(S + 'Calls', 'channels.specs.Join', 'joinedNumber=joinedAnswer joinedLeft upperOf lowerOf')
names(S + 'Strip', 'visible.specs.Strip',
      'partBytes stripBytes visibleOf lentOf answersOf=partAnswersOf stripOf stripRefusal strippedNumber strippedAnswers '
      'strippedOf=stripAnswer stripLeft')
names(S + 'Strip', R, 'stripped=answered')
names(S + 'declared.strip.Answers', 'visible.specs.declared.strip.PartAnswers', 'Answers=PartAnswers')
modules(S + 'declared.strip.', 'visible.specs.declared.strip.', 'Stripped Stripped.the-variants')
names(P + 'First', P + 'Admitted', 'served Admitted admitted')
names(P + 'First', 'pixels.proofs.Readable', 'Readable readable readable-more')
names(P + 'Counts', 'refusals.proofs.Given', 'counted-some=given-some counted-none=given-none')
module(P + 'Unpacked', 'pixels.proofs.Unpacked')
module(P + 'Joined', 'channels.proofs.Joined')
names(P + 'Parts', 'refusals.proofs.Given', 'stripped-some=given-some stripped-none=given-none')
module(P + 'Parts', 'visible.proofs.Parts')
W = 'sector_writer.specs.Written'
names(W, 'sector_frame.specs.Written', 'headOf sectorOf writtenOf=sectorWritten dataWritten pixelsWritten overOf')
names(W, 'sector_writer.specs.Calls',
      'inputShort putDataNumber=putDataAnswer putDataLeft putPixelsNumber=putPixelsAnswer putPixelsLeft')
names(W, 'sector_rounds.specs.Cleared', 'clearedOf')
modules('sector_writer.proofs.', 'sector_frame.proofs.', 'Frames Overs')
modules('sector_writer.proofs.', 'sector_rounds.proofs.', 'Back RoundTrip Rounds Others Points')
# ---- recordings
names('scramble.specs.Put', 'sync.specs.Put', 'syncPutOf=putSyncAnswer syncOutOf=putSyncLeft beforeSync')
modules('scramble.specs.declared.', 'sync.specs.declared.', 'SyncPut SyncPut.the-variants')
names('scramble.specs.Wire', 'wire.specs.Parts', 'informationOf lineOf dummyOf')
modules('scramble.proofs.', 'sync.proofs.', 'Opening Putting')
module('scramble.proofs.Rule', 'wire.proofs.Rule')
names('scramble.proofs.Steps', 'wire.proofs.Rule', 'after-add after-lt scrambling-append')
names('scramble.proofs.Wire', 'wire.proofs.Wire', 'plain-wire wire-below wire-append plain-back wire-back line-back')
names('reader.specs.Phase', 'scramble.specs.Wire', 'plainBit')
names('reader.specs.Read', 'reader_bits.specs.Loops', 'stepOf doneOf')
names('reader.specs.Read', 'reader.specs.Read', 'readBuffer=readLeft answerOf=callAnswer bufferOf=callLeft')
names('reader.specs.Inner', 'reader.specs.Read', 'CallOk')
modules('reader.specs.', 'reader_bits.specs.', 'Lines Call Phase Inner=Loops declared.Sought declared.Sought.the-variants')
modules('reader.specs.declared.line.', 'reader_bits.specs.declared.', 'Filled Filled.the-variants')
modules('reader.specs.', 'reader_record.specs.', 'Records declared.State')
module('reader.specs.Driven', 'cuts.specs.Driven')
names('reader.proofs.Calls', 'reader_bits.proofs.Resume', 'bit-lt resume-bit resume-byte resume-end')
names('reader.proofs.Snoc', 'scramble.proofs.Wire', 'plain-lt')
names('reader.proofs.Snoc', 'wire.proofs.Wire', 'line-snoc line-none')
modules('reader.proofs.', 'cuts.proofs.',
        'Windows Auto Cuts Stands Simulates Reached Demand Cases Keeps Advances Later Onward Moments Snoc Calls')
modules('reader.proofs.', 'reader_bits.proofs.', 'TailTest Masks Searching Filling')
module('reader.proofs.Checked', 'reader_record.proofs.Checked')
names('writer.specs.Wire', 'writer.specs.Wire', 'writtenOf=writeLineAnswer outputOf=writeLineLeft')
# ---- numbers and fields
names('numbers.specs.Integers', 'numbers.specs.Integers', 'integerOf=readIntegerAnswer')
names('numbers.specs.Decimals', 'numbers.specs.Decimals', 'bcdOf=readBcdAnswer')
names('numbers.specs.Reals', 'numbers.specs.Reals', 'realOf=readRealAnswer')
names('numbers.specs.Floats', 'numbers.specs.Floats', 'floatOf=readF64Answer')
names('numbers.specs.Written', 'number_writer.specs.Written', 'putOf=putRealAnswer writtenOf=putRealLeft realBytes')
modules('numbers.specs.declared.', 'number_writer.specs.declared.', 'Put Put.the-variants')
modules('numbers.proofs.', 'number_writer.proofs.', 'Puts RoundTrip')
modules('document.specs.', 'stamps.specs.', 'Decimals')
names('document.specs.Dates', 'stamps.specs.Dates', 'dateIn dayRefusal timeRefusal')
names('document.specs.Dates', 'document_stamps.specs.Dates', 'dateOf=dateAnswer dateRefusal datedNumber datedValues')
names('document.specs.Lines', 'document_stamps.specs.Lines',
      'linesOf=lineNumbersAnswer linesRefusal=lineNumbersRefusal linesNumber=numberedNumber linesValues=numberedValues linesIn '
      'positionOf countsRefusal')
names('document.specs.declared.dates.Moment', 'stamps.specs.declared.dates.DateTime', 'Moment=DateTime')
modules('document.specs.declared.dates.', 'document_stamps.specs.declared.dates.', 'Dated Dated.the-variants')
names('document.specs.declared.lines.Lines', 'document_stamps.specs.declared.lines.Numbered', 'Lines=Numbered')
modules('document.specs.declared.lines.', 'document_stamps.specs.declared.lines.', 'Lines.the-variants=Numbered.the-variants LineNumbers')
names('document.specs.Modes', 'document.specs.Modes', 'scanOf=scanModeAnswer scannerOf=scannerSelectAnswer')
names('document.specs.Segments', 'document.specs.Segments',
      'subCommutationOf=subCommutationAnswer subRefusal=subCommutationRefusal')
names('document.specs.Fields', 'document_fields.specs.Fields',
      'integerField=integerFieldAnswer bcdField=bcdFieldAnswer realField=realFieldAnswer floatField=f64FieldAnswer fieldRefusal noPlace')
module('document.proofs.Served', 'document_fields.proofs.Served')
module('document.proofs.Position', 'document_stamps.proofs.Position')
module('document.proofs.Digits', 'stamps.proofs.Digits')
# ---- blocks
names('blocks.specs.Assembly', 'segments.specs.Assembly',
      'segmentOf storedOf placed placedOf=placeAnswer placedLeft=placeLeft lentRefusal carriedOf=carriedAnswer addedBy leftBy '
      'addedOf=addSegmentAnswer blockLeft=addSegmentLeft addedNumber addedSegment addedNew marksAfter')
modules('blocks.specs.declared.assembly.', 'segments.specs.declared.', 'Added Added.the-variants Placed')
names('blocks.specs.Entries', 'calibration.specs.Tables',
      'albedos temperatures Table levelPlace levelAt levelRefusal levelOf=levelAnswer levelFloat=levelF64Answer')
names('blocks.specs.Entries', 'entries.specs.Entries',
      'entryRefusal gridPlace latitudeOf firstLongitude longitudeOf gridAt mappedNumber mappedPoint gridRefusal '
      'mappedOf=mappingAnswer elementPlace elementAt elementsIn orbitalNumber orbitalElements orbitalOf=elementsAnswer')
names('blocks.specs.Entries', 'numbers.specs.Floats', 'zeroFloat')
names('blocks.specs.Runs', 'assemblies.specs.Runs',
      'Assembly begun step run taken Taken takenLines segmentIn firstWith named All joined=sideBySide')
modules('blocks.specs.declared.', 'entries.specs.declared.',
        'mapping.Grid mapping.Mapped mapping.Mapped.the-variants orbit.Orbit orbit.Orbital orbit.Orbital.the-variants')
module('blocks.specs.declared.calibration.Levels', 'calibration.specs.declared.Levels')
module('blocks.proofs.Tables', 'calibration.proofs.Tables')
modules('blocks.proofs.', 'entries.proofs.', 'Known Readings Degrees')
modules('blocks.proofs.', 'assemblies.proofs.', 'Advance Run Skips Stored Marking')
names('blocks.proofs.Carried', 'assemblies.proofs.Later', 'equal-copy other-copy')
module('blocks.proofs.Carried', 'segments.proofs.Known')
# ---- the library
names('rack.specs.Ground', 'rack_number.specs.Number', 'countGiven')
module('rack.specs.Ground', 'rack_ground.specs.Ground')
modules('rack.specs.', 'rack_', 'Recording=recording.specs.Recording Sector=sector.specs.Sector Number=number.specs.Number '
        'Documentation=document.specs.Documentation Assembly=blocks.specs.Assembly')
module('rack.specs.declared.ground.CountAnswer', 'rack_number.specs.declared.CountAnswer')
module('rack.proofs.Zero', 'rack_number.proofs.Zero')

# paths in code, the longer ones first
CODE = [
    ('formats::refusal::', 'refusals::'), ('formats::Known', 'formats::FormatAnswer'),
    ('sectors::asked::first', 'refusals::first'), ('sectors::asked::short', 'refusals::short'),
    ('sectors::asked::format_refusal', 'formats::format_refusal'), ('sectors::asked::check_start', 'formats::check_start'),
    ('sectors::values::read_refusal', 'pixels::values::values_refusal'), ('sectors::values', 'pixels::values'),
    ('sectors::join', 'channels::join'), ('sectors::strip::Answers', 'visible::strip::PartAnswers'),
    ('sectors::strip', 'visible::strip'), ('sector_writer::frame', 'sector_frame::frame'), ('sector_writer::over', 'sector_frame::over'),
    ('scramble::put_sync', 'sync::put_sync'), ('scramble::SyncPut', 'sync::SyncPut'),
    ('scramble::put_scrambling', 'sync::put_scrambling'), ('scramble::before_sync', 'sync::before_sync'),
    ('reader::State', 'reader_record::State'), ('reader::fresh', 'reader_record::fresh'),
    ('numbers::Put', 'number_writer::Put'), ('numbers::put_real', 'number_writer::put_real'),
    ('document::fields::', 'document_fields::'), ('document::dates::Moment', 'stamps::dates::DateTime'),
    ('document::lines::Lines', 'document_stamps::lines::Numbered'), ('document::lines::', 'document_stamps::lines::'),
    ('document::dates::', 'document_stamps::dates::'), ('blocks::assembly::', 'segments::'),
    ('blocks::calibration::', 'calibration::'), ('blocks::entry::', 'entries::entry::'), ('blocks::mapping::', 'entries::mapping::'),
    ('blocks::orbit::', 'entries::orbit::'),
] + [('bits::' + f, 'slice_writer::' + f) for f in ('put_bit', 'put_field', 'pack_bytes', 'pack')] + [
    ('bits::' + f, 'slices::' + f) for f in ('bit_at', 'field', 'count_set', 'unpack_bytes', 'unpack')]

USE = re.compile(r'^(ghost )?use Rattle·(\w+)(?:·(?:specs|proofs))?\.((?:specs|proofs)\.[^{ ;]*?)(?:\.\{(.*)\}| as ([\w-]+))(;?)$')


def written(name, crate):
    owner, kind, rest = name.split('.', 2)
    return f'Rattle·{owner}·{kind}.{kind}.{rest}' if owner == crate else f'Rattle·{owner}.{kind}.{rest}'


def carried(crate, text):
    lines, groups, renamed = [], {}, set()
    for line in text.split('\n'):
        found = USE.match(line)
        if not found:
            if line.strip() != 'use formats::refusal;':
                lines.append(line)
            continue
        ghost, owner, rest, words, alias, end = found.groups()
        old = owner + '.' + rest
        if alias:
            lines.append(f"{ghost or ''}use {written(MODULES.get(old, old), crate)} as {alias}{end}")
            continue
        for word in [w.strip() for w in words.split(',')]:
            new, now = NAMES.get((old, word), (MODULES.get(old, old), word))
            if word != now:
                renamed.add((word, now))
            key = (ghost or '', new, end)
            if key not in groups:
                groups[key] = []
                lines.append(key)
            if now not in groups[key]:
                groups[key].append(now)
    text = '\n'.join(f"{l[0]}use {written(l[1], crate)}.{{{', '.join(groups[l])}}}{l[2]}" if isinstance(l, tuple) else l for l in lines)
    for was, now in renamed:
        text = re.sub(r'(?<![\w·.«:-])' + re.escape(was) + r'(?![\w-])', now, text)
    for was, now in CODE:
        text = re.sub(r'(?<![\w:])' + re.escape(was) + r'(?![a-z])' if was[-1] != ':' else r'(?<![\w:])' + re.escape(was), now, text)
    return re.sub(r'\brefusal::([A-Z])', r'refusals::\1', text)


def table():
    print('| was | is |\n|---|---|')
    rows = {}
    for old, was, new, now in TABLE:
        rows.setdefault((old, new), []).append('' if not was else f'`{was}`' if was == now else f'`{was}` → `{now}`')
    for (old, new), words in rows.items():
        said = ', '.join(w for w in words if w)
        print(f"| `{old}`{': ' + said if said else ''} | `{new}` |")


if __name__ == '__main__':
    if sys.argv[1:] == ['--table']:
        table()
    elif len(sys.argv) < 3:
        sys.exit(__doc__)
    else:
        for path in sys.argv[2:]:
            with open(path) as f:
                text = f.read()
            new = carried(sys.argv[1], text)
            if new != text:
                with open(path, 'w') as f:
                    f.write(new)
