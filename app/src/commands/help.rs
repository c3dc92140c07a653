//! What `--help` says, for the program and for each command.

pub const ALL: &str = "\
burrcradle finds the voltage sags, interruptions and swells in a depot's recordings, scores the sags, and keeps a table
for each site. Every answer comes from a library whose code is proved against the written rules.

    burrcradle demo                        three training recordings, listed, scored and tabled; writes demo.html
    burrcradle new SITE --n N --r R --f F  makes a site's file with an empty table
    burrcradle check RECORDING...          whether recordings fit the settings, before anything is added
    burrcradle add SITE RECORDING...       adds recordings to the site's table
    burrcradle list RECORDING...           the events of recordings, with their scores
    burrcradle show SITE                   the site's table
    burrcradle report SITE RECORDING... -o FILE.html   one page with curves, events and the table
    burrcradle explain RECORDING...        each event in words, and why it has or has no score
    burrcradle trace RECORDING             each half-cycle: class, kinds, S and rms of each channel

`burrcradle COMMAND --help` tells more, with an example.

A recording is CSV (three columns a, b, c to a line, an optional header; an empty field or the word missing is a missing
sample) or, where its name ends in .i32, raw little-endian 32-bit samples, interleaved. - is standard input.

Exit status: 0 accepted, 1 refused by the rules, 2 bad usage or a bad file, 3 done, but the answer could not be printed: the
table or the page was written, and trying again would do it twice.
";

pub const DEMO: &str = "\
burrcradle demo [--borders unipede | 4-11] [--save] [--force]

Lists, scores and tables three training recordings that the program carries with it, each made for an error that
trainees make, and writes demo.html to the current folder. A demo.html that is no page of burrcradle's is left as it is.

    --borders by which borders sags go into cells: unipede (if not said) or 4-11, those of IEC 61000-4-11
    --save    also writes the three recordings as CSV, to try the other commands on; other files of their names are left
              as they are
    --force   writes the page over whatever is there

Example:
    burrcradle demo --save
";

pub const NEW: &str = "\
burrcradle new SITE --n N --r R --f F [--sag 90] [--interruption 10] [--swell 110] [--hysteresis 2]
               [--borders unipede | 4-11] [--json | --csv]

Makes a site's file with an empty table, for these settings and borders, which it keeps. A file that is there already is left as
it is.

    --n             samples per cycle per channel: even, 8 to 512
    --r             reference rms, in sample units: 1,000 to 50,000
    --f             nominal frequency: 50 or 60
    --sag           sag threshold, percent of R: 50 to 95
    --interruption  interruption threshold: 1 to 20
    --swell         swell threshold: 105 to 150
    --hysteresis    0 to 5
    --borders       by which borders sags go into cells: unipede (if not said), 40 cells, or 4-11, the 25 cells of
                    IEC 61000-4-11, by which equipment is tested. A voltage on a border goes to the deeper row, a duration to
                    the longer column

Example:
    burrcradle new depot.site --n 256 --r 23000 --f 50
    burrcradle new maker.site --n 256 --r 23000 --f 50 --borders 4-11
";

pub const CHECK: &str = "\
burrcradle check RECORDING... (--site SITE | --n N --r R --f F [--sag 90] [--interruption 10] [--swell 110]
                 [--hysteresis 2]) [--cut] [--raw] [--json | --csv]

Tells whether recordings fit the settings, before anything is added: the rms of each channel in percent of R (median and
range over the half-cycles), its missing samples and those out of range, its longest run of one value, the period of its
samples, how many half-cycles and seconds there are, and whether the length fits N/2. It warns of a channel that nobody saw,
that is dead (never 5 % of R) or stuck (one value for a cycle or longer), of a median outside 80 to 120 % of R, of an N that
is not the period, and says whether the recording would be refused. Warnings leave the exit status at 0; a recording that
would be refused makes it 1.

    --site    takes the settings of a site, and tells whether its table has room for the recordings, one after another
    --cut     judges a recording of more than 100,000 half-cycles as `add --cut` would
    --raw     reads recordings as raw 32-bit samples whatever their names, standard input too

Example:
    burrcradle check monday.csv --n 256 --r 23000 --f 50
";

pub const ADD: &str = "\
burrcradle add SITE RECORDING... [--cut] [--raw] [--wait SECONDS] [--json | --csv]

Adds each recording to the site's table: all of them, or none where one is refused, so that a second try counts nothing
twice. Adding the same recording again counts it again; exit status 3 says that the table was written, and only the answer
could not be printed. A warning on standard error names a recording whose median rms lies outside 80 to 120 % of R.

    --cut     cuts a recording of more than 100,000 half-cycles into parts, between events, so that each keeps its score.
              Where a stretch of 100,000 has no such place it is cut at its end, and the events that this splits are named
    --raw     reads recordings as raw 32-bit samples whatever their names, standard input too
    --wait    how long to wait while another add writes to this site (60 seconds if not said)
    --json, --csv   the site's table for programs; JSON also has what each recording added

Example:
    burrcradle add depot.site monday.csv tuesday.i32
";

pub const LIST: &str = "\
burrcradle list RECORDING... (--site SITE | --n N --r R --f F [--sag 90] [--interruption 10] [--swell 110]
                [--hysteresis 2] [--borders unipede | 4-11]) [--cut] [--raw] [--room NUMBERS] [--json | --csv]

Lists the events of recordings with their scores. Half-cycles are numbered from 0 in the whole recording, also where it is cut;
an event goes from start up to but not with end, and begins at so many seconds. Its retained value is in thousandths of R, to
the nearest, halves upward; thresholds and rows go by the extreme, the exact sum, and not by it. What channels a, b and c lost
is their part of a sag's shortfall, as the energy is the whole, but in milliseconds: 0 only where it is exactly that and the sag
was seen whole, <1 where it is less than one, and >= where an end of the sag is unseen (>0 for less than one). Each is rounded
down by itself, so together they may be less than the energy. Why an event has no score stands where its score would.

In CSV each row has its recording's total, healthy, disturbed and unknown half-cycles, the column cut says which ends a cut has
taken (1 the start, 2 the end, 3 both), and a recording without events has one row of kind 0, none. Three columns before the last,
shortfall_a, shortfall_b and shortfall_c, are exact and add up to shortfall; the last, borders, has the word of those that cell
goes by. In JSON they have the same names. Where there is no score, cell is one above the last: 40, or 25 by 4-11.

    --site    takes the settings and the borders of a site
    --borders by which borders sags go into cells: unipede (if not said) or 4-11, those of IEC 61000-4-11
    --cut     cuts a recording of more than 100,000 half-cycles into parts, between events, so that each keeps its score.
              Where a stretch of 100,000 has no such place it is cut at its end, and the events that this splits are named
    --raw     reads recordings as raw 32-bit samples whatever their names, standard input too
    --room    room for so many numbers, eleven to an event, instead of as many as are needed
    --json, --csv   for programs: all eleven numbers of each event, reason, cell, severity, energy

Example:
    burrcradle list monday.csv --site depot.site
    recorder-dump | burrcradle list - --n 256 --r 23000 --f 50 --csv
";

pub const SHOW: &str = "\
burrcradle show SITE [--json | --csv]

Shows a site's table: half-cycles, events, the shortfall, and the sags by depth (rows) and duration (columns), by the borders that
the table was made for. The shortfall, whole and of each channel, is told as seconds too (1000 x shortfall / (N x R x R x 2f), in
whole milliseconds, rounded down). The exact shortfalls of a, b and c add up to the whole; their seconds, each rounded down by
itself, may be less. Where half-cycles are unknown or a sag has an unseen end only what was seen is counted, and the table says
so. The three are shortfall_a, shortfall_b and shortfall_c in JSON, and in CSV, as in the site's file, shortfall-a, shortfall-b
and shortfall-c. JSON and CSV have the cells of the table's own borders only, and last, as borders, the word for these.

A site's file of version 1 or 2 was kept before shortfalls were counted by channel. Every command that reads a site tells so,
with exit status 2, and leaves it: new and add make the site anew from its recordings. One of version 3 was kept before there was
a choice of borders: it is read as one with unipede, and the next add writes it as version 4.

Example:
    burrcradle show depot.site
";

pub const REPORT: &str = "\
burrcradle report SITE RECORDING... -o FILE.html [--force] [--cut] [--raw]

Writes one HTML page: the site's table as it stands, and the recordings with their curves and events under the site's
settings and borders. It adds nothing to the table, which need not hold the recordings, and the page says so, with the date
and each recording's length and SHA-256.

    -o        where the page goes: - is standard output. A file that is there already is written over only if it is a page of
              burrcradle's; the new page is made beside it and then takes its place
    --force   writes over any file, but never over what the page is made from
    --cut     cuts a recording of more than 100,000 half-cycles into parts, between events where that can be had
    --raw     reads recordings as raw 32-bit samples whatever their names, standard input too

Example:
    burrcradle report depot.site monday.csv -o monday.html
";

pub const EXPLAIN: &str = "\
burrcradle explain RECORDING... (--site SITE | --n N --r R --f F [--sag 90] [--interruption 10] [--swell 110]
                   [--hysteresis 2] [--borders unipede | 4-11]) [--cut] [--raw] [--json | --csv]

Tells each event in words: which channels launched it and how far they went, its peak, which condition ended it, how its score
comes about, or why it has none, and what each channel lost. --json and --csv have what list has, and the sentences: launch,
peak, landing, score, loss. The options are those of list, but for --room.

Example:
    burrcradle explain monday.csv --site depot.site
";

pub const TRACE: &str = "\
burrcradle trace RECORDING (--site SITE | --n N --r R --f F [--sag 90] [--interruption 10] [--swell 110]
                 [--hysteresis 2]) [--from SECONDS] [--to SECONDS] [--cut] [--raw] [--json | --csv]

Tells the half-cycles of a recording, one to a line, for auditors and spreadsheets: number, the seconds at which it begins (number
/ 2f), class (healthy, disturbed, unknown), the kinds of event that it lies in (sag, interruption, swell), and of each channel S,
the sum of squares, and the rms value in percent of R. Class, kinds and S are the library's. The percentage is worked out from S,
to two places, to the nearest, halves upward; thresholds go by S and not by it, so a half-cycle just below 90 % may read 90.00.

Of an unknown half-cycle all but its number and time is the word unknown, in text, CSV and JSON: never 0, and never an empty field.
The last line of the text says how many of the half-cycles above it are healthy, disturbed and unknown.

    --site    takes the settings of a site
    --from    only half-cycles that begin at this time or later, in seconds
    --to      only half-cycles that begin before this time. Both are compared exactly as they are written, and have to lie
              within the recording; where no half-cycle begins between them, that is said, with exit status 2
    --cut     cuts a recording of more than 100,000 half-cycles into parts, as list does; numbers and times are those of the
              whole recording. Kinds are told part by part: where a cut goes through an event, that is said
    --raw     reads recordings as raw 32-bit samples whatever their names, standard input too
    --json, --csv   for programs: sum_a, sum_b and sum_c are S, rms_percent_a, rms_percent_b and rms_percent_c the percentages

Example:
    burrcradle trace monday.csv --site depot.site --from 12.4 --to 12.6
    burrcradle trace monday.csv --n 256 --r 23000 --f 50 --csv
";
