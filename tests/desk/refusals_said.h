/* What is said of damaged files and refused calls, after 01's line and the general meaning; for tests/desk/refusals.c. */
#ifndef TESTS_DESK_REFUSALS_SAID_H
#define TESTS_DESK_REFUSALS_SAID_H

#include <stddef.h>

/* The shift example's bytes with `taken` bytes at a place taken out and others, in hex, put in. */
struct damage {
    const char *what;
    size_t place, taken;
    const char *put;
    const char *book; /* in hex; null if none is given */
    unsigned number;  /* of the refusal */
    const char *words;
};

struct words_said {
    const char *what;
    unsigned number;
    const char *words;
};

static const struct damage damages[] = {
    {"1, a body that is cut off", 59, 1, "", NULL, 1,
     "  where  shift.case: delay table 0, counted from 0\n"
     "  bytes  field 7, at byte 52: 05 00 05 01 00 3c 03\n"
     "  wrong  Its length announces 5 bytes, but the file has only 4 more.\n"
     "  mend   The file was cut off, or a length in it is wrong. Compile its text again, or copy it again.\n"},
    {"1, a header of two bytes", 54, 6, "", NULL, 1,
     "  where  shift.case\n"
     "  bytes  field 7, at byte 52: 05 00\n"
     "  wrong  A field begins with 3 bytes, its tag and its length, but only 2 are left.\n"
     "  mend   The file was cut off, or a length in it is wrong. Compile its text again, or copy it again.\n"},
    {"1, a header of one byte", 53, 7, "", NULL, 1,
     "  where  shift.case\n"
     "  bytes  field 7, at byte 52: 05\n"
     "  wrong  A field begins with 3 bytes, its tag and its length, but only 1 is left.\n"
     "  mend   The file was cut off, or a length in it is wrong. Compile its text again, or copy it again.\n"},
    {"1, a body that is not there", 55, 5, "", NULL, 1,
     "  where  shift.case: delay table 0, counted from 0\n"
     "  bytes  field 7, at byte 52: 05 00 05\n"
     "  wrong  Its length announces 5 bytes, but the file ends here.\n"
     "  mend   The file was cut off, or a length in it is wrong. Compile its text again, or copy it again.\n"},
    {"1, in a book", 0, 0, "", "05 0005 07 00", 1,
     "  where  types.book: delay table 0, counted from 0\n"
     "  bytes  field 1, at byte 0: 05 00 05 07 00\n"
     "  wrong  Its length announces 5 bytes, but the file has only 2 more.\n"
     "  mend   The file was cut off, or a length in it is wrong. Compile its text again, or copy it again.\n"},
    {"2, a first tag of 0", 0, 1, "00", NULL, 2,
     "  where  shift.case\n"
     "  bytes  field 1, at byte 0: 00 00 05 00 14 01 04 00\n"
     "  wrong  The tag is 0; tags are 1 head, 2 station, 3 track, 4 train, 5 delay table and 6 couple.\n"
     "  mend   Is this a case? The bytes of a case begin with 01 00 05.\n"},
    {"2, a tag of 9", 22, 1, "09", NULL, 2,
     "  where  shift.case\n"
     "  bytes  field 5, at byte 22: 09 00 0c 01 01 00 00 02 00 03 01 00 06 00 07\n"
     "  wrong  The tag is 9; tags are 1 head, 2 station, 3 track, 4 train, 5 delay table and 6 couple.\n"
     "  mend   A length before this place may be wrong. `lampreysong show --fields` prints the file field by field.\n"},
    {"2, UTF-16 with a mark", 0, 60, "fffe 7400 6900", NULL, 2,
     "  where  shift.case\n"
     "  bytes  field 1, at byte 0: ff fe 74 00 69 00\n"
     "  wrong  The file is text that was saved as UTF-16, it seems.\n"
     "  mend   Save the text as UTF-8.\n"},
    {"2, UTF-16 without a mark", 0, 60, "7400 6900 7400 6c00 6500 2000 4c00 6500 7600", NULL, 2,
     "  where  shift.case\n"
     "  bytes  field 1, at byte 0: 74 00 69 00 74 00 6c 00 65 00 20 00 4c 00 65 00 ..\n"
     "  wrong  The file is text that was saved as UTF-16, it seems.\n"
     "  mend   Save the text as UTF-8.\n"},
    {"2, UTF-16, high byte first", 0, 60, "0074 0069 0074 006c 0065 0020 004c 0065 0076", NULL, 2,
     "  where  shift.case\n"
     "  bytes  field 1, at byte 0: 00 74 00 69 00 74 00 6c 00 65 00 20 00 4c 00 65 ..\n"
     "  wrong  The file is text that was saved as UTF-16, it seems.\n"
     "  mend   Save the text as UTF-8.\n"},
    {"2, hex with a control character", 0, 60, "30312030303035203030313420303120303430300c", NULL, 2,
     "  where  shift.case\n"
     "  bytes  field 1, at byte 0: 30 31 20 30 30 30 35 20 30 30 31 34 20 30 31 20 ..\n"
     "  wrong  The tag is 48; tags are 1 head, 2 station, 3 track, 4 train, 5 delay table and 6 couple.\n"
     "         This looks like hex written as text.\n"
     "         Byte 20 is the control character 0c, so the file was not read as text.\n"
     "  mend   Make bytes of it first (examples/to-bytes does so), or write the case as text.\n"},
    {"2, text with a control character", 0, 60, "77696e646f772031320a736166657479203104", NULL, 2,
     "  where  shift.case\n"
     "  bytes  field 1, at byte 0: 77 69 6e 64 6f 77 20 31 32 0a 73 61 66 65 74 79 ..\n"
     "  wrong  The tag is 119; tags are 1 head, 2 station, 3 track, 4 train, 5 delay table and 6 couple.\n"
     "         This looks like text.\n"
     "         Byte 18 is the control character 04, so the file was not read as text.\n"
     "  mend   Take the control character out.\n"},
    {"2, hex in a few bytes", 0, 60, "30312030303035", NULL, 2,
     "  where  shift.case\n"
     "  bytes  field 1, at byte 0: 30 31 20 30 30 30 35\n"
     "  wrong  The tag is 48; tags are 1 head, 2 station, 3 track, 4 train, 5 delay table and 6 couple.\n"
     "         This looks like hex written as text.\n"
     "  mend   Make bytes of it first (examples/to-bytes does so), or write the case as text.\n"},
    {"2, in a book", 0, 0, "", "07 0000", 2,
     "  where  types.book\n"
     "  bytes  field 1, at byte 0: 07 00 00\n"
     "  wrong  The tag is 7; tags are 1 head, 2 station, 3 track, 4 train, 5 delay table and 6 couple.\n"
     "  mend   Is this a book? The bytes of a book begin with 05 00.\n"},
    {"3, no head first", 0, 8, "", NULL, 3,
     "  where  shift.case: station 0, counted from 0\n"
     "  bytes  field 1, at byte 0: 02 00 01 01\n"
     "  wrong  The first field is a station (tag 2), but a case begins with its head (tag 1).\n"
     "  mend   Put the head first.\n"},
    {"3, a book in place of a case", 0, 52, "", NULL, 3,
     "  where  shift.case: delay table 0, counted from 0\n"
     "  bytes  field 1, at byte 0: 05 00 05 01 00 3c 03 28\n"
     "  wrong  The first field is a delay table (tag 5), but a case begins with its head (tag 1).\n"
     "  mend   This may be a book. A book is given by --book, beside a case.\n"},
    {"3, a second head", 8, 0, "01 0005 0014 01 0400", NULL, 3,
     "  where  shift.case: head\n"
     "  bytes  field 2, at byte 8: 01 00 05 00 14 01 04 00\n"
     "  wrong  This is a second head, but a case has one.\n"
     "  mend   Take one of the two out.\n"},
    {"3, a station after a track", 22, 0, "02 0001 01", NULL, 3,
     "  where  shift.case: station 2, counted from 0\n"
     "  bytes  field 5, at byte 22: 02 00 01 01\n"
     "  wrong  A station (tag 2) stands after a track (tag 3).\n"
     "  mend   The order is head, stations, tracks, trains, delay tables, couples: put it before the first track.\n"},
    {"3, what can be no field", 60, 0, "04 ffff", NULL, 3,
     "  where  shift.case: train 2, counted from 0\n"
     "  bytes  field 8, at byte 60: 04 ff ff\n"
     "  wrong  What stands here can be no field: it begins as a train (tag 4), but then says that its length is 65535.\n"
     "  mend   Perhaps a byte was lost or added, here or before: `lampreysong show --fields` prints the file field by field.\n"},
    {"3, a train after a table", 60, 0, "04 000c", NULL, 3,
     "  where  shift.case: train 2, counted from 0\n"
     "  bytes  field 8, at byte 60: 04 00 0c\n"
     "  wrong  A train (tag 4) stands after a delay table (tag 5).\n"
     "  mend   The order is head, stations, tracks, trains, delay tables, couples: put it before the first delay table.\n"},
    {"3, a case in place of a book", 0, 0, "", "01 0005 0014 01 0400", 3,
     "  where  types.book: head\n"
     "  bytes  field 1, at byte 0: 01 00 05 00 14 01 04 00\n"
     "  wrong  A head (tag 1) stands here, but a book has delay tables (tag 5) only.\n"
     "  mend   This may be a case. The book is the file after --book.\n"},
    {"3, a train in a book", 0, 0, "", "05 0003 07 00 64 04 000c", 3,
     "  where  types.book: train 0, counted from 0\n"
     "  bytes  field 2, at byte 6: 04 00 0c\n"
     "  wrong  A train (tag 4) stands here, but a book has delay tables (tag 5) only.\n"
     "  mend   Take it out of the book.\n"},
    {"4, a head", 2, 1, "04", NULL, 4,
     "  where  shift.case: head\n"
     "  bytes  field 1, at byte 0: 01 00 04 00 14 01 04\n"
     "  wrong  Its length is 4 bytes; the length of a head is 5 bytes.\n"
     "  mend   Perhaps a byte was lost or added, here or before: `lampreysong show --fields` prints the file field by field.\n"},
    {"4, a station", 9, 2, "ffff", NULL, 4,
     "  where  shift.case: station 0, counted from 0\n"
     "  bytes  field 2, at byte 8: 02 ff ff 01 02 00 01 01 03 00 03 00 01 01 04 00 ..\n"
     "  wrong  Its length is 65535 bytes; the length of a station is 1 byte.\n"
     "  mend   Perhaps a byte was lost or added, here or before: `lampreysong show --fields` prints the file field by field.\n"},
    {"4, a track", 18, 1, "01", NULL, 4,
     "  where  shift.case: track 0, counted from 0\n"
     "  bytes  field 4, at byte 16: 03 00 01 00\n"
     "  wrong  Its length is 1 byte; the length of a track is 3 bytes.\n"
     "  mend   Perhaps a byte was lost or added, here or before: `lampreysong show --fields` prints the file field by field.\n"},
    {"4, a train", 24, 1, "0d", NULL, 4,
     "  where  shift.case: train 0, counted from 0\n"
     "  bytes  field 5, at byte 22: 04 00 0d 01 01 00 00 02 00 03 01 00 06 00 07 04\n"
     "  wrong  Its length is 13 bytes; the length of a train is 12, 17, 22, 27, 32, 37 or 42 bytes (2 to 8 stops).\n"
     "  mend   Perhaps a byte was lost or added, here or before: `lampreysong show --fields` prints the file field by field.\n"},
    {"4, a table", 54, 1, "04", NULL, 4,
     "  where  shift.case: delay table 0, counted from 0\n"
     "  bytes  field 7, at byte 52: 05 00 04 01 00 3c 03\n"
     "  wrong  Its length is 4 bytes; the length of a delay table is 3, 5, 7, 9, 11, 13, 15 or 17 bytes (1 to 8 delays).\n"
     "  mend   Perhaps a byte was lost or added, here or before: `lampreysong show --fields` prints the file field by field.\n"},
    {"4, a length that is one too long", 18, 1, "04", NULL, 4,
     "  where  shift.case: track 0, counted from 0\n"
     "  bytes  field 4, at byte 16: 03 00 04 00 01 01 04\n"
     "  wrong  Its length is 4 bytes; the length of a track is 3 bytes.\n"
     "  mend   Perhaps a byte was lost or added, here or before: `lampreysong show --fields` prints the file field by field.\n"},
    {"4, a table of no pair in a book", 0, 0, "", "05 0001 07", 4,
     "  where  types.book: delay table 0, counted from 0\n"
     "  bytes  field 1, at byte 0: 05 00 01 07\n"
     "  wrong  Its length is 1 byte; the length of a delay table is 3, 5, 7, 9, 11, 13, 15 or 17 bytes (1 to 8 delays).\n"
     "  mend   Perhaps a byte was lost or added, here or before: `lampreysong show --fields` prints the file field by field.\n"},
    {"5, stations", 8, 0, "[02 0001 01]*23", NULL, 5,
     "  where  shift.case: station 24, counted from 0\n"
     "  bytes  field 26, at byte 104: 02 00 01 01\n"
     "  wrong  A case has at most 24 stations, and this is one more.\n"
     "  mend   Take out a station that can be spared.\n"},
    {"5, trains", 22, 0, "[04 000c 0101 00 0002 0003 01 0006 0007]*06", NULL, 5,
     "  where  shift.case: train 7, counted from 0\n"
     "  bytes  field 12, at byte 127: 04 00 0c 01 01 00 00 05 00 08 01 00 0b 00 0c\n"
     "  wrong  A case has at most 7 trains, and this is one more.\n"
     "  mend   Take out a train that can be spared.\n"},
    {"5, tables", 60, 0, "05000302006405000303006405000304006405000305006405000306006405000307006405000308006405000309 0064", NULL, 5,
     "  where  shift.case: delay table 8, counted from 0\n"
     "  bytes  field 15, at byte 102: 05 00 03 09 00 64\n"
     "  wrong  A case has at most 8 delay tables, and this is one more.\n"
     "  mend   Take out a table whose type no train has, or put tables into a book.\n"},
    {"5, tables of a book", 0, 0, "", "05000301006405000302006405000303006405000304006405000305006405000306006405000307006405000308006405000309 0064", 5,
     "  where  types.book: delay table 8, counted from 0\n"
     "  bytes  field 9, at byte 48: 05 00 03 09 00 64\n"
     "  wrong  A book has at most 8 delay tables, and this is one more.\n"
     "  mend   Take out a table whose type no train has.\n"},
    {"5, an empty case", 0, 60, "", NULL, 5,
     "  where  shift.case\n"
     "  wrong  The case is empty.\n"
     "  mend   Is this the right file? A case has a head, stations and trains.\n"},
    {"5, a head alone", 8, 52, "", NULL, 5,
     "  where  shift.case\n"
     "  bytes  the end, at byte 8, after field 1\n"
     "  wrong  The case has no station and no train.\n"
     "  mend   Add stations, the tracks between them, and the trains.\n"},
    {"5, no train", 22, 38, "", NULL, 5,
     "  where  shift.case\n"
     "  bytes  the end, at byte 22, after field 4\n"
     "  wrong  The case has no train.\n"
     "  mend   Add a train.\n"},
    {"6, last minute 0", 3, 2, "0000", NULL, 6,
     "  where  shift.case: head\n"
     "  bytes  field 1, at byte 0: 01 00 05 00 00 01 04 00\n"
     "  wrong  The last minute is 0; it can be 1 to 719.\n"
     "  mend   Choose a number from 1 to 719.\n"},
    {"6, last minute 720", 3, 2, "02d0", NULL, 6,
     "  where  shift.case: head\n"
     "  bytes  field 1, at byte 0: 01 00 05 02 d0 01 04 00\n"
     "  wrong  The last minute is 720; it can be 1 to 719.\n"
     "  mend   Choose a number from 1 to 719.\n"},
    {"6, safety time", 5, 1, "1f", NULL, 6,
     "  where  shift.case: head\n"
     "  bytes  field 1, at byte 0: 01 00 05 00 14 1f 04 00\n"
     "  wrong  The safety time is 31 minutes; it can be 0 to 30.\n"
     "  mend   Choose a number from 0 to 30.\n"},
    {"6, no room", 6, 2, "0000", NULL, 6,
     "  where  shift.case: head\n"
     "  bytes  field 1, at byte 0: 01 00 05 00 14 01 00 00\n"
     "  wrong  The room is 0 rows; it can be 1 to 1024.\n"
     "  mend   Choose a number from 1 to 1024.\n"},
    {"6, too much room", 6, 2, "0401", NULL, 6,
     "  where  shift.case: head\n"
     "  bytes  field 1, at byte 0: 01 00 05 00 14 01 04 01\n"
     "  wrong  The room is 1025 rows; it can be 1 to 1024.\n"
     "  mend   Choose a number from 1 to 1024.\n"},
    {"6, a station for no train", 15, 1, "00", NULL, 6,
     "  where  shift.case: station 1, counted from 0\n"
     "  bytes  field 3, at byte 12: 02 00 01 00\n"
     "  wrong  Station 1 holds 0 trains; a capacity is 1 to 255.\n"
     "  mend   Let it hold at least one train.\n"},
    {"6, a track for no train", 21, 1, "00", NULL, 6,
     "  where  shift.case: track 0, counted from 0\n"
     "  bytes  field 4, at byte 16: 03 00 03 00 01 00\n"
     "  wrong  Track 0 holds 0 trains; a capacity is 1 to 255.\n"
     "  mend   Let it hold at least one train.\n"},
    {"7, an unknown beginning", 19, 1, "02", NULL, 7,
     "  where  shift.case: track 0, counted from 0\n"
     "  bytes  field 4, at byte 16: 03 00 03 02 01 01\n"
     "  wrong  Track 0 begins at station 2, but there is no station 2.\n"
     "  mend   The stations are 0 to 1.\n"},
    {"7, an unknown end", 20, 1, "ff", NULL, 7,
     "  where  shift.case: track 0, counted from 0\n"
     "  bytes  field 4, at byte 16: 03 00 03 00 ff 01\n"
     "  wrong  Track 0 ends at station 255, but there is no station 255.\n"
     "  mend   The stations are 0 to 1.\n"},
    {"7, the only station", 8, 4, "", NULL, 7,
     "  where  shift.case: track 0, counted from 0\n"
     "  bytes  field 3, at byte 12: 03 00 03 00 01 01\n"
     "  wrong  Track 0 ends at station 1, but there is no station 1.\n"
     "  mend   The only station is 0.\n"},
    {"7, no stations", 8, 8, "", NULL, 7,
     "  where  shift.case: track 0, counted from 0\n"
     "  bytes  field 2, at byte 8: 03 00 03 00 01 01\n"
     "  wrong  Track 0 begins at station 0, but there is no station 0.\n"
     "  mend   The case has no stations: add them.\n"},
    {"7, equal ends", 20, 1, "00", NULL, 7,
     "  where  shift.case: track 0, counted from 0\n"
     "  bytes  field 4, at byte 16: 03 00 03 00 00 01\n"
     "  wrong  Track 0 begins and ends at station 0.\n"
     "  mend   Let it lead from one station to another.\n"},
    {"7, the ends of an earlier track", 22, 0, "03 0003 01 00 05 03 0003 00 01 02", NULL, 7,
     "  where  shift.case: track 2, counted from 0\n"
     "  bytes  field 6, at byte 28: 03 00 03 00 01 02\n"
     "  wrong  Track 2 leads from station 0 to station 1, as track 0 does already.\n"
     "  mend   If this is the way back, swap its ends; otherwise take one of the two out, and let the other hold the trains of both.\n"},
    {"8, an unknown station", 47, 1, "02", NULL, 8,
     "  where  shift.case: train 1, counted from 0\n"
     "  bytes  field 6, at byte 37: 04 00 0c 01 01 00 00 05 00 08 02 00 0b 00 0c\n"
     "  wrong  Stop 2 of train 1 is at station 2, but there is no station 2.\n"
     "  mend   The stations are 0 to 1.\n"},
    {"8, a repeated station", 24, 13, "11 0101 00 0002 0003 01 0006 0007 00 0009 000a", NULL, 8,
     "  where  shift.case: train 0, counted from 0\n"
     "  bytes  field 5, at byte 22: 04 00 11 01 01 00 00 02 00 03 01 00 06 00 07 00 ..\n"
     "  wrong  Train 0 comes to station 0 twice, at its stops 1 and 3.\n"
     "  mend   A path visits a station once: write the way back as a train of its own.\n"},
    {"8, a track the wrong way", 19, 2, "0100", NULL, 8,
     "  where  shift.case: train 0, counted from 0\n"
     "  bytes  field 5, at byte 22: 04 00 0c 01 01 00 00 02 00 03 01 00 06 00 07\n"
     "  wrong  Train 0 goes from station 0 to station 1, but no track leads there.\n"
     "         There is a track from station 1 to station 0, but tracks lead one way.\n"
     "  mend   Add a track from station 0 to station 1, or change the path.\n"},
    {"8, no track", 16, 6, "", NULL, 8,
     "  where  shift.case: train 0, counted from 0\n"
     "  bytes  field 4, at byte 16: 04 00 0c 01 01 00 00 02 00 03 01 00 06 00 07\n"
     "  wrong  Train 0 goes from station 0 to station 1, but no track leads there.\n"
     "  mend   Add a track from station 0 to station 1, or change the path.\n"},
    {"9, the last minute", 3, 2, "000b", NULL, 9,
     "  where  shift.case: train 1, counted from 0\n"
     "  bytes  field 6, at byte 37: 04 00 0c 01 01 00 00 05 00 08 01 00 0b 00 0c\n"
     "  wrong  Train 1 leaves station 1 in minute 12, but the last minute is 11.\n"
     "  mend   Let it leave earlier, or make the window longer.\n"},
    {"9, past any window", 50, 2, "03e8", NULL, 9,
     "  where  shift.case: train 1, counted from 0\n"
     "  bytes  field 6, at byte 37: 04 00 0c 01 01 00 00 05 00 08 01 00 0b 03 e8\n"
     "  wrong  Train 1 leaves station 1 in minute 1000, but the last minute is 20.\n"
     "  mend   Let it leave earlier; the last minute can be 719 at most.\n"},
    {"9, a departure before the arrival", 30, 2, "0001", NULL, 9,
     "  where  shift.case: train 0, counted from 0\n"
     "  bytes  field 5, at byte 22: 04 00 0c 01 01 00 00 02 00 01 01 00 06 00 07\n"
     "  wrong  Train 0 arrives at station 0 in minute 2, but leaves it in minute 1, which is earlier.\n"
     "  mend   Let it leave in the minute of its arrival or later.\n"},
    {"9, an arrival that is not later", 33, 2, "0003", NULL, 9,
     "  where  shift.case: train 0, counted from 0\n"
     "  bytes  field 5, at byte 22: 04 00 0c 01 01 00 00 02 00 03 01 00 03 00 07\n"
     "  wrong  Train 0 leaves station 0 in minute 3, but arrives at station 1 in minute 3, which is not later.\n"
     "  mend   A drive takes at least one minute: let it leave earlier, or arrive later.\n"},
    {"10, delays that don't rise", 58, 1, "00", NULL, 10,
     "  where  shift.case: delay table 0, counted from 0\n"
     "  bytes  field 7, at byte 52: 05 00 05 01 00 3c 00 28\n"
     "  wrong  The delays of delay table 0 don't rise: +0 stands after +0.\n"
     "  mend   Write the delays from the shortest to the longest, each once.\n"},
    {"10, a weight of 0", 57, 1, "00", NULL, 10,
     "  where  shift.case: delay table 0, counted from 0\n"
     "  bytes  field 7, at byte 52: 05 00 05 01 00 00 03 28\n"
     "  wrong  Delay +0 of delay table 0 has weight 0; a weight is at least 1.\n"
     "  mend   Leave that delay out, or give it a weight.\n"},
    {"10, a sum of 101", 59, 1, "29", NULL, 10,
     "  where  shift.case: delay table 0, counted from 0\n"
     "  bytes  field 7, at byte 52: 05 00 05 01 00 3c 03 29\n"
     "  wrong  The weights of delay table 0 sum to 101, not to 100: 1 too many.\n"
     "  mend   Change them so that they sum to 100.\n"},
    {"10, a sum of 99", 59, 1, "27", NULL, 10,
     "  where  shift.case: delay table 0, counted from 0\n"
     "  bytes  field 7, at byte 52: 05 00 05 01 00 3c 03 27\n"
     "  wrong  The weights of delay table 0 sum to 99, not to 100: 1 too few.\n"
     "  mend   Change them so that they sum to 100.\n"},
    {"10, types that don't rise", 60, 0, "05 0003 01 00 64", NULL, 10,
     "  where  shift.case: delay table 1, counted from 0\n"
     "  bytes  field 8, at byte 60: 05 00 03 01 00 64\n"
     "  wrong  Delay table 1 has type 1, and delay table 0 before it has type 1: types must rise.\n"
     "  mend   Put the tables in the order of their types, each type once.\n"},
    {"10, types of a book", 0, 0, "", "05 0003 07 00 64 05 0003 02 00 64", 10,
     "  where  types.book: delay table 1, counted from 0\n"
     "  bytes  field 2, at byte 6: 05 00 03 02 00 64\n"
     "  wrong  Delay table 1 has type 2, and delay table 0 before it has type 7: types must rise.\n"
     "  mend   Put the tables in the order of their types, each type once.\n"},
    {"11, without a book", 26, 1, "07", NULL, 11,
     "  where  shift.case: train 0, counted from 0\n"
     "  bytes  field 5, at byte 22: 04 00 0c 01 07 00 00 02 00 03 01 00 06 00 07\n"
     "  wrong  Train 0 has type 7, but no delay table has type 7.\n"
     "         The case has a delay table of type 1.\n"
     "         No book was given.\n"
     "  mend   Give the book with --book, or add a delay table of that type, or change the train's type.\n"},
    {"11, without tables", 52, 8, "", NULL, 11,
     "  where  shift.case: train 0, counted from 0\n"
     "  bytes  field 5, at byte 22: 04 00 0c 01 01 00 00 02 00 03 01 00 06 00 07\n"
     "  wrong  Train 0 has type 1, but no delay table has type 1.\n"
     "         The case has no delay tables.\n"
     "         No book was given.\n"
     "  mend   Give the book with --book, or add a delay table of that type, or change the train's type.\n"},
    {"11, with a book", 41, 1, "07", "05 0003 02 00 64 05 0003 06 00 64", 11,
     "  where  shift.case: train 1, counted from 0\n"
     "  bytes  field 6, at byte 37: 04 00 0c 01 07 00 00 05 00 08 01 00 0b 00 0c\n"
     "  wrong  Train 1 has type 7, but no delay table has type 7.\n"
     "         The case has a delay table of type 1.\n"
     "         The book has delay tables of types 2, 6.\n"
     "  mend   Add a delay table of that type, or change the train's type.\n"},
    {"11, with an empty book", 41, 1, "07", "", 11,
     "  where  shift.case: train 1, counted from 0\n"
     "  bytes  field 6, at byte 37: 04 00 0c 01 07 00 00 05 00 08 01 00 0b 00 0c\n"
     "  wrong  Train 1 has type 7, but no delay table has type 7.\n"
     "         The case has a delay table of type 1.\n"
     "         The book has no delay tables.\n"
     "  mend   Add a delay table of that type, or change the train's type.\n"},
    {"18, an unknown track", 16, 44, "03 0003 00 01 01 03 0003 01 00 01 06 0002 00 07", NULL, 18,
     "  where  shift.case: couple 0, counted from 0\n"
     "  bytes  field 6, at byte 28: 06 00 02 00 07\n"
     "  wrong  Couple 0 has track 7, but there is no track 7.\n"
     "  mend   The tracks are 0 to 1.\n"},
    {"18, an unknown track that comes first", 16, 44, "03 0003 00 01 01 03 0003 01 00 01 06 0002 02 01", NULL, 18,
     "  where  shift.case: couple 0, counted from 0\n"
     "  bytes  field 6, at byte 28: 06 00 02 02 01\n"
     "  wrong  Couple 0 has track 2, but there is no track 2.\n"
     "  mend   The tracks are 0 to 1.\n"},
    {"18, a track alone", 60, 0, "06 0002 00 01", NULL, 18,
     "  where  shift.case: couple 0, counted from 0\n"
     "  bytes  field 8, at byte 60: 06 00 02 00 01\n"
     "  wrong  Couple 0 has track 1, but there is no track 1.\n"
     "  mend   The only track is 0: add the track back, or take the couple out.\n"},
    {"18, no tracks", 16, 44, "06 0002 00 01", NULL, 18,
     "  where  shift.case: couple 0, counted from 0\n"
     "  bytes  field 4, at byte 16: 06 00 02 00 01\n"
     "  wrong  Couple 0 has track 0, but there is no track 0.\n"
     "  mend   The case has no tracks: add them, or take the couple out.\n"},
    {"18, a track with itself", 60, 0, "06 0002 00 00", NULL, 18,
     "  where  shift.case: couple 0, counted from 0\n"
     "  bytes  field 8, at byte 60: 06 00 02 00 00\n"
     "  wrong  Track 0 is coupled with itself.\n"
     "  mend   Couple it with the track that leads back.\n"},
    {"18, ends that don't mirror", 16, 44, "02 0001 01 03 0003 00 01 01 03 0003 01 02 01 06 0002 00 01", NULL, 18,
     "  where  shift.case: couple 0, counted from 0\n"
     "  bytes  field 7, at byte 32: 06 00 02 00 01\n"
     "  wrong  Coupled tracks lead there and back between two stations, but these don't.\n"
     "         Track 0 leads from station 0 to station 1.\n"
     "         Track 1 leads from station 1 to station 2.\n"
     "  mend   No track leads from station 1 to station 0: add it, or take the couple out.\n"},
    {"18, the track beside the one that is meant", 16, 44, "02 0001 01 03 0003 00 01 01 03 0003 01 02 01 03 0003 01 00 01 06 0002 00 01", NULL, 18,
     "  where  shift.case: couple 0, counted from 0\n"
     "  bytes  field 8, at byte 38: 06 00 02 00 01\n"
     "  wrong  Coupled tracks lead there and back between two stations, but these don't.\n"
     "         Track 0 leads from station 0 to station 1.\n"
     "         Track 1 leads from station 1 to station 2.\n"
     "  mend   The way back of track 0 is track 2: couple these two.\n"},
    {"18, unequal capacities", 16, 44, "03 0003 00 01 01 03 0003 01 00 02 06 0002 01 00", NULL, 18,
     "  where  shift.case: couple 0, counted from 0\n"
     "  bytes  field 6, at byte 28: 06 00 02 01 00\n"
     "  wrong  Track 1 holds 2, but track 0 holds 1.\n"
     "  mend   They are the same rails: let both hold the same number of trains.\n"},
    {"18, a couple twice", 16, 44, "03 0003 00 01 01 03 0003 01 00 01 06 0002 01 00 06 0002 00 01", NULL, 18,
     "  where  shift.case: couple 1, counted from 0\n"
     "  bytes  field 7, at byte 33: 06 00 02 00 01\n"
     "  wrong  Track 0 is coupled already, with track 1.\n"
     "         That is couple 0.\n"
     "  mend   A track is in one couple at most: take one of the two out.\n"},
    {"1, a couple that is cut off", 60, 0, "06 0002 00", NULL, 1,
     "  where  shift.case: couple 0, counted from 0\n"
     "  bytes  field 8, at byte 60: 06 00 02 00\n"
     "  wrong  Its length announces 2 bytes, but the file has only 1 more.\n"
     "  mend   The file was cut off, or a length in it is wrong. Compile its text again, or copy it again.\n"},
    {"2, a tag of 7", 60, 0, "07 0002 00 00", NULL, 2,
     "  where  shift.case\n"
     "  bytes  field 8, at byte 60: 07 00 02 00 00\n"
     "  wrong  The tag is 7; tags are 1 head, 2 station, 3 track, 4 train, 5 delay table and 6 couple.\n"
     "  mend   A length before this place may be wrong. `lampreysong show --fields` prints the file field by field.\n"},
    {"3, a table after a couple", 16, 44, "03 0003 00 01 01 03 0003 01 00 01 06 0002 00 01 05 0003 01 00 64", NULL, 3,
     "  where  shift.case: delay table 0, counted from 0\n"
     "  bytes  field 7, at byte 33: 05 00 03 01 00 64\n"
     "  wrong  A delay table (tag 5) stands after a couple (tag 6).\n"
     "  mend   The order is head, stations, tracks, trains, delay tables, couples: put it before the first couple.\n"},
    {"3, a couple in a book", 0, 0, "", "06 0002 00 01", 3,
     "  where  types.book: couple 0, counted from 0\n"
     "  bytes  field 1, at byte 0: 06 00 02 00 01\n"
     "  wrong  A couple (tag 6) stands here, but a book has delay tables (tag 5) only.\n"
     "  mend   Take it out of the book.\n"},
    {"4, a couple", 60, 0, "06 0003 00 01 00", NULL, 4,
     "  where  shift.case: couple 0, counted from 0\n"
     "  bytes  field 8, at byte 60: 06 00 03 00 01 00\n"
     "  wrong  Its length is 3 bytes; the length of a couple is 2 bytes.\n"
     "  mend   Perhaps a byte was lost or added, here or before: `lampreysong show --fields` prints the file field by field.\n"},
};

static const struct words_said texts_said[] = {
    {"6, a window", 6,
     "  where  early.txt, line 8: window, safety and room\n"
     "  bytes  field 1 of the compiled case, at byte 0: 01 00 05 02 d0 01 04 00\n"
     "  wrong  The last minute is 720; it can be 1 to 719.\n"
     "  mend   Choose a number from 1 to 719.\n"},
    {"6, a safety time", 6,
     "  where  early.txt, line 9: window, safety and room\n"
     "  bytes  field 1 of the compiled case, at byte 0: 01 00 05 00 14 1f 04 00\n"
     "  wrong  The safety time is 31 minutes; it can be 0 to 30.\n"
     "  mend   Choose a number from 0 to 30.\n"},
    {"6, a room", 6,
     "  where  early.txt, line 10: window, safety and room\n"
     "  bytes  field 1 of the compiled case, at byte 0: 01 00 05 00 14 01 00 00\n"
     "  wrong  The room is 0 rows; it can be 1 to 1024.\n"
     "  mend   Choose a number from 1 to 1024.\n"},
    {"6, a station", 6,
     "  where  early.txt, line 12: station \"Lower Tip\" (station 1, counted from 0)\n"
     "  bytes  field 3 of the compiled case, at byte 12: 02 00 01 00\n"
     "  wrong  Station \"Lower Tip\" holds 0 trains; a capacity is 1 to 255.\n"
     "  mend   Let it hold at least one train.\n"},
    {"4, one stop", 4,
     "  where  early.txt, line 17: train Ore-2 (train 1, counted from 0)\n"
     "  bytes  field 6 of the compiled case, at byte 37: 04 00 07 01 01 00 00 05 00 08\n"
     "  wrong  Train Ore-2 has 1 stop; a train has 2 to 8 stops.\n"
     "  mend   Write the stations that it comes to, the first and the last at least.\n"},
    {"4, no stop", 4,
     "  where  early.txt, line 14: train Ore-1 (train 0, counted from 0)\n"
     "  bytes  field 5 of the compiled case, at byte 22: 04 00 02 01 01\n"
     "  wrong  Train Ore-1 has no stops; a train has 2 to 8 stops.\n"
     "  mend   Write the stations that it comes to, the first and the last at least.\n"},
    {"4, no delay", 4,
     "  where  early.txt, line 20: delay table Ore (delay table 0, counted from 0)\n"
     "  bytes  field 7 of the compiled case, at byte 52: 05 00 01 01\n"
     "  wrong  Delay table Ore has no delays; a table has 1 to 8.\n"
     "  mend   Write each delay with its weight; +0 100% is the table of trains without delay.\n"},
    {"5, no train", 5,
     "  where  early.txt\n"
     "  bytes  the end of the compiled case, at byte 22, after field 4\n"
     "  wrong  The case has no train.\n"
     "  mend   Add a train.\n"},
    {"7, equal ends", 7,
     "  where  early.txt, line 13: track Incline (track 0, counted from 0)\n"
     "  bytes  field 4 of the compiled case, at byte 16: 03 00 03 00 00 01\n"
     "  wrong  Track Incline begins and ends at station Face.\n"
     "  mend   Let it lead from one station to another.\n"},
    {"8, a repeated station", 8,
     "  where  early.txt, line 19: train Ore-2 (train 1, counted from 0)\n"
     "  bytes  field 6 of the compiled case, at byte 37: 04 00 0c 01 01 00 00 05 00 08 00 00 0b 00 0c\n"
     "  wrong  Train Ore-2 comes to station Face twice, at its stops 1 and 2.\n"
     "  mend   A path visits a station once: write the way back as a train of its own.\n"},
    {"8, no track", 8,
     "  where  early.txt, line 16: train Ore-1 (train 0, counted from 0)\n"
     "  bytes  field 4 of the compiled case, at byte 16: 04 00 0c 01 01 00 00 02 00 03 01 00 06 00 07\n"
     "  wrong  Train Ore-1 goes from station Face to station \"Lower Tip\", but no track leads there.\n"
     "  mend   Add a track from station Face to station \"Lower Tip\", or change the path.\n"},
    {"9, past the window", 9,
     "  where  early.txt, line 19: train Ore-2 (train 1, counted from 0)\n"
     "  bytes  field 6 of the compiled case, at byte 37: 04 00 0c 01 01 00 00 05 00 08 01 00 0b 00 0c\n"
     "  wrong  Train Ore-2 leaves station \"Lower Tip\" in minute 12, but the last minute is 11.\n"
     "  mend   Let it leave earlier, or make the window longer.\n"},
    {"9, out of order", 9,
     "  where  early.txt, line 16: train Ore-1 (train 0, counted from 0)\n"
     "  bytes  field 5 of the compiled case, at byte 22: 04 00 0c 01 01 00 00 02 00 03 01 00 02 00 07\n"
     "  wrong  Train Ore-1 leaves station Face in minute 3, but arrives at station \"Lower Tip\" in minute 2, which is not later.\n"
     "  mend   A drive takes at least one minute: let it leave earlier, or arrive later.\n"},
    {"10, a sum", 10,
     "  where  early.txt, line 20: delay table Ore (delay table 0, counted from 0)\n"
     "  bytes  field 7 of the compiled case, at byte 52: 05 00 05 01 00 3c 03 29\n"
     "  wrong  The percents of delay table Ore sum to 101, not to 100: 1 too many.\n"
     "  mend   Change them so that they sum to 100.\n"},
    {"11, a type", 11,
     "  where  early.txt, line 17: train Ore-2 (train 1, counted from 0)\n"
     "  bytes  field 6 of the compiled case, at byte 37: 04 00 0c 01 09 00 00 05 00 08 01 00 0b 00 0c\n"
     "  wrong  Train Ore-2 has type 9, but no delay table has type 9.\n"
     "         The case has a delay table of type 1 (Ore).\n"
     "         No book was given.\n"
     "  mend   Give the book with --book, or add a delay table of that type, or change the train's type.\n"},
    {"7, the ends of another track", 7,
     "  where  early.txt, line 30: track \"Second incline\" (track 1, counted from 0)\n"
     "  bytes  field 5 of the compiled case, at byte 22: 03 00 03 00 01 01\n"
     "  wrong  Track \"Second incline\" leads from station Face to station \"Lower Tip\", as track Incline does already.\n"
     "         That one stands in line 13.\n"
     "  mend   If this is the way back, swap its ends; otherwise take one of the two out, and let the other hold the trains of both.\n"},
    {"10, in a book", 10,
     "  where  types.txt, line 3: delay table Men (delay table 0, counted from 0)\n"
     "  bytes  field 1 of the compiled book, at byte 0: 05 00 05 01 00 00 03 28\n"
     "  wrong  Delay +0 of delay table Men has weight 0; a weight is at least 1.\n"
     "  mend   Leave that delay out, or give it a weight.\n"},
    {"18, a track with itself", 18,
     "  where  early.txt, line 31: couple Incline Incline (couple 0, counted from 0)\n"
     "  bytes  field 8 of the compiled case, at byte 60: 06 00 02 00 00\n"
     "  wrong  Track Incline is coupled with itself.\n"
     "  mend   Couple it with the track that leads back.\n"},
    {"18, unequal capacities", 18,
     "  where  early.txt, line 31: couple Incline \"Way back\" (couple 0, counted from 0)\n"
     "  bytes  field 9 of the compiled case, at byte 66: 06 00 02 00 01\n"
     "  wrong  Track Incline holds 1, but track \"Way back\" holds 2.\n"
     "  mend   They are the same rails: let both hold the same number of trains.\n"},
    {"18, ends that don't mirror", 18,
     "  where  early.txt, line 31: couple Incline \"Way back\" (couple 0, counted from 0)\n"
     "  bytes  field 10 of the compiled case, at byte 70: 06 00 02 00 01\n"
     "  wrong  Coupled tracks lead there and back between two stations, but these don't.\n"
     "         Track Incline leads from station Face to station \"Lower Tip\".\n"
     "         Track \"Way back\" leads from station Shaft to station Face.\n"
     "  mend   No track leads from station \"Lower Tip\" to station Face: add it, or take the couple out.\n"},
};

static const struct words_said calls_said[] = {
    {"15, one item", 15,
     "  wrong  The choice has 1 item, but the case has 2 trains.\n"
     "  mend   Give one item for each train, in the order of the case, with commas between.\n"},
    {"15, three items", 15,
     "  wrong  The choice has 3 items, but the case has 2 trains.\n"
     "  mend   Give one item for each train, in the order of the case, with commas between.\n"},
    {"15, no item", 15,
     "  wrong  The choice has 0 items, but the case has 2 trains.\n"
     "  mend   Give one item for each train, in the order of the case, with commas between.\n"},
    {"15, an index past the table", 15,
     "  wrong  Train Ore-2 is given index 2, but its delay table Ore has 2 delays.\n"
     "  mend   Indices count from 0 in the table; --delays takes the delays themselves.\n"},
    {"16, train 2", 16,
     "  wrong  There is no train 2: the case has 2 trains.\n"
     "  mend   Ask for one of 0 (Ore-1) to 1 (Ore-2), or by name.\n"},
    {"16, train 65535", 16,
     "  wrong  There is no train 65535: the case has 2 trains.\n"
     "  mend   Ask for one of 0 (Ore-1) to 1 (Ore-2), or by name.\n"},
};

static const char *const many_tracks_said =
    "  where  shift.case: track 40, counted from 0\n"
    "  bytes  field 66, at byte 344: 03 00 03 10 12 01\n"
    "  wrong  A case has at most 40 tracks, and this is one more.\n"
    "  mend   Take out a track that can be spared.\n";

static const char *const many_couples_said =
    "  where  shift.case: couple 20, counted from 0\n"
    "  bytes  field 86, at byte 444: 06 00 02 00 01\n"
    "  wrong  A case has at most 20 couples, and this is one more.\n"
    "  mend   Take it out: after 20 couples every track that a case can have is in one.\n";

static const char *const station_in_book_said =
    "  where  types.book: station 0, counted from 0\n"
    "  bytes  field 1, at byte 0: 02 00 01 01\n"
    "  wrong  A station (tag 2) stands here, but a book has delay tables (tag 5) only.\n"
    "  mend   Take it out of the book.\n";

static const char *const little_room_said =
    "  where  early.txt\n"
    "  wrong  The run needs more than 6 rows, which is the room of this case.\n"
    "  mend   Write `room 7`; it can be up to 1024.\n"
    "         Fewer delays in the tables or fewer trains make the list shorter.\n"
    "         `lampreysong plain` runs every choice by itself, and needs no room.\n";

static const char *const all_room_said =
    "  where  early.txt\n"
    "  wrong  The run needs more than 1024 rows, which is the room of this case.\n"
    "  mend   The most that a case can ask for, 1024 rows, does not suffice.\n"
    "         Fewer delays in the tables or fewer trains make the list shorter.\n"
    "         `lampreysong plain` runs every choice by itself, and needs no room.\n";

static const char *const late_stop_said =
    "  wrong  The run is to stop after minute 21, but the last minute is 20.\n"
    "  mend   Give a minute of 0 to 20, or leave --stop out.\n";

#endif
