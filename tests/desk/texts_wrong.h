/* Wrong texts, and the place and the words of each error. */
#ifndef TESTS_DESK_TEXTS_WRONG_H
#define TESTS_DESK_TEXTS_WRONG_H

enum wrong_kind { A_CASE, WITH_BOOK, A_BOOK }; /* the book has `Ore` of type 1 and `Coal` of type 9 */

static const struct wrong_text {
    const char *text;
    unsigned line, column;
    const char *words;
    enum wrong_kind kind;
} wrong[] = {
    {"", 1, 1, "`window` is missing: write `window` and the last minute", A_CASE},
    {"# nothing\n", 2, 1, "`window` is missing: write `window` and the last minute", A_CASE},
    {"window 9\n", 2, 1, "`safety` is missing: write `safety` and the minutes that a station or track stays blocked after a train has left it", A_CASE},
    {"safety 1", 1, 9, "`window` is missing: write `window` and the last minute", A_CASE},
    {"# hex\n01 0005 0014 01 0400\n", 2, 1, "`01` looks like bytes written in hex; a case is a text of statements, or the bytes themselves", A_CASE},
    {"window\nsafety 0\n", 1, 7, "a whole number of 1 to 719 is expected after `window`, and the line ends here", A_CASE},
    {"window nine\nsafety 0\n", 1, 8, "a whole number of 1 to 719 is expected after `window`, and `nine` stands here", A_CASE},
    {"window 65536\nsafety 0\n", 1, 8, "a whole number of 1 to 719 is expected after `window`, and `65536` stands here", A_CASE},
    {"window 09\nsafety 0\n",
     1, 8, "a whole number of 1 to 719 is expected after `window`, and `09` stands here; a number is written without a 0 before it", A_CASE},
    {"window 9 10\nsafety 0\n", 1, 10, "the end of the line is expected, and `10` stands here", A_CASE},
    {"window 9\nsafety 256\n", 2, 8, "a whole number of 0 to 30 is expected after `safety`, and `256` stands here", A_CASE},
    {"window 9\nwindow 10\n", 2, 1, "`window` stands in line 1 already; a case has it once", A_CASE},
    {"room\n", 1, 5, "a whole number of 1 to 1024 is expected after `room`, and the line ends here", A_CASE},
    {"title   # none\n", 1, 9, "the words of the title are expected after `title`, and the line ends here", A_CASE},
    {"title a\ntitle b\n", 2, 1, "`title` stands in line 1 already; a case has it once", A_CASE},
    {"title word word word word word word word word word word word word word word word word word word word word word\n",
     1, 107, "a title has at most 100 bytes, and this word goes past them", A_CASE},
    {"windw 9\n", 1, 1, "no statement begins with `windw`; is it `window`?", A_CASE},
    {"Window 9\n", 1, 1, "no statement begins with `Window`; is it `window`?", A_CASE},
    {"platform 9\n",
     1, 1, "`title`, `window`, `safety`, `room`, `station`, `track`, `couple`, `delays` or `train` is expected, and `platform` stands here", A_CASE},
    {"  holds 1\n",
     1, 3, "`title`, `window`, `safety`, `room`, `station`, `track`, `couple`, `delays` or `train` is expected, and `holds` stands here", A_CASE},
    {"Face 2-3\n", 1, 1, "`Face` looks like a stop, but no train stands before it; stops come right after the line of their train", A_CASE},
    {"station Face holds two\n", 1, 20, "a whole number of 1 to 255 is expected after `holds`, and `two` stands here", A_CASE},
    {"station Face hold 2\n", 1, 14, "`holds` with a number is expected, and `hold` stands here; a name with spaces stands in double quotes", A_CASE},
    {"station Face\n", 1, 13, "`holds` with a number is expected, and the line ends here", A_CASE},
    {"station Face holds", 1, 19, "a whole number of 1 to 255 is expected after `holds`, and the text ends here", A_CASE},
    {"station Face holds 1 2\n", 1, 22, "the end of the line is expected, and `2` stands here", A_CASE},
    {"station Face holds 1 holds 2\n", 1, 22, "`holds` says a second time what this line has said already", A_CASE},
    {"station\n", 1, 8, "a name is expected after `station`, and the line ends here", A_CASE},
    {"station 12 holds 1\n", 1, 9, "a name is expected after `station`, and `12` stands here; a name has a letter, or double quotes around it", A_CASE},
    {"station train holds 1\n", 1, 9, "a name is expected after `station`, and `train` stands here; a keyword is a name only in double quotes", A_CASE},
    {"station \"\" holds 1\n", 1, 9, "a name is expected after `station`, and `\"\"` stands here", A_CASE},
    {"station \"Lower Tip holds 1\n", 1, 9, "a name begins with this double quote, and the line ends without a second one", A_CASE},
    {"station \"Lower\"Tip holds 1\n", 1, 16, "a space is expected after a name in double quotes", A_CASE},
    {"station Lo\"wer holds 1\n", 1, 11, "a double quote stands within a word; put quotes around the whole name, and a space after it", A_CASE},
    {"station aaaaaaaaaaaaaaaaaaaaaaaaaaaaaaaaaaaaaaaaa holds 1\n",
     1, 9, "a name of at most 40 bytes is expected, and `aaaaaaaaaaaaaaaaaaaaaaaaaaaaaaaaaaaaaaaa..` has 41", A_CASE},
    {"station aaaaaaaaaaaaaaaaaaaaaaaaaaaaaaaaaaaaaaaaaaaaaaaaaaaaaaaaaaaaaaaaaaaaaaaaaaaaaaaaaaaaaaaaaa holds 1\n",
     1, 9, "a name of at most 40 bytes is expected, and `aaaaaaaaaaaaaaaaaaaaaaaaaaaaaaaaaaaaaaaa..` has 90", A_CASE},
    {"station Face holds 1\nstation \"Face\" holds 2\n", 2, 9, "a station called `\"Face\"` stands in line 1 already; give this one another name", A_CASE},
    {"station S0 holds 1\nstation S1 holds 1\nstation S2 holds 1\nstation S3 holds 1\nstation S4 holds 1\n"
     "station S5 holds 1\nstation S6 holds 1\nstation S7 holds 1\nstation S8 holds 1\nstation S9 holds 1\n"
     "station S10 holds 1\nstation S11 holds 1\nstation S12 holds 1\nstation S13 holds 1\nstation S14 holds 1\n"
     "station S15 holds 1\nstation S16 holds 1\nstation S17 holds 1\nstation S18 holds 1\nstation S19 holds 1\n"
     "station S20 holds 1\nstation S21 holds 1\nstation S22 holds 1\nstation S23 holds 1\nstation S24 holds 1\n",
     25, 1, "a case has at most 24 stations, and this is one more", A_CASE},
    {"window 9\nsafety 0\nstation Face holds 1\nstation Tip holds 1\ntrack from Face to Tpi holds 1\n",
     5, 20, "no station is called `Tpi`; is it `Tip`?", A_CASE},
    {"window 9\nsafety 0\nstation Face holds 1\nstation Tip holds 1\ntrack from face to Tip holds 1\n",
     5, 12, "no station is called `face`; is it `Face`?", A_CASE},
    {"window 9\nsafety 0\nstation Face holds 1\nstation Tip holds 1\ntrack from Quarry to Tip holds 1\n", 5, 12, "no station is called `Quarry`", A_CASE},
    {"window 9\nsafety 0\nstation Face holds 1\nstation Tip holds 1\ntrack from Fac to Tip holds 1\n",
     5, 12, "no station is called `Fac`; is it `Face`?", A_CASE},
    {"window 9\nsafety 0\nstation Face holds 1\nstation Tip holds 1\ntrack from Facce to Tip holds 1\n",
     5, 12, "no station is called `Facce`; is it `Face`?", A_CASE},
    {"window 9\nsafety 0\nstation Face holds 1\nstation Tip holds 1\ntrack from Fade to Tip holds 1\n",
     5, 12, "no station is called `Fade`; is it `Face`?", A_CASE},
    {"station F\303\266rder holds 1\ntrack from Forder to Tip holds 1\nwindow 9\nsafety 0\n",
     2, 12, "no station is called `Forder`; is it `F\303\266rder`?", A_CASE},
    {"station \"Lower Tip\" holds 1\ntrack from \"Lower tip\" to X holds 1\nwindow 9\nsafety 0\n",
     2, 12, "no station is called `\"Lower tip\"`; is it `\"Lower Tip\"`?", A_CASE},
    {"station S1 holds 1\ntrack from S2 to S1 holds 1\nwindow 9\nsafety 0\n", 2, 12, "no station is called `S2`", A_CASE},
    {"window 9\nsafety 0\nstation Face holds 1\nstation Tip holds 1\ntrack from to Tip holds 1\n",
     5, 12, "the name of a station is expected after `from`, and `to` stands here; a keyword is a name only in double quotes", A_CASE},
    {"window 9\nsafety 0\nstation Face holds 1\nstation Tip holds 1\ntrack Incline from Face holds 1\n",
     5, 32, "`to` with a station is expected, and the line ends here", A_CASE},
    {"window 9\nsafety 0\nstation Face holds 1\nstation Tip holds 1\ntrack Incline from Face to Tip from Tip holds 1\n",
     5, 32, "`from` says a second time what this line has said already", A_CASE},
    {"window 9\nsafety 0\nstation Face holds 1\nstation Tip holds 1\ntrack\n",
     5, 6, "a name or `from` is expected after `track`, and the line ends here", A_CASE},
    {"window 9\nsafety 0\nstation Face holds 1\nstation Tip holds 1\ntrack Incline Face Tip holds 1\n",
     5, 15, "`from` with a station is expected, and `Face` stands here; a name with spaces stands in double quotes", A_CASE},
    {"window 9\nsafety 0\nstation Face holds 1\nstation Tip holds 1\ntrack A from Face to Tip holds 1\n"
     "track A from Tip to Face holds 1\n",
     6, 7, "a track called `A` stands in line 5 already; give this one another name", A_CASE},
    {"window 9\nsafety 0\nstation A holds 1\nstation B-C holds 1\nstation A-B holds 1\nstation C holds 1\n"
     "track from A to B-C holds 1\ntrack from A-B to C holds 1\n",
     8, 1, "this track would be called `A-B-C` by its ends, as that of line 7 is; give it a name of its own", A_CASE},
    {"couple\n",
     1, 7, "the name of a track is expected after `couple`, and the line ends here", A_CASE},
    {"couple A\n",
     1, 9, "the name of a track is expected after `A`, and the line ends here", A_CASE},
    {"couple A 12\n",
     1, 10, "the name of a track is expected after `A`, and `12` stands here; a name has a letter, or double quotes around it", A_CASE},
    {"couple A to B\n",
     1, 10, "the name of a track is expected after `A`, and `to` stands here; a keyword is a name only in double quotes", A_CASE},
    {"couple Lower Tip-Face Face-Lower\n",
     1, 23, "the end of the line is expected, and `Face-Lower` stands here; a name with spaces stands in double quotes", A_CASE},
    {"couple A B 2\n",
     1, 12, "the end of the line is expected, and `2` stands here", A_CASE},
    {"coupel A B\n",
     1, 1, "no statement begins with `coupel`; is it `couple`?", A_CASE},
    {"window 9\nsafety 0\nstation Face holds 1\nstation Tip holds 1\ntrack from Face to Tip holds 1\n"
     "track from Tip to Face holds 1\ncouple Face-Tip Tip-Fcae\n",
     7, 17, "no track is called `Tip-Fcae`; is it `Tip-Face`?", A_CASE},
    {"couple Face-Tpi Tip-Face\nwindow 9\nsafety 0\nstation Face holds 1\nstation Tip holds 1\ntrack from Face to Tip holds 1\n"
     "track from Tip to Face holds 1\n",
     1, 8, "no track is called `Face-Tpi`; is it `Face-Tip`?", A_CASE},
    {"window 9\nsafety 0\nstation Face holds 1\nstation Tip holds 1\ntrack from Face to Tip holds 1\n"
     "track Incline from Tip to Face holds 1\ncouple Face-Tip Tip-Face\n",
     7, 17, "no track is called `Tip-Face`", A_CASE},
    {"window 9\nsafety 0\nstation Face holds 1\nstation Tip holds 1\ntrack from Face to Tip holds 1\n"
     "couple Face-Tip Shaft\ntrack from Tip to Shaft holds 1\n",
     7, 19, "no station is called `Shaft`", A_CASE},
    {"window 9\nsafety 0\nstation Face holds 1\nstation Tip holds 1\ntrack from Face to Tip holds 1\n"
     "track from Tip to Face holds 1\ncouple Face-Tip Tip-Face\ncouple Face-Tip Tip-Face\n",
     8, 8, "`Face-Tip` and `Tip-Face` are coupled in line 7 already; write each couple once", A_CASE},
    {"window 9\nsafety 0\nstation Face holds 1\nstation Tip holds 1\ntrack from Face to Tip holds 1\n"
     "track from Tip to Face holds 1\ncouple Face-Tip Tip-Face\ncouple  \"Tip-Face\" Face-Tip\n",
     8, 9, "`\"Tip-Face\"` and `Face-Tip` are coupled in line 7 already; write each couple once", A_CASE},
    {"couple A B\ncouple A B\ncouple A B\ncouple A B\ncouple A B\ncouple A B\ncouple A B\n"
     "couple A B\ncouple A B\ncouple A B\ncouple A B\ncouple A B\ncouple A B\ncouple A B\n"
     "couple A B\ncouple A B\ncouple A B\ncouple A B\ncouple A B\ncouple A B\ncouple A B\n",
     21, 1, "a case has at most 20 couples, and this is one more", A_CASE},
    {"couple A B\n",
     1, 1, "a book has `delays` only, and `couple` stands here", A_BOOK},
    {"delays Ore 0 60%\n", 1, 12, "a delay (+0 to +255 minutes, such as `+3`) is expected, and `0` stands here", A_CASE},
    {"delays Ore +0 60\n", 1, 15, "a weight (1% to 100%, such as `40%`) is expected after `+0`, and `60` stands here", A_CASE},
    {"delays Ore +0 60 %\n", 1, 15, "a weight (1% to 100%, such as `40%`) is expected after `+0`, and `60` stands here", A_CASE},
    {"delays Ore +256 60%\n", 1, 12, "a delay (+0 to +255 minutes, such as `+3`) is expected, and `+256` stands here", A_CASE},
    {"delays Ore +0 256%\n", 1, 15, "a weight (1% to 100%, such as `40%`) is expected after `+0`, and `256%` stands here", A_CASE},
    {"delays Ore +0\n", 1, 14, "a weight (1% to 100%, such as `40%`) is expected after `+0`, and the line ends here", A_CASE},
    {"delays Ore +0 10% +1 10% +2 10% +3 10% +4 10% +5 10% +6 10% +7 10% +8 10%\n", 1, 68, "a table has at most 8 delays, and this is one more", A_CASE},
    {"delays Ore type 256 +0 60%\n", 1, 17, "a whole number of 0 to 255 is expected after `type`, and `256` stands here", A_CASE},
    {"delays Ore type 1 type 2\n", 1, 19, "`type` says a second time what this line has said already", A_CASE},
    {"delays Ore type 255 +0 100%\ndelays Men +0 100%\n",
     2, 8, "the table before this one has type 255, the last there is; write `type` and a number for this one", A_CASE},
    {"delays Ore +0 100%\ndelays Ore +0 100%\n", 2, 8, "a delay table called `Ore` stands in line 1 already; give this one another name", A_CASE},
    {"delays Ore +0 60%\n   +3 40%\n", 2, 4, "`+3` begins a line; the delays of a table stand on one line with its name", A_CASE},
    {"delays D0 +0 100%\ndelays D1 +0 100%\ndelays D2 +0 100%\ndelays D3 +0 100%\ndelays D4 +0 100%\n"
     "delays D5 +0 100%\ndelays D6 +0 100%\ndelays D7 +0 100%\ndelays D8 +0 100%\n",
     9, 1, "a case has at most 8 delay tables, and this is one more", A_CASE},
    {"window 9\nsafety 0\nstation Face holds 1\nstation Tip holds 1\ndelays Ore +0 100%\ntrain A delays Ore\n",
     6, 19, "`priority` with a number is expected, and the line ends here", A_CASE},
    {"window 9\nsafety 0\nstation Face holds 1\nstation Tip holds 1\ndelays Ore +0 100%\ntrain A priority 1\n"
     "    delays Ore\n",
     6, 19, "`delays` with the name of a table is expected, and the line ends here", A_CASE},
    {"window 9\nsafety 0\nstation Face holds 1\nstation Tip holds 1\ndelays Ore +0 100%\ntrain A delays Ore\n"
     "    priority 1\n",
     6, 19, "`priority` with a number is expected, and the line ends here", A_CASE},
    {"window 9\nsafety 0\nstation Face holds 1\nstation Tip holds 1\ndelays Ore +0 100%\ntrain A delays Oer priority 1\n",
     6, 16, "no delay table is called `Oer`; is it `Ore`?", A_CASE},
    {"window 9\nsafety 0\nstation Face holds 1\nstation Tip holds 1\ntrain A delays Quick priority 1\n",
     5, 16, "no delay table is called `Quick`; a table of a book is known only if --book gives the book", A_CASE},
    {"window 9\nsafety 0\nstation Face holds 1\nstation Tip holds 1\ntrain A delays 3 priority 1\n",
     5, 16, "the name of a delay table is expected after `delays`, and `3` stands here; a name has a letter, or double quotes around it", A_CASE},
    {"window 9\nsafety 0\nstation Face holds 1\nstation Tip holds 1\ndelays Ore +0 100%\n"
     "train A delays Ore type 1 priority 1\n",
     6, 20, "`type` says a second time what this line has said already", A_CASE},
    {"window 9\nsafety 0\nstation Face holds 1\nstation Tip holds 1\ndelays Ore +0 100%\ntrain A type x priority 1\n",
     6, 14, "a whole number of 0 to 255 is expected after `type`, and `x` stands here", A_CASE},
    {"window 9\nsafety 0\nstation Face holds 1\nstation Tip holds 1\ndelays Ore +0 100%\n"
     "train A delays Ore priority 1 Face\n",
     6, 35, "the minutes of arrival and departure, such as `2-3`, are expected after the station `Face`, and the line ends here", A_CASE},
    {"window 9\nsafety 0\nstation Face holds 1\nstation Tip holds 1\ndelays Ore +0 100%\n"
     "train A delays Ore priority 1\n    Face 2\n",
     7, 10, "the minutes of arrival and departure, such as `2-3`, are expected after the station `Face`, and `2` stands here; write two "
            "numbers of 0 to 719 with only a hyphen between them, and no 0 before them", A_CASE},
    {"window 9\nsafety 0\nstation Face holds 1\nstation Tip holds 1\ndelays Ore +0 100%\n"
     "train A delays Ore priority 1\n    Face 2 - 3\n",
     7, 10, "the minutes of arrival and departure, such as `2-3`, are expected after the station `Face`, and `2` stands here; write two "
            "numbers of 0 to 719 with only a hyphen between them, and no 0 before them", A_CASE},
    {"window 9\nsafety 0\nstation Face holds 1\nstation Tip holds 1\ndelays Ore +0 100%\n"
     "train A delays Ore priority 1\n    Face 2\342\200\2233\n",
     7, 10, "the minutes of arrival and departure, such as `2-3`, are expected after the station `Face`, and `2\342\200\2233` stands here; "
            "write two numbers of 0 to 719 with only a hyphen between them, and no 0 before them", A_CASE},
    {"window 9\nsafety 0\nstation Face holds 1\nstation Tip holds 1\ndelays Ore +0 100%\n"
     "train A delays Ore priority 1\n    Face 02-03\n",
     7, 10, "the minutes of arrival and departure, such as `2-3`, are expected after the station `Face`, and `02-03` stands here; write two "
            "numbers of 0 to 719 with only a hyphen between them, and no 0 before them", A_CASE},
    {"window 9\nsafety 0\nstation Face holds 1\nstation Tip holds 1\ndelays Ore +0 100%\n"
     "train A delays Ore priority 1\n    Face 2-65536\n",
     7, 10, "the minutes of arrival and departure, such as `2-3`, are expected after the station `Face`, and `2-65536` stands here; write two "
            "numbers of 0 to 719 with only a hyphen between them, and no 0 before them", A_CASE},
    {"window 9\nsafety 0\nstation Face holds 1\nstation Tip holds 1\ndelays Ore +0 100%\n"
     "train A delays Ore priority 1\n    Shfat 2-3\n",
     7, 5, "no station is called `Shfat`", A_CASE},
    {"window 9\nsafety 0\ntrain Fleet 1 delays Ore priority 1\n", 3, 13,
     "a stop of train `Fleet`, such as `Face 2-3`, is expected, and `1` stands here; a name with spaces stands in double quotes", A_CASE},
    {"window 9\nsafety 0\ntrain A delays Ore prioritty 1\n", 3, 30,
     "the minutes of arrival and departure, such as `2-3`, are expected after the station `prioritty`, and `1` stands here; is `priority` meant?", A_CASE},
    {"window 9\nsafety 0\ntrain A delays Ore priority 1\n    Lower Tip 2-3\n", 4, 11,
     "the minutes of arrival and departure, such as `2-3`, are expected after the station `Lower`, and `Tip` stands here; a name with spaces stands in double "
     "quotes",
     A_CASE},
    {"window 9\nsafety 0\nstation Face holds 1\nstation Tip holds 1\ndelays Ore +0 100%\n"
     "train A delays Ore priority 1\n    2-3\n",
     7, 5, "a stop of train `A`, such as `Face 2-3`, is expected, and `2-3` stands here", A_CASE},
    {"window 9\nsafety 0\nstation Face holds 1\nstation Tip holds 1\ndelays Ore +0 100%\n"
     "train A delays Ore priority 1\n    Face 2-3 priority 1\n",
     7, 14, "a stop of train `A`, such as `Face 2-3`, is expected, and `priority` stands here", A_CASE},
    {"window 9\nsafety 0\nstation Face holds 1\nstation Tip holds 1\ndelays Ore +0 100%\n"
     "train A delays Ore priority 1\n    Face 2-3\n    priority 1\n",
     8, 5, "`priority` stands on the line of its train, which is line 6", A_CASE},
    {"window 9\nsafety 0\nstation Face holds 1\nstation Tip holds 1\ndelays Ore +0 100%\n"
     "train A delays Ore priority 1\n    Face 2-3\ntrian B delays Ore priority 1\n",
     8, 1, "no statement begins with `trian`; is it `train`?", A_CASE},
    {"window 9\nsafety 0\nstation Face holds 1\nstation Tip holds 1\ndelays Ore +0 100%\n"
     "train A delays Ore priority 1\n"
     "    Face 0-0 Face 1-1 Face 2-2 Face 3-3 Face 4-4 Face 5-5 Face 6-6 Face 7-7 Face 8-8\n",
     7, 77, "a train has at most 8 stops, and this is one more", A_CASE},
    {"window 9\nsafety 0\nstation Face holds 1\nstation Tip holds 1\ndelays Ore +0 100%\n"
     "train A delays Ore priority 1\ntrain A delays Ore priority 1\n",
     7, 7, "a train called `A` stands in line 6 already; give this one another name", A_CASE},
    {"window 9\nsafety 0\nstation Face holds 1\nstation Tip holds 1\ndelays Ore +0 100%\n"
     "train T0 delays Ore priority 1\ntrain T1 delays Ore priority 1\ntrain T2 delays Ore priority 1\n"
     "train T3 delays Ore priority 1\ntrain T4 delays Ore priority 1\ntrain T5 delays Ore priority 1\n"
     "train T6 delays Ore priority 1\ntrain T7 delays Ore priority 1\n",
     13, 1, "a case has at most 7 trains, and this is one more", A_CASE},
    {"window 9\nsafety 0\nstation Face holds 1\nstation Tip holds 1\ndelays Men +0 100%\ntrain A delays Ore priority 1\n",
     6, 16, "`Ore` has type 1, and so has `Men`, which goes first: this train would take `Men`; give one of the two another type", WITH_BOOK},
    {"window 9\nsafety 0\nstation Face holds 1\nstation Tip holds 1\ndelays Coal +0 100%\n",
     5, 8, "the book's table `Coal` has type 9, and this one has type 1; give this one another name, or that type", WITH_BOOK},
    {"window 9\nsafety 0\nstation Face holds 1\nstation Tip holds 1\ndelays Men type 3 +0 100%\n"
     "train A delays Cole priority 1\n",
     6, 16, "no delay table is called `Cole`", WITH_BOOK},
    {"window 9\nsafety 0\nstation Face holds 1\nstation Tip holds 1\ndelays A type 4 +0 100%\n"
     "delays B type 4 +0 100%\ntrain A delays B priority 1\n",
     7, 16, "`B` has type 4, and so has `A`, which goes first: this train would take `A`; give one of the two another type", A_CASE},
    {"window 9\n", 1, 1, "a book has `delays` only, and `window` stands here", A_BOOK},
    {"title Types\n", 1, 1, "a book has `delays` only, and `title` stands here", A_BOOK},
    {"delay Ore +0 100%\n", 1, 1, "no statement begins with `delay`; is it `delays`?", A_BOOK},
    {"Ore +0 100%\n", 1, 1, "`delays` is expected, and `Ore` stands here", A_BOOK},
    {"\r\n\r\nwindow 9\r\nsafty 1\r\n", 4, 1, "no statement begins with `safty`; is it `safety`?", A_CASE},
    {"\357\273\277windwo 9\n", 1, 1, "no statement begins with `windwo`; is it `window`?", A_CASE},
    {"station F\303\266rderschacht holds x\n", 1, 29, "a whole number of 1 to 255 is expected after `holds`, and `x` stands here", A_CASE},
    {"station Face\302\240holds 1\n", 1, 13, "a character that can't be seen stands here (U+00A0); take it out, or write a space", A_CASE},
    {"station F\366rder holds 1\n", 1, 10, "this is no UTF-8 character (byte 246); save the text as UTF-8", A_CASE},
    {"window 9\001\n", 1, 9, "a character that can't be seen stands here (U+0001); take it out, or write a space", A_CASE},
};

#endif
