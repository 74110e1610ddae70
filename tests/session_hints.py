"""What tests/session looks for on standard error where a file is wrong (statuses 3, 10, 1, 11 and 16): which line it is, and what was
expected there. Standard output and the status are as ever."""
from session_inputs import (AFTER, APART, AT_ONCE, AUDIT, CERT_TEXT, CHECK, DISKS, DRILL, FILES, FILL, FIRST, HALT, HEAD, MOVE, PLAN, PLAN_TEXT, RESUME,
                            SECOND, TEXT_2, THREE, many, put)
from session_rooms import Count, Room

disks, now, next_ = DISKS
apart = APART[0]
LONG = "n" * 33

# the file that is changed, its text, what is printed, and each piece that is said
REFUSALS = [
    ("disks.csv", "", "disks row 0: bad header", ["disks.csv: the file is empty; its first line must be disk,limit,slots", "disk,out,in,slots"]),
    ("disks.csv", "\ufeff\n\n", "disks row 0: bad header", ["disks.csv: the file is empty"]),
    ("disks.csv", disks.encode("utf-16"), "disks row 0: bad header", ["disks.csv, line 1: ", "UTF-16; save it as CSV UTF-8"]),
    ("disks.csv", disks.encode("utf-16-le"), "disks row 0: bad header", ["UTF-16; save it as CSV UTF-8"]),
    ("disks.csv", b"PK\x03\x04\x14\0", "disks row 0: bad header", ["spreadsheet", "save it as CSV UTF-8"]),
    ("now.csv", now.replace(",", ";"), "now row 0: bad header", ["now.csv, line 1: item;disk;slot\n", "semicolons; separate by commas: item,disk,slot"]),
    ("now.csv", now.replace(",", "\t"), "now row 0: bad header", ["now.csv, line 1: item\\x09disk\\x09slot\n", "tabs; separate by commas: item,disk,slot"]),
    ("next.csv", next_.replace("item,disk", "Item, Disk"), "next row 0: bad header", ["next.csv, line 1: Item, Disk\n", "small letters and no blanks are wanted: item,disk\n"]),
    ("disks.csv", now, "disks row 0: bad header", ["disks.csv, line 1: item,disk,slot\n", "the header of NOW", "stands for DISKS", "the order DISKS NOW NEXT"]),
    ("next.csv", now, "next row 0: bad header", ["the header of NOW", "stands for NEXT"]),
    ("now.csv", now[len("item,disk,slot\n"):], "now row 0: bad header", ["now.csv, line 1: p,left,0\n", "the first line must be item,disk,slot"]),
    ("now.csv", now.replace("q,left,1", "q,left"), "now row 2: bad width", ["now.csv, line 3: q,left\n", "3 fields, separated by commas: the item's name, its disk and its slot; here are 2"]),
    ("now.csv", now.replace("q,left,1", "q;left;1"), "now row 2: bad width", ["now.csv, line 3: q;left;1\n", "semicolons; separate by commas"]),
    ("now.csv", now.replace("q,left,1", '"q,left,1'), "now row 2: bad width", ['now.csv, line 3: "q,left,1\n', "a double quote is opened here and not closed"]),
    ("next.csv", next_.replace("q,right", "q,right,"), "next row 2: bad width", ["next.csv, line 3: q,right,\n", "2 fields", "here are 3"]),
    ("disks.csv", disks.replace("left", "my disk"), "disks row 1: bad name", ["disks.csv, line 2: my disk,2,4\n", "byte 3 of `my disk`, the name of the disk, is a blank"]),
    ("now.csv", now.replace("q,", "caf\u00e9,"), "now row 2: bad name", ["now.csv, line 3: caf\u00e9,left,1\n", "byte 4 of `caf\u00e9`, the name of the item, is 0xc3"]),
    ("now.csv", now.replace("q,", LONG + ","), "now row 2: bad name", [f"`{LONG}`, has 33 bytes, and a name at most 32"]),
    ("now.csv", now.replace("q,left", "q,"), "now row 2: bad name", ["now.csv, line 3: q,,1\n", "the name of the disk is empty"]),
    ("disks.csv", disks.replace("left,2,4", "left,two,4"), "disks row 1: bad number", ["the limit is `two`; 1 to 10 digits are wanted"]),
    ("disks.csv", disks.replace("left,2,4", "left,2,"), "disks row 1: bad number", ["the number of slots is empty; 1 to 10 digits are wanted"]),
    ("now.csv", now.replace("left,1", "left,-1"), "now row 2: bad number", ["now.csv, line 3: q,left,-1\n", "the slot is `-1`; 1 to 10 digits are wanted"]),
    ("disks.csv", disks.replace("left,2", "left,0"), "disks row 1: out of range", ["the limit is 0, and must be 1 to 1024"]),
    ("disks.csv", disks.replace("left,2,4", "left,2,65537"), "disks row 1: out of range", ["the number of slots is 65537, and must be 1 to 65536"]),
    ("disks.csv", disks + "left,1,1\n", "disks row 3: disk listed twice", ["disks.csv, line 4: left,1,1\n", "`left` is listed before, in line 2"]),
    ("now.csv", "\n" + now.replace("\n", "\n\n") + "q,right,0\n", "now row 4: item listed twice", ["now.csv, line 10: q,right,0\n", "`q` is listed before, in line 6"]),
    ("now.csv", now.replace("q,left", "q,Left"), "now row 2: unknown disk", ["disks.csv lists no disk `Left`, but `left`: capitals count"]),
    ("next.csv", next_.replace("q,right", "q,middle"), "next row 2: unknown disk", ["next.csv, line 3: q,middle\n", "disks.csv lists no disk `middle`\n"]),
    ("now.csv", now.replace("left,1", "left,4"), "now row 2: slot too high", ["the last slot of `left`, which has 4 by disks.csv, is 3"]),
    ("now.csv", now.replace("left,2", "left,01"), "now row 3: slot taken", ["now.csv, line 4: r,left,01\n", "line 3 has slot 1 of `left`"]),
    ("disks.csv", "disk,limit,slots\n" + "".join(f"d{i},1,1\n" for i in range(1025)), "disks row 1025: too many rows", ["disks.csv, line 1026: d1024,1,1\n", "at most 1024 disks"]),
    ("now.csv", now + "\n" * (1 << 24), "now row 0: file too long", ["now.csv: the file has more than 16777216 bytes"]),
    ("next.csv", next_ + "s,right\n", "next row 4: item not in now", ["next.csv, line 5: s,right\n", "now.csv does not list this item"]),
    ("next.csv", next_.replace("q,right\n", ""), "now row 2: item not in next", ["now.csv, line 3: q,left,1\n", "next.csv does not list this item"]),
    ("disks.csv", disks.replace("right,2,4", "right,2,2"), "disks row 2: no room on right, needs 3, has 2", ["disks.csv, line 3: right,2,2\n", "3 slots are wanted of the 2", "A slot that an item leaves is not counted as room"]),
    ("now.csv", ("\ufeff\n" + now.replace("q,left,1", "q,left")).replace("\n", "\r\n"), "now row 2: bad width", ["now.csv, line 4: q,left\n"]),
    ("now.csv", now.replace("q,left,1", "q,left").replace("\n", "\r"), "now row 2: bad width", ["now.csv, line 3: q,left\n"]),
    ("now.csv", now.replace("q,left,1", "q\x1b[2J,left,1"), "now row 2: bad name", ["now.csv, line 3: q\\x1b[2J,left,1\n", "byte 2 of `q\\x1b[2J`"]),
    ("now.csv", now.replace("q,left,1", "q" * 200 + ",left,1"), "now row 2: bad name", [f"now.csv, line 3: {'q' * 60} ..\n"]),
    ("disks.csv", "\ufeff\ufeff" + disks, "disks row 0: bad header", ["disks.csv, line 1: \\xfeffdisk,limit,slots\n", "two byte order marks"]),
    ("disks.csv", disks.replace("\n", ",,\n"), "disks row 0: bad header", ["disks.csv, line 1: disk,limit,slots,,\n", "delete the empty columns at its end: the first line must be disk,limit,slots\n"]),
    ("disks.csv", disks.replace("2,4\n", "2,4,,\n", 1), "disks row 1: bad width", ["disks.csv, line 2: left,2,4,,\n", "here are 5: delete the empty columns at its end"]),
    ("disks.csv", disks + ",,\n", "disks row 3: bad name", ["disks.csv, line 4: ,,\n", "an empty row, as spreadsheets write them: delete it"]),
    ("next.csv", next_ + ",,\n", "next row 4: bad width", ["next.csv, line 5: ,,\n", "an empty row"]),
    ("now.csv", "sep=,\n" + now, "now row 0: bad header", ["now.csv, line 1: sep=,\n", "remove this line: the first line must be item,disk,slot\n"]),
    ("now.csv", "# of today\n" + now, "now row 0: bad header", ["now.csv, line 1: # of today\n", "remove this line"]),
    ("now.csv", now + "# the end\n", "now row 4: bad width", ["now.csv, line 5: # the end\n", "there are no comments: remove this line"]),
    ("disks.csv", disks.replace("left", "my\u00a0disk"), "disks row 1: bad name", ["disks.csv, line 2: my\\xa0disk,2,4\n", "byte 3 of `my\\xa0disk`, the name of the disk, is the first of a no-break space"]),
    ("now.csv", now.replace("q,left,1", "caf\u00e9,left,1").encode("latin-1"), "now row 2: bad name", ["now.csv, line 3: caf\u00e9,left,1\n", "byte 4 of `caf\u00e9`, the name of the item, is 0xe9"]),
]

MISFITS = [
    ("plan.txt", now, "plan line 1", ["plan.txt, line 1: item,disk,slot\n", "`migration-plan 1`: is this the file of PLAN?"]),
    ("plan.txt", "", "plan line 1", ["plan.txt, line 1: \n"]),
    ("plan.txt", PLAN_TEXT.replace("rounds 2", "rounds two"), "plan line 2", ["plan.txt, line 2: rounds two\n", "wanted is `rounds R`"]),
    ("plan.txt", PLAN_TEXT.replace("round 1 2", "round 01 2"), "plan line 3", ["plan.txt, line 3: round 01 2\n", "wanted is `round 1 C`"]),
    ("plan.txt", PLAN_TEXT.replace("round 2", "round 3"), "plan line 6", ["wanted is `round 2 C`"]),
    ("plan.txt", PLAN_TEXT.replace("r left", "s left"), "plan line 7", ["plan.txt, line 7: s left 2 right 2\n", "now.csv lists no item `s`"]),
    ("plan.txt", PLAN_TEXT.replace("r left 2 right", "r left 2 Right"), "plan line 7", ["disks.csv lists no disk `Right`"]),
    ("plan.txt", PLAN_TEXT.replace("r left 2", "r left 02"), "plan line 7", ["`02` is no slot: 0 to 65535, without a leading zero"]),
    ("plan.txt", PLAN_TEXT.replace("r left 2 right 2", "r left 2 right"), "plan line 7", ["wanted is a shift: ITEM FROM FROMSLOT TO TOSLOT"]),
    ("plan.txt", PLAN_TEXT.replace("end", "round 3 0\nend"), "plan line 8", ["plan.txt, line 8: round 3 0\n", "wanted is the line `end`"]),
    ("plan.txt", PLAN_TEXT[:-1], "plan line 9", ["the line `end` is to end with LF"]),
    ("plan.txt", PLAN_TEXT + "x", "plan line 9", ["plan.txt, line 9: x\n", "nothing may follow"]),
    ("plan.txt", PLAN_TEXT + "\n", "plan line 10", ["nothing may follow"]),
    ("plan.txt", PLAN_TEXT.replace("\n", "\r\n"), "plan line 1", ["LF alone, and not with CR LF"]),
    ("plan.txt", "\ufeff" + PLAN_TEXT, "plan line 1", ["plan.txt, line 1: \\xfeffmigration-plan 1\n", "a byte order mark"]),
    ("plan.txt", PLAN_TEXT.replace("r left 2", "r left  2"), "plan line 7", ["plan.txt, line 7: r left  2 right 2\n", "two blanks side by side, or one at an end: just one stands between two words"]),
    ("plan.txt", PLAN_TEXT.replace("right 2", "right 2 "), "plan line 7", ["two blanks side by side, or one at an end"]),
    ("plan.txt", PLAN_TEXT + "x" * (1 << 24), "plan line 0", ["plan.txt: the text has more than 16777216 bytes"]),
    ("cert.txt", PLAN_TEXT, "certificate line 1", ["cert.txt, line 1: migration-plan 1\n", "is this the file of CERT?"]),
    ("cert.txt", CERT_TEXT.replace("even", "odd"), "certificate line 4", ["cert.txt, line 4: class odd\n", "wanted is `class even` or `class general`"]),
    ("cert.txt", "\ufeff" + CERT_TEXT, "certificate line 1", ["cert.txt, line 1: \\xfeffmigration-certificate 1\n", "a byte order mark"]),
    ("cert.txt", CERT_TEXT.replace("3 2 2", "2 2"), "certificate line 5", ["cert.txt, line 5: bound disk left 2 2\n", "`bound disk NAME LOAD LIMIT VALUE` with the disk's limit"]),
    ("cert.txt", CERT_TEXT.replace("3 2 2", "3 3 2"), "certificate line 5", ["cert.txt, line 5: bound disk left 3 3 2\n", "the limit of `left` is 3 here, and 2 in disks.csv: was it changed since `plan`? Plan again"]),
    ("disks.csv", disks.replace("left,2", "left,1"), "certificate line 5", ["cert.txt, line 5: bound disk left 3 2 2\n", "the limit of `left` is 2 here, and 1 in disks.csv"]),
    ("cert.txt", CERT_TEXT.replace("end", "left\nend"), "certificate line 6", ["wanted is the line `end`"]),
]

BLAMES = [
    ("plan.txt", HEAD + "round 1 0\nround 2 0\nend\n", "empty round 1", ["plan.txt, line 3: round 1 0\n", "a round has one shift at least"]),
    ("plan.txt", PLAN_TEXT.replace("q left 1", "q left 2"), "not here round 1 item q", ["plan.txt, line 5: q left 2 right 1\n", "before round 1 `q` is in slot 1 of `left`"]),
    ("plan.txt", (HEAD + FIRST + "round 2 1\np left 0 right 2\nend\n"), "not here round 2 item p", ["plan.txt, line 7: p left 0 right 2\n", "before round 2 `p` is in slot 0 of `right`"]),
    ("plan.txt", HEAD.replace("2", "1") + "round 1 2\np left 0 right 0\np left 0 right 1\nend\n", "twice in round 1 item p", ["plan.txt, line 5: p left 0 right 1\n", "line 4 moves this item in the same round"]),
    ("plan.txt", PLAN_TEXT.replace("right 1", "right 0"), "slot not free round 1 item q", ["plan.txt, line 5: q left 1 right 0\n", "slot 0 of `right` has an item before round 1, or an earlier line"]),
    ("plan.txt", PLAN_TEXT.replace("right 2", "right 4"), "slot not free round 2 item r", ["plan.txt, line 7: r left 2 right 4\n", "`right` has 4 slots, which count from 0"]),
    ("plan.txt", HEAD + FIRST.replace("1 2", "1 3", 1) + "r left 2 right 2\nround 2 0\nend\n", "over limit round 1 disk left count 3", ["plan.txt, line 3: round 1 3\n", "3 shifts of this round leave or reach `left`, and its limit is 2"]),
    ("plan.txt", HEAD.replace("2", "1") + FIRST + "end\n", "wrong end item r", ["plan.txt: no line moves `r`, and next.csv wants it on `right`"]),
    ("plan.txt", HEAD.replace("rounds 2", "rounds 3") + FIRST + SECOND + "round 3 1\np right 0 right 3\nend\n", "moved too often item p count 2", ["plan.txt, line 9: p right 0 right 3\n", "an earlier line moves `p` too"]),
    ("cert.txt", CERT_TEXT.replace("rounds 2", "rounds 3"), "rounds differ kept 3 counted 2", ["cert.txt, line 2: rounds 3\n", "are PLAN and CERT of one `plan`?"]),
    ("cert.txt", CERT_TEXT.replace("quotient 2", "quotient 1"), "quotient differs kept 1 counted 2", ["cert.txt, line 3: quotient 1\n", "was a file changed since `plan`?"]),
    ("cert.txt", CERT_TEXT.replace("even", "general"), "class differs", ["cert.txt, line 4: class general\n", "even limit"]),
    ("cert.txt", CERT_TEXT.replace("3 2 2", "2 2 2"), "load differs kept 2 counted 3", ["cert.txt, line 5: bound disk left 2 2 2\n"]),
]


# the same with disks that have an outgoing and an incoming limit, of THREE and TEXT_2
APART_REFUSALS = [
    ("disks.csv", apart.replace("left,2,2,4", "left,2,4"), "disks row 1: bad width", ["disks.csv, line 2: left,2,4\n", "4 fields, separated by commas: the disk's name, its outgoing limit, its incoming limit and its number of slots; here are 3"]),
    ("disks.csv", apart.replace("right,2,1,4", "right,2,1,4,4"), "disks row 2: bad width", ["disks.csv, line 3: right,2,1,4,4\n", "4 fields", "here are 5"]),
    ("disks.csv", apart.replace("right,2,1,4", "right;2;1;4"), "disks row 2: bad width", ["disks.csv, line 3: right;2;1;4\n", "semicolons; separate by commas"]),
    ("disks.csv", apart.replace("disk,out,in,slots", "disk,limit,slots"), "disks row 1: bad width", ["disks.csv, line 2: left,2,2,4\n", "3 fields, separated by commas: the disk's name, its limit and its number of slots; here are 4"]),
    ("disks.csv", disks.replace("disk,limit,slots", "disk,out,in,slots"), "disks row 1: bad width", ["disks.csv, line 2: left,2,4\n", "4 fields", "here are 3"]),
    ("disks.csv", apart.replace("left", "my disk"), "disks row 1: bad name", ["disks.csv, line 2: my disk,2,2,4\n", "byte 3 of `my disk`, the name of the disk, is a blank"]),
    ("disks.csv", apart.replace("right,2,1", "right,two,1"), "disks row 2: bad number", ["disks.csv, line 3: right,two,1,4\n", "the outgoing limit is `two`; 1 to 10 digits are wanted"]),
    ("disks.csv", apart.replace("right,2,1", "right,2,"), "disks row 2: bad number", ["the incoming limit is empty; 1 to 10 digits are wanted"]),
    ("disks.csv", apart.replace("left,2,2,4", "left,2,2,-4"), "disks row 1: bad number", ["the number of slots is `-4`; 1 to 10 digits are wanted"]),
    ("disks.csv", apart.replace("left,2,2,4", "left,,x,4"), "disks row 1: bad number", ["the outgoing limit is empty"]),
    ("disks.csv", apart.replace("left,2,2,4", "left,0,x,4"), "disks row 1: bad number", ["the incoming limit is `x`; 1 to 10 digits are wanted"]),
    ("disks.csv", apart.replace("left,2,2,4", "left,0,2,4"), "disks row 1: out of range", ["disks.csv, line 2: left,0,2,4\n", "the outgoing limit is 0, and must be 1 to 1024"]),
    ("disks.csv", apart.replace("left,2,2,4", "left,2,1025,4"), "disks row 1: out of range", ["the incoming limit is 1025, and must be 1 to 1024", "a greater one is written as 1024"]),
    ("disks.csv", apart.replace("left,2,2,4", "left,2,2,65537"), "disks row 1: out of range", ["the number of slots is 65537, and must be 1 to 65536"]),
    ("disks.csv", apart.replace("right,2,1,4", "left,2,1,4"), "disks row 2: disk listed twice", ["disks.csv, line 3: left,2,1,4\n", "`left` is listed before, in line 2"]),
    ("disks.csv", "disk,out,in,slots\n" + "".join(f"d{i},1,1,1\n" for i in range(1025)), "disks row 1025: too many rows", ["disks.csv, line 1026: d1024,1,1,1\n", "at most 1024 disks"]),
    ("disks.csv", apart.replace("right,2,1,4", "right,2,1,2"), "disks row 2: no room on right, needs 3, has 2", ["disks.csv, line 3: right,2,1,2\n", "3 slots are wanted of the 2"]),
    ("disks.csv", ("\ufeff\n" + apart.replace(",", '","').replace("\n", '"\n"')[:-1].replace("disk", '"disk', 1)).replace("\n", "\r\n").replace("2", "x", 1), "disks row 1: bad number", ["disks.csv, line 3: ", "the outgoing limit is `x`"]),
    ("now.csv", now.replace("left,1", "left,4"), "now row 2: slot too high", ["the last slot of `left`, which has 4 by disks.csv, is 3"]),
    ("now.csv", now.replace("q,left", "q,Left"), "now row 2: unknown disk", ["disks.csv lists no disk `Left`, but `left`: capitals count"]),
    ("disks.csv", apart.replace("out,in", "in,out"), "disks row 0: bad header", ["disks.csv, line 1: disk,in,out,slots\n", "the first line must be disk,limit,slots, or disk,out,in,slots"]),
    ("disks.csv", apart.replace("in,", "", 1), "disks row 0: bad header", ["disks.csv, line 1: disk,out,slots\n", "the first line must be disk,limit,slots, or disk,out,in,slots"]),
    ("disks.csv", apart.replace(",", ";"), "disks row 0: bad header", ["disks.csv, line 1: disk;out;in;slots\n", "semicolons; separate by commas: disk,out,in,slots\n"]),
    ("disks.csv", apart.replace(",", "\t"), "disks row 0: bad header", ["tabs; separate by commas: disk,out,in,slots\n"]),
    ("disks.csv", apart.replace("disk,out,in", "Disk, Out, In"), "disks row 0: bad header", ["disks.csv, line 1: Disk, Out, In,slots\n", "small letters and no blanks are wanted: disk,out,in,slots\n"]),
    ("disks.csv", now, "disks row 0: bad header", ["the header of NOW", "stands for DISKS, whose header is disk,limit,slots, or disk,out,in,slots"]),
    ("now.csv", apart, "now row 0: bad header", ["now.csv, line 1: disk,out,in,slots\n", "the header of DISKS", "stands for NOW, whose header is item,disk,slot"]),
    ("next.csv", apart, "next row 0: bad header", ["the header of DISKS", "stands for NEXT"]),
]

APART_MISFITS = [
    ("cert.txt", CERT_TEXT, "certificate line 1", ["cert.txt, line 1: migration-certificate 1\n", "this certificate was made for joint limits, one for each disk, and disks.csv has two for each: plan again"]),
    ("cert.txt", THREE, "certificate line 1", ["`migration-certificate 2` where disks have two limits: is this the file of CERT?"]),
    ("cert.txt", TEXT_2.replace("duplex", "even"), "certificate line 4", ["cert.txt, line 4: class even\n", "`class duplex` where disks have two limits"]),
    ("cert.txt", TEXT_2.replace("in 3 1 3", "out 3 1 3"), "certificate line 5", ["cert.txt, line 5: bound side right out 3 1 3\n", "the limit of `right` is 1 here, and 2 in disks.csv"]),
    ("cert.txt", TEXT_2.replace("side right in", "disk right"), "certificate line 5", ["cert.txt, line 5: bound disk right 3 1 3\n", "`bound side NAME out LOAD LIMIT VALUE` or the same with `in`"]),
    ("disks.csv", apart.replace("2,1,4", "2,2,4"), "certificate line 5", ["the limit of `right` is 1 here, and 2 in disks.csv"]),
    ("cert.txt", TEXT_2.replace("end", "right\nend"), "certificate line 6", ["wanted is the line `end`"]),
    ("disks.csv", disks, "certificate line 1", ["cert.txt, line 1: migration-certificate 2\n", "this certificate was made for split limits, two for each disk, and disks.csv has one for each: plan again"]),
]

APART_BLAMES = [
    ("plan.txt", AT_ONCE, "over limit round 1 disk left count 3", ["plan.txt, line 3: round 1 3\n", "3 shifts of this round leave `left`, and its outgoing limit is 2\n"]),
    ("plan.txt", PLAN_TEXT, "over limit round 1 disk right count 2", ["plan.txt, line 3: round 1 2\n", "2 shifts of this round reach `right`, and its incoming limit is 1\n"]),
    ("cert.txt", TEXT_2.replace("rounds 3", "rounds 2"), "rounds differ kept 2 counted 3", ["cert.txt, line 2: rounds 2\n", "are PLAN and CERT of one `plan`?"]),
    ("cert.txt", TEXT_2.replace("quotient 3", "quotient 2"), "quotient differs kept 2 counted 3", ["cert.txt, line 3: quotient 2\n", "was a file changed since `plan`?"]),
    ("cert.txt", TEXT_2.replace("in 3 1 3", "in 2 1 3"), "load differs kept 2 counted 3", ["cert.txt, line 5: bound side right in 2 1 3\n", "counted from the three files"]),
    ("cert.txt", TEXT_2.replace("in 3 1 3", "in 3 1 2"), "value differs kept 2 counted 3", ["cert.txt, line 5: bound side right in 3 1 2\n"]),
    ("next.csv", next_.replace("r,right", "r,left"), "wrong end item r", ["plan.txt, line 8: r left 2 right 2\n", "no later line moves `r`, and next.csv wants it on `left`"]),
]


def tells(name, ran, status, out, pieces):
    """The run ended with this status and printed just this; standard error begins with our name and has each of the pieces."""
    Count.ended(name, ran, status, out)
    said = ran.err.decode(errors="replace")
    for piece in pieces:
        Count.that(f"{name}: `{piece}` is said", piece in said and said.startswith("migrate: "), said[:400])


def of_files(program):
    """Statuses 3, 10 and 1: each file changed in each way."""
    joint, split = (DISKS, PLAN_TEXT, CERT_TEXT), (APART, THREE, TEXT_2)
    tables = [(REFUSALS, joint, 3, PLAN, "refused "), (MISFITS, joint, 10, CHECK, "refused "), (BLAMES, joint, 1, CHECK, ""),
              (APART_REFUSALS, split, 3, PLAN, "refused "), (APART_MISFITS, split, 10, CHECK, "refused "), (APART_BLAMES, split, 1, CHECK, "")]
    for table, files, status, words, before in tables:
        for name, text, out, pieces in table:
            with Room(program) as room:
                put(room, *files)
                room.write(name, text)
                tells(f"{out} by {str(text)[:30]!r}", room.run(*words), status, f"{before}{out}\n", pieces)


def of_others(program):
    """Other commands, a file by its path, a file that is missing, and files that can't be read twice."""
    with Room(program) as room:
        put(room, DISKS, PLAN_TEXT, CERT_TEXT)
        room.mkdir("sub")
        room.write("sub/now 1.csv", now.replace("q,left,1", "q,left"))
        for command in (FILL, AUDIT, MOVE, HALT):
            words = [command[0], "./disks.csv", "sub/now 1.csv", *command[3:]]
            tells(f"{words}", room.run(*words), 3, "refused now row 2: bad width\n", ["migrate: sub/now 1.csv, line 3: q,left\n"])
        room.write("wrong.txt", PLAN_TEXT.replace("q left 1", "q left 2"))
        for command in (AFTER, MOVE, RESUME, DRILL, HALT):
            words = [*command[:4], "wrong.txt", *command[5:]]
            tells(f"{words}", room.run(*words), 1, "not here round 1 item q\n", ["migrate: wrong.txt, line 5: q left 2 right 1\n"])
        tells("no plan", room.run("check", *FILES, "p", "c"), 16, "no file p\n", ["migrate: p, the word for PLAN, leads to no file; `plan` makes it\n"])
        tells("no next", room.run("plan", "disks.csv", "now.csv", "nxt.csv", "p", "c"), 16, "no file nxt.csv\n", ["migrate: nxt.csv, the word for NEXT, leads to no file\n"])
        tells("`-` as a file", room.run("plan", "disks.csv", "-", *PLAN[3:]), 16, "no file -\n", ["migrate: -, the word for NOW, leads to no file; /dev/stdin reads standard input\n"])
        tells("an option as a file", room.run("after", "-v", *AFTER[2:]), 16, "no file -v\n", ["migrate: -v, the word for DISKS, leads to no file; there are no options\n"])
        tells("NEXT NAME", room.run("drain", "disks.csv", "now.csv", "out.csv", "left"), 14, "no disk out.csv\n", ["migrate: disks.csv lists no disk `out.csv`, and `left` stands for NEXT: the order is NAME NEXT\n"])
        room.write("tight.csv", disks.replace("right,2,4", "right,2,2"))
        for command in (AFTER, MOVE, RESUME, HALT):
            tells(f"{command[0]} of a tight plan", room.run(command[0], "tight.csv", *command[2:]), 3, "refused disks row 2: no room on right, needs 3, has 2\n", [f"a plan of `plan-tight` is for `{command[0]}-tight`\n"])
        ran = room.run("printf 'bad\\n' | ./migrate plan disks.csv /dev/stdin next.csv p c", shell=True)
        Count.ended("a pipe", ran, 3, "refused now row 0: bad header\n")
        Count.same("a pipe is not read twice", ran.err, b"")
    with Room(program) as room:
        put(room, many(257))
        room.run(*PLAN)
        tells("a large plan", room.run(*DRILL), 11, "too large for a drill 257\n", ["at most 256 shifts"])


CASES = [of_files, of_others]
