//! What `transfer --help` says: the words, and the exit statuses from the tables of their meanings.
use crate::stop::STATUSES;
use std::fmt::Write;
use yuglasno::MEANINGS;

const USAGE: &str = "\
usage: transfer [WHERE] [OPTIONS] COMMAND

commands:
  stat PATH                         a file's numbers
  ls PATH                           a folder's entries: mode, size, time in Unix seconds, name
  ls [--from A] [--to B] PATH       those of its entries from time A to time B, in time order
  ls --latest T PATH                the latest of its entries at or before time T; of equal times the first listed
  pull PATH FILE                    the panel's PATH to FILE, or into the folder FILE
  push FILE PATH [MODE]             FILE to the panel's PATH, with its permission bits or an octal MODE
  archive FOLDER DIR [--recursive]  each regular file of the panel's FOLDER to DIR, unless DIR holds it already, with DIR/SHA256SUMS
                                    and DIR/DETAILS as lists; with its sub-folders
  verify DIR                        DIR read back against its lists, without a panel
  hours FILE                        the week of an hours file, and whether a push may start now, or at --at WHEN (below)
A FILE that is - is standard input or output. Options may stand behind the command; behind -- no word is an option.

where the panel is:
  --server HOST:PORT [--serial S]   a device of an ADB server (the default, at localhost:5037)
  --unix PATH                       a Unix socket that speaks sync
  --stdio                           standard input and output; what is said goes to standard error
  --exec COMMAND [ARGS..] --        a program's standard input and output
  --panel [--cut N]                 a panel in this program, with a few jobs under /jobs; its replies come in pieces of 1 to N bytes
  --folder DIR [--cut N]            no panel: what an archive in DIR has of one, or DIR's files, with DIR as /; DIR is only read (below)

options:
  --features LIST                   the panel's features, such as stat_v2,ls_v2,sendrecv_v2, where it does not say them
  --ids FILE                        the ids of the panel's messages, where they are not the published ones (below)
  --hours FILE                      the hours in which a push may start (below)
  --at WHEN                         the moment that a push with --hours, or the command hours, goes by; without it, the clock's
  --capacity N                      the receive buffer's length (65544 takes every DATA message)
  --card                            as the last line, the bytes that were received, consumed and written, and the most reads of a call (below)
  --timeout SECONDS                 the longest wait for a connection, a read or a write, over --server or --unix; status 13 then
  --help, --version                 this text; the program's version

environment, as adb has it: ANDROID_SERIAL; ADB_SERVER_SOCKET, or ANDROID_ADB_SERVER_ADDRESS and ANDROID_ADB_SERVER_PORT

A pull writes to a file of its own in FILE's folder, which gets FILE's name when it is on disk and the panel's numbers from
before and after agree with its bytes. A push is cut off where FILE changes meanwhile.

--folder answers as the panel did where DIR is an archive: size, mtime and mode of each job that both lists have, and its bytes, held to its
sum. All else of a job is 0, and folders have mode 40555; nothing else in DIR is shown. A job whose file is gone or has another size is
errno 5 (v1 has no such number: it is not listed), and a pull of it, or of one whose sum is another, ends with a FAIL: `transfer verify DIR`
says more. Any other DIR has its files' own numbers. Below DIR no symbolic link is followed. A push is refused, and so is a FILE or an archive
below DIR (73). 69 where DIR is not there, 66 where a list of it can't be read, 73 while `archive` is at work on it.

--card tells the bytes on the cable, headers and all, with any command and where it fails too: what came of the panel, what of that was used or
dropped, what was written to it, QUIT included. Where archive has opened more than one session, each is the sum of them, and their number is
told. Behind that stand the most reads that one call took until it was over, and the first call that took so many, with its path where it has
one: stat and stat_v2 look at a file, next_entry and next_entry_v2 bring an entry of a listing, recv_next a chunk of a pull, send_done ends a
push. A read that fails is not counted. The line goes where the command's lines go; behind a failure it comes after the message. Wrong words
(64) and a signal have none.

A, B and T are Unix seconds, such as 892000000 or -5, or UTC: 1998-04-12, 1998-04-12T12:30 or 1998-04-12T12:30:59, also with a blank for
the T. A is the first second of such a day or minute, B and T are its last: --from 1998-04-12 --to 1998-04-12 is that day. Either of A and
B may be left out. Any entry that ls prints may be the answer, folders, . and .. too; --to T has what is before the latest, too. Where
there is no such entry nothing is printed, with status 0. Of a folder with more than 4096 entries, or 65536 bytes of names, those for which
there was no room are not looked at: status 19 then, behind the lines of the others.

An ids file has two lines that end with byte 10: the published ids in this order, joined by commas, and what this panel has for each,
four bytes from 33 to 126, no comma, and no two the same. It is read before anything else; 22 or 23 where it is not such a file.
It must be a regular file, and - is a file of that name.
  STAT,STA2,LIST,LIS2,SEND,SND2,RECV,RCV2,DATA,DONE,OKAY,FAIL,DENT,DNT2,QUIT
  stat,sta2,list,lis2,send,snd2,recv,rcv2,data,done,okay,fail,dent,dnt2,quit

An hours file has the line day,open,close and up to seven lines that end with byte 10: a day, 0 for Monday to 6 for Sunday, and the minutes of
that day, in UTC, from which (0 to 1439) and until which (1 to 1440) a push may start. Days rise; numbers have digits alone, and none a 0 in
front. A day without a line has no hours; the first line alone lets no push start. It is read before anything else; 24 where it is not such a
file. It must be a regular file, and - is a file of that name. A push that is to start outside its hours is 25, with nothing of it written to
the panel; one that has begun goes on past them. Without --hours any moment will do. WHEN is as A above, from 1970-01-01 to
2106-02-07T06:28:15; the clock is looked at when the push starts.
  day,open,close
  0,420,1080
  5,480,720

exit status, which is also the number that a message begins with:
";

/// The answers of the reader of requests and the writer of replies: no session has them.
const OF_THE_PANEL: [u32; 2] = [18, 20];

pub fn text() -> String {
    let mut text = USAGE.to_string();
    let answers = MEANINGS.into_iter().filter(|(number, _)| !OF_THE_PANEL.contains(number));
    for (number, meaning) in answers.chain(STATUSES.map(|(number, meaning)| (number.into(), meaning))) {
        let _ = writeln!(text, "  {number:>2}  {meaning}");
    }
    text
}
