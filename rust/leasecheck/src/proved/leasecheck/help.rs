// Made by tools/plain_rust from crates/leasecheck/src/help.rt. Changes belong there.

//! What `--help` prints of the program and of its commands.

pub(crate) const PROGRAM: &str = "Reads and answers the messages of SMB 2.1 leases, replays schedules of clients
that share files, judges records of such runs and captures, and runs client
machines or a server that other programs drive by lines";

pub(crate) const PROGRAM_END: &str = "Exit status:
  0  done: the answer is on standard output
  1  the input is refused, memory ran out, or a read or a write failed: a line on
     standard error says which, and usually a second one what was expected where;
     or the record that was judged is malformed
  2  the command line is refused
  3  the record or the capture that was judged is unsafe
  4  nothing of a capture could be judged

Each command has its own --help, with an example. In the project's repository
docs/FORMATS.md has the layouts of messages, the lines of schedules and records,
and all that is printed, and docs/SESSIONS.md has sessions.";

pub(crate) const ACK: &str = "Reads a lease break notification (44 bytes, without the SMB2 header) and prints
the lease break acknowledgment that a client sends for it, 72 hexadecimal
digits, or 'no acknowledgment due' where ACK_REQUIRED is not set. Where k bytes
follow the notification, a line 'rest k' is printed after that. HEX may begin
with 0x, and have one colon or one space between two bytes; @FILE in its place
takes the bytes of a file as they are, and @- those of standard input.";

pub(crate) const ACK_END: &str = "Example:
  $ leasecheck ack 2c00000001000000000102030405060708090a0b0c0d0e0f0700000003000000000000000000000000000000
  2400000000000000000102030405060708090a0b0c0d0e0f030000000000000000000000

Exit status:
  0  the answer is printed
  1  the bytes are refused, memory ran out, or a read or a write failed: one line
     on standard error says which, as 'fault hex' or 'fault 1 Short at 0', and a
     second one what was expected
  2  the command line is refused

docs/FORMATS.md in the project's repository has the layouts and the faults.";

pub(crate) const SHOW: &str = "Reads bytes of the given kind, without the SMB2 header, or a whole SMB2 message,
which begins with fe534d42. For the create contexts of a request (ask) or of a
response (reply) it prints a line for each context and one for each part of what
they ask for or grant, or 'nothing'. For a lease break notification (break),
acknowledgment (ack) or response (response) it prints one line, and 'rest k'
where k bytes follow. HEX may begin with 0x, and have one colon or one space
between two bytes; @FILE in its place takes the bytes of a file as they are, and
@- those of standard input.";

pub(crate) const SHOW_END: &str = "Example:
  $ leasecheck show break 2c00000001000000000102030405060708090a0b0c0d0e0f0700000003000000000000000000000000000000
  break 00010203-0405-0607-0809-0a0b0c0d0e0f RWH to RH ack

Exit status:
  0  what the bytes hold is printed
  1  the bytes are refused, memory ran out, or a read or a write failed: one line
     on standard error says which, as 'fault hex' or 'fault 3 BadNext at 56', and
     a second one what was expected
  2  the command line is refused

docs/FORMATS.md in the project's repository has the layouts, the lines that are
printed, and the faults.";

pub(crate) const REPLAY: &str = "Reads a schedule, that is files, clients and events, one a line, runs it on the
server and the clients, and prints the record, one fact a line, with '# safe'
after it. The whole output is a record that 'judge' reads. With --messages a
comment line before each 'sent' and 'took' says what is in the message. With
--explain a comment line says of each event that did nothing, by its line in the
schedule, what stood in its way. With --rules by-key,whole the server has these
rules and not the profile's, and a comment line before the last one says so
(docs/PROFILE.md). With --json it prints one object in a line,
{\"verdict\":\"safe\",\"record\":[..]}, where the array has all these lines.";

pub(crate) const REPLAY_END: &str = "Example:
  $ printf 'file 61\\nclient 11111111-1111-1111-1111-111111111111\\nconnect 1\\n' | leasecheck replay -
  start 1 61
  joined 1
  # safe

Exit status:
  0  the record is printed
  1  the schedule is refused, memory ran out, or a read or a write failed: one
     line on standard error says which, as 'fault line 7' or 'fault file', and
     of a refused schedule a second one what was expected where
  2  the command line is refused

docs/FORMATS.md in the project's repository has the lines of schedules and of
records, and the faults.";

pub(crate) const JUDGE: &str = "Reads a record, one fact a line, and prints 'safe' (status 0), 'unsafe PLACE
RULE' (status 3) or 'malformed PLACE' (status 1). PLACE is the number of the
first bad fact, from 1; RULE is 1 where one client caches writes of a file that
another caches, 2 for a cached read of other bytes, 3 for a buffered write that
was accepted late, and 4 for a write settled as done that was not accepted.
With --explain it then prints the facts that make it so, with their lines, and
how much was judged. With --json it prints all of that as one object in a line:
{\"verdict\":\"unsafe\",\"place\":3,\"rule\":4,\"explanation\":[..]}, where the array has
the lines of the explanation as strings.";

pub(crate) const JUDGE_END: &str = "Example:
  $ printf 'start 1 61\\njoined 1\\nsettled 1 1 done\\n' | leasecheck judge -
  unsafe 3 4

Empty lines and lines that begin with '#' are no facts, so this prints the fact
at place 3 of FILE with the number of its line:
  $ grep -n -v -e '^#' -e '^$' FILE | sed -n 3p

Exit status:
  0  the record is safe
  1  the record is malformed, as standard output says; or it is refused,
     memory ran out, or a read or a write failed: then one line on standard
     error says which, as 'fault line 7' or 'fault file', and of a refused
     record a second one what was expected where
  2  the command line is refused
  3  the record is unsafe

docs/FORMATS.md in the project's repository has the lines of records, the rules
and the faults.";

pub(crate) const DRAW: &str = "Prints a picture of a record as SVG: a sequence picture, in which time runs down.
Each client has a lane, and so has the server, in the middle. Each fact has a
mark: messages are arrows, beliefs are bars to the left of a client's line, and
a client without a connection has no solid line. The facts that make a record
unsafe or malformed are red, and below the marks is what 'judge --explain'
says. What a comment line says of the fact after it stands beside the lanes. A
schedule is run first, and its messages say what is in them.";

pub(crate) const DRAW_END: &str = "Example:
  $ leasecheck draw examples/shared.txt > shared.svg

Exit status:
  0  the picture was printed, also of a record that isn't safe
  1  FILE is neither a record nor a schedule, it has no run or more than 5000
     facts, memory ran out, or a read or a write failed: one line on standard
     error says which, as 'fault line 7' or 'fault picture TooMany', and of a
     refused file a second one what was expected where
  2  the command line is refused

docs/FORMATS.md in the project's repository has the lines of records and
schedules, and the marks.";

pub(crate) const CAPTURE: &str = "Reads a capture of SMB2 as lines, one for each frame of the transport, and prints
'safe' (status 0), 'unsafe' (status 3) or 'nothing judged' (status 4). 'unsafe'
is said only where in every order that fits the capture two clients cache a file
of which one caches writes, or hold leases on it that allow that, whatever they
took of these ('unsafe by the server's grants'); 'safe' where there is an order
of either in which none do. Then it prints a line for each file on which leases
were granted, one for each client that isn't judged, and how much was read. With
--record it prints a record, of what the clients cached of the unsafe files or
else of the safe ones, with a comment line before each fact that names its
packet; and the verdict and the rest as comment lines after it. With --json it
prints one object in a line, {\"verdict\":\"safe\",\"findings\":[..]} or
{\"verdict\":\"safe\",\"record\":[..]}, where the array has the lines behind the verdict,
or those of the record. drive/capture in the project's repository makes such
lines of a file that tshark reads.";

pub(crate) const CAPTURE_END: &str = "Example:
  $ printf 'end 1 0.5 1\\n' | leasecheck capture -
  nothing judged
  0 connections, 0 frames, 0 of them unreadable

Exit status:
  0  some file is safe, and none is unsafe
  1  a line is refused, memory ran out, or a read or a write failed: one line on
     standard error says which, as 'fault line 7' or 'fault file'
  2  the command line is refused
  3  a file is unsafe
  4  of no file anything is decided

docs/FORMATS.md in the project's repository has the lines of captures, and what
is printed.";

pub(crate) const CLIENT: &str = "Runs client machines: reads standard input line by line, and answers each line
before the next is read. 'files N' says how many files there are, and a line
'client GUID' makes each client. Then come the calls of applications, 'open',
'close', 'read', 'write' and 'flush', as in schedules; 'connect C' and
'notice C'; and 'take C' with what the server sent to client C. A line is
answered by the requests that go to the server ('request ..'), what the client
notes ('wrote', 'settled', 'believes', 'cachedread', as in records), and last
by 'answer ..'. A line that is refused is answered 'fault line N', and changes
nothing.";

pub(crate) const CLIENT_END: &str = "Example:
  $ printf 'files 1\\nclient 11111111-1111-1111-1111-111111111111\\nconnect 1\\n' | leasecheck client
  answer quiet

Exit status:
  0  standard input has ended
  1  memory ran out, or a read or a write failed: one line on standard error
     says which
  2  the command line is refused

docs/FORMATS.md in the project's repository has every line.";

pub(crate) const SERVER: &str = "Runs a server: reads standard input line by line, and answers each line before
the next is read. 'file HEX' makes each file. Then 'join C', 'cut C',
'expire C KEY', 'scavenge FID' and 'receive C' with a request are calls of the
server, answered by what it sends ('sent C ..') and does ('opened', 'changed'),
and last by 'answer done', or 'answer nothing' where the call did not apply;
'breaking C KEY', 'kept C F' and 'content F' are questions. A line that is
refused is answered 'fault line N', and changes nothing.";

pub(crate) const SERVER_END: &str = "Example:
  $ printf 'file 6162\\njoin 1\\ncontent 1\\n' | leasecheck server
  answer done
  answer bytes 6162

Exit status:
  0  standard input has ended
  1  memory ran out, or a read or a write failed: one line on standard error
     says which
  2  the command line is refused

docs/FORMATS.md in the project's repository has every line.";
