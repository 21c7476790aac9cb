//! The help texts.

pub const GENERAL: &str = "\
chowderyard packs files of whole numbers in groups of four, unpacks them and checks them.

Usage: chowderyard COMMAND --coder CODER [OPTION..] FILE..

Commands:
  pack    VALUES TAGS DATA    pack a file of numbers to a file of tags and a file of data
  unpack  TAGS DATA VALUES    unpack them to a file of numbers
  check   TAGS DATA VALUES    unpack them and compare with a file of numbers
  info    TAGS DATA           groups, bytes, bytes a value, tightness
  seek    TAGS DATA INDEX     the value at an index, counted from 0, by skipping to its group
  help    [COMMAND]           this text, or the one of a command

Options:
  --coder CODER   1234 or 0124 for numbers of 32 bits, 1248 for numbers of 64 bits
  --deltas        the packed numbers are steps: each value minus the one before it
  --start N       with --deltas: what the first step starts from (default 0)
  --force         write over files that are there
  --json          one JSON object on standard output
  -h, --help      help; -V, --version  the version

VALUES holds numbers low byte first, 4 bytes each for coders 1234 and 0124, 8 for coder 1248; their count is a multiple
of four. Which coder, and for steps which start, is not written to TAGS or DATA: keep it beside them.

Exit status: 0 good; 1 refused, or different; 2 usage, or a file that cannot be read or written.

Refusals, each named on standard error with its number, its reason and its file:
  1 not fours         the count of values is not a multiple of 4
  2 too many groups   more than 16777216 groups
  5 other tags        the tags and the values are not of the same count
  6 missing data      the tags call for more data than there is
  7 tail overrun      the last groups take more bytes than were copied for them
";

pub const PACK: &str = "\
Usage: chowderyard pack --coder CODER [--deltas [--start N]] [--force] [--json] VALUES TAGS DATA

Packs the numbers of the file VALUES (low byte first; 4 bytes each for coders 1234 and 0124, 8 for 1248) and writes a tag
byte for each four of them to TAGS and their bytes, each number at its shortest width, to DATA.

With --deltas the steps between the values are packed: the better choice where values grow by little, as labels and
offsets of frames do. Coder 0124 suits steps that are mostly below 256, as it has a width of no byte for a step of 0.

Refuses with 1 where the count of values is not a multiple of four, and with 2 above 16777216 groups. Nothing is written
then. A file that is there is not written over without --force.

Example: chowderyard pack --coder 0124 --deltas --start 104399 labels.u32 labels.tags labels.data
";

pub const UNPACK: &str = "\
Usage: chowderyard unpack --coder CODER [--deltas [--start N]] [--force] [--json] TAGS DATA VALUES

Unpacks what pack wrote, with the same coder, and with the same start if steps were packed. Writes four numbers for each
tag to VALUES, low byte first. Bytes in DATA behind those that the tags call for are passed over, with a note.

Refuses with 2 above 16777216 tags and with 6 where DATA is too short. Nothing is written then. A file that is there is
not written over without --force.

Example: chowderyard unpack --coder 0124 --deltas --start 104399 labels.tags labels.data back.u32
";

pub const CHECK: &str = "\
Usage: chowderyard check --coder CODER [--deltas [--start N]] [--json] TAGS DATA VALUES

Unpacks TAGS and DATA in memory and compares each value with the file VALUES. Says that all are the same, with exit status
0, or names the first that is not, with exit status 1. Writes no file.

Refuses with 1, 2, 5 (TAGS and VALUES are not of the same count) and 6 (DATA is too short).

Example: chowderyard check --coder 0124 --deltas --start 104399 labels.tags labels.data labels.u32
";

pub const INFO: &str = "\
Usage: chowderyard info --coder CODER [--json] TAGS DATA

Says how many groups, values and bytes there are, how many bytes a value takes, how many stray bytes stand behind the
data, and whether each number is stored at its shortest width (tight) or where the first is that is not (loose).

Refuses with 2 above 16777216 tags and with 6 where DATA is too short.

Example: chowderyard info --coder 0124 labels.tags labels.data
";

pub const SEEK: &str = "\
Usage: chowderyard seek --coder CODER [--deltas [--start N]] [--json] TAGS DATA INDEX

Gives the value at INDEX, counted from 0, without unpacking what stands before it: the groups before it are skipped, and
its group alone is unpacked. An index behind the last value gives exit status 1.

Refuses with 2 above 16777216 tags and with 6 where DATA ends before the group does.

Example: chowderyard seek --coder 0124 --deltas --start 104399 labels.tags labels.data 3596
";
