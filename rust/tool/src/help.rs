//! What --help says. The tests run every line that begins with $ and hold what it writes to the lines below it.

pub const ALL: &str = "\
monterculo: rolls in files: texts packed, searched and corrected as they lie

    monterculo pack TEXT ROLL [--width 2|4] [--force]   pack a text file
    monterculo text ROLL                                write its text
    monterculo check ROLL                               say whether it is sound
    monterculo info ROLL                                say how long it is, and what room is left
    monterculo find ROLL... PATTERN [--count | --at]    find the lines that have a pattern
    monterculo show ROLL LINE[..LINE]                   write some lines
    monterculo set ROLL LINE TEXT [--repack]            put a text in the place of a line
    monterculo insert ROLL LINE TEXT [--repack]         put a new line in front of a line
    monterculo remove ROLL LINE[..LINE] [--repack]      take lines out
    monterculo replace ROLL START..END TEXT [--repack]  put a text in the place of characters
    monterculo receive PATTERN [ROLL] [--force]         search a roll while it comes in

A ROLL is a file of frames, lines of hexadecimal digits. Lines of a text are counted from 1, characters from 0.
- is standard input or output; what begins with - but is no option goes behind --.
Exit status: 0 found or done, 1 nothing found, 2 refused or failed, with a line on standard error.
monterculo COMMAND --help says more, with an example.
";

/// The help of a command.
pub fn of(command: &str) -> &'static str {
    match command {
        "pack" => PACK,
        "text" => TEXT,
        "check" => CHECK,
        "info" => INFO,
        "find" => FIND,
        "show" => SHOW,
        "set" => SET,
        "insert" => INSERT,
        "remove" => REMOVE,
        "replace" => REPLACE,
        "receive" => RECEIVE,
        _ => ALL,
    }
}

const PACK: &str = "\
monterculo pack TEXT ROLL [--width 2|4] [--force]

Counts the characters of the file TEXT, chooses the best table for them, packs the text and writes the roll as frames.
The digits, + and the line end are in every table that it chooses, so that a new number can be put in as long as there
is room.
  --width 2|4  symbols of so many bits; without it, the width that gives the smaller file
  --force      write over a ROLL that is there already

    $ printf 'pan 7 Oda 5550143\\npan 12 Jory 5550128\\n' | monterculo pack - members.roll
    $ monterculo check members.roll
    members.roll: sound
";

const TEXT: &str = "\
monterculo text ROLL

Writes the whole text, byte for byte.

    $ printf 'pan 7 Oda 5550143\\npan 12 Jory 5550128\\n' | monterculo pack - members.roll
    $ monterculo text members.roll
    pan 7 Oda 5550143
    pan 12 Jory 5550128
";

const CHECK: &str = "\
monterculo check ROLL

Says that the roll is sound, or why it is refused. This finds what breaks the form, and not every changed digit.

    $ printf 'pan 7 Oda 5550143\\npan 12 Jory 5550128\\n' | monterculo pack - members.roll
    $ monterculo check members.roll
    members.roll: sound
    $ head -n 1 members.roll | monterculo check -
    monterculo: standard input: refusal 15: line 1 of the frame text is missing (value 1)
";

const INFO: &str = "\
monterculo info ROLL

Says the width of a symbol in bits, how many symbols are stoppers, how long the text is, what it takes plain, packed and
as a file, and how many symbols more a roll may have.

    $ printf 'pan 7 Oda 5550143\\npan 12 Jory 5550128\\n' | monterculo pack - members.roll
    $ monterculo info members.roll
    width: 4
    stoppers: 15
    characters in the table: 22
    characters: 38
    symbols: 44
    lines: 2
    bytes of the plain text: 38
    bytes packed: 22
    bytes of the file: 118
    symbols left to the limit: 1048532
";

const FIND: &str = "\
monterculo find ROLL... PATTERN [--count | --at]

Writes the number and the text of each line that has the pattern, each line once. With several rolls, the name of the
roll stands in front. The pattern has 1 to 64 characters, each of which stands for itself; it has no line end.
  --count  how often it stands there, overlapping places too
  --at     the number of each character where it begins

    $ printf 'pan 7 Oda 5550143\\npan 12 Jory 5550128\\n' | monterculo pack - members.roll
    $ monterculo find members.roll 'pan 12 '
    2:pan 12 Jory 5550128
    $ monterculo find members.roll 55 --count
    4
    $ monterculo find members.roll pan --at
    0
    18
";

const SHOW: &str = "\
monterculo show ROLL LINE[..LINE]

Writes a line, or the lines from the first to the last one named.

    $ printf 'pan 7 Oda 5550143\\npan 12 Jory 5550128\\n' | monterculo pack - members.roll
    $ monterculo show members.roll 2
    pan 12 Jory 5550128
";

const SET: &str = "\
monterculo set ROLL LINE TEXT [--repack]

Puts TEXT in the place of what the line says. With - as TEXT it is read from standard input, without its last line end.
  --repack  where the table lacks a character, or there is no room: choose a new table and pack the text afresh

    $ printf 'pan 7 Oda 5550143\\npan 12 Jory 5550128\\n' | monterculo pack - members.roll
    $ monterculo set members.roll 2 'pan 12 Jory 0445550196'
    $ monterculo text members.roll
    pan 7 Oda 5550143
    pan 12 Jory 0445550196
";

const INSERT: &str = "\
monterculo insert ROLL LINE TEXT [--repack]

Puts TEXT in as a new line, which then has the number LINE; one more than the roll has lines puts it at the end. With -
as TEXT it is read from standard input, without its last line end.
  --repack  where the table lacks a character, or there is no room: choose a new table and pack the text afresh

    $ printf 'pan 7 Oda 5550143\\npan 12 Jory 5550128\\n' | monterculo pack - members.roll
    $ monterculo insert members.roll 3 'pan 40 Rona 5550110'
    monterculo: members.roll: refusal 3: the character 'R' at place 7 is not in the table (value 7); --repack chooses a new table
    $ monterculo insert members.roll 3 'pan 40 Rona 5550110' --repack
    $ monterculo show members.roll 2..3
    pan 12 Jory 5550128
    pan 40 Rona 5550110
";

const REMOVE: &str = "\
monterculo remove ROLL LINE[..LINE] [--repack]

Takes a line out, or the lines from the first to the last one named.
  --repack  as for set; it is never needed here, since what is left always fits

    $ printf 'pan 7 Oda 5550143\\npan 12 Jory 5550128\\n' | monterculo pack - members.roll
    $ monterculo remove members.roll 1
    $ monterculo text members.roll
    pan 12 Jory 5550128
";

const REPLACE: &str = "\
monterculo replace ROLL START..END TEXT [--repack]

Puts TEXT in the place of the characters from START up to, and not including, END; find --at says where they stand. With
- as TEXT it is read from standard input, as it is.
  --repack  where the table lacks a character, or there is no room: choose a new table and pack the text afresh

    $ printf 'pan 7 Oda 5550143\\npan 12 Jory 5550128\\n' | monterculo pack - members.roll
    $ monterculo find members.roll 5550128 --at
    30
    $ monterculo replace members.roll 30..37 5550186
    $ monterculo show members.roll 2
    pan 12 Jory 5550186
";

const RECEIVE: &str = "\
monterculo receive PATTERN [ROLL] [--force]

Reads frames from standard input, line by line as they come, and writes the number of each character where the pattern
begins as soon as its last symbol is there. At the end it says whether the roll is sound; if it is, it is kept in ROLL.
  --force  write over a ROLL that is there already

    $ printf 'pan 7 Oda 5550143\\npan 12 Jory 5550128\\n' | monterculo pack - sent.roll
    $ monterculo receive 'pan 12 ' received.roll <sent.roll
    18
    sound, kept in received.roll
";
