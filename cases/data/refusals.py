"""What the program writes of an error that ends a command."""
from data.help import HELP


def refused(line, where=b""):
    """Returns both outputs and the status, by what follows `refused` on the line, and by what is known of the error's place."""
    return {"stdout": b"refused " + line + b"\n", "stderr": HELP[int(line.split()[0])] + where, "status": 1}



# Why a file couldn't be read or written, after the text of 71 and 72.
MISSING = b"The system says: there is no file at this path, or a link there leads to none.\n"
FOLDER = b"The system says: it is a folder.\n"
READ_FOLDER = b"The system says: it is a folder. `find FOLDER -type f -print0 | pef inspect --files0` inspects the files in a folder.\n"
FORBIDDEN = b"The system says: it may not be read or written by this user.\n"
FULL = b"The system says: no room is left on the disk.\n"
ENDLESS = b"It is a device or a pipe, and has no end or more than 536,870,912 bytes.\n"


def at_byte(words, offset):
    """Returns the sentence on a field of a container, by the words for it and its offset in the file."""
    return b"It is %s, at byte 0x%X of the file.\n" % (words, offset)


def at_halfword(halfword, section, offset, word=None):
    """Returns the sentence on an instruction of the first relocation header, which is for a section, and the one on the word."""
    words = b"at halfword %d of the program of relocation header 0, both counted from 0, which is for section %d" % (halfword, section)
    return at_byte(words, offset) + (b"" if word is None else b"The word is at offset 0x%X of the section.\n" % word)


def at_version(linked, oldest, found, served, library, offset):
    """Returns the sentences on the version that a fragment was linked with and the oldest that it takes of a library, by the library's
    number and the offset of the latter; and on the version of the library that was found and the oldest that this serves."""
    return (
        b"The fragment was linked with version %d of the library, and takes version %d or newer. The library has version %d, and serves "
        b"fragments that were linked with version %d or newer.\n" % (linked, oldest, found, served)
    ) + at_byte(b"the oldest version that is taken of library %d, counted from 0" % library, offset)
