"""The numbers in the tables of docs/: where each field lies and how long the whole is, from the sizes of its fields."""
import re


def summed(parts):
    return ' + '.join(str(p) for p in parts if p)


def rows(at, fields):
    """(offset, size) of each field, and the length of the whole. A size that is no number is its words, and those of what it adds to the length."""
    found, fixed, more = [], at, []
    for width in fields:
        found.append((summed([fixed] + more) or '0', width if isinstance(width, int) else width[0]))
        if isinstance(width, int):
            fixed += width
        else:
            more.append(width[1])
    return found, summed([fixed] + more)


def with_places(section, at, fields):
    """The section with the first two cells of each row of its first table, and its length."""
    left, length = rows(at, fields)
    text = re.sub(r'^\| [^|]*\d[^|]* \| [^|]* \|', lambda m: '| %s | %s |' % left.pop(0) if left else m.group(0), section, flags=re.M)
    if left:
        raise SystemExit('docs: rows are missing in ' + section.split('\n')[0])
    return re.sub(r'^Length: .*\.$', 'Length: %s.' % length, text, flags=re.M)


def sections(text):
    """(title, text) of each part of a page, its heading's number left out."""
    return [(re.sub(r'^## (?:\d )?', '', part.split('\n')[0]), part) for part in re.split(r'(?=^## )', text, flags=re.M)]
